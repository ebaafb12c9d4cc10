"""The programs that the scripts of this folder time."""
import os
import re
import shutil
import subprocess
import sys
import tempfile
import time

HERE = os.path.dirname(os.path.abspath(__file__))
TOP = os.path.dirname(HERE)


def made(name, words):
    """The path of a program: the script's first word, or else the proved program, made where needed."""
    if len(sys.argv) > 1:
        return os.path.abspath(sys.argv[1])
    crate = os.path.join(TOP, "crates", name)
    path = os.path.join(crate, "out", name)
    # This proves and links it, or only runs it where nothing changed; what it says goes to standard error.
    done = subprocess.run(["rt", "run", "--"] + words, cwd=crate, stdout=subprocess.DEVNULL)
    if done.returncode != 0 or not os.path.exists(path):
        sys.exit(f"{name} isn't proved here: see `rt check` in crates/{name}")
    return path


def program():
    """The path of psyc."""
    return made("psyc", ["run", os.path.join(TOP, "examples", "counter.psy"), "20"])


def companion():
    """The path of psyview."""
    return made("psyview", ["timeline", os.path.join(TOP, "examples", "counter.expected")])


def measured(words, status, times=5):
    """The least processor time of a process with these words, in seconds, and its greatest memory, in kilobytes.

    The system counts as a process's memory no less than what this script had when it started it."""
    least, most = None, 0
    for _ in range(times):
        running = subprocess.Popen(words, stdout=subprocess.DEVNULL)
        _, ended, used = os.wait4(running.pid, 0)
        running.returncode = os.WEXITSTATUS(ended) if os.WIFEXITED(ended) else -1
        if running.returncode != status:
            sys.exit(f"status {running.returncode} in place of {status}: {' '.join(words)}")
        took = used.ru_utime + used.ru_stime
        least = took if least is None else min(least, took)
        most = max(most, used.ru_maxrss)
    return least, most


def seconds(words, status, times=5):
    """The least processor time of a process with these words, in seconds."""
    return measured(words, status, times)[0]


def megabytes(kilobytes):
    return f"{kilobytes / 1024:.1f} MB"


def first_byte(words, times=5):
    """The least time by the clock up to the first byte of a process with these words, in seconds."""
    least = None
    for _ in range(times):
        start = time.perf_counter()
        running = subprocess.Popen(words, stdout=subprocess.PIPE)
        running.stdout.read(1)
        took = time.perf_counter() - start
        running.communicate()
        least = took if least is None else min(least, took)
    return least


def executed(words, inside=None, status=0):
    """How many instructions the processor executes for a process with these words, or of them inside of a function and what it calls: 0 where it
    isn't called, or the program has no symbols."""
    with tempfile.TemporaryDirectory() as folder:
        asked = [f"--toggle-collect={inside}"] if inside else []
        done = subprocess.run(["valgrind", "--tool=callgrind", f"--callgrind-out-file={folder}/out", *asked, *words],
                              stdout=subprocess.DEVNULL, stderr=subprocess.PIPE, text=True)
    found = re.search(r"Collected : (\d+)", done.stderr)
    if done.returncode != status or not found:
        sys.exit(f"{' '.join(words)}: status {done.returncode}\n{done.stderr}")
    return int(found.group(1))


def work(words, status=0):
    """What a process with these words costs: instructions of the processor where there is valgrind, else nanoseconds of it."""
    return executed(words, status=status) if shutil.which("valgrind") else seconds(words, status) * 1e9


UNIT = "instructions" if shutil.which("valgrind") else "nanoseconds"
