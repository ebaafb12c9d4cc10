"""Puts spoilt files before psyc, beside what the model says of them, on all processors."""
import multiprocessing
import os
import shutil
import subprocess
import tempfile

SECONDS = 120  # for one answer


def answer(words):
    """The status of a process, negative where a signal ended it, and its lines; None and no lines where it took too long."""
    try:
        done = subprocess.run(words, stdout=subprocess.PIPE, stderr=subprocess.DEVNULL, timeout=SECONDS)
    except subprocess.TimeoutExpired:
        return None, []
    return done.returncode, done.stdout.decode("utf-8", "replace").splitlines()


def tell(wrongs, tried, kept):
    """Prints what differs, with the files kept; the status of the whole."""
    found = 0
    for told, wrong, data in wrongs:
        tried[told] = tried.get(told, 0) + 1
        if wrong:
            found += 1
            path = os.path.join(kept, f"{found}")
            with open(path, "wb") as file:
                file.write(data)
            print(f"DIFFERS {told}: {wrong}; kept as {path}", flush=True)
    for told, count in tried.items():
        print(f"{told}: {count}")
    print(f"{sum(tried.values())} tried, {found} differ")
    if not found:
        shutil.rmtree(kept)
    return 1 if found or not tried else 0


def try_all(judge, cases):
    """Judges cases of what is told of one and its bytes: `judge` says what is wrong, None where nothing is."""
    with multiprocessing.Pool() as pool:
        return tell(pool.imap(judge, cases, chunksize=50), {}, tempfile.mkdtemp())
