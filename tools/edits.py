"""The must-fail edits of a crate as its folder must-fail/ has them: files NAME.edit, which the gate tries, and those in tried.md, which tools/try-edits tries."""


def told(text):
    """The edits of a tried.md: the name of each, which stands behind `## `, and its lines with their numbers, which stand four columns in."""
    found = []
    for number, line in enumerate(text.split('\n'), 1):
        if line.startswith('## '):
            found.append((line[3:].strip(), []))
        elif found and line.startswith('    '):
            found[-1][1].append((number, line[4:]))
    return found
