"""What a script compares, counted, and files as bytes."""
import sys

MOST = 2000  # characters that are shown of what is no text
count = 0


def shown(value):
    return value if isinstance(value, str) else f"{value!r:.{MOST}}"


def same(what, found, wanted):
    """Counts one more thing compared. Ends the script where they differ."""
    global count
    count += 1
    if found != wanted:
        sys.exit(f"{what}:\n  found  {shown(found)}\n  wanted {shown(wanted)}")


def content(path):
    with open(path, "rb") as it:
        return it.read()


def put(path, image):
    with open(path, "wb") as it:
        it.write(image)
    return path
