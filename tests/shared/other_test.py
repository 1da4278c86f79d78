"""The names of another test."""
import os
import re

TESTS = os.path.dirname(os.path.dirname(os.path.abspath(__file__)))


def of_test(name):
    """The names of a test of failures, which isn't run."""
    path = os.path.join(TESTS, "failures", f"{name}.py")
    found = {"__name__": name, "__file__": path}
    with open(path, encoding="utf-8") as file:
        exec(re.sub(r"\nmain\(\)\n$", "\n", file.read()), found)
    return found
