"""What tools/check tries."""

import os
import subprocess

TOP = os.path.dirname(os.path.dirname(os.path.dirname(os.path.realpath(__file__))))
EXAMPLES = os.path.join(TOP, "examples")


class NotTried(Exception):
    """That the machine lacks what a check needs."""


def want(holds, why):
    """Fails the check, and says why, where this doesn't hold."""
    if not holds:
        raise AssertionError(why)


def read(name):
    with open(os.path.join(TOP, name), "rb") as file:
        return file.read()


def examples(ending=".json"):
    """The names of the examples, without the ending."""
    return sorted(it[: -len(ending)] for it in os.listdir(EXAMPLES) if it.endswith(ending))


def run(command, given=b"", seconds=300, **how):
    """The status of a command that gets these bytes, and what it wrote."""
    if "stdin" not in how:
        how["input"] = given
    how = {"stdout": subprocess.PIPE, "stderr": subprocess.PIPE, **how}
    ran = subprocess.run(command, timeout=seconds, **how)
    return ran.returncode, ran.stdout, ran.stderr
