"""What the tools have in common as commands: `--help`, and one line in place of a traceback."""

import functools
import os
import sys

sys.dont_write_bytecode = True
# The status where the words are none of a tool's, or a file is missing or of another form.
WRONG = 2


class Wrong(Exception):
    """That a tool can't do what it is asked, with the one line that says why."""


class Usage(Exception):
    """That the words are none of the tool's."""


def command(doc):
    """Of the main of a tool: `--help` prints this text; wrong words do on standard error, and what else goes wrong is one line there."""

    def made(main):
        @functools.wraps(main)
        def called(words):
            if words[:1] in (["--help"], ["-h"]):
                print(doc.strip())
                return 0
            try:
                status = main(words)
                sys.stdout.flush()
                return status or 0
            except Usage:
                print(doc.strip(), file=sys.stderr)
            except Wrong as why:
                print(why, file=sys.stderr)
            except BrokenPipeError:
                # (whoever read the output has ended, as `head` does; nothing more is written, also at exit)
                os.dup2(os.open(os.devnull, os.O_WRONLY), sys.stdout.fileno())
            except OSError as error:
                print("%s: %s" % (error.filename or "the input or the output", error.strerror or error), file=sys.stderr)
            except KeyboardInterrupt:
                return 130
            return WRONG

        return called

    return made


def read_bytes(path):
    """The bytes of a file, or those of standard input where it is named `-`."""
    if path == "-":
        return sys.stdin.buffer.read() if hasattr(sys.stdin, "buffer") else sys.stdin.read().encode()
    with open(path, "rb") as file:
        return file.read()


def read_text(path):
    """The text of a file that is UTF-8, likewise."""
    try:
        return read_bytes(path).decode()
    except UnicodeDecodeError as error:
        raise Wrong("%s: byte %d is not UTF-8" % (path, error.start)) from None
