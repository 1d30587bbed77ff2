"""Runs the built program of traces, and reads the files of examples: what `check` and `crashes` share."""

import pathlib
import subprocess
import sys

HERE = pathlib.Path(__file__).resolve().parent
PROGRAM = HERE.parent / "crates/lazylog_trace/out/lazylog_trace"

# What begins a line of an example that the program prints, and the line behind the script.
MARK = "  "
END = "--"


def run(words, script):
    """The lines that the program prints, and its status."""
    if not PROGRAM.exists():
        sys.exit("the program of traces isn't built")
    done = subprocess.run([PROGRAM, *words], input=script, capture_output=True, timeout=60)
    return done.stdout.decode().split("\n")[:-1], done.returncode


def read(text):
    """The words and the script of an example."""
    first, *rest = text.split("\n")
    if END in rest:
        rest = rest[: rest.index(END)]
    elif rest and rest[-1] == "":
        rest.pop()
    return first.split(" "), [line for line in rest if not line.startswith(MARK)]


def bytes_of(script):
    return "".join(line + "\n" for line in script).encode()
