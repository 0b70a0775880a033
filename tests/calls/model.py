#!/usr/bin/env python3
"""A second model of scripts of calls: `model.py < script` answers as `torture call` does. It shares nothing with it.

It is taken from the documents and contracts alone. docs/CALLS.md has the numbers and orders that contracts leave open.
"""

import sys

sys.dont_write_bytecode = True
from grammar import BadText, call_of, header_of, is_supported, lines_of
from script import Script


def begun(text):
    """A script, its calls, and the fault at which its text ends, if any."""
    first, *rest = lines_of(text)
    try:
        flavour, sizes, has_maps = header_of(first)
    except BadText as bad:
        return None, [], f"line 1 column {bad.column}: bad text\n"
    if not is_supported(sizes):
        return None, [], "line 1: bad config\n"
    calls = []
    for number, line in enumerate(rest, 2):
        try:
            calls.append(call_of(line))
        except BadText as bad:
            return Script(flavour, sizes, has_maps), calls, f"line {number} column {bad.column}: bad text\n"
    return Script(flavour, sizes, has_maps), calls, ""


def answered(text):
    """What a script prints and tells, and its status."""
    script, calls, told = begun(text)
    printed = "".join(script.answer(call) + "\n" for call in calls)
    return printed, told, 2 if told else 0


if __name__ == "__main__":
    printed, told, status = answered(sys.stdin.buffer.read())
    sys.stdout.write(printed)
    sys.stderr.write(told)
    sys.exit(status)
