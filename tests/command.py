"""The words of the scripts here."""

import argparse
import shutil


def program(word):
    found = shutil.which(word)
    if found is None:
        raise argparse.ArgumentTypeError(f"{word} is no program; the gate builds crates/torture/out/torture")
    return found


def arguments(text, has_count=False, programs=("torture",)):
    """What the script was given, by what it says of itself: its programs, and COUNT where it has one."""
    parser = argparse.ArgumentParser(description=text, formatter_class=argparse.RawDescriptionHelpFormatter)
    for name in programs:
        metavar = "PROGRAM" if len(programs) == 1 else name.upper()
        parser.add_argument(name, metavar=metavar, type=program, help=f"a built program, as crates/{name}/out/{name}")
    if has_count:
        parser.add_argument("count", metavar="COUNT", type=int, help="how many to draw; the gate draws 200")
    return vars(parser.parse_args()).values()
