"""What a program answers to scripts of calls, beside what it has to answer: rows, and scripts that are drawn."""

import pathlib
import subprocess

from draw import Drawn, changed
from model import answered

ROWS = pathlib.Path(__file__).resolve().parent / "rows"
SECONDS = 20


def row_of(path):
    """The text of a row, and what it prints, tells and ends with. A last answer that names a line is a fault."""
    header, *lines = path.read_text().splitlines()
    if " | " in header:
        header, fault = header.split(" | ")
        return f"{header}\n".encode(), ("", fault + "\n", 2)
    pairs = [line.rsplit(" | ", 1) for line in lines]
    answers = [answer for _, answer in pairs]
    text = "".join(f"{line}\n" for line in [header, *(call for call, _ in pairs)]).encode()
    told = answers.pop() + "\n" if answers and answers[-1].startswith("line ") else ""
    return text, ("".join(f"{it}\n" for it in answers), told, 2 if told else 0)


def made(command, text, seconds=SECONDS):
    """What a program prints, tells and ends with."""
    try:
        ended = subprocess.run([command, "call"], input=text, capture_output=True, timeout=seconds)
    except subprocess.TimeoutExpired:
        return "", "it does not end", None
    return ended.stdout.decode(errors="replace"), ended.stderr.decode(errors="replace"), ended.returncode


def difference(text, got, wanted):
    """The first line that is answered otherwise, or how it ends; none where all is the same."""
    if got == wanted:
        return None
    lines = text.decode(errors="replace").splitlines()
    for at, (ours, other) in enumerate(zip(got[0].splitlines(), wanted[0].splitlines()), 1):
        if ours != other:
            return f"line {at + 1}, {lines[at]!r}: {ours!r}, and not {other!r}"
    counts = [len(it[0].splitlines()) for it in (got, wanted)]
    return f"{counts[0]} answers and {got[1:]}, and not {counts[1]} and {wanted[1:]}"


def row_differences(command, path):
    text, wanted = row_of(path)
    for who, got in [("the model", answered(text)), ("the program", made(command, text))]:
        found = difference(text, got, wanted)
        if found is not None:
            yield f"{who}: {found}"


def script_differences(command, text):
    """Of a script, and of the text that small changes make of it."""
    for it in [text, changed(text, text)]:
        it = it.encode()
        found = difference(it, made(command, it), answered(it))
        if found is not None:
            yield f"{found}\n{it.decode()}"


def watched_differences(command, text, watch):
    """Of a text with what looks after each line, which changes no answer of the text's own lines."""
    if watch.of_own() != answered(text)[0].splitlines():
        yield "the model: its answers are others where it is looked after each line"
    got = made(command, watch.text())
    found = difference(watch.text(), got, (watch.printed(), "", 0))
    if found is not None:
        yield f"{watch.before(got[0])} or a look after it: {found}\n{text.decode()}"


def scripts(count, seed):
    """What is drawn: its name, its text, whether its requests for memory are to be refused, and whether it is watched.

    Each seventh is watched: so are both flavours, with maps and without."""
    for index in range(count):
        flavour, has_maps, is_refused = ("memb", "qsbr")[index % 2], index % 3 == 2, index % 20 in (4, 15)
        name = f"script {index} of seed {seed}"
        yield name, Drawn(name, flavour, has_maps, short=is_refused).text(), is_refused, index % 7 == 0
