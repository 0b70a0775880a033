"""Runs of a program whose requests for memory are refused one at a time, by refuse.c loaded before it."""

import itertools
import os
import pathlib
import shutil
import subprocess

HERE = pathlib.Path(__file__).resolve().parent
KIT = "/opt/rattle/toolchain/bin/"
COMPILERS = [os.environ.get("CC", "cc").split(), ["cc"], [KIT + "clang", f"-fuse-ld={KIT}ld.lld"]]


class Ended:
    """How a run ended: what it printed and told, its status, and whether a request of it was refused."""

    def __init__(self, done, refused):
        self.printed, self.told, self.status, self.refused = done.stdout, done.stderr, done.returncode, refused


def run(shim, command, given, number):
    """Runs a command whose request of this number is refused; with 0 none is."""
    ours, theirs = os.pipe()
    with open(ours, "rb") as heard:
        with open(theirs, "wb"):
            refusing = {"LD_PRELOAD": str(shim), "REFUSE_AT": str(number), "REFUSE_TELL": str(theirs)}
            env = os.environ | refusing
            done = subprocess.run(command, input=given, capture_output=True, env=env, pass_fds=[theirs])
        return Ended(done, heard.read() == b"!")


def each_refused(shim, command, given):
    """The runs of a command with its first request refused, its second one, and so on."""
    for number in itertools.count(1):
        ended = run(shim, command, given, number)
        if not ended.refused:
            return
        yield number, ended


def compiled(folder):
    """The shared object of refuse.c; none where there is no C compiler."""
    shim = pathlib.Path(folder) / "refuse.so"
    compiler = next((it for it in COMPILERS if shutil.which(it[0])), None)
    if compiler is None:
        return None
    flags = ["-shared", "-fPIC", "-O1", "-nostdlib", "-o", str(shim)]
    subprocess.run([*compiler, *flags, str(HERE / "refuse.c")], check=True)
    return shim
