"""What the scripts of this folder that run `aqfp` share: where the program is, and what it answers."""
import os
import pathlib
import shutil
import subprocess

from aqfp_files import Stop

HERE = pathlib.Path(__file__).resolve().parent


def program():
    """The program: the one that AQFP names, or the one beside this folder, or the one that is found as a command."""
    name = os.environ.get("AQFP")
    if name:
        if shutil.which(name) is None:
            raise Stop(f"AQFP={name}: no program")
        return name
    for each in (HERE.parent / "aqfp", HERE.parent.parent / "bin/aqfp"):
        if each.is_file() and os.access(each, os.X_OK):
            return str(each)
    found = shutil.which("aqfp")
    if found is None:
        raise Stop("aqfp is not found: let AQFP name it")
    return found


def answer(*words):
    """A run of the program: its status, what it printed, and its line on standard error."""
    ended = subprocess.run([program(), *map(os.fspath, words)], stdin=subprocess.DEVNULL, capture_output=True)
    if ended.returncode < 0:
        raise Stop(f"aqfp was ended by signal {-ended.returncode}")
    return ended.returncode, decoded(ended.stdout), decoded(ended.stderr).rstrip("\n")


def decoded(data):
    """Bytes as a text; those that are no UTF-8 are kept."""
    return data.decode("utf-8", "surrogateescape")
