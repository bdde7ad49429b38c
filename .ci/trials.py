"""What the trials of scripts share: runs of the program and of scripts, and one line for each trial that fails.

AQFP names the program. A tool that is missing is named, and what needs it is left out."""
import os
import pathlib
import shutil
import subprocess
import sys

top = pathlib.Path(__file__).resolve().parent.parent
program = pathlib.Path(os.environ.get("AQFP", top / "crates/aqfp_cli/out/aqfp_cli")).resolve()
share, examples, library = top / "share", top / "examples", top / "libraries/a.toml"
name = pathlib.Path(sys.argv[0]).name
counts = {"tried": 0, "failed": 0}


def run(*words, given="", cwd=None):
    """A run's status, output and errors."""
    environment = {**os.environ, "QT_QPA_PLATFORM": "offscreen"}
    words = [str(word) for word in words]
    ended = subprocess.run(words, input=given, capture_output=True, text=True, cwd=cwd, env=environment)
    return ended.returncode, ended.stdout, ended.stderr


def aqfp(*words):
    """What the program prints, and what it says on standard error."""
    _, out, errors = run(program, *words)
    return out + errors


def script(script_name, *words, given=""):
    return run(sys.executable, share / f"{script_name}.py", *words, given=given)


def expect(what, holds):
    """Counts a trial, and tells where it fails."""
    counts["tried"] += 1
    if not holds:
        counts["failed"] += 1
        print(f"{name}: {what}: OTHERWISE")


def expect_refusal(what, ended, says):
    """A script that is used wrongly ends with one line that says what is missing."""
    status, _, errors = ended
    lines = errors.splitlines()
    expect(what, status in (1, 2) and len(lines) == 1 and says in lines[0])


def have(tool):
    if shutil.which(tool):
        return True
    print(f"{name}: {tool} is not there: what needs it is left out")
    return False


def end():
    """Prints how many trials there were, and ends."""
    print(f"{name}: {counts['tried']} trials, {counts['failed']} otherwise")
    sys.exit(1 if counts["failed"] else 0)
