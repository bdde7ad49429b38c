#!/usr/bin/env python3
"""Which chips `aqfp equal` decides: each netlist's chips by `build` and by `compact` against it and against its forms.

  decided.py PROGRAM LIBRARY FOLDER [--seconds N]

FOLDER has netlists and their forms, as designs.py makes them. Prints a line for each comparison that is not `equal`, or
that takes longer than it should, and then how many there were of each; docs/measuring.md says what is wanted. The
status is 1 where an answer is a difference, or a time is above. Needs berkeley-abc, yosys-abc or abc for the times.
"""
import argparse
import pathlib
import re
import resource
import shutil
import subprocess
import sys
import tempfile

words = argparse.ArgumentParser(description=__doc__, formatter_class=argparse.RawDescriptionHelpFormatter)
words.add_argument("program")
words.add_argument("library")
words.add_argument("folder")
words.add_argument("--seconds", type=int, default=300)
words = words.parse_args()
program, library, folder = (pathlib.Path(word).resolve() for word in (words.program, words.library, words.folder))
abc = next((tool for tool in ("berkeley-abc", "yosys-abc", "abc") if shutil.which(tool)), None)
counts = dict.fromkeys(("chips", "equal", "undecided", "other", "above"), 0)


def run(*command):
    """What a command prints, and the seconds of processor time that it takes."""
    before = resource.getrusage(resource.RUSAGE_CHILDREN)
    try:
        ended = subprocess.run([str(word) for word in command], capture_output=True, text=True, timeout=words.seconds)
        text = ended.stdout + ended.stderr
    except subprocess.TimeoutExpired:
        text = f"cut off after {words.seconds} seconds"
    after = resource.getrusage(resource.RUSAGE_CHILDREN)
    return text.strip(), after.ru_utime + after.ru_stime - before.ru_utime - before.ru_stime


def compare(what, chip, net, verify, cec):
    text, seconds = run(program, "equal", chip, library, net)
    most = verify + 2 * cec + 0.1
    if seconds > most and text == "equal":
        seconds = min(seconds, run(program, "equal", chip, library, net)[1])
    kind = "equal" if text == "equal" else "undecided" if "functions" in text or "cut off" in text else "other"
    counts[kind] += 1
    above = abc is not None and kind == "equal" and seconds > most
    counts["above"] += above
    if kind != "equal" or above:
        print(f"{what}: {text}: {seconds:.2f} s, verify {verify:.2f} s, cec {cec:.2f} s{': above' if above else ''}",
              flush=True)


def try_netlist(work, net, forms):
    cec = {form: run(abc, "-q", f"cec -n {net} {form}")[1] if abc else 0 for form in forms}
    for command in ("build", "compact"):
        chip = work / "chip.gds"
        chip.unlink(missing_ok=True)
        run(program, command, net, library, chip)
        if not chip.exists():
            continue
        counts["chips"] += 1
        _, verify = run(program, "verify", chip, library, work / "none")
        for form in forms:
            compare(f"{command} {net.stem}, {form.stem}", chip, form, verify, cec[form])


with tempfile.TemporaryDirectory() as work:
    work = pathlib.Path(work)
    (work / "none").touch()
    modules = {}
    for net in sorted(folder.glob("*.blif")):
        modules.setdefault(re.sub(r"_(lut\d|choices|dc2)$", "", net.stem), []).append(net)
    for forms in modules.values():
        for net in forms:
            try_netlist(work, net, forms)
print(", ".join(f"{count} {kind}" for kind, count in counts.items()))
sys.exit(counts["other"] > 0 or counts["above"] > 0)
