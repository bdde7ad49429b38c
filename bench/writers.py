#!/usr/bin/env python3
"""Runs that store under one name at the same time: pairs, and twenty at once.

    writers.py [--pairs N] [--twenties N]     (400 pairs, 5 times twenty)

Prints what was otherwise than docs/measuring.md says, and how many pairs there were; the status is 1 where something
was. Strace holds up one run of a pair; without it they only begin at almost the same time. AQFP names the program.
"""
import argparse
import itertools
import random
import shutil
import subprocess
import sys
import time

sys.dont_write_bytecode = True
from room import COMMANDS, Command, Rooms, files_of, have, in_turn, name, own_calls, program, size_of, top

HELD_UP = 0.3  # seconds
MAKES = [COMMANDS[0], Command("build other.blif a.toml out", True, COMMANDS[0].statuses), COMMANDS[2], COMMANDS[3]]
FILING = ("openat", "write", "fsync", "fchmod", "rename", "statx", "close")


def start(words, room, before=()):
    return subprocess.Popen([*before, program, *words.split()], cwd=room, stdout=subprocess.PIPE,
                            stderr=subprocess.PIPE)


def holdups(rooms, command):
    """What comes before a run that is held up, for each call that has to do with its file."""
    if not have("strace"):
        return [()]
    room = rooms.new_room()
    for file, held in rooms.files_for(command, True).items():
        (room / file).write_bytes(held)
    calls = own_calls(command.words, room)
    first = next(place for place, (call, _, rest) in enumerate(calls) if call == "openat" and "O_WRONLY" in rest)
    return [["strace", "-qq", "-o", "/dev/null", "-e", f"trace={call}", "-e",
             f"inject={call}:{side}={int(HELD_UP * 1e6)}:when={number}"]
            for call, number, _ in calls[first:] if call in FILING for side in ("delay_enter", "delay_exit")]


def try_runs(rooms, room, runs, starts):
    """What was otherwise, of runs that are started after one another."""
    running = []
    for (command, before), pause in zip(runs, starts):
        time.sleep(pause)
        running.append((command, start(command.words, room, before)))
    wrong = ""
    for command, it in running:
        out, err = it.communicate()
        if (it.returncode, out, err) != (0, rooms.whole(command).out, b""):
            wrong = wrong or f"{command.words}: status {it.returncode}, {out[:80]!r}, {err[:80]!r}"
    files = files_of(room)
    held = files.pop("out", None)
    if held not in [rooms.whole(command).files["out"] for command, _ in runs]:
        wrong = wrong or f"OUT is none of the files: {size_of(held)}"
    if files != rooms.given:
        wrong = wrong or f"beside it: {' '.join(sorted(set(files) ^ set(rooms.given)))}"
    return wrong


def room_with_old(rooms):
    room = rooms.new_room()
    for file, held in {**rooms.given, "out": rooms.old_chip}.items():
        (room / file).write_bytes(held)
    return room


def try_pair(rooms, pair):
    (first, before), second, pause = pair
    room = room_with_old(rooms)
    wrong = try_runs(rooms, room, [(first, before), (second, ())], [0, pause])
    shutil.rmtree(room)
    return wrong and f"{first.words} ({' '.join(before[-1:])}) and {second.words}: {wrong}"


def try_twenty(rooms):
    room = room_with_old(rooms)
    wrong = try_runs(rooms, room, [(MAKES[number % 4], ()) for number in range(20)], [0] * 20)
    shutil.rmtree(room)
    return wrong and f"twenty at once: {wrong}"


def main():
    words = argparse.ArgumentParser()
    words.add_argument("--pairs", type=int, default=400)
    words.add_argument("--twenties", type=int, default=5)
    words = words.parse_args()
    draw = random.Random(1)
    otherwise = 0
    with Rooms() as rooms:
        rooms.given["other.blif"] = (top / "examples/mul4.blif").read_bytes()
        firsts = itertools.cycle([(command, before) for command in MAKES for before in holdups(rooms, command)])
        pairs = [(next(firsts), draw.choice(MAKES), draw.random() * HELD_UP) for _ in range(words.pairs)]
        for command in MAKES:
            rooms.whole(command)
        tried = in_turn(lambda pair: try_pair(rooms, pair), pairs, 4)
        for wrong in itertools.chain(tried, (try_twenty(rooms) for _ in range(words.twenties))):
            if wrong:
                otherwise += 1
                print(f"{name}: {wrong}")
    print(f"{name}: {words.pairs} pairs and {words.twenties} times twenty at once; {otherwise} otherwise")
    return 1 if otherwise else 0


sys.exit(main())
