#!/usr/bin/env python3
"""Runs that are killed: at each call of the system that a command makes, and at times by chance.

    kills.py [--every N] [--times N] [--jobs N]     (each call, and 100 times of each command that stores)

Prints what was otherwise than docs/measuring.md says, and how many kills there were; the status is 1 where something
was. Calls are met by strace; without it only times by chance are tried. AQFP names the program.
"""
import argparse
import collections
import random
import re
import shutil
import signal
import subprocess
import sys
import time

sys.dont_write_bytecode = True
from room import COMMANDS, Ended, Rooms, files_of, have, in_turn, injected, name, own_calls, program

DRAFT = re.compile(r"\.aqfp-\d+\.part")
Kill = collections.namedtuple("Kill", "command is_there said before after")


def kills_at_calls(rooms):
    """One for each call of each command; the call is not made."""
    for command in COMMANDS:
        for is_there in (True, False) if command.stores else ():
            room = room_of(rooms, command, is_there)
            for call, number, _ in own_calls(command.words, room):
                yield Kill(command, is_there, f"killed at {call} {number}", injected(call, "signal=KILL", number), None)


def kills_by_chance(rooms, times):
    """Some for each command, by one of two signals, at a time within that of a whole run."""
    draw = random.Random(1)
    for command in COMMANDS:
        if not command.stores:
            continue
        began = time.monotonic()
        rooms.run(command)
        took = time.monotonic() - began
        for count in range(times):
            after = draw.random() * took
            yield Kill(command, count % 2 == 0, f"killed after {after:.4f} seconds", (), after)


def room_of(rooms, command, is_there):
    room = rooms.new_room()
    for file, held in rooms.files_for(command, is_there).items():
        (room / file).write_bytes(held)
    return room


def run_killed(rooms, room, kill):
    """How the run ended: by the signal, or by itself where that came too late."""
    if kill.after is None:
        return rooms.run_in(room, kill.command, kill.before)
    running = subprocess.Popen([program, *kill.command.words.split()], cwd=room, stdout=subprocess.PIPE,
                               stderr=subprocess.PIPE)
    time.sleep(kill.after)
    running.send_signal(signal.SIGKILL if kill.is_there else signal.SIGTERM)
    out, err = running.communicate()
    return Ended(running.returncode, out, err, files_of(room))


def try_kill(rooms, kill):
    """The kill, whether it came in time, whether a draft was left, and what was otherwise."""
    room = room_of(rooms, kill.command, kill.is_there)
    ended = run_killed(rooms, room, kill)
    came = ended.status in (-signal.SIGKILL, -signal.SIGTERM)
    drafts = {file: held for file, held in ended.files.items() if DRAFT.fullmatch(file)}
    left = Ended(1 if came else ended.status, ended.out, ended.err,
                 {file: held for file, held in ended.files.items() if file not in drafts})
    wrong = rooms.wrong_files(kill.command, kill.is_there, left)
    if len(drafts) > came:
        wrong = wrong or f"drafts were left: {' '.join(drafts)}"
    again = rooms.run_in(room, kill.command)
    kept = {file: again.files.pop(file, None) for file in drafts}
    wrong = (wrong or (kept != drafts and "the next run didn't leave the draft alone")
             or rooms.what_is_wrong(kill.command, True, again) or (again.status and f"then status {again.status}"))
    shutil.rmtree(room)
    return kill, came, bool(drafts), wrong


def main():
    words = argparse.ArgumentParser()
    words.add_argument("--every", type=int, default=1)
    words.add_argument("--times", type=int, default=100)
    words.add_argument("--jobs", type=int, default=3)
    words = words.parse_args()
    killed, late, drafts, otherwise = 0, 0, 0, 0
    with Rooms() as rooms:
        kills = list(kills_at_calls(rooms))[::words.every] if have("strace") else []
        kills += kills_by_chance(rooms, words.times)
        for kill, came, is_left, wrong in in_turn(lambda kill: try_kill(rooms, kill), kills, words.jobs):
            killed += came
            late += not came
            drafts += is_left
            if wrong:
                otherwise += 1
                there = ", over a good file" if kill.is_there else ""
                print(f"{name}: {kill.command.words}: {kill.said}{there}: {wrong}")
    print(f"{name}: {killed} kills, of which {drafts} left a draft, and {late} that came too late, {otherwise} "
          "otherwise")
    return 1 if otherwise else 0


sys.exit(main())
