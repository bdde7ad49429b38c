"""Runs of each command in which allocations are refused. It is called by bench/fail_alloc.sh, which says what is tried,
with the library that refuses them."""
import argparse
import collections
import os
import random
import re
import sys

sys.dont_write_bytecode = True
from room import COMMANDS, LIBRARY_FAULTS, NET_FAULTS, Rooms, STREAM_FAULTS, command, in_turn, program, top

SAID = b"aqfp: out of memory\n"
LIMITS = top / "docs/limits.md"
HEAD = "| Command | Allocations | Status 14 | Full answer |\n|---|---|---|---|\n"
LARGER = 200  # allocations that are refused of each command over a larger chip
MANY = 1000  # of more allocations about as many are refused with all that come after them
LAST = 12  # the last allocations, while OUT is open and after it, are refused however few others are
NOT = b".inputs a\n.outputs y\n.names a y\n0 1\n"
ONE = b".inputs a b\n.outputs y\n.names a b y\n10 1\n01 1\n"
TWO = b".inputs a b\n.outputs y\n.names a b o\n1- 1\n-1 1\n.names a b n\n11 0\n.names o n y\n11 1\n"

Row = collections.namedtuple("Row", "said command is_there")
Outcome = collections.namedtuple("Outcome", "number and_on status wrong")


def small_rows():
    """The commands of the table, each with what it is called there."""
    build, compact, draw, netlist, verify, trace, equal, report, shapes, sample = COMMANDS
    comparing = (STREAM_FAULTS, LIBRARY_FAULTS, NET_FAULTS, {17})
    return [Row("`build`, over a chip", build, True), Row("`build`, where OUT is not there", build, False),
            Row("`compact`", compact, False), Row("`draw`, of what `netlist` writes of the chip", draw, False),
            Row("`verify`", verify, True), Row("`trace`", trace, True), Row("`equal`", equal, True),
            Row("`equal`, of an exclusive or with another form of it",
                command("equal one.gds a.toml two.blif", *comparing), True),
            Row("`equal`, of two that differ", command("equal chip.gds a.toml not.blif", *comparing), True),
            Row("`report`", report, True), Row("`shapes`", shapes, True), Row("`netlist`", netlist, False),
            Row("`sample 1`", sample, True)]


def make_small_rooms():
    rooms = Rooms("wire", "and2")
    rooms.given.update({"not.blif": NOT, "one.blif": ONE, "two.blif": TWO})
    made = rooms.run(command("build one.blif a.toml out", NET_FAULTS), is_there=False)
    rooms.given["one.gds"] = made.files["out"]
    return rooms


class Refusing:
    """Runs over some files, in which allocations are refused."""

    def __init__(self, rooms, preload, words):
        self.rooms, self.preload, self.jobs, self.is_brief = rooms, preload, words.jobs, words.every > 1

    def run(self, row, number, and_on):
        """How a run ended, and how many allocations it asked for."""
        room = self.rooms.new_room()
        counted = room.with_suffix(".count")
        environment = {"LD_PRELOAD": self.preload, "REFUSED": str(number), "REFUSED_COUNT": str(counted)}
        if and_on:
            environment["REFUSED_ON"] = "1"
        for file, held in self.rooms.files_for(row.command, row.is_there).items():
            (room / file).write_bytes(held)
        ended = self.rooms.run_in(room, row.command, environment=environment)
        for file in room.iterdir():
            file.unlink()
        room.rmdir()
        count = int(counted.read_text()) if counted.exists() else 0
        counted.unlink(missing_ok=True)
        return ended, count

    def count(self, row):
        """How many allocations the command asks for where none is refused."""
        return self.run(row, 0, False)[1]

    def judge(self, row, number, and_on):
        ended, _ = self.run(row, number, and_on)
        wrong = self.rooms.what_is_wrong(row.command, row.is_there, ended)
        if not wrong and ended.status:
            if (ended.status, ended.err) != (14, SAID):
                wrong = f"status {ended.status}, {ended.err!r}"
            elif ended.files != self.rooms.files_for(row.command, row.is_there):
                wrong = "status 14, and OUT is not as it was"
        return Outcome(number, and_on, ended.status, wrong)

    def tell(self, row, numbers):
        """Refuses the allocations of these numbers, each alone and each with all that follow; tells what came out."""
        self.rooms.whole(row.command)
        trials = [(number, False) for number in numbers]
        trials += [(number, True) for number in numbers[::1 + len(numbers) // MANY]]
        outcomes = list(in_turn(lambda it: self.judge(row, *it), trials, self.jobs))
        for outcome in outcomes:
            if outcome.wrong:
                print(f"{row.command.words}: allocation {outcome.number}{'+' * outcome.and_on}: {outcome.wrong}")
        if self.is_brief:
            return outcomes
        ended = collections.Counter((it.and_on, it.status) for it in outcomes)
        there = ", over a good file" if row.command.stores and row.is_there else ""
        print(f"{row.command.words}{there}: {len(numbers)} allocations refused: {ended[False, 14]} runs ended with "
              f"status 14, {ended[False, 0]} with the full answer; with all after it {ended[True, 14]} and "
              f"{ended[True, 0]}", flush=True)
        return outcomes


def table_row(said, count, outcomes):
    once = collections.Counter(it.status for it in outcomes if not it.and_on)
    return f"| {said} | {count:,} | {once[14]:,} | {once[0]:,} |\n"


def put_table(rows):
    """Puts the table into the page."""
    page = LIMITS.read_text()
    begin = page.index(HEAD) + len(HEAD)
    end = begin + re.match(r"(\|.*\n)*", page[begin:]).end()
    LIMITS.write_text(page[:begin] + "".join(rows) + page[end:])


def is_told(said, count):
    """Whether the page's table says how many allocations there are."""
    if f"| {said} | {count:,} |" in LIMITS.read_text():
        return True
    print(f"fail_alloc: docs/limits.md does not say that {said} has {count:,} allocations: --write makes its table")
    return False


def main():
    words = argparse.ArgumentParser()
    words.add_argument("preload")
    words.add_argument("--every", type=int, default=1)
    words.add_argument("--write", action="store_true")
    words.add_argument("--jobs", type=int, default=3)
    words = words.parse_args()
    runs, stale, outcomes, rows = 0, 0, [], []
    with make_small_rooms() as rooms:
        refusing = Refusing(rooms, words.preload, words)
        for row in small_rows():
            count = refusing.count(row)
            chosen = set(range(1, count + 1, words.every)) | set(range(max(1, count - LAST), count + 1))
            outcomes += (told := refusing.tell(row, sorted(chosen)))
            rows.append(table_row(row.said, count, told))
            stale += words.every > 1 and not is_told(row.said, count)
    draw = random.Random(1)
    with Rooms("adder4", "wire") as rooms:
        refusing = Refusing(rooms, words.preload, words)
        for row in [Row("", it, True) for it in COMMANDS if it.verb != "sample"]:
            count = refusing.count(row)
            chosen = draw.sample(range(1, count + 1), min(count, max(5, LARGER // words.every)))
            outcomes += refusing.tell(row, sorted(chosen))
    if words.write and words.every == 1:
        put_table(rows)
    otherwise = sum(bool(it.wrong) for it in outcomes)
    ended = collections.Counter(it.status for it in outcomes)
    print(f"fail_alloc: {len(outcomes)} runs with refused allocations: {ended[14]} ended with status 14, {ended[0]} "
          f"with the full answer, {otherwise} otherwise")
    return 1 if otherwise or stale or not ended[14] else 0


sys.exit(main())
