"""What the trials of breakage share: the ten commands and the files that they read, runs of them in folders of their
own, and what such a run may leave. AQFP names the program."""
import dataclasses
import os
import pathlib
import shutil
import subprocess
import sys
import tempfile
from concurrent.futures import ThreadPoolExecutor

top = pathlib.Path(__file__).resolve().parent.parent
name = pathlib.Path(sys.argv[0]).name
library = top / "libraries/a.toml"
NET_FAULTS, LIBRARY_FAULTS, STREAM_FAULTS = {6, 10, 16}, {7, 8}, {10, 11, 12}
ANY = {0, 2, 3, 4, 5, 14}
WAITS = 120  # seconds, in which each run has to end
STOPS = ["-f", "--seccomp-bpf"]  # strace stops at the traced calls alone; it then sends no signals
sys.stdout.reconfigure(line_buffering=True)


def find_program():
    named = os.environ.get("AQFP") or subprocess.check_output([top / ".ci/program"], text=True).removesuffix("\n")
    return os.path.abspath(named)


program = find_program()


@dataclasses.dataclass(frozen=True)
class Command:
    """A command line, whether its last word is a file that it stores, and the statuses that the command has."""
    words: str
    stores: bool
    statuses: frozenset

    @property
    def verb(self):
        return self.words.split()[0]


def command(words, *statuses):
    return Command(words, words.endswith(" out"), frozenset(ANY.union(*statuses)))


COMMANDS = [
    command("build net.blif a.toml out", NET_FAULTS, LIBRARY_FAULTS),
    command("compact net.blif a.toml out", NET_FAULTS, LIBRARY_FAULTS),
    command("draw cells.blif a.toml out", NET_FAULTS, LIBRARY_FAULTS, {19}),
    command("netlist chip.gds a.toml out", STREAM_FAULTS, LIBRARY_FAULTS),
    command("verify chip.gds a.toml net.words", STREAM_FAULTS, LIBRARY_FAULTS, {13}),
    command("trace chip.gds a.toml net.words", STREAM_FAULTS, LIBRARY_FAULTS, {13}),
    command("equal chip.gds a.toml net.blif", STREAM_FAULTS, LIBRARY_FAULTS, NET_FAULTS, {17}),
    command("report chip.gds a.toml", STREAM_FAULTS, LIBRARY_FAULTS),
    command("shapes chip.gds 0 1", STREAM_FAULTS - {12}, {18}),
    command("sample 1", {10}),
]


@dataclasses.dataclass
class Ended:
    """How a run ended: its status, both texts, and the bytes of the files that are left."""
    status: int
    out: bytes
    err: bytes
    files: dict


class Rooms:
    """Folders in which commands run, each with the same files at the beginning."""

    def __init__(self, net="adder4", before="wire"):
        """Of two examples: what is read is the first one's, and what stands under OUT the second one's."""
        self.work = pathlib.Path(tempfile.mkdtemp(prefix="aqfp_rooms_"))
        old = self.make_files(before)
        self.old_chip, self.old_netlist = old["chip.gds"], old["cells.blif"]
        self.given = self.make_files(net)
        self.good = {}

    def __enter__(self):
        return self

    def __exit__(self, *what):
        shutil.rmtree(self.work, ignore_errors=True)

    def make_files(self, example):
        """The files that commands read, of an example."""
        room = self.new_room()
        shutil.copy(library, room / "a.toml")
        for end in ("blif", "words"):
            shutil.copy(top / f"examples/{example}.{end}", room / f"net.{end}")
        for words in ("build net.blif a.toml chip.gds", "netlist chip.gds a.toml cells.blif"):
            subprocess.run([program, *words.split()], cwd=room, check=True, stdout=subprocess.DEVNULL)
        held = files_of(room)
        shutil.rmtree(room)
        return held

    def new_room(self):
        return pathlib.Path(tempfile.mkdtemp(dir=self.work))

    def old(self, command):
        return self.old_netlist if command.verb == "netlist" else self.old_chip

    def files_for(self, command, is_there):
        """The files of a room, with what stood under OUT before where something is to stand there."""
        return {**self.given, "out": self.old(command)} if command.stores and is_there else self.given

    def run(self, command, is_there=True, before=(), environment=(), **more):
        """A run in a new room, behind the words that are to come before the program's."""
        room = self.new_room()
        for file, held in self.files_for(command, is_there).items():
            (room / file).write_bytes(held)
        ended = self.run_in(room, command, before, environment, **more)
        shutil.rmtree(room)
        return ended

    def run_in(self, room, command, before=(), environment=(), **more):
        words = [*before, program, *command.words.split()]
        ended = subprocess.run(words, cwd=room, env={**os.environ, **dict(environment)}, capture_output=True,
                               timeout=WAITS, **more)
        return Ended(ended.returncode, ended.stdout, ended.stderr, files_of(room))

    def whole(self, command):
        """The run in which nothing fails."""
        if command.words not in self.good:
            self.good[command.words] = self.run(command, is_there=False)
            assert self.good[command.words].status == 0, command.words
        return self.good[command.words]

    def what_is_wrong(self, command, is_there, ended, *, is_silent=False):
        """What a run may not have left, told in words: nothing where it kept what the pages promise. Standard error may
        be empty where writing to it was to fail."""
        return (wrong_status(command, ended, is_silent) or wrong_text(self.whole(command), ended)
                or self.wrong_files(command, is_there, ended))

    def wrong_files(self, command, is_there, ended):
        """Only OUT may have changed, and it is what it was or what it is to be."""
        before, whole = self.files_for(command, is_there), self.whole(command).files
        rest = {file: held for file, held in ended.files.items() if file != "out"}
        if rest != {file: held for file, held in before.items() if file != "out"}:
            odd = [file for file in set(rest) ^ set(before) if file != "out"]
            return f"other files changed: {' '.join(sorted(odd)) or 'what they hold'}"
        held = ended.files.get("out")
        if command.stores and ended.status == 0:
            return "" if held == whole["out"] else f"status 0, and OUT is not what it is to be: {size_of(held)}"
        if held in (before.get("out"), whole.get("out")):
            return ""
        return f"OUT is neither what it was nor what it is to be: {size_of(held)}"


def size_of(held):
    return "it is not there" if held is None else f"{len(held)} bytes"


def files_of(room):
    """The bytes of the regular files of a folder; of what else is there a word."""
    return {file.name: file.read_bytes() if file.is_file() else b"no regular file" for file in room.iterdir()}


def wrong_status(command, ended, is_silent=False):
    """A status that is not the command's own, or not exactly one line with it."""
    if ended.status < 0:
        return f"ended by signal {-ended.status}"
    if ended.status not in command.statuses:
        return f"status {ended.status}, which {command.verb} doesn't have"
    lines = ended.err.split(b"\n")
    is_line = len(lines) == 2 and lines[0].startswith(b"aqfp: ") and not lines[1]
    if ended.err == b"" if ended.status == 0 or is_silent and not is_line else is_line:
        return ""
    return f"status {ended.status} with {ended.err[:200]!r}"


def wrong_text(whole, ended):
    """Standard output has the whole text with status 0, and else some first bytes of it."""
    if ended.out == whole.out if ended.status == 0 else whole.out.startswith(ended.out):
        return ""
    return f"status {ended.status}, and standard output is {ended.out[:200]!r}"


def have(*tools):
    """Whether all tools are there; one that is missing is named."""
    for tool in tools:
        if shutil.which(tool) is None:
            print(f"{name}: {tool} is not there: what needs it is left out")
            return False
    return True


def in_turn(work, items, jobs=3):
    """The answers of a function for all items, in their order, some at once."""
    with ThreadPoolExecutor(jobs) as pool:
        yield from pool.map(work, items)


def own_calls(words, cwd):
    """The calls of the system that a run makes once its loader is done, in their order, each with its number among
    those of its name, as strace counts them."""
    told = cwd / "strace.told"
    subprocess.run(["strace", "-qq", "-o", told, program, *words.split()], cwd=cwd, stdout=subprocess.DEVNULL,
                   stderr=subprocess.DEVNULL, timeout=WAITS)
    seen, calls, is_own = {}, [], False
    for line in told.read_text(errors="replace").splitlines():
        call, bracket, rest = line.partition("(")
        if not bracket or not call.isidentifier():
            continue
        seen[call] = seen.get(call, 0) + 1
        is_own = is_own or call == "rt_sigaction"
        if is_own and call not in ("exit_group", "exit"):
            calls.append((call, seen[call], rest))
    told.unlink()
    return calls


def injected(call, what, when):
    """What comes before the program's words where a call of the system is to go otherwise."""
    stops = [] if what.startswith("signal") else STOPS
    return ["strace", "-qq", *stops, "-o", "/dev/null", "-e", f"trace={call}", "-e",
            f"inject={call}:{what}:when={when}"]


class Tally:
    """How many trials there were, and how many of them went otherwise; these are told."""

    def __init__(self):
        self.tried = self.otherwise = 0

    def expect(self, what, holds, said=""):
        self.tried += 1
        if not holds:
            self.otherwise += 1
            print(f"{name}: {what}: OTHERWISE {said}")

    def end(self, what):
        """Prints the line of counts, and gives the status."""
        print(f"{name}: {self.tried} {what}, {self.otherwise} otherwise")
        return 1 if self.otherwise else 0
