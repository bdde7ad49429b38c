"""Runs of the program that are measured, and how what they take grows: for the scripts of inputs that are made to be
slow. Seconds are those of the processor. GNU time tells the memory, since a child of this process would count its."""
import math
import os
import pathlib
import resource
import subprocess

TOP = pathlib.Path(__file__).resolve().parent.parent
SHORT = 0.05  # seconds below which a time says nothing
AGAIN = 1  # seconds up to which a run is made again
MOST_BYTES = 2_000  # bytes that are wanted at most for a cell of the largest net on the way


def program():
    """The program that AQFP names, else that of the sources."""
    named = os.environ.get("AQFP")
    return named or subprocess.run([TOP / ".ci/program"], check=True, capture_output=True, text=True).stdout.strip()


class Run:
    """What one run took: seconds, megabytes at most, its status (None where it was cut off) and its first line."""

    def __init__(self, words, folder, seconds, megabytes=None):
        told, out, err = folder / "memory", folder / "out", folder / "err"
        timed = ["/usr/bin/time", "-q", "-f", "%M", "-o", told, *words]

        def limited():
            resource.setrlimit(resource.RLIMIT_CPU, (seconds, seconds + 1))
            if megabytes:
                resource.setrlimit(resource.RLIMIT_AS, (megabytes << 20, megabytes << 20))

        with open(out, "wb") as out_file, open(err, "wb") as err_file:
            child = subprocess.Popen(timed, stdout=out_file, stderr=err_file, preexec_fn=limited)
            _, status, used = os.wait4(child.pid, 0)
            child.returncode = status
        self.seconds = used.ru_utime + used.ru_stime
        self.megabytes = int(told.read_text().split()[-1]) / 1024
        code = os.waitstatus_to_exitcode(status)
        self.status = code if 0 <= code < 128 else None
        lines = (out.read_bytes() + err.read_bytes()).decode(errors="replace").splitlines()
        self.said = "cut off" if self.status is None else (lines or ["nothing"])[0]

    def count(self, what):
        """The number after a word of the counts line, or None."""
        words = self.said.split()
        return int(words[words.index(what) + 1]) if self.status == 0 and what in words[:-1] else None


def least(words, folder, seconds):
    """A run, or the faster one of two where it is short: other work adds most to the times of short ones."""
    first = Run(words, folder, seconds)
    if first.seconds > AGAIN:
        return first
    return min(first, Run(words, folder, seconds), key=lambda it: it.seconds)


def own_memory(path, folder):
    """The megabytes that the program takes by itself."""
    return Run([path, "sample", "1"], folder, 60).megabytes


def beside(size, plain, own):
    """The seconds and the megabytes of an ordinary run of a size: of the nearest of pairs of a size and a run, times
    what the size is of it. The program's own memory does not grow."""
    near, run = min(plain, key=lambda it: abs(math.log(it[0] / max(size, 1))))
    return max(run.seconds * size / near, SHORT), own + max(run.megabytes - own, 0.5) * size / near


def power(first, last, sizes):
    """The exponent with which a figure grows between two sizes."""
    return math.log(last / first) / math.log(sizes[1] / sizes[0])


def growth(runs, own):
    """The exponents of time and memory from the first run to the last, of a size, a size that the memory goes by, and a
    run each. None stands for what is too short or too small to tell."""
    (size, room, first), (large, more_room, last) = runs[0], runs[-1]
    time = memory = None
    if large > size and first.seconds >= SHORT:
        time = power(first.seconds, last.seconds, (size, large))
    if more_room > 1.5 * room and first.megabytes > 2 * own:
        memory = power(first.megabytes - own, last.megabytes - own, (room, more_room))
    return time, memory


def marked(figure, most, form):
    """A figure, and whether it is above what is wanted."""
    if figure is None:
        return "too little to tell", False
    return f"{figure:{form}}" + (" (ABOVE)" if figure > most else ""), figure > most


class Series:
    """Runs of one kind at growing sizes, each beside an ordinary one; what is above is marked and counted."""

    def __init__(self, name, plain, own, most_times=3, most_memory=3, most_power=1.3):
        self.name, self.plain, self.own = name, plain, own
        self.most_times, self.most_memory, self.most_power = most_times, most_memory, most_power
        self.runs, self.above = [], 0

    def add(self, count, size, told, run, room=None):
        """Prints a run: what it was made of, its size as the ordinary ones count theirs, or None, and a word on it. Its
        memory is told in bytes for each of `room` cells, those of the largest net on the way, where they are given."""
        line = f"{self.name} {count}: {told}, {run.said[:70]}, {run.seconds:.2f} s, {run.megabytes:.1f} MB"
        if size:
            seconds, megabytes = beside(size, self.plain, self.own)
            slow, is_slow = marked(run.seconds / seconds, self.most_times, ".1f")
            if room:
                each, is_large = marked(max(run.megabytes - self.own, 0) * 2**20 / room, MOST_BYTES, ",.0f")
                line += f"; {slow} times an ordinary one's time, {each} bytes for each of {room:,} cells"
            else:
                large, is_large = marked(run.megabytes / megabytes, self.most_memory, ".1f")
                line += f"; {slow} and {large} times an ordinary one's"
            self.above += is_slow + is_large
            self.runs.append((size, room or size, run))
        print(line, flush=True)

    def end(self):
        """Prints how time and memory grow, and gives how many figures were above."""
        if len(self.runs) > 1:
            time, memory = growth(self.runs, self.own)
            fast, is_fast = marked(time, self.most_power, ".2f")
            wide, is_wide = marked(memory, self.most_power, ".2f")
            self.above += is_fast + is_wide
            print(f"{self.name}: growth of the time, as an exponent: {fast}; of the memory: {wide}", flush=True)
        return self.above
