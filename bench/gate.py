#!/usr/bin/env python3
"""Runs rt ci, and prints where its processor time went: for each crate its proof, its tests and its must-fail edits.

    bench/gate.py              rt ci at the top of the repository; what it kept is not done again, and takes no time
    bench/gate.py --anew       from nothing
    bench/gate.py CRATE ..     these crates and those below them

What rt ci prints goes to standard error, the table to standard output. The status is that of rt ci. The processes are looked
at ten times a second, so that the last tenth of a second of each is not in its crate's numbers; the line of the rest has it,
with rt's own time and that of the linker, the tests and the programs as they run.
"""
import os
import subprocess
import sys
import threading
import time

KINDS = ("proof", "tests", "edits")
TICKS = os.sysconf("SC_CLK_TCK")
# how often a process is asked again what it is, since it may not have begun its program yet
ASKED = 20


def stat_of(process):
    """Returns the parent of a process, its start, and its seconds of processor time with those of its ended children."""
    with open(f"/proc/{process}/stat", encoding="utf-8", errors="replace") as it:
        fields = it.read().rpartition(")")[2].split()
    return int(fields[1]), fields[19], sum(map(int, fields[11:15])) / TICKS


def label_of(process):
    """Returns the crate that a process of the prover works for and the kind of its work, or None for another process."""
    with open(f"/proc/{process}/cmdline", encoding="utf-8", errors="replace") as it:
        words = it.read().split("\0")
    if os.path.basename(words[0]) != "rattle" or "--crate-name" not in words:
        return None
    crate = words[words.index("--crate-name") + 1]
    if os.path.basename(os.readlink(f"/proc/{process}/cwd")).startswith("rt-edit-"):
        return crate, "edits"
    return crate, "tests" if "--test" in words else "proof"


def is_below(process, top):
    """Returns whether a process descends from another, and not from one that has a label: that one's time has this one's."""
    process = stat_of(process)[0]
    while process > 1 and process != top and label_of(process) is None:
        process = stat_of(process)[0]
    return process == top


class Watch:
    """The seconds of the prover's processes below one process, by crate and kind."""

    def __init__(self, top):
        self.top, self.asked, self.labels, self.seconds = top, {}, {}, {}

    def look(self):
        alive = {int(it) for it in os.listdir("/proc") if it.isdigit()}
        self.asked = {it: times for it, times in self.asked.items() if it in alive}
        for process in alive:
            if self.asked.get(process, 0) < ASKED:
                try:
                    self.look_at(process)
                except (OSError, IndexError):
                    # (it has ended)
                    pass

    def look_at(self, process):
        label = label_of(process)
        if label is None or not is_below(process, self.top):
            self.asked[process] = self.asked.get(process, 0) + 1
            return
        _, start, seconds = stat_of(process)
        self.seconds.setdefault(label, {})[process, start] = seconds

    def sum(self, crate, kind):
        return sum(self.seconds.get((crate, kind), {}).values())

    def crates(self):
        return sorted({crate for crate, _ in self.seconds})


def print_line(name, numbers):
    print(f"{name:<20}" + "".join(f"{it:>10.1f}" for it in numbers))


def print_table(watch, whole, wall):
    print(f"{'processor seconds':<20}" + "".join(f"{it:>10}" for it in (*KINDS, "sum")))
    rows = {crate: [watch.sum(crate, kind) for kind in KINDS] for crate in watch.crates()}
    for crate, row in sorted(rows.items(), key=lambda it: -sum(it[1])):
        print_line(crate, [*row, sum(row)])
    sums = [sum(row[at] for row in rows.values()) for at in range(len(KINDS))]
    print_line("all crates", [*sums, sum(sums)])
    print(f"{'the rest':<20}{whole - sum(sums):>40.1f}")
    print(f"{'whole':<20}{whole:>40.1f}")
    print(f"{'seconds by the clock':<20}{wall:>40.1f}")


def main(words):
    os.chdir(os.path.join(os.path.dirname(os.path.realpath(__file__)), ".."))
    begun = time.monotonic()
    gate = subprocess.Popen(["rt", "ci", *words], stdout=sys.stderr)
    watch, over = Watch(gate.pid), threading.Event()

    def look_on():
        while not over.wait(0.1):
            watch.look()

    looking = threading.Thread(target=look_on)
    looking.start()
    _, status, used = os.wait4(gate.pid, 0)
    over.set()
    looking.join()
    print_table(watch, used.ru_utime + used.ru_stime, time.monotonic() - begun)
    return os.waitstatus_to_exitcode(status)


if __name__ == "__main__":
    sys.exit(main(sys.argv[1:]))
