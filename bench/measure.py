"""What the benchmarks have in common: units, and runs of h264recode beside another program, timed and checked."""

import filecmp
import os
import re
import subprocess
import sys
import time

ROUNDS = 5
# two zero bytes, where a byte of at most 3 follows
EMULATION = re.compile(rb"\x00\x00(?=[\x00-\x03])")


def unit(header, payload):
    """A unit with emulation prevention (7.3.1)."""
    return bytes([header]) + EMULATION.sub(b"\0\0\3", payload)


def seconds(command, stream, output):
    """The processor time of one run, user and system, and its report."""
    with open(stream, "rb") as source, open(output, "wb") as sink:
        with subprocess.Popen(command, stdin=source, stdout=sink, stderr=subprocess.PIPE) as run:
            report = run.stderr.read().decode().strip()
            _, run.returncode, usage = os.wait4(run.pid, 0)
    if run.returncode:
        sys.exit(f"{command[0]} did not end well: {report}")
    return usage.ru_utime + usage.ru_stime, report


def peak_memory(command, stream):
    """The most memory that a run had, in KiB: the last value of VmHWM that is seen while it runs."""
    peak = None
    with open(stream, "rb") as source, open("/dev/null", "wb") as sink:
        with subprocess.Popen(command, stdin=source, stdout=sink, stderr=subprocess.DEVNULL) as run:
            while run.poll() is None:
                with open(f"/proc/{run.pid}/status") as status:
                    peak = next((line.split()[1] for line in status if line.startswith("VmHWM")), peak)
                time.sleep(0.0002)
    return peak


class Recoder:
    """Runs of h264recode with a wanted layer and a table, beside another program, and what is due for them."""

    def __init__(self, program, layer="cavlc", table="flat", other=("cat",), rounds=ROUNDS):
        self.words = [program, "recode", "--to", layer, "--table", table]
        self.other, self.rounds = other, rounds

    def run(self, stream, place, report, due=None):
        """The time of a run, which must give this report and write the bytes of the file `due`, where there is one."""
        taken, told = seconds(self.words, stream, place)
        if told != report:
            sys.exit(f"the report is {told!r}")
        if due and not filecmp.cmp(place, due, shallow=False):
            sys.exit("the output isn't what is due")
        return taken

    def run_other(self, stream, place):
        """The time of a run of the other program, which must say nothing."""
        taken, complaint = seconds(self.other, stream, place)
        if complaint:
            sys.exit(f"{self.other[0]} complains: {complaint}")
        return taken

    def compare(self, stream, place, report, due=None):
        """Prints the least time of both programs, and returns both."""
        # In turn, so that both meet the same load. The first round warms the caches.
        rounds = [(self.run_other(stream, place), self.run(stream, place, report, due)) for _ in range(1 + self.rounds)]
        beside, taken = map(min, zip(*rounds[1:]))
        name = f"to {place}" if place == "/dev/null" else "to a file"
        print(f"{name}: {self.other[0]} {beside:.3f} s, h264recode {taken:.3f} s, ratio {taken / beside:.2f}")
        return beside, taken

    def compare_memory(self, stream):
        """Prints the peak memory of both programs."""
        sizes = peak_memory(self.other, stream), peak_memory(self.words, stream)
        print(f"peak memory: {self.other[0]} {sizes[0]} KiB, h264recode {sizes[1]} KiB")


def measure(program, stream, report, output, due=None, other=("cat",)):
    """
    Prints the times and the peak memory of another program, which has the stream as its input too, and of h264recode, from
    CAVLC to CAVLC.
    """
    recoder = Recoder(program, other=other)
    print(f"the stream: {report}")
    recoder.compare(stream, "/dev/null", report)
    recoder.compare(stream, output, report, due)
    recoder.compare_memory(stream)
