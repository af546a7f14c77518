#!/usr/bin/env python3
# SPDX-License-Identifier: MIT OR Apache-2.0
"""Decimals in, a table, rows for other programs or a picture out: a face for the program forecast.

The program itself reads and prints the bits of its numbers, so that nothing is lost on the way. This script writes its nine lines, runs it, and
shows what comes back while it comes. Units are km, km/s and seconds; the force is that of a point mass, the Earth's by its mu alone.
"""
import argparse
import math
import os
import re
import shlex
import struct
import subprocess
import sys

REFUSALS = {
    1: "the step is zero, or the span from start to end is shorter than eight steps",
    2: "the run is not at its end after 1,000,000 steps: take a longer step or a shorter span",
    12: "the start, the end or the step is not a finite number: look at what went in",
    15: "a question lay within 1 km of the centre, or its numbers had run off (NaN); what was flown before it is shown, and nothing if it came in the"
    " startup, which also asks up to four steps to the other side of the start",
    19: "the program was given misshapen lines: this should not come from here",
}
KEYS = {"t0": 1, "tf": 1, "h": 1, "r": 3, "v": 3}
ROOT = os.path.join(os.path.dirname(os.path.realpath(__file__)), "..", "..")
PLACES = "target/bin/forecast", "bin/forecast"  # of the program, from there: in the project, and in its bundle
SAMPLE = re.compile(r"(\d{1,20})((?: [0-9a-f]{16}){10})\n", re.ASCII)
REFUSAL = re.compile(r"[1-9]\d{0,4}\n", re.ASCII)
ROWS = 30  # at most, in a table that is thinned by one of these
THINNING = 1, 2, 5, 10, 20, 30, 60, 120, 240, 360, 720, 1440, 2880, 7200, 14400, 43200
WIDE, HIGH = 72, 18  # of a plot


def stop(status, text):
    print(f"forecast.py: {text}", file=sys.stderr)
    sys.exit(status)


def is_number(word):
    try:
        float(word)
    except ValueError:
        return False
    return True


def read_file(name):
    """Lines of a key and its numbers, such as `r 7000 0 0`; what follows a # is passed over."""
    found = {}
    try:
        with open(name, encoding="utf-8") as file:
            lines = file.read().splitlines()
    except (OSError, UnicodeDecodeError) as error:
        stop(2, f"{name} cannot be read: {error}")
    for at, line in enumerate(lines, 1):
        words = line.split("#")[0].split()
        if not words:
            continue
        key, numbers = words[0], words[1:]
        if len(numbers) != KEYS.get(key) or not all(map(is_number, numbers)):
            stop(2, f"{name}, line {at}: wanted t0, tf or h with one number, or r or v with three, not '{line.strip()}'")
        found[key] = [float(x) for x in numbers]
    return found


def read_words(words):
    parser = argparse.ArgumentParser(description="Flies an orbit about a point mass and shows it: km, km/s, seconds.")
    parser.add_argument("file", nargs="?", help="lines such as `tf 86400` or `r 7000 0 0`; the options below go before it")
    parser.add_argument("--t0", type=float, nargs=1, metavar="S", help="start time; 0 if nothing is said")
    parser.add_argument("--tf", type=float, nargs=1, metavar="S", help="end time; before the start it goes backward")
    parser.add_argument("--h", type=float, nargs=1, metavar="S", help="step; 60 if nothing is said")
    parser.add_argument("--r", type=float, nargs=3, metavar=("X", "Y", "Z"), help="position at the start, km")
    parser.add_argument("--v", type=float, nargs=3, metavar=("X", "Y", "Z"), help="velocity at the start, km/s")
    shown = parser.add_mutually_exclusive_group()
    shown.add_argument("--csv", action="store_true", help="rows for other programs, every sample with all its digits")
    shown.add_argument("--plot", action="store_true", help="the distance from the centre over time, drawn by characters")
    shown.add_argument("--lines", action="store_true", help="print the nine lines for the program, and do not run it")
    parser.add_argument("--every", type=int, metavar="N", help="of table and rows: every N-th sample, and the last")
    parser.add_argument("--program", metavar="WORDS",
                        help="the words that run forecast, an emulator's too; else GJ_FORECAST names its file, else it is the project's own")
    # A number with a sign and an exponent looks like an option to argparse; with a blank before it it does not.
    asked = parser.parse_args([" " + w if w.startswith("-") and is_number(w) else w for w in words])
    if asked.every is not None and asked.every < 1:
        stop(2, "--every takes a whole number from 1 on")
    return asked


def start_of(asked):
    """The nine numbers, from the file and over it the options."""
    given = {"t0": [0.0], "h": [60.0]}
    if asked.file:
        given.update(read_file(asked.file))
    given.update({key: getattr(asked, key) for key in KEYS if getattr(asked, key) is not None})
    missing = [key for key in KEYS if key not in given]
    if missing:
        stop(2, "nothing says " + ", ".join(missing) + ": give --tf, --r and --v, or a file with them (see --help)")
    return [x for key in KEYS for x in given[key]]


def words_of(program):
    """The words that run the program: the given ones, or its file, which GJ_FORECAST names by a full path or from the project's root."""
    if program is None:
        named = [os.environ["GJ_FORECAST"]] if os.environ.get("GJ_FORECAST") else PLACES
        files = [os.path.normpath(os.path.join(ROOT, name)) for name in named]
        return [next(filter(os.path.isfile, files), files[0])]
    try:
        words = shlex.split(program)
    except ValueError as error:
        stop(2, f"--program cannot be taken apart into words: {error}")
    return words or stop(2, "--program has no word")


def nine_lines(numbers):
    return "".join(struct.pack(">d", x).hex() + "\n" for x in numbers)


class Flight:
    """Iterated, it gives each sample as it comes, its number and ten floats; then `refusal` is the refusal's number, or 0."""

    def __init__(self, words, numbers):
        self.refusal, self.numbers = 0, numbers
        try:
            self.child = subprocess.Popen(words, stdin=subprocess.PIPE, stdout=subprocess.PIPE, encoding="ascii", errors="replace")
        except OSError as error:
            stop(3, f"the program does not start: {error} (examples/run forecast builds it; --program takes other words, an emulator's too)")

    def is_due(self, t):
        """01's test: whether a further step is due where the clock says t. At a run's last sample none is, and before it one is."""
        begin, end = self.numbers[:2]
        return (end - t) * (1.0 if end >= begin else -1.0) > 0.0

    def hand_over(self):
        try:
            with self.child.stdin as pipe:
                pipe.write(nine_lines(self.numbers))
        except BrokenPipeError:  # it reads nothing; what it prints will tell
            pass

    def __iter__(self):
        count, more = 0, True  # whether a sample or a refusal must follow
        with self.child as child:
            self.hand_over()
            for line in child.stdout:
                found = SAMPLE.fullmatch(line)
                if more and found and int(found[1]) == count:
                    x = [struct.unpack(">d", bytes.fromhex(w))[0] for w in found[2].split()]
                    yield count, x
                    count, more = count + 1, self.is_due(x[0])
                elif more and REFUSAL.fullmatch(line):
                    self.refusal, more = int(line), False
                elif line.endswith("\n") or not more:
                    stop(3, f"the program printed what is neither the next sample nor a refusal: {line[:60]!r}")
        if child.returncode != 0:
            stop(3, f"the program ended with {child.returncode}")
        if more:
            stop(3, "the program's output is cut short: its last line is neither a refusal nor the sample at the end time")


def size(a):
    return math.hypot(*a)


def thinned(samples, every):
    """Every so many-th sample, and the last."""
    left = None
    for sample in samples:
        left = None if sample[0] % every == 0 else sample
        if left is None:
            yield sample
    if left is not None:
        yield left


def show_table(samples):
    for n, x in samples:
        r, v = x[1:4], x[4:7]
        if n == 0:
            print(f"{'number':>8} {'time s':>14} {'x km':>13} {'y km':>13} {'z km':>13} {'distance km':>13} {'speed km/s':>11}")
        print(f"{n:8d} {x[0]:14.3f} {r[0]:13.3f} {r[1]:13.3f} {r[2]:13.3f} {size(r):13.3f} {size(v):11.6f}")


def show_rows(samples):
    print("number,t,x,y,z,vx,vy,vz,ax,ay,az,distance")
    for n, x in samples:
        print(n, *map(repr, x), repr(size(x[1:4])), sep=",")


def show_plot(samples, begin, end):
    """A column for each stretch of time, from the lowest to the highest distance within it."""
    columns = {}
    for _, x in samples:
        d = size(x[1:4])
        if math.isfinite(d):
            at = min(WIDE - 1, max(0, int((x[0] - begin) / (end - begin) * WIDE)))
            low, high = columns.get(at, (d, d))
            columns[at] = min(low, d), max(high, d)
    if not columns:
        return
    bottom = min(low for low, _ in columns.values())
    top = max(high for _, high in columns.values())
    line_of = lambda d: round((d - bottom) / ((top - bottom) or 1.0) * (HIGH - 1))
    print("distance from the centre, km")
    for line in range(HIGH - 1, -1, -1):
        marks = ("*" if at in columns and line_of(columns[at][0]) <= line <= line_of(columns[at][1]) else " " for at in range(WIDE))
        label = f"{top:.3f}" if line == HIGH - 1 else f"{bottom:.3f}" if line == 0 else ""
        print(f"{label:>14} |{''.join(marks)}".rstrip())
    print(" " * 15 + "+" + "-" * WIDE)
    print(f"{'time, s':>14}  {begin:<{WIDE // 2}g}{end:>{WIDE - WIDE // 2}g}")


def show(asked, numbers, flight):
    begin, end, h = numbers[:3]
    steps = abs((end - begin) / h) if h else 0.0
    if asked.plot:
        show_plot(flight, begin, end)
    elif asked.csv:
        show_rows(thinned(flight, asked.every or 1))
    else:
        every = asked.every or next((n for n in THINNING if steps <= ROWS * n), THINNING[-1])
        show_table(thinned(flight, every))
        if asked.every is None and every > 1 and not flight.refusal:
            print(f"One sample in {every} is shown, and the last; --every 1 shows all.")


def main(words):
    asked = read_words(words)
    numbers = start_of(asked)
    if asked.lines:
        print(nine_lines(numbers), end="")
        return 0
    flight = Flight(words_of(asked.program), numbers)
    show(asked, numbers, flight)
    if flight.refusal:
        sys.stdout.flush()
        told = REFUSALS.get(flight.refusal, "a refusal that this script does not know")
        print(f"Refused ({flight.refusal}): {told}.", file=sys.stderr)
    return 1 if flight.refusal else 0


if __name__ == "__main__":
    try:
        status = main(sys.argv[1:])
        sys.stdout.flush()
    except OSError as error:  # of standard output
        os.dup2(os.open(os.devnull, os.O_WRONLY), sys.stdout.fileno())
        status = 3
        if not isinstance(error, BrokenPipeError):  # which means: who read along has seen enough
            stop(3, f"what is shown cannot be written: {error}")
    sys.exit(status)
