#!/usr/bin/env python3
"""How fast a relay CSV is read, and with how much memory.

Makes a CSV of relay trips, reads it with the program and with Python's regular
expressions (a compiled library with captures) in the same run, checks that the rows
are equal, and prints nanoseconds of processor time for each symbol, the ratio of the
two, and the peak memory of the program on this CSV and on one eight times as long.

    (cd crates/relay_lists && rt run >/dev/null) ; bench/read_csv.py [SYMBOLS]
"""

import os
import re
import sys
import tempfile
import time

ROOT = os.path.dirname(os.path.dirname(os.path.abspath(__file__)))
PROGRAM = os.path.join(ROOT, "crates", "relay_lists", "out", "relay_lists")
PATTERN = os.path.join(ROOT, "crates", "relay_lists", "data", "trips.pat")
ROUNDS = 3


def make_csv(path, symbols):
    """Rows of three columns: element, multiple of the setting, seconds to the trip."""
    size = 0
    row = 0
    with open(path, "wb") as out:
        while size < symbols:
            multiple = 1.5 + (row % 1850) / 100
            seconds = 0.14 / (multiple**0.02 - 1)
            line = b"51,%.2f,%.3f\n" % (multiple, seconds)
            out.write(line)
            size += len(line)
            row += 1
    return size


def spawn(csv, rows, choices):
    words = [PROGRAM, "read", PATTERN, "bytes", "plain", csv, rows, choices]
    quiet = [(os.POSIX_SPAWN_OPEN, out, os.devnull, os.O_WRONLY, 0) for out in (1, 2)]
    return os.posix_spawn(PROGRAM, words, os.environ, file_actions=quiet)


def run_program(csv, rows, choices):
    """Processor seconds of one reading."""
    _, status, usage = os.wait4(spawn(csv, rows, choices), 0)
    if status != 0:
        sys.exit("the program refused the CSV")
    return usage.ru_utime + usage.ru_stime


def peak_memory(csv, rows, choices):
    """The most memory of one reading in KiB, as the system last told it before the end."""
    child = spawn(csv, rows, choices)
    peak = 0
    while os.waitpid(child, os.WNOHANG) == (0, 0):
        try:
            with open(f"/proc/{child}/status") as status:
                for line in status:
                    if line.startswith("VmHWM:"):
                        peak = max(peak, int(line.split()[1]))
        except OSError:
            pass
        time.sleep(0.002)
    return peak


ROW = re.compile(rb"[^,\r\n]*,([^,\r\n]*),([^,\r\n]*)\n")


def run_baseline(csv, rows):
    """Processor seconds of the same reading by Python's regular expressions."""
    start = time.process_time()
    with open(csv, "rb") as source:
        text = source.read()
    parts = []
    at = 0
    for match in ROW.finditer(text):
        if match.start() != at:
            sys.exit("the baseline skipped something")
        at = match.end()
        parts.append(b"%s;%s\n" % match.groups())
    if at != len(text):
        sys.exit("the baseline did not reach the end")
    with open(rows, "wb") as out:
        out.write(b"".join(parts))
    return time.process_time() - start


def same(one, other):
    with open(one, "rb") as a, open(other, "rb") as b:
        return a.read() == b.read()


def main():
    symbols = int(sys.argv[1]) if len(sys.argv) > 1 else 4_000_000
    with tempfile.TemporaryDirectory() as folder:
        names = ("csv", "rows", "choices", "expected")
        csv, rows, choices, expected = (os.path.join(folder, name) for name in names)
        size = make_csv(csv, symbols)
        memory = peak_memory(csv, rows, choices)
        mine = min(run_program(csv, rows, choices) for _ in range(ROUNDS))
        baseline = min(run_baseline(csv, expected) for _ in range(ROUNDS))
        if not same(rows, expected):
            sys.exit("the rows differ")
        print(f"symbols: {size}, rows equal")
        print(f"program: {mine * 1e9 / size:.1f} ns a symbol, {memory} KiB at most")
        print(f"baseline: {baseline * 1e9 / size:.1f} ns a symbol")
        print(f"ratio: {mine / baseline:.2f}")
        large = make_csv(csv, 8 * symbols)
        memory = peak_memory(csv, rows, choices)
        mine = run_program(csv, rows, choices)
        print(f"symbols: {large}: {mine * 1e9 / large:.1f} ns a symbol, {memory} KiB at most")


main()
