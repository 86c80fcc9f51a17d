#!/usr/bin/env python3
"""Measures the day program on a weekday: bookings per second, and what a booking costs in positions and stores.

    (cd crates/weekday && rt run < stdin > /dev/null)
    python3 tools/bench_weekday.py crates/weekday/out/weekday crates/weekday/stdin

Seconds are the median of some runs of the whole day, all its other calls included. Stops that are tried and trees that are
written are counted by valgrind, as calls of the functions that do it; from a position each of four places is tried. Stores follow
from the trees: one of n nodes is stored in the working slab and copied, and what is left of both slabs is made blank.
"""
import re
import statistics
import subprocess
import sys
import tempfile
import time

RUNS = 21
SLAB = {1: 2, 2: 18, 3: 270, 4: 7364}


def seconds(program, day):
    begun = time.perf_counter()
    subprocess.run([program], input=day, stdout=subprocess.DEVNULL, check=True)
    return time.perf_counter() - begun


def calls(program, day):
    """How often each function was called, by its name without its type arguments, and the instructions of the run."""
    with tempfile.NamedTemporaryFile() as out:
        subprocess.run(["valgrind", "--tool=callgrind", f"--callgrind-out-file={out.name}", program], input=day,
                       stdout=subprocess.DEVNULL, stderr=subprocess.DEVNULL, check=True)
        text = open(out.name, encoding="utf-8", errors="replace").read()
    names, counts, callee = {}, {}, None
    for line in text.splitlines():
        found = re.match(r"c?fn=\((\d+)\)(?: (.*))?", line)
        if found:
            if found[2]:
                names[found[1]] = re.sub(r"(::<.*)?$", "", found[2], count=1)
            callee = names[found[1]] if line.startswith("cfn") else None
        elif line.startswith("calls=") and callee:
            counts[callee] = counts.get(callee, 0) + int(line[6:].split()[0])
    return counts, int(re.search(r"^(?:summary|totals): (\d+)", text, re.M)[1])


def main(program, path):
    day = open(path, "rb").read()
    booked = sum(line.startswith(b"book,") for line in day.splitlines())
    lines = sum(1 for line in day.splitlines() if line and not line.startswith(b"#"))
    limit = int(re.findall(rb"^make,\d+,(\d+)$", day, re.M)[-1])
    took = statistics.median(seconds(program, day) for _ in range(RUNS))
    counts, instructions = calls(program, day)
    trees = counts.get("growth::tally::Growth::write", 0)
    tried = counts.get("growth::tally::Growth::try_next", 0)
    print(f"{lines} lines, {booked} of them bookings, in {took * 1000:.1f} ms: {booked / took:,.0f} bookings a second")
    print(f"instructions a line: {instructions // lines:,}")
    print(f"positions visited a booking: {tried / 4 / booked:,.0f}, with {tried / booked:,.0f} places tried")
    print(f"trees written a booking: {trees / booked:.1f}, each {2 * SLAB[limit]:,} stores and one more for each of its nodes")


if __name__ == "__main__":
    main(sys.argv[1], sys.argv[2])
