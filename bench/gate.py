#!/usr/bin/env python3
"""What the gate costs: runs `rt ci --anew`, and prints a row for each crate with the processor minutes that its proof, its
tests and programs, and its must-fail edits took, and how long its longest single proof lasted.

usage: bench/gate.py [--log FILE] [--table FILE] [CRATE..]

With names of crates it measures these and those below them. Processes of the prover are looked at four times a second: what
one used after it was last seen is not counted. Let nothing else run beside it.
"""
import argparse
import os
import re
import subprocess
import sys
import time

TOP = os.path.dirname(os.path.dirname(os.path.abspath(__file__)))
TICKS = os.sysconf("SC_CLK_TCK")
KINDS = ("proof", "tests", "edits")


def read(path):
    try:
        with open(path, "rb") as file:
            return file.read()
    except OSError:
        return b""


def spent(pid):
    """The processor seconds of a process and of the children that it waited for."""
    parts = read(f"/proc/{pid}/stat").rpartition(b")")[2].split()
    return sum(map(int, parts[11:15])) / TICKS if len(parts) > 15 else 0


def work_of(pid):
    """The crate that a process of the prover works on, and the kind of work."""
    words = read(f"/proc/{pid}/cmdline").decode(errors="replace").split("\0")
    if "--crate-name" not in words:
        return None
    crate = words[words.index("--crate-name") + 1]
    try:
        folder = os.readlink(f"/proc/{pid}/cwd")
    except OSError:
        folder = ""
    if "rt-edit" in folder:
        return crate, "edits"
    return crate, "tests" if words[1] in ("test", "run") or "--test" in words else "proof"


class Costs:
    """What was seen of the prover's processes."""

    def __init__(self):
        self.seen = {}

    def look(self):
        now = time.monotonic()
        for pid in filter(str.isdigit, os.listdir("/proc")):
            work = work_of(pid)
            if work:
                begun = self.seen.get((pid, work), (0, now, now))[1]
                self.seen[pid, work] = (spent(pid), begun, now)

    def rows(self):
        rows = {}
        for (_, (crate, kind)), (seconds, begun, last) in self.seen.items():
            row = rows.setdefault(crate, dict.fromkeys(KINDS, 0.0) | {"longest": 0.0})
            row[kind] += seconds / 60
            if kind == "proof":
                row["longest"] = max(row["longest"], (last - begun) / 60)
        return rows


def table_of(rows, order, minutes):
    lines = ["| Crate | Proof | Tests | Edits | Sum | Longest single proof, minutes |", "|---|---|---|---|---|---|"]
    sums = dict.fromkeys(KINDS, 0.0)
    for crate in order:
        row = rows.get(crate)
        if row:
            for kind in KINDS:
                sums[kind] += row[kind]
            cells = [f"{row[kind]:.1f}" for kind in KINDS] + [f"{sum(row[k] for k in KINDS):.1f}", f"{row['longest']:.1f}"]
            lines.append(f"| {crate} | " + " | ".join(cells) + " |")
    cells = [f"{sums[kind]:.1f}" for kind in KINDS] + [f"{sum(sums.values()):.1f}", ""]
    lines.append("| all | " + " | ".join(cells) + " |")
    return "\n".join(lines) + f"\n\nThe whole run took {minutes:.1f} minutes on {os.cpu_count()} processors.\n"


def crates():
    with open(f"{TOP}/crates.txt") as file:
        return [found[1] for line in file if (found := re.match(r"(\w+)[^:#]*:", line))]


def main():
    words = argparse.ArgumentParser(description=__doc__.split("\n\n")[0])
    words.add_argument("--log", default=os.devnull, help="where the run's own lines go")
    words.add_argument("--table", help="where the table goes, besides standard output")
    words.add_argument("names", nargs="*", metavar="CRATE")
    asked = words.parse_args()
    costs = Costs()
    begun = time.monotonic()
    with open(asked.log, "wb") as log:
        run = subprocess.Popen(["rt", "ci", "--anew", *asked.names], cwd=TOP, stdout=log, stderr=subprocess.STDOUT)
        while run.poll() is None:
            costs.look()
            time.sleep(0.25)
    table = table_of(costs.rows(), crates(), (time.monotonic() - begun) / 60)
    print(table)
    if asked.table:
        with open(asked.table, "w") as file:
            file.write(table)
    sys.exit(run.returncode)


if __name__ == "__main__":
    main()
