#!/usr/bin/env python3
"""Prints what the gate costs: processor seconds of each crate for its proof, its tests and its must-fail edits.

usage: scripts/gate_costs.py [--kept] [NAME..]      (at the top of the repository; NAME as in crates.txt)
       scripts/gate_costs.py --of PID               (of a run of `rt ci` that is going on)

It runs `rt ci --anew` for these crates and those below them, or for all, from nothing, and looks at the prover's
processes several times a second. With --kept it runs `rt ci` as it is, so that only what is proved anew is counted.
A process that ends between two looks loses up to a fifth of a second, so a crate's figure is a little low.
"""
import os
import re
import subprocess
import sys
import time

LOOK = 0.2
TICKS = os.sysconf("SC_CLK_TCK")
KINDS = ("proof", "tests", "edits")


def processes():
    """Yields (pid, parent, seconds, words) of each process."""
    for pid in filter(str.isdigit, os.listdir("/proc")):
        try:
            stat = open(f"/proc/{pid}/stat").read()
            words = open(f"/proc/{pid}/cmdline", "rb").read().decode("utf-8", "replace").split("\0")
        except OSError:
            continue
        fields = stat[stat.rindex(")") + 2:].split()
        yield int(pid), int(fields[1]), (int(fields[11]) + int(fields[12])) / TICKS, words


def folder(pid):
    try:
        return os.readlink(f"/proc/{pid}/cwd")
    except OSError:
        return ""


def label(pid, words):
    """The crate and the kind of work of a prover's process, where it is one."""
    if "--crate-name" not in words:
        return None
    name = words[words.index("--crate-name") + 1]
    if "/rt-edit-" in folder(pid):
        return name, "edits"
    return name, "tests" if "--test" in words else "proof"


class Running:
    """A run that somebody else has started."""

    def __init__(self, pid):
        self.pid, self.returncode = pid, None

    def poll(self):
        return None if os.path.isdir(f"/proc/{self.pid}") else "not known"


def measure(job):
    """Returns the seconds of each (crate, kind) below a run until it ends, and its status."""
    labels, seconds = {}, {}
    while job.poll() is None:
        seen = list(processes())
        parents = {pid: parent for pid, parent, _, _ in seen}
        for pid, _, spent, words in seen:
            above, steps = pid, 0
            while above != job.pid and above in parents and steps < 64:
                above, steps = parents[above], steps + 1
            if above != job.pid:
                continue
            if pid not in labels:
                labels[pid] = label(pid, words)
            if labels[pid]:
                seconds[pid] = max(spent, seconds.get(pid, 0))
        time.sleep(LOOK)
    sums = {}
    for pid, spent in seconds.items():
        sums[labels[pid]] = sums.get(labels[pid], 0) + spent
    return sums, job.poll()


def lines_of_code(crate):
    """Lines of .rt files that are neither blank, nor comments, nor clauses and ghost items."""
    count = 0
    for at, _, files in os.walk(f"crates/{crate}/src"):
        for name in (it for it in files if it.endswith(".rt")):
            depth = 0
            for line in open(f"{at}/{name}", encoding="utf-8"):
                if depth > 0 or re.match(r"\s*(ensures|requires|ghost)\b", line):
                    depth += line.count("{") - line.count("}")
                elif not re.match(r"\s*($|//)", line):
                    count += 1
    return count


def main():
    if sys.argv[1:2] == ["--of"]:
        job = Running(int(sys.argv[2]))
    else:
        names = [word for word in sys.argv[1:] if word != "--kept"]
        job = subprocess.Popen(["rt", "ci", *names] + ([] if "--kept" in sys.argv else ["--anew"]))
    sums, status = measure(job)
    order = [line.split(":")[0].split()[0] for line in open("crates.txt") if re.match(r"[a-z]", line)]
    print("\n| Crate | Lines of code | Proof | Tests | Edits | Together | A line |\n|---|---|---|---|---|---|---|")
    total = dict.fromkeys(KINDS, 0.0)
    all_lines = 0
    for crate in order:
        parts = [sums.get((crate, kind), 0) for kind in KINDS]
        if not any(parts):
            continue
        lines = lines_of_code(crate)
        all_lines += lines
        for kind, part in zip(KINDS, parts):
            total[kind] += part
        print(f"| {crate} | {lines} | " + " | ".join(f"{part:.0f}" for part in [*parts, sum(parts)]) + f" | {sum(parts) / max(lines, 1):.2f} |")
    whole = sum(total.values())
    print(f"| all | {all_lines} | " + " | ".join(f"{total[kind]:.0f}" for kind in KINDS) + f" | {whole:.0f} | {whole / max(all_lines, 1):.2f} |")
    print(f"\n{whole / 60:.0f} processor minutes; rt ended with {status}.")
    return 0 if status == "not known" else status


if __name__ == "__main__":
    sys.exit(main())
