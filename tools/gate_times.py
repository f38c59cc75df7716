#!/usr/bin/env python3
"""Shows what each crate costs the gate: its proof, its tests, its must-fail edits.

    tools/gate_times.py --watch LOG rt ci     runs the command, and writes a line into LOG for each check that it made
    tools/gate_times.py LOG [LOG..]           prints a table of what the logs hold, a row a crate

A line of a log is `crate part seconds megabytes`: the part is proof, tests or edits, the seconds are those of a processor,
and the megabytes the most memory that the check held. What a crate's edits begin with, one more check of the whole crate,
counts as edits. A check is seen twice a second, so its last half second may be missing; a log's last line has what the
command and all that it started took in all, by the system's count.
"""
import os
import resource
import subprocess
import sys
import time

TICK = os.sysconf("SC_CLK_TCK")
PARTS = ("proof", "tests", "edits")


def read(path):
    with open(path, "rb") as file:
        return file.read()


def check_of(pid):
    """The crate and the part that a process checks, or None where it is no check."""
    words = read(f"/proc/{pid}/cmdline").decode(errors="replace").split("\0")
    if os.path.basename(words[0]) != "rattle" or "--crate-name" not in words:
        return None
    crate = words[words.index("--crate-name") + 1]
    if os.path.basename(os.readlink(f"/proc/{pid}/cwd")).startswith("rt-edit-"):
        return crate, "edits"
    return crate, "tests" if "--test" in words else "proof"


def fields(pid):
    return read(f"/proc/{pid}/stat").rpartition(b")")[2].split()


def spent(pid):
    """The seconds of a processor that a process took so far, and the most megabytes that it held."""
    told = fields(pid)
    most = [line.split()[1] for line in read(f"/proc/{pid}/status").split(b"\n") if line.startswith(b"VmHWM")]
    return (int(told[11]) + int(told[12])) / TICK, int(most[0]) / 1024 if most else 0.0


def is_below(pid, root):
    """Whether a process was started by another, or by one that it started."""
    while pid > 1:
        if pid == root:
            return True
        pid = int(fields(pid)[1])
    return False


def look(seen, root):
    for pid in filter(str.isdigit, os.listdir("/proc")):
        try:
            check = check_of(pid)
            if check and is_below(int(pid), root):
                # a process is known by its number and the moment of its start
                seen[pid, fields(pid)[19]] = (*check, *spent(pid))
        except (OSError, ValueError):
            pass


def watch(log, command):
    started, seen = time.time(), {}
    ran = subprocess.Popen(command)
    while ran.poll() is None:
        look(seen, ran.pid)
        time.sleep(0.5)
    used = resource.getrusage(resource.RUSAGE_CHILDREN)
    with open(log, "w", encoding="utf-8") as file:
        for crate, part, seconds, most in seen.values():
            print(crate, part, f"{seconds:.1f}", f"{most:.0f}", file=file)
        print("all", "wall", f"{time.time() - started:.0f}", 0, file=file)
        print("all", "processor", f"{used.ru_utime + used.ru_stime:.0f}", 0, file=file)
    return ran.returncode


def table(logs):
    rows, most, whole = {}, {}, {}
    for log in logs:
        for line in read(log).decode().splitlines():
            crate, part, seconds, megabytes = line.split()
            if crate == "all":
                whole[part] = whole.get(part, 0) + float(seconds)
                continue
            row = rows.setdefault(crate, dict.fromkeys(PARTS, 0.0))
            row[part] += float(seconds)
            most[crate] = max(most.get(crate, 0), float(megabytes))
    print("| Crate | Proof, s | Tests, s | Edits, s | All, s | Most memory, MB |\n|---|---|---|---|---|---|")
    for crate, row in sorted(rows.items(), key=lambda it: -sum(it[1].values())):
        cells = [f"{row[part]:.0f}" for part in PARTS]
        print(f"| `{crate}` | {' | '.join(cells)} | {sum(row.values()):.0f} | {most[crate]:.0f} |")
    sums = [sum(row[part] for row in rows.values()) for part in PARTS]
    print(f"| all | {' | '.join(f'{it:.0f}' for it in sums)} | {sum(sums):.0f} | {max(most.values(), default=0):.0f} |")
    if whole:
        print(f"\nIn all {whole.get('processor', 0) / 60:.0f} minutes of processor, {whole.get('wall', 0) / 60:.0f} minutes by the clock.")


def main():
    words = sys.argv[1:]
    if len(words) > 2 and words[0] == "--watch":
        return watch(words[1], words[2:])
    if not words or words[0].startswith("-"):
        print(__doc__, file=sys.stderr)
        return 2
    table(words)
    return 0


if __name__ == "__main__":
    sys.exit(main())
