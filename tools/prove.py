#!/usr/bin/env python3
"""Proves the libraries of a program side by side, and then runs a command in the program's folder.

    tools/prove.py PROGRAM COMMAND..

`rt run` proves the libraries of a program one after another, and most of a proof goes on one processor. This proves as many at
once as there are processors, each in a copy of the sources, since a checkout does one thing at a time; a library begins when all
that it uses are proved, and `rt` takes from one copy what it proved in another. What is proved is named on standard error when its
proof begins. The copies are removed when the command has ended. The status is the command's, or 70 where a proof failed.
"""
import os
import shutil
import subprocess
import sys
import tempfile
from concurrent.futures import FIRST_COMPLETED, ThreadPoolExecutor, wait

TOP = os.path.dirname(os.path.dirname(os.path.abspath(__file__)))
FAILED = 70


def libraries():
    """The libraries that each crate uses, by the crates' names."""
    used = {}
    with open(f"{TOP}/crates.txt", encoding="utf-8") as file:
        for line in file:
            name, colon, others = line.partition(":")
            if colon and not line.startswith("#"):
                used[name.strip()] = others.split()
    return {name: [it for it in others if it in used] for name, others in used.items()}


def copy_of(folder):
    """A copy of the sources, without what checks left."""
    shutil.copytree(f"{TOP}/crates", f"{folder}/crates", ignore=shutil.ignore_patterns("out", "must-fail"))
    for name in ("crates.txt", "HANDLES"):
        shutil.copy(f"{TOP}/{name}", folder)
    return folder


def prove(name, folder):
    """Proves a library in a copy, and returns whether that came out, with what was said."""
    ran = subprocess.run(["rt", "lib"], cwd=f"{folder}/crates/{name}", stdout=subprocess.PIPE, stderr=subprocess.STDOUT, text=True)
    return name, folder, ran.returncode == 0, ran.stdout


def prove_all(program, used, room):
    """Proves what a program uses, and returns whether all came out."""
    waiting = {name: set(used[name]) & set(used[program]) for name in used[program]}
    above = {name: sum(name in others for others in waiting.values()) for name in waiting}
    free = [copy_of(f"{room}/{number}") for number in range(os.cpu_count() or 1)]
    with ThreadPoolExecutor(len(free)) as pool:
        running = set()
        while waiting or running:
            ready = sorted((name for name, others in waiting.items() if not others), key=lambda name: -above[name])
            while ready and free:
                name = ready.pop(0)
                del waiting[name]
                print(f"{program}: proving {name}", file=sys.stderr, flush=True)
                running.add(pool.submit(prove, name, free.pop()))
            done, running = wait(running, return_when=FIRST_COMPLETED)
            for name, folder, is_proved, said in (it.result() for it in done):
                if not is_proved:
                    print(said[-4000:], f"{program}: {name} was not proved", sep="\n", file=sys.stderr)
                    waiting = {}
                    return False
                free.append(folder)
                for others in waiting.values():
                    others.discard(name)
    return True


def main():
    if len(sys.argv) < 3:
        sys.exit(__doc__)
    program, command, used = sys.argv[1], sys.argv[2:], libraries()
    if program not in used:
        sys.exit(f"prove.py: crates.txt has no {program}")
    with tempfile.TemporaryDirectory(prefix="prove-") as room:
        if not prove_all(program, used, room):
            return FAILED
        return subprocess.run(command, cwd=f"{TOP}/crates/{program}").returncode


if __name__ == "__main__":
    sys.exit(main())
