#!/usr/bin/env bash
# Times `./ldmicro /c` on projects of 1,000, 2,000 and 4,000 elements, on 500 rungs of mixed elements, on texts at the limit of 8 MiB and on texts that are refused, and prints time and peak memory.
# A benchmark, not a test: it ends with 0 whatever it finds.
set -u
top=$(cd "$(dirname "$0")/.." && pwd)
"$top/ldmicro" >/dev/null   # builds the program where it is missing
folder=$(mktemp -d)
trap 'rm -rf "$folder"' EXIT
python3 - "$top/crates/ldmicro/out/ldmicro" "$folder" <<'P'
import os, resource, subprocess, sys, time
program, folder = sys.argv[1:]
header = "LDmicro0.1\nMICRO=Interpretable Byte Code\nCYCLE=10000\nCRYSTAL=4000000\nBAUD=2400\n\nIO LIST\nEND\n\nPROGRAM\n"
def project(elements):
    """Rungs of eight elements: seven contacts and a coil."""
    text = [header]
    for n in range(elements // 8):
        contacts = "".join(f"CONTACTS X{(n + k) % 50} {k % 2}\n" for k in range(7))
        text.append(f"RUNG\n{contacts}COIL R{n} 0 0 0\nEND\n")
    return "".join(text)
def mixed():
    """500 rungs: timers, counters, arithmetic, comparisons, tables and shift registers in turn."""
    kinds = [
        "CONTACTS Xa 0\nTON T{n} 30000\nCOIL R{n} 0 0 0\n",
        "CONTACTS Xa 1\nCTU C{n} 30\nCOIL R{n} 0 1 0\n",
        "CONTACTS Xa 0\nADD v{n} v{n} {n}\n",
        "GEQ v{n} 100\nPARALLEL\nOSR\nCONTACTS Xb 0\nEND\nCOIL Y{n} 0 0 0\n",
        "LOOK_UP_TABLE v{n} v0 8 0 1 2 3 4 5 6 7 8\n",
        "CONTACTS Xb 0\nSHIFT_REGISTER s{n}_ 8\n",
        "PERSIST v{n}\n",
    ]
    return header + "".join("RUNG\n" + kinds[n % len(kinds)].format(n=n) + "END\n" for n in range(500))
def filled(line, size):
    """The header's first line, and lines up to the size; they may stand above PROGRAM."""
    top = "LDmicro0.1\nMICRO=Interpretable\n"
    return top + line * ((size - len(top) - 8) // len(line)) + "PROGRAM\n"
def run(name, text):
    source, dest = os.path.join(folder, name + ".ld"), os.path.join(folder, name + ".int")
    open(source, "w").write(text)
    best = 1e9
    for _ in range(7):
        begin = time.perf_counter()
        done = subprocess.run([program, "/c", source, dest], capture_output=True)
        best = min(best, time.perf_counter() - begin)
    pid = os.fork()
    if pid == 0:
        null = os.open(os.devnull, os.O_WRONLY); os.dup2(null, 1)
        os.execv(program, [program, "/c", source, dest])
    _, _, usage = os.wait4(pid, 0)
    print(f"{name:24} {len(text):7} bytes  status {done.returncode}  {best * 1000:8.2f} ms  {usage.ru_maxrss / 1024:6.1f} MiB")
    return best
times = [run(f"{n} elements", project(n)) for n in (1000, 2000, 4000)]
print(f"twice the elements take {times[1] / times[0]:.2f} and {times[2] / times[1]:.2f} times the time")
run("500 mixed rungs", mixed())
run("4,000 comments", header + "".join("RUNG\n" + f"COMMENT {'x' * 500}\n" * 8 + "END\n" for _ in range(500)))
run("8 MiB of header lines", filled("COMPILED=" + "x" * 60 + "\n", 8388608))
run("8 MiB of blank lines", filled("\n", 8388608))
run("9 MiB of one line", "LDmicro0.1\n" + "x" * 9437184)
run("10,000 openings", header + "RUNG\n" + "SERIES\n" * 10000)
P
