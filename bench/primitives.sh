#!/usr/bin/env bash
# Prints how many primitives of the byte machine each element takes, alone in a rung, and how many of them a cycle begins at most. What every ladder of one
# rung has, which is the start, the loop and the rung's power, is in none of the numbers; a routine of products or quotients is. A benchmark, not a test: it
# asks the program of cases.
set -eu
top=$(cd "$(dirname "$0")/.." && pwd)
program=$top/crates/byte_cases/out/byte_cases
[ -x "$program" ] || (cd "$top/crates/byte_cases" && rt run >/dev/null)
python3 - "$program" <<'P'
import re, subprocess, sys
front = r"front LDmicro0.1\nMICRO=Interpretable Byte Code\nCYCLE=10000\nCRYSTAL=4000000\nBAUD=2400\n\nIO LIST\nXa at 1\nYb at 14\nEND\n\nPROGRAM\n"
elements = [
    "CONTACTS Xa 0", "CONTACTS Xa 1", "COIL Yb 0 0 0", "COIL Yb 1 0 0", "COIL Yb 0 1 0", "COIL Yb 0 0 1", "OSR", "OSF", "SHORT", "OPEN", "MASTER_RELAY",
    "TON Td 30000", "TOF Td 30000", "RTO Td 30000", "CTU Cn 5", "CTD Cn 5", "CTC Cn 5", "RES Cn", "MOVE a 5", "MOVE a b",
    "ADD a b c", "ADD a b 5", "SUB a b c", "SUB a 5 b", "MUL a b c", "MUL a 3 5", "DIV a b c", "DIV a 7 2",
    "EQU a b", "NEQ a b", "GRT a b", "GEQ a b", "LES a b", "LEQ a b", "EQU a 5", "GRT a 5", "GRT 5 a",
    "SHIFT_REGISTER s 4", "SHIFT_REGISTER s 60", "LOOK_UP_TABLE a b 1 0 5", "LOOK_UP_TABLE a b 3 0 10 20 30", "LOOK_UP_TABLE a 1 3 0 10 20 30",
    "PARALLEL\\nEND", "PARALLEL\\nCONTACTS Xa 0\\nCONTACTS Xa 1\\nEND",
]
script = [front.rstrip("\n"), "target ATmega16", r"rungs RUNG\nSHORT\nEND\n", "count"]
for element in elements:
    script += [rf"rungs RUNG\n{element}\nEND\n", "count"]
said = subprocess.run([sys.argv[1]], input="\n".join(script) + "\n", capture_output=True, text=True, check=True).stdout
counts = [tuple(map(int, pair)) for pair in re.findall(r"^count -> (\d+) primitives, (\d+) in a cycle$", said, re.M)]
assert len(counts) == len(elements) + 1, said
base = counts[0]
print(f"{'element':48} {'primitives':>10} {'in a cycle':>10}")
for element, (all_, turns) in zip(elements, counts[1:]):
    shown = element.replace("\\n", ", ")
    print(f"{shown:48} {all_ - base[0]:10} {turns - base[1]:10}")
P
