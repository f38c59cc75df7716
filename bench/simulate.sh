#!/usr/bin/env bash
# Times `./ldmicro /s` and `/r` with output to a file, and prints cycles a second and peak memory: 100,000 cycles of the traffic light and of 500 rungs,
# and 1,000 cycles of each for the memory. A benchmark, not a test: it ends with 0 whatever it finds.
set -u
top=$(cd "$(dirname "$0")/.." && pwd)
"$top/ldmicro" >/dev/null   # builds the program where it is missing
folder=$(mktemp -d)
trap 'rm -rf "$folder"' EXIT
python3 - "$top/crates/ldmicro/out/ldmicro" "$folder" "$top/examples/traffic.ld" <<'P'
import os, pathlib, sys, time
program, folder, light = sys.argv[1], pathlib.Path(sys.argv[2]), pathlib.Path(sys.argv[3]).read_text()
header = "LDmicro0.1\nMICRO=Interpretable Byte Code\nCYCLE=10000\nCRYSTAL=4000000\nBAUD=2400\n\nIO LIST\nEND\n\nPROGRAM\n"
def mixed():
    """500 rungs: sums, timers, counters and branches in turn."""
    kinds = [
        "CONTACTS Xa 0\nADD v{n} v{n} {n}\n",
        "CONTACTS Xa 1\nTON T{n} 20000\nCOIL R{n} 0 0 0\n",
        "CONTACTS Xa 0\nCTU C{n} 3\nCOIL R{n} 0 0 0\n",
        "PARALLEL\nCONTACTS Xb 0\nCONTACTS Xa 1\nEND\nCOIL Yb 0 0 0\n",
    ]
    return header + "".join("RUNG\n" + kinds[n % 4].format(n=n) + "END\n" for n in range(500))
def timed(words):
    """Seconds, and peak memory in MiB."""
    begin = time.perf_counter()
    pid = os.fork()
    if pid == 0:
        out = os.open(folder / "out", os.O_WRONLY | os.O_CREAT | os.O_TRUNC); os.dup2(out, 1)
        os.execv(program, [program, *map(str, words)])
    _, status, usage = os.wait4(pid, 0)
    assert status == 0, (words, status)
    return time.perf_counter() - begin, usage.ru_maxrss / 1024
def run(name, text, first):
    source, code, trace = folder / "a.ld", folder / "a.int", folder / "a.trace"
    source.write_text(text)
    timed(["/c", source, code])
    for cycles in (1000, 100000):
        trace.write_text("".join(f"{cycles // 10}: {first}={step % 2}\n" for step in range(10)))
        for words in (["/s", source, trace], ["/r", source, code, trace]):
            seconds, memory = timed(words)
            print(f"{name:14} {words[0]}  {cycles:6} cycles  {seconds:7.3f} s  {cycles / seconds:10.0f} cycles/s  {memory:6.1f} MiB  {(folder / 'out').stat().st_size / 1e6:7.1f} MB of lines")
run("traffic light", light, "Xrun")
run("500 rungs", mixed(), "Xa")
P
