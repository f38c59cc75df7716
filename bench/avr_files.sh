#!/usr/bin/env bash
# Prints what each project for the ATmega16 takes, as its report says it, and how long `/c` and `/r` of it take. A benchmark, not a test.
#
#     bench/avr_files.sh PROJECT...
#
# A project NAME.ld, or NAME.m16.ld, is run over NAME.trc or NAME.trace beside it, where there is one. Then follows how many instruction cycles a second `/r`
# runs: it is given a file whose one word jumps to itself, which ends after 1,000,000 cycles. Without a project it takes those of examples/avr.
set -eu
top=$(cd "$(dirname "$0")/.." && pwd)
program=$top/crates/ldmicro/out/ldmicro
[ -x "$program" ] || (cd "$top/crates/ldmicro" && rt build >/dev/null)
[ $# -gt 0 ] || set -- "$top"/examples/avr/*.ld
python3 - "$program" "$top/examples/avr/startstop.ld" "$@" <<'P'
import pathlib, subprocess, sys, tempfile, time
program, loop, *projects = sys.argv[1:]
folder = pathlib.Path(tempfile.mkdtemp())


def timed(*words):
    start = time.perf_counter()
    done = subprocess.run([program, *map(str, words)], capture_output=True, text=True, check=False)
    return 1000 * (time.perf_counter() - start), done


print(f"{'project':20} {'words':>6} {'cycles':>6} {'boot':>6} {'/c ms':>6} {'/r ms':>6}")
for project in map(pathlib.Path, projects):
    spent, done = timed("/c", project, folder / "made.hex")
    if done.returncode:
        print(f"{project.name:20} {done.stdout.strip()}")
        continue
    said = dict(line.split()[:2] for line in done.stdout.splitlines())
    name = project.name.split(".")[0]
    traces = [trace for ending in ("trc", "trace") if (trace := project.parent / f"{name}.{ending}").exists()]
    ran = f"{timed('/r', project, folder / 'made.hex', traces[0])[0]:6.1f}" if traces else f"{'-':>6}"
    print(f"{project.name:20} {said['words']:>6} {said['cycles']:>6} {said['boot']:>6} {spent:6.1f} {ran}")

(folder / "loop.hex").write_text(":02000000FFCF30\n:00000001FF\n")
(folder / "loop.trace").write_text("Xstart=1\n")
spent, done = timed("/r", loop, folder / "loop.hex", folder / "loop.trace")
assert done.returncode == 7, done.stdout
print(f"/r runs {1000 / spent:.0f} million instruction cycles a second")
P
