#!/usr/bin/env bash
# Times the written ATmega16: steps a second over a loop of mixed instructions.
# A benchmark, not a test. Its program is `avr_steps.program`, which is in no list of crates and has no name of source code, so that the
# gate does not wait for it: here it is proved and built in a copy of the crates that it uses.
set -eu
top=$(cd "$(dirname "$0")/.." && pwd)
folder=$(mktemp -d)
trap 'rm -rf "$folder"' EXIT
mkdir -p "$folder/crates/avr_steps/src"
cp -r "$top"/crates/{chip_tables,runs,insn_rows,avr_devices,avr_mach} "$folder/crates"
cp "$top/bench/avr_steps.program" "$folder/crates/avr_steps/src/main.rt"
grep -E '^(chip_tables|runs|insn_rows|avr_devices|avr_mach):' "$top/crates.txt" >"$folder/crates.txt"
echo 'avr_steps: avr_mach avr_devices chip_tables runs' >>"$folder/crates.txt"
cd "$folder/crates/avr_steps"
rt run | tail -n 1
