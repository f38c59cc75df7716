#!/usr/bin/env bash
# Times the written PIC16F877: steps a second over a loop of mixed instructions.
# A benchmark, not a test. Its program is `pic_steps.program`, which is in no list of crates and has no name of source code, so that the
# gate does not wait for it: here it is proved and built in a copy of the crates that it uses.
set -eu
top=$(cd "$(dirname "$0")/.." && pwd)
folder=$(mktemp -d)
trap 'rm -rf "$folder"' EXIT
mkdir -p "$folder/crates/pic_steps/src"
cp -r "$top"/crates/{chip_tables,runs,insn_rows,avr_devices,pic_devices,pic16_mach} "$folder/crates"
cp "$top/bench/pic_steps.program" "$folder/crates/pic_steps/src/main.rt"
grep -E '^(chip_tables|runs|insn_rows|avr_devices|pic_devices|pic16_mach):' "$top/crates.txt" >"$folder/crates.txt"
echo 'pic_steps: pic16_mach insn_rows pic_devices avr_devices chip_tables runs' >>"$folder/crates.txt"
cd "$folder/crates/pic_steps"
rt run | tail -n 1
