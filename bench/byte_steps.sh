#!/usr/bin/env bash
# Times the byte machine: primitives a second over a loop of mixed ones. A benchmark, not a test: see avr_steps.sh.
set -eu
top=$(cd "$(dirname "$0")/.." && pwd)
folder=$(mktemp -d)
trap 'rm -rf "$folder"' EXIT
mkdir -p "$folder/crates/byte_steps/src"
cp -r "$top"/crates/{ld_base,chip_tables,runs,byte_code} "$folder/crates"
cp "$top/bench/byte_steps.program" "$folder/crates/byte_steps/src/main.rt"
grep -E '^(ld_base|chip_tables|runs|byte_code):' "$top/crates.txt" >"$folder/crates.txt"
echo 'byte_steps: byte_code chip_tables ld_base sqlite_items' >>"$folder/crates.txt"
cd "$folder/crates/byte_steps"
rt run | tail -n 1
