#!/usr/bin/env bash
# Times the assembler for the smallest chip: 50,000 and 100,000 primitives, as far as its flash goes labels without words, and as many that are
# refused since they have more words than the flash. A benchmark, not a test: see avr_steps.sh. That the code may be assembled is proved too, so
# proofs stand beside the program, under names of no source code.
set -eu
top=$(cd "$(dirname "$0")/.." && pwd)
folder=$(mktemp -d)
trap 'rm -rf "$folder"' EXIT
crate="$folder/crates/assemble_time"
mkdir -p "$crate"/{src,specs,proofs/filled,proofs/assembled}
cp -r "$top"/crates/{ld_base,chip_tables,runs,byte_code,target_core,tiny_gen} "$folder/crates"
cp "$top/bench/assemble/main.program" "$crate/src/main.rt"
cp "$top/bench/assemble/filled.specs" "$crate/specs/Filled.antt"
cp "$top/bench/assemble/filling.proofs" "$crate/proofs/Filling.antt"
cp "$top/bench/assemble/filled.invariants" "$crate/proofs/filled/Invariants.antt"
cp "$top/bench/assemble/assembled.answers" "$crate/proofs/assembled/Answers.antt"
echo 'pub mod Filled' >"$crate/specs/Lib.antt"
echo 'pub mod Filling' >"$crate/proofs/Lib.antt"
grep -E '^(ld_base|chip_tables|runs|byte_code|target_core|tiny_gen):' "$top/crates.txt" >"$folder/crates.txt"
echo 'assemble_time: tiny_gen target_core byte_code ld_base sqlite_items' >>"$folder/crates.txt"
cd "$crate"
rt run | tail -n 4
