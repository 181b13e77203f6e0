#!/usr/bin/env bash
# The benchmark: builds the library, proved, and one program with gilrs, unchanged, and the hub's Rust crate in it, makes the courses, and holds and measures
# both in one run: benchmark/run.sh [SEED].
set -euo pipefail
benchmark=$(cd "$(dirname "${BASH_SOURCE[0]}")" && pwd)
root=$(dirname "$benchmark")
folder=$root/target/benchmark
seed=${1:-1}
. "$root/scripts/x86.sh"
[ -z "$x86_missing" ] || { echo "benchmark: not here, for want of $x86_missing (scripts/x86-install brings it to a Debian machine)" >&2; exit 3; }
read -ra rustc <<<"$x86_rustc"
export X86_RUN=$x86_run

mkdir -p "$folder"
"$root/scripts/library"
ORACLE_BUILD=$folder/oracle ORACLE_RUSTC=$x86_rustc "$root/oracle/build.sh"
"${rustc[@]}" --edition 2021 -O --crate-type rlib --crate-name copperyarn --out-dir "$folder" \
  -L "native=$root/target/staticlib" -l static=copperyarn "$root/rust/src/lib.rs"
"${rustc[@]}" --edition 2021 -O --crate-name pace -o "$folder/pace" -L "native=$root/target/staticlib" \
  -L "dependency=$folder/oracle/common" -L "dependency=$folder/oracle/plain" \
  --extern "copperyarn=$folder/libcopperyarn.rlib" \
  --extern "reading=$folder/oracle/common/libreading.rlib" \
  --extern "gilrs=$folder/oracle/plain/libgilrs.rlib" \
  --extern "gilrs_core=$folder/oracle/plain/libgilrs_core.rlib" "$benchmark/program/main.rs"

make() { $x86_run "$folder/pace" "$1" "$2" >"$folder/$3"; }
make stream "$seed" stream
make singly "$seed" singly
for calls in 0 1000; do make bare "$calls" "bare-$calls"; done
make asking 1000 asking-1000
for steps in 0 12 24 36 48; do make taking "$steps" "taking-$steps"; done
for steps in 0 4 8 12 16; do make pushing "$steps" "pushing-$steps"; done
python3 "$benchmark/measure.py" "$folder"
