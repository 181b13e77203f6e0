#!/usr/bin/env bash
# Builds the library for C and Rust, proved if need be, and holds it to the answers from outside: the header compiled as C11 and C++17, the C tests, the Rust
# crate's tests and examples, the stored sample, and, where the oracle is built, random scenarios: bash outside.sh [COUNT [SEED]]. What this machine cannot do
# is left out, and said; a test that fails ends it with 1.
set -euo pipefail
cd "$(dirname "$0")"
count=${1:-1000}
seed=${2:-$(date +%s)}
say() { printf 'outside: %s\n' "$*"; }

scripts/library
left=0
outside/c/test.sh || left=$?
[ "$left" -eq 0 ] || [ "$left" -eq 3 ] || exit "$left"
. scripts/x86.sh
if [ -n "$x86_missing" ]; then
  say "the Rust tests are left out, for want of $x86_missing (scripts/x86-install brings it to a Debian machine)"
  exit 0
fi
# shellcheck disable=SC2086
(cd rust && cargo test --quiet --offline $x86_cargo)
oracle/build.sh || { [ $? -eq 3 ] && count=0 || exit 1; }
rust/compare.sh "$count" "$seed"
if [ "$left" -eq 0 ]; then
  say 'C and Rust hold to the answers'
else
  say 'Rust holds to the answers; the C tests were left out'
fi
