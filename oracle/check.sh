#!/usr/bin/env bash
# Checks what is stored against what made it: the sample's scenarios against their seed, its answers against gilrs, the
# byte-form cases that `forms` plays against reader.py, reader.py's answers against the player's own reading of 01, and the
# lists that `values` and `decisions` play against gilrs.
set -euo pipefail
oracle=$(cd "$(dirname "${BASH_SOURCE[0]}")" && pwd)
forms=$oracle/../crates/compare_forms
folder=$(mktemp -d)
trap 'rm -rf "$folder"' EXIT
"$oracle/build.sh"
"$oracle/example.sh" >/dev/null
# shellcheck source=sample/made-with
. "$oracle/sample/made-with"
"$oracle/build/oracle" generate "$SEED" "$COUNT" >"$folder/scenarios.bin"
cmp "$folder/scenarios.bin" "$oracle/sample/scenarios.bin"
"$oracle/build/oracle" play --crate-loop "$oracle/sample/scenarios.bin" >"$folder/answers.txt"
cmp "$folder/answers.txt" "$oracle/sample/answers.txt"
python3 "$oracle/reader.py" make "$folder"
cmp "$folder/stdin" "$forms/stdin"
cmp "$folder/stdout" "$forms/stdout"
"$oracle/build/oracle" cases "$forms/stdin" >"$folder/answers.txt"
cmp "$folder/answers.txt" "$forms/stdout"
"$oracle/values/make_list" --check
"$oracle/decisions/make_list" --check
echo 'The stored sample, cases and lists are what the oracle and the reader make.'
