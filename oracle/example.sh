#!/usr/bin/env bash
# Plays 01's padlog example, its worked numbers and those of W-205 on gilrs and compares with the answers that 01 and
# the request give, which stand in sample/.
# Without rustc or the supplied source it shows the stored answers and says so.
set -euo pipefail
oracle=$(cd "$(dirname "${BASH_SOURCE[0]}")" && pwd)
sample=$oracle/sample

show() {
  echo "01's padlog example:"
  sed 's/^/    /' "$sample/example.txt"
  echo "01's worked numbers, and behind them W-205's:"
  paste "$sample/worked.words" "$sample/worked.txt" | awk -F '\t' '{ printf "    %-46s%s\n", $1, $2 }'
}

code=0
"$oracle/build.sh" || code=$?
if [ "$code" -eq 3 ]; then
  show
  echo 'These are the stored answers: without rustc and the supplied source nothing was played.'
  exit 0
elif [ "$code" -ne 0 ]; then
  exit "$code"
fi
folder=$(mktemp -d)
trap 'rm -rf "$folder"' EXIT
for name in example worked; do
  "$oracle/build/oracle" "$name" >"$folder/$name.bin"
  cmp "$folder/$name.bin" "$sample/$name.bin"
  "$oracle/build/oracle" play --crate-loop "$sample/$name.bin" >"$folder/$name.txt" 2>/dev/null
  diff "$sample/$name.txt" "$folder/$name.txt"
done
show
echo 'Played on gilrs: every answer is the one of 01, or of the request.'
