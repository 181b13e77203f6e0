#!/usr/bin/env bash
# Plays every case of cases.txt on padlog and compares with the stored answers; an input that is far too long among them. Where the oracle can be built,
# the answers are made anew and compared too.
set -euo pipefail
files=$(cd "$(dirname "${BASH_SOURCE[0]}")" && pwd)
folder=$(mktemp -d)
trap 'rm -rf "$folder"' EXIT

play() { cat "$files/sheets/$1.bin" "$files/batches/$2.bin" | "$files/../scripts/run" padlog; }

cases=0
while read -r sheet batch; do
  case $sheet in '#'* | '') continue ;; esac
  play "$sheet" "$batch" >"$folder/played"
  diff "$files/answers/$sheet+$batch.txt" "$folder/played" || { echo "padlog differs on the sheet $sheet with the batch $batch"; exit 1; }
  cases=$((cases + 1))
done <"$files/cases.txt"
# more than any buffer holds: the batch is too long whatever follows
{ cat "$files/sheets/hat.bin"; head -c 3000000 /dev/zero; } | "$files/../scripts/run" padlog >"$folder/played"
diff <(echo 'STOPPED 14 0') "$folder/played"
echo "padlog: $cases cases, each as gilrs plays it"

code=0
"$files/../oracle/build.sh" || code=$?
if [ "$code" -eq 0 ]; then
  python3 "$files/answers.py" "$folder"
  rm "$folder/played"
  diff -r "$files/answers" "$folder"
  echo 'The stored answers of padlog are what the oracle makes.'
elif [ "$code" -ne 3 ]; then
  exit "$code"
fi
