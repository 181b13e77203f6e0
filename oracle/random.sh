#!/usr/bin/env bash
# Plays COUNT random scenarios on gilrs, by single turns and by the crate's own loop: oracle/random.sh COUNT [SEED].
# A panic, or a difference between the two, ends it with an error; the seed that was used is printed.
set -euo pipefail
oracle=$(cd "$(dirname "${BASH_SOURCE[0]}")" && pwd)
count=${1:?how many scenarios}
seed=${2:-$(date +%s)}
"$oracle/build.sh"
folder=$(mktemp -d)
trap 'rm -rf "$folder"' EXIT
echo "seed $seed"
"$oracle/build/oracle" generate "$seed" "$count" >"$folder/scenarios.bin"
"$oracle/build/oracle" play --crate-loop "$folder/scenarios.bin" >"$folder/answers.txt"
awk '{ word = $1 }
  word == "REFUSED" || word == "TILT" { word = word " " $2 }
  word == "PAIR" { word = word " " $4 }
  { count[word]++ }
  END { for (word in count) printf "%9d %s\n", count[word], word }' "$folder/answers.txt" | sort -k 2,2 -k 3,3n
echo "$count scenarios, $(wc -l <"$folder/answers.txt") answers and events, no panic, no difference"
