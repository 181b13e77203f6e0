#!/usr/bin/env bash
# Plays scenarios on the hub and compares with gilrs's answers: oracle/compare.sh [COUNT [SEED]]. First the stored sample, which needs no oracle; then
# COUNT random scenarios on both, valid and damaged. They are made in parts, each by a seed of its own, counted up from SEED (the clock's seconds, if none
# is given); on a difference the part's seed is printed. What plays is the linked program of replay (`scripts/program replay`), or the command that PLAYER names,
# which reads scenarios from standard input.
set -euo pipefail
oracle=$(cd "$(dirname "${BASH_SOURCE[0]}")" && pwd)
count=${1:-0}
seed=${2:-$(date +%s)}
part=5000
folder=$(mktemp -d)
trap 'rm -rf "$folder"' EXIT

play() {
  if [ -n "${PLAYER:-}" ]; then "$PLAYER"; else "$oracle/../scripts/run" replay; fi
}

# the hub's answers to a scenario file against gilrs's; a name for what was played
compare() {
  play <"$1" >"$folder/hub.txt"
  cmp -s "$2" "$folder/hub.txt" && return
  diff "$2" "$folder/hub.txt" | head -n 20 || true
  echo "a difference on $3: gilrs is '<', the hub '>'"
  exit 1
}

sample=$oracle/sample
compare "$sample/scenarios.bin" "$sample/answers.txt" "the stored sample"
compare "$sample/example.bin" "$sample/example.txt" "01's example"
compare "$sample/worked.bin" "$sample/worked.txt" "01's worked numbers"
echo "the stored sample: no difference"
[ "$count" -gt 0 ] || exit 0

"$oracle/build.sh"
echo "seeds from $seed on"
played=0 answers=0
while [ "$played" -lt "$count" ]; do
  now=$((count - played < part ? count - played : part))
  "$oracle/build/oracle" generate "$seed" "$now" >"$folder/scenarios.bin"
  "$oracle/build/oracle" play "$folder/scenarios.bin" >"$folder/gilrs.txt"
  compare "$folder/scenarios.bin" "$folder/gilrs.txt" "seed $seed, $now scenarios (oracle/generate $seed $now)"
  answers=$((answers + $(wc -l <"$folder/gilrs.txt")))
  played=$((played + now)) seed=$((seed + 1))
done
echo "$count scenarios, $answers answers and events, no difference"
