#!/usr/bin/env bash
# Holds zone pads (W-203) to gilrs, which has none: oracle/zones.sh COUNT [SEED]. Of COUNT random scenarios with zone pads that convert, twins/ writes each
# once more for plain gilrs: the sheet without bit 7, the hat's axes made -1..1, each hat value its zone's -1, 0 or 1, values in the last zone left out. What
# gilrs plays of those, events and what is asked between the pumps, must be what the hub plays of the scenarios themselves, and what the oracle's player does.
# Left out of the comparison are a pump's place and steps, which a record that is left out changes, and the hats of a dump. What plays the hub is the linked
# program of replay (`rt check replay`), or the command that PLAYER names, which reads scenarios from standard input.
set -euo pipefail
oracle=$(cd "$(dirname "${BASH_SOURCE[0]}")" && pwd)
count=${1:?how many scenarios}
seed=${2:-$(date +%s)}
code=0
"$oracle/build.sh" || code=$?
if [ "$code" -eq 3 ]; then
  echo 'zone pads: not held to gilrs, for want of rustc or the supplied source'
  exit 0
elif [ "$code" -ne 0 ]; then
  exit "$code"
fi
folder=$(mktemp -d)
trap 'rm -rf "$folder"' EXIT
# shellcheck source=cut.sh
. "$oracle/cut.sh"

play() {
  if [ -n "${PLAYER:-}" ]; then "$PLAYER"; else "$oracle/../scripts/run" replay; fi
}

# without what the two may differ in
comparable() {
  awk '$1 == "DRAINED" { print $1, $3; next } $1 == "DUMP" { print $1, $2, $3; next } { print }' "$1" >"$1.comparable"
}

hold() { # FILE NAME: the answers of a player of zone pads
  comparable "$1"
  cmp -s "$folder/twin.txt.comparable" "$1.comparable" && return
  diff "$folder/twin.txt.comparable" "$1.comparable" | head -n 20 || true
  echo "a difference on the zone pads of seed $seed, $count scenarios: gilrs on their twins is '<', $2 '>'"
  exit 1
}

item "$oracle/build/gilrs/gamepad.rs" 'fn axis_value(info: &AxisInfo' >"$folder/axis_value.rs"
item "$oracle/build/gilrs/utils.rs" 'pub fn clamp(' >"$folder/clamp.rs"
CUT=$folder rustc --edition 2021 -O -o "$folder/twins" -L "dependency=$oracle/build/common" \
  --extern "reading=$oracle/build/common/libreading.rlib" "$oracle/twins/main.rs"
drawn=$("$folder/twins" "$seed" "$count" "$folder/zones.bin" "$folder/twin.bin")
"$oracle/build/oracle" play --crate-loop "$folder/twin.bin" >"$folder/twin.txt" 2>"$folder/loop"
comparable "$folder/twin.txt"
"$oracle/build/oracle" play "$folder/zones.bin" >"$folder/player.txt"
hold "$folder/player.txt" "the oracle's player"
play <"$folder/zones.bin" >"$folder/hub.txt"
hold "$folder/hub.txt" 'the hub'
events=$(grep -cE '^(PRESSED|RELEASED|CHANGED|AXIS|CONNECTED|DISCONNECTED) ' "$folder/twin.txt")
echo "zone pads: $count scenarios of seed $seed, $drawn; $events events and $(($(wc -l <"$folder/twin.txt") - events)) answers as gilrs gives them for their twins"
