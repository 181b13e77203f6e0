#!/usr/bin/env bash
# count.sh PROGRAM NAMES WORD..: runs an x86-64 program with its words on standard input and says on standard error how many instructions it ran inside the
# functions whose names have one of NAMES (a|b) in them, as callgrind does with --toggle-collect. For machines that are not x86-64: Debian's qemu-user
# with the plugin count.c. Ends with 3 where there is none, or no cc.
set -euo pipefail
benchmark=$(cd "$(dirname "${BASH_SOURCE[0]}")" && pwd)
program=$1
names=$2
shift 2
folder=$(dirname "$program")
emulator=$(command -v qemu-x86_64 || true)
if [ -z "$emulator" ] || ! "$emulator" -h | grep -q -- -plugin || ! command -v cc >/dev/null; then
  echo 'count.sh: no qemu-user that takes plugins, or no cc' >&2
  exit 3
fi
[ "$folder/count.so" -nt "$benchmark/count.c" ] || cc -shared -fPIC -O2 -Wall -o "$folder/count.so" "$benchmark/count.c"
# the program is loaded where the emulator likes: count.c learns from where its code starts in the file by how much it was moved
start=$(readelf -lW "$program" | awk '$1 == "LOAD" && / E / { print $3; exit }')
sites=$(x86_64-linux-gnu-objdump -d --no-show-raw-insn "$program" | awk -v names="$names" '
  /^[0-9a-f]+ </ && $2 ~ names { printf ",in=%s", $1 }
  after { sub(":", "", $1); printf ",out=%s", $1; after = 0 }
  /\tcall / && $NF ~ names { after = 1 }')
[[ $sites == *,out=* ]] || { echo "count.sh: $program calls none of $names" >&2; exit 1; }
exec "$emulator" -plugin "$folder/count.so,start=$start$sites" "$program" "$@"
