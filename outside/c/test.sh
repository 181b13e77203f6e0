#!/usr/bin/env bash
# The headers and the library from C: outside/c/test.sh, after `scripts/library`. The headers are compiled as C11 and C++17 in any case. Then the programs
# here are built for x86-64, plainly, optimised, and with undefined behaviour trapped, and run: padlog on the shipped sheets and batches, the oracle's stored
# sample, 01's worked numbers, every refusal, since when a button is held, why a stick went quiet, what is down right now, which pads are old. On x86-64 they
# run under valgrind too where it is at hand, elsewhere under qemu. Exit status 3: the programs were left out, as no compiler for x86-64 or no emulator is at
# hand.
set -euo pipefail
here=$(cd "$(dirname "${BASH_SOURCE[0]}")" && pwd)
root=$(cd "$here/../.." && pwd)
library=$root/target/staticlib/libcopperyarn.a
strict=(-I "$root/include" -Wall -Wextra -Wpedantic -Wconversion -Wshadow -Werror)
folder=$(mktemp -d)
trap 'rm -rf "$folder"' EXIT

have() { command -v "$1" >/dev/null; }

"${CC:-cc}" -std=c11 "${strict[@]}" -fsyntax-only "$here/layout.c"
"${CXX:-c++}" -std=c++17 "${strict[@]}" -fsyntax-only "$here/layout.cpp"
echo 'The headers are clean C11 and C++17.'

runner=()
if [ "$(uname -m)" = x86_64 ]; then
  compiler=("${CC:-cc}") plusplus=${CXX:-c++}
else
  compiler=(x86_64-linux-gnu-gcc -static) plusplus=x86_64-linux-gnu-g++ runner=(qemu-x86_64)
  for tool in "${compiler[0]}" "${runner[0]}"; do
    have "$tool" || { echo "The C programs were left out: no $tool on this machine, which is not x86-64."; exit 3; }
  done
fi
[ -f "$library" ] || { echo "no $library: run 'scripts/library' first" >&2; exit 2; }

# build NAME WORDS..: builds one program with these words
build() { "${compiler[@]}" -std=c11 "${strict[@]}" "${@:2}" -o "$folder/$1" "$here/$1.c" "$library"; }

# run NAME ARGUMENTS..: runs it, under the emulator or a memory checker where there is one
run() { ${runner[@]+"${runner[@]}"} "$folder/$1" "${@:2}"; }

padlog() {
  local sheet batch
  while read -r sheet batch; do
    case $sheet in '#'* | '') continue ;; esac
    run example "$root/desk-files/sheets/$sheet.bin" "$root/desk-files/batches/$batch.bin" >"$folder/said" 2>"$folder/told" || { cat "$folder/told"; return 1; }
    diff "$root/desk-files/answers/$sheet+$batch.txt" "$folder/said" || { echo "the example differs on the sheet $sheet with the batch $batch"; return 1; }
  done <"$root/desk-files/cases.txt"
}

# play SCENARIOS ANSWERS: a stored scenario file against gilrs's answers
play() { run play "$root/oracle/sample/$1" >"$folder/said" && cmp "$root/oracle/sample/$2" "$folder/said"; }

# each by `&&`: where the caller looks at its status bash would go on behind a failure
all() {
  padlog && play example.bin example.txt && play worked.bin worked.txt && play scenarios.bin answers.txt &&
    run worked && run refusals && run held && run tilt && run down && run old
}

# tested WORDS..: every program built with these words and run
tested() {
  for name in example play worked refusals held tilt down old; do build "$name" "$@"; done
  all >"$folder/lines" || { cat "$folder/lines"; echo "built with: $*"; exit 1; }
}

tested -O0 -g
# valgrind may be at hand and yet unable to watch a program, as without the C library's symbols
if [ ${#runner[@]} -eq 0 ] && have valgrind && valgrind -q true 2>/dev/null; then
  runner=(valgrind --error-exitcode=1 -q)
  all >"$folder/lines" || { cat "$folder/lines"; exit 1; }
  echo 'No program touches what is not its own: valgrind has nothing to say.'
  runner=()
else
  echo 'The run under valgrind was left out: none here that can watch a program for x86-64.'
fi
tested -O1 -fsanitize=undefined -fsanitize-undefined-trap-on-error
tested -O2
cat "$folder/lines"
if have "$plusplus"; then
  for name in worked refusals held tilt down old; do
    "$plusplus" "${compiler[@]:1}" -x c++ -std=c++17 "${strict[@]}" -o "$folder/$name" "$here/$name.c" -x none "$library"
    run "$name" >"$folder/lines" || { cat "$folder/lines"; exit 1; }
  done
  echo 'The same six as C++17.'
fi
echo 'The library answers C as gilrs did: padlog on the shipped files and every scenario of the stored sample.'
