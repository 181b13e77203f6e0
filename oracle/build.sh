#!/usr/bin/env bash
# Builds the oracle into oracle/build/: gilrs's seven supplied files, copied and compared, over the stand-ins, once with
# the Y axis reversed and once not, and the player over both. rustc alone. GILRS_SOURCE names another place of the source,
# ORACLE_BUILD another folder to build into, ORACLE_RUSTC another rustc, with its words. The deadzone's calculation, which
# is private in gilrs, is cut out of the copy once more, into a crate of its own.
set -euo pipefail
oracle=$(cd "$(dirname "${BASH_SOURCE[0]}")" && pwd)
source=${GILRS_SOURCE:-$oracle/../../shared/docs/src}/src
build=${ORACLE_BUILD:-$oracle/build}
read -ra rustc <<<"${ORACLE_RUSTC:-rustc}"
supplied=(constants.rs gamepad.rs utils.rs ev/filter.rs ev/mod.rs ev/state.rs mapping/mod.rs)
# shellcheck source=cut.sh
. "$oracle/cut.sh"

say() { printf 'oracle: %s\n' "$*" >&2; }
command -v "${rustc[0]}" >/dev/null || { say 'no rustc here'; exit 3; }
for file in "${supplied[@]}"; do
  [ -f "$source/$file" ] || { say "no $source/$file; GILRS_SOURCE names the folder that holds src/"; exit 3; }
done

# The copies are compared on every run, also when nothing is to be built.
unchanged() {
  local file
  for file in "${supplied[@]}"; do
    cmp -s "$source/$file" "$build/gilrs/$file" || return 1
  done
}

fresh() {
  local from=("$oracle"/{stand-ins,reading,desk,player,build.sh,cut.sh})
  [ -x "$build/oracle" ] && unchanged &&
    [ -z "$(find "${from[@]}" -type f -newer "$build/oracle" -print -quit)" ]
}

compile() { # NAME FILE FOLDER [more]: one library, found by the later ones in the folder
  local name=$1 file=$2 folder=$3
  shift 3
  "${rustc[@]}" --edition 2021 -O --crate-type rlib --crate-name "$name" --out-dir "$folder" \
    -L "dependency=$build/common" -L "dependency=$folder" "$@" "$file"
}

uses() { # FOLDER CRATE...: the --extern arguments
  local folder=$1 crate
  shift
  for crate in "$@"; do printf -- '--extern\n%s=%s/lib%s.rlib\n' "$crate" "$folder" "$crate"; done
}

gilrs() { # FOLDER [--cfg ..]: gilrs and the desk over it; the metadata keeps the two builds apart in one program
  local folder=$1 metadata common mine
  shift
  metadata=$(basename "$folder")
  mkdir -p "$folder"
  compile gilrs_core "$oracle/stand-ins/gilrs_core.rs" "$folder" -C "metadata=$metadata" --cap-lints allow "$@"
  mapfile -t common < <(uses "$build/common" log fnv uuid vec_map)
  mapfile -t mine < <(uses "$folder" gilrs_core)
  OUT_DIR=$build/common compile gilrs "$build/gilrs/lib.rs" "$folder" -C "metadata=$metadata" --cap-lints allow \
    "${common[@]}" "${mine[@]}"
  mapfile -t mine < <(uses "$folder" gilrs_core gilrs; uses "$build/common" reading calculation)
  compile "desk_$metadata" "$oracle/desk/lib.rs" "$folder" "${mine[@]}"
}

if fresh; then exit 0; fi
rm -rf "$build"
mkdir -p "$build"/gilrs/{ev,mapping} "$build"/{common,calculation}
for file in "${supplied[@]}"; do cp "$source/$file" "$build/gilrs/$file"; done
unchanged || { say 'the copies differ from the supplied files'; exit 1; }
cp "$oracle"/stand-ins/{lib,ff,window}.rs "$build/gilrs/"
cp "$oracle/stand-ins/parser.rs" "$build/gilrs/mapping/"
: >"$build/common/gamecontrollerdb.txt" # the crate's own list of mappings, which the oracle never loads
for crate in log fnv uuid vec_map; do compile "$crate" "$oracle/stand-ins/$crate.rs" "$build/common"; done
compile reading "$oracle/reading/lib.rs" "$build/common"
cp "$oracle/stand-ins/calculation.rs" "$build/calculation/"
item "$build/gilrs/utils.rs" 'pub fn clamp(' >"$build/calculation/utils.rs"
item "$build/gilrs/ev/filter.rs" 'fn apply_deadzone(' >"$build/calculation/apply_deadzone.rs"
compile calculation "$build/calculation/calculation.rs" "$build/common" --cap-lints allow
gilrs "$build/plain"
gilrs "$build/reversed" --cfg y_axis_reversed
"${rustc[@]}" --edition 2021 -O --crate-name oracle -o "$build/oracle" \
  -L "dependency=$build/common" -L "dependency=$build/plain" -L "dependency=$build/reversed" \
  --extern "reading=$build/common/libreading.rlib" \
  --extern "desk_plain=$build/plain/libdesk_plain.rlib" \
  --extern "desk_reversed=$build/reversed/libdesk_reversed.rlib" "$oracle/player/main.rs"
say 'built'
