#!/usr/bin/env bash
# Plays the stored sample and COUNT random scenarios through the Rust crate and compares with gilrs's answers: rust/compare.sh [COUNT [SEED]].
set -euo pipefail
rust=$(cd "$(dirname "${BASH_SOURCE[0]}")" && pwd)
PLAYER=$rust/play exec "$rust/../oracle/compare.sh" "$@"
