#!/usr/bin/env bash
# Builds padlog, proved, and runs it on a shipped sheet and batch: padlog.sh [SHEET BATCH]. Without names, document 01's example. The first run proves what padlog
# stands on, some minutes, and tells on standard error how far it is.
set -euo pipefail
cd "$(dirname "${BASH_SOURCE[0]}")"
sheet=${1:-hat} batch=${2:-hat}
scripts/program padlog
cat "desk-files/sheets/$sheet.bin" "desk-files/batches/$batch.bin" | scripts/run padlog
