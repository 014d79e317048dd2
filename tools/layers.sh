#!/usr/bin/env bash
# Runs the program's list of cases over 0, 1 and 2 layers that remember kinds, and stops with status 1 unless it prints
# each time what stands in stdout, beside the two lines of the command `memo` itself.
set -euo pipefail
cd "$(dirname "$0")/../crates/dts_lookup"
told=$(mktemp)
trap 'rm -f "$told"' EXIT
for layers in 0 1 2; do
    sed "0,/^table /s/^table .*/&\nmemo $layers/" stdin | rt run 2>/dev/null >"$told"
    [ "$(grep -c "^> memo $layers\$" "$told")" = 1 ]
    sed "/^> memo $layers\$/,+1d" "$told" | cmp - stdout
    echo "memo $layers: as in stdout"
done
