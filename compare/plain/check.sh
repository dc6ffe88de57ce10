#!/bin/sh
# Runs plainrun over every case of the base vectors and says how many agree, byte for byte.
# Usage: ./check.sh [folder of cases]
here=$(cd "$(dirname "$0")" && pwd)
cases=${1:-$here/../../tests/vectors/base}
(cd "$here" && cargo build --release --quiet --bin plainrun) || exit 2
plainrun=${CARGO_TARGET_DIR:-$here/target}/release/plainrun
agree=0
total=0
for folder in "$cases"/[0-9]*/; do
    total=$((total + 1))
    events=$folder/events.bin
    [ -f "$events" ] || events=/dev/null
    if (cd "$folder" && "$plainrun" <"$events") | cmp -s - "$folder/expected.txt"; then
        agree=$((agree + 1))
    else
        echo "disagrees: $folder"
    fi
done
echo "$agree of $total cases agree"
[ "$agree" -eq "$total" ] && [ "$total" -gt 0 ]
