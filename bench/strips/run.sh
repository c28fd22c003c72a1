#!/bin/sh
# Times the C program and the proved one on the same records, the best of five runs each, and compares their lines.
set -eu
unset CDPATH

here=$(cd "$(dirname "$0")" && pwd)
repository=$(cd "$here/../.." && pwd)
proved=$repository/crates/strips/out/strips
work=$(mktemp -d)
trap 'rm -rf "$work"' EXIT
trap 'exit 1' HUP INT TERM

gcc -O2 -o "$work/strips" "$here/strips.c"
[ -x "$proved" ] || (cd "$repository/crates/strips" && rt run </dev/null)

# best PROGRAM: the least of five times over the records, in nanoseconds
best() {
    least=
    for run in 1 2 3 4 5; do
        began=$(date +%s%N)
        "$1" <"$work/records" >/dev/null
        took=$(($(date +%s%N) - began))
        if [ -z "$least" ] || [ "$took" -lt "$least" ]; then
            least=$took
        fi
    done
    echo "$least"
}

for count in 1000000 4000000; do
    python3 -B "$here/records.py" "$count" >"$work/records"
    "$work/strips" <"$work/records" >"$work/lines.c"
    "$proved" <"$work/records" >"$work/lines.proved"
    cmp "$work/lines.c" "$work/lines.proved"
    awk -v count="$count" -v c="$(best "$work/strips")" -v proved="$(best "$proved")" 'BEGIN {
        printf "%d records, same lines: C %.3f s (%.0f ns each), Rattle %.3f s (%.0f ns each), ratio %.2f\n",
            count, c / 1e9, c / count, proved / 1e9, proved / count, proved / c }'
done
