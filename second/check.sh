#!/bin/sh
# Generates the inputs and outputs of the programs `strips` and `calls` anew and compares them with those beside the two.
set -eu
unset CDPATH

second=$(cd "$(dirname "$0")" && pwd)
fresh=$(mktemp -d)
trap 'rm -rf "$fresh"' EXIT
trap 'exit 1' HUP INT TERM

python3 -B "$second/generate.py" "$fresh" || { echo "second: generate.py failed"; exit 1; }

differs=
for file in strips/stdin strips/stdout calls/stdin calls/stdout; do
    if [ ! -f "$second/../crates/$file" ]; then
        differs="$differs crates/$file (missing)"
    elif ! cmp -s "$fresh/$file" "$second/../crates/$file"; then
        differs="$differs crates/$file"
    fi
done

if [ -n "$differs" ]; then
    echo "second: not as generated:$differs"
    exit 1
fi
echo "second: stdin and stdout of strips and calls are as generated"
