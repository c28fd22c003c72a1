#!/bin/sh
# The library from C and from Rust: the calls on the lines that the second program made, compared with what it expects, and the names that the archive
# needs from outside; the programs that README.md shows; the streams of the program `calls` (tests/calls); and the program `strips` and its script
# (tests/strips). It proves and builds what it runs; gcc and cargo are installed where they are missing, and GNU parallel where it can be had.
set -eu
unset CDPATH
cd "$(dirname "$0")/.."
missing=
for tool in gcc cargo; do
    command -v "$tool" >/dev/null || missing="$missing $tool"
done
if [ -n "$missing" ]; then
    apt-get update -qq && apt-get install -y -qq $missing >/dev/null
fi
command -v parallel >/dev/null || { apt-get update -qq && apt-get install -y -qq parallel; } >/dev/null 2>&1 || true
out=$(mktemp -d)
trap 'rm -rf "$out"' EXIT
(cd crates/plate && rt lib) >"$out/lib.log" 2>&1 || { cat "$out/lib.log"; exit 1; }
gcc -O2 -Wall -Wextra -Werror -Iinclude tests/c/calls.c -Lcrates/plate/out -lplate -o "$out/calls"
"$out/calls" <crates/calls/stdin >"$out/stdout"
cmp "$out/stdout" crates/calls/stdout
echo "tests: the C calls are as expected"
# What the archive needs from outside: two names that a C library has, and so have most machines without one.
outside=$(nm -u crates/plate/out/libplate.a | awk '$1 == "U" { print $2 }' | sort -u | tr '\n' ' ')
[ "$outside" = "memcpy memset " ] || { echo "tests: the library needs $outside"; exit 1; }
echo "tests: the library needs memcpy and memset, and nothing else"
CARGO_TARGET_DIR="$out/cargo" cargo test --quiet --offline --manifest-path rust/plate/Cargo.toml >"$out/cargo.log" 2>&1 || { cat "$out/cargo.log"; exit 1; }
echo "tests: the Rust calls are as expected"

# The programs that README.md shows: the text as in the files, and what they write.
fenced() { sed -n "/^\`\`\`$1\$/,/^\`\`\`\$/p" README.md | sed '1d;$d'; }
fenced c | cmp - examples/read.c
fenced rust | cmp - rust/plate/examples/read.rs
gcc -O2 -Wall -Wextra -Werror -Iinclude examples/read.c -Lcrates/plate/out -lplate -o "$out/read"
[ "$("$out/read")" = "message 1101, 1 cell mended" ]
CARGO_TARGET_DIR="$out/cargo" cargo run --quiet --offline --manifest-path rust/plate/Cargo.toml --example read >"$out/read.log" 2>&1 || { cat "$out/read.log"; exit 1; }
[ "$(cat "$out/read.log")" = "message [1, 1, 0, 1], 1 cell mended" ]
echo "tests: the programs that README.md shows are as expected"

calls=crates/calls/out/calls
[ -x "$calls" ] && [ -z "$(find crates crates.txt -name out -prune -o -newer "$calls" -print -quit)" ] || (cd crates/calls && rt run </dev/null >/dev/null)
python3 -B tests/calls/streams.py "$calls"
echo "tests: the streams of calls are as expected"

bash tests/strips/run.sh

# The count of lines to believe that docs/READING.md names is that of the files it lists.
believed=0
for link in $(sed -n '/^1\. /,/^$/p' docs/READING.md | grep -o '(\.\./crates/[a-zA-Z/]*\.antt)' | tr -d '()' | sort -u); do
    believed=$((believed + $(sed 's/--.*//' "docs/$link" | grep -v '^ *$' | grep -vc '^use ')))
done
grep -q " have $believed lines" docs/READING.md || { echo "tests: the files that docs/READING.md lists have $believed lines"; exit 1; }
echo "tests: docs/READING.md counts right"

# docs/PROMISES.md names each wrong program that the gate tries.
for edit in crates/*/must-fail/*.edit; do
    name=$(basename "$edit" .edit)
    grep -q "\`$name\`" docs/PROMISES.md || { echo "tests: docs/PROMISES.md does not name $edit"; exit 1; }
done
echo "tests: docs/PROMISES.md names every wrong program"
