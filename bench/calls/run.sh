#!/bin/sh
# Builds the proved library and times its calls beside the same work in C.
set -eu
unset CDPATH
cd "$(dirname "$0")/../.."
[ -f crates/plate/out/libplate.a ] || (cd crates/plate && rt lib >/dev/null)
out=$(mktemp -d)
trap 'rm -rf "$out"' EXIT
gcc -O2 -Wall -Wextra -Iinclude bench/calls/calls.c -Lcrates/plate/out -lplate -o "$out/calls"
"$out/calls"
