#!/bin/bash
# The program `strips` and the script that runs it, past their edges. The lines of a block of records are proved; that blocks are read and written one
# after the other, and what the script does, is not, and is tested here: against the C program, with reads and writes that move little or fail, and with
# streams, folders and signals as they can come. It builds the program first, if that is not done, and wants gcc and python3.
set -euo pipefail
unset CDPATH
cd "$(dirname "$0")/../.."
out=$(mktemp -d)
trap 'rm -rf "$out"' EXIT

fault() { echo "tests: strips: $*"; exit 1; }
# same WHAT FILE FILE
same() { cmp "$2" "$3" >"$out/differs" 2>&1 || fault "$1: $(head -c 300 "$out/differs")"; }
# gives STATUS SAID COMMAND ..: its status, within a minute, and what it writes to standard error; its standard output is left in $out/lines
gives() {
    local status=0
    timeout 60 "${@:3}" >"$out/lines" 2>"$out/said" || status=$?
    [ "$status" = "$1" ] && [ "$(cat "$out/said")" = "$2" ] || fault "${*:3} gave status $status and said '$(cat "$out/said")'"
}
sh_gives() { gives "$1" "$2" bash -c "$3"; }
unread="strips: standard input cannot be read"
unwritten="strips: standard output cannot be written"

./strips </dev/null >"$out/built" 2>&1 || { cat "$out/built"; fault "it could not be built"; }

# ---- what is printed

cat >"$out/sample" <<'END'
7 E 0 0 105
8 D 0 1 13
9 D 0 2 28
10 D 5 0 0
short 3
END
sh_gives 0 "" './strips <examples/plates.bin'
same "the sample" "$out/lines" "$out/sample"
sh_gives 0 "" './strips </dev/null'
same "no input" "$out/lines" /dev/null
sh_gives 0 "" 'printf abc | ./strips'
same "a rest alone" "$out/lines" <(echo "short 3")
sh_gives 0 "" 'head -c 64 examples/plates.bin | ./strips'
same "no rest" "$out/lines" <(head -n 4 "$out/sample")
sh_gives 0 "" '(head -c 21 examples/plates.bin; sleep 1; tail -c +22 examples/plates.bin) | ./strips'
same "a record in two reads" "$out/lines" "$out/sample"

# Blocks have 262,144 bytes: one, two and three that are just full, and with a byte, a record and both more.
gcc -O2 -Wall -Wextra -Werror -o "$out/strips" bench/strips/strips.c
python3 -B bench/strips/records.py 1000000 >"$out/records"
"$out/strips" <"$out/records" >"$out/all"
for blocks in 1 2 3; do
    for more in -1 0 1 16 17; do
        head -c $((blocks * 262144 + more)) "$out/records" >"$out/part"
        "$out/strips" <"$out/part" >"$out/expected"
        gives 0 "" ./strips <"$out/part"
        same "$blocks blocks and $more bytes" "$out/lines" "$out/expected"
    done
done
gives 0 "" ./strips <"$out/records"
same "1,000,000 records from a file" "$out/lines" "$out/all"
cat "$out/records" | gives 0 "" ./strips
same "1,000,000 records from a pipe" "$out/lines" "$out/all"

# ---- reads and writes that move little, and that fail late

gcc -O2 -Wall -Wextra -Werror -shared -fPIC -o "$out/streams.so" tests/strips/streams.c
head -c 786439 "$out/records" >"$out/part"
"$out/strips" <"$out/part" >"$out/expected"
with() { gives 0 "$1" env "${@:2}" LD_PRELOAD="$out/streams.so" crates/strips/out/strips; }
with "" READ_MOST=4093 WRITE_MOST=5003 <"$out/part"
same "small reads and writes" "$out/lines" "$out/expected"
for bytes in 0 15 16 40 262144 262150 600000; do
    with "$unread" READ_LEFT=$bytes <"$out/part"
    head -c $((bytes - bytes % 16)) "$out/part" | "$out/strips" >"$out/before"
    same "what was read before a failure at $bytes" "$out/lines" "$out/before"
done
for bytes in 0 1 5000 400000 900000; do
    with "$unwritten" WRITE_LEFT=$bytes <"$out/part"
    same "what was written before a failure at $bytes" "$out/lines" <(head -c "$bytes" "$out/expected")
done
with "$unwritten
$unread" READ_LEFT=600000 WRITE_LEFT=750000 <"$out/part"

# ---- the script: streams that are closed, full or left by their reader

sh_gives 1 "$unread" './strips <&-'
sh_gives 1 "$unwritten" './strips <examples/plates.bin >/dev/full'
sh_gives 1 "$unwritten" './strips <examples/plates.bin >&-'
sh_gives 1 "$unwritten" "./strips <'$out/records' > >(head -c 1000000 >/dev/null)"
sh_gives 0 "" './strips <examples/plates.bin 2>&-'
same "with standard error closed" "$out/lines" "$out/sample"
sh_gives 1 "" './strips <examples/plates.bin >/dev/full 2>&-'
sh_gives 1 "" './strips <examples/plates.bin >&- 2>&-'
sh_gives 1 "" './strips <&- 2>&-'
sh_gives 1 "" './strips <&- >&- 2>&-'
sh_gives 2 "strips: the program broke down (status 139)" \
    'ulimit -c 0 -s 512; ./strips <examples/plates.bin 2>&1 >/dev/null | grep -v "Segmentation fault" >&2; exit "${PIPESTATUS[0]}"'

# It needs no temporary folder, and finds its own through links and with CDPATH set.
mkdir "$out/elsewhere" "$out/strips.d"
ln -s "$PWD/strips" "$out/strips.d/first"
ln -s ../strips.d/first "$out/elsewhere/second"
gives 0 "" env TMPDIR="$out/none" ./strips <"$out/part"
same "with no temporary folder" "$out/lines" "$out/expected"
for run in './second' "PATH='$out/elsewhere':\$PATH second" "CDPATH='$out:$PWD:..' ./second" "bash ./second"; do
    sh_gives 0 "" "here=\$PWD; cd '$out/elsewhere'; $run <\"\$here/examples/plates.bin\""
    same "$run" "$out/lines" "$out/sample"
done
sh_gives 0 "" "cd ..; CDPATH='$out:$PWD' '${PWD##*/}/strips' <'${PWD##*/}/examples/plates.bin'"
same "with CDPATH set" "$out/lines" "$out/sample"

# A signal ends the program too: nobody is left to read what it was reading.
mkfifo "$out/pipe"
for signal in HUP:129 INT:130 QUIT:131 TERM:143; do
    timeout -s KILL 60 python3 -B tests/strips/signalled.py "${signal%:*}" "${signal#*:}" "$out/pipe" || fault "with signal ${signal%:*}"
done

# Two that are started at once build it once.
touch crates.txt
./strips <examples/plates.bin >"$out/first" 2>"$out/first.said" &
./strips <examples/plates.bin >"$out/second" 2>"$out/second.said"
wait $!
same "the first of two" "$out/first" "$out/sample"
same "the second of two" "$out/second" "$out/sample"
[ "$(cat "$out/first.said" "$out/second.said" | grep -c '^rt: running out/strips')" = 1 ] || fault "two at once did not build it once"

# ---- on several cores: parts of whole records print what the whole prints

if parallel --version 2>/dev/null | grep -q '^GNU parallel'; then
    { cat "$out/records"; printf abc; } >"$out/more"
    gives 0 "" env HOME="$out" parallel -k --pipepart -a "$out/more" --recend '' --block 4M ./strips
    same "1,000,000 records by GNU parallel" "$out/lines" <(cat "$out/all"; echo "short 3")
else
    echo "tests: GNU parallel is not there, so that the parts of a file give what the whole gives is not run"
fi
echo "tests: strips is as expected"
