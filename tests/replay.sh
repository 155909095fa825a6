#!/bin/sh
# The replay as a technician calls it: every recorded trace against its expected picture, from its file and as it arrives on standard input,
# exit statuses, and what goes wrong; and the proved program of that name, which must say the same of every recorded trace and of every trace
# in the folder DAMAGED: sh replay.sh DAMAGED.
set -eu
tests=$(CDPATH='' cd -- "$(dirname -- "$0")" && pwd)
front=$tests/../zevkholtai
proved=$tests/../target/bin/replay
tool=$tests/../target/tools/zevkholtai
damaged=$1
room=$(mktemp -d)
trap 'rm -rf "$room"' EXIT
passed=0

wrong() {
    echo "replay: $*" >&2
    exit 1
}

# The front script's exit status, its two streams in files.
status() {
    got=0
    "$front" replay "$@" >"$room/out" 2>"$room/err" || got=$?
}

# NAME, WIDTH, the number, entries, pixels and pixels changed expected; the expected picture has the length of VRAM. The pixels are the
# reference model's, as in src/recorded.rs.
case_is() {
    name=$1 width=$2 number=$3 entries=$4 pixels=$5 changed=$6
    picture=$room/$name.pgm
    bytes=$(wc -c <"$tests/cases/$name.expected")
    status "$tests/cases/$name.trace" "$picture" "$width"
    [ "$got" -eq $((number != 0)) ] || wrong "$name: exit status $got"
    printf 'number %s\nentries %s\npixels %s\nvram %s\nchanged %s\n' "$number" "$entries" "$pixels" "$bytes" "$changed" |
        cmp -s - "$room/out" || wrong "$name: it said $(cat "$room/out")"
    { printf 'P5\n%s %s\n255\n' "$width" $((bytes / width)); cat "$tests/cases/$name.expected"; } | cmp -s - "$picture" ||
        wrong "$name: another picture"
    passed=$((passed + 1))
    arrives_as "$name" "$width" cat "$tests/cases/$name.trace"
}

# The trace of the last case, as the command writes it to standard input: the same status, lines and picture as from its file.
arrives_as() {
    name=$1 width=$2 before=$got
    shift 2
    mv "$room/out" "$room/want"
    "$@" | {
        status - "$room/arrived.pgm" "$width"
        [ "$got" -eq "$before" ] || wrong "$name arriving: exit status $got, not $before"
    }
    got=$before
    cmp -s "$room/out" "$room/want" || wrong "$name arriving: it said $(cat "$room/out")"
    cmp -s "$room/arrived.pgm" "$room/$name.pgm" || wrong "$name arriving: another picture"
    passed=$((passed + 1))
}

# A trace that arrives broken, as the command writes it: status 1, and 10 with these entries, pixels, pixels changed and length of VRAM.
# It leaves a picture where this length is not 0.
breaks_as() {
    what=$1 entries=$2 pixels=$3 changed=$4 bytes=$5 width=$6
    shift 6
    rm -f "$room/broken.pgm"
    "$@" | {
        status - "$room/broken.pgm" "$width"
        [ "$got" -eq 1 ] || wrong "$what: exit status $got, not 1"
    }
    printf 'number 10\nentries %s\npixels %s\nvram %s\nchanged %s\n' "$entries" "$pixels" "$bytes" "$changed" | cmp -s - "$room/out" ||
        wrong "$what: it said $(cat "$room/out")"
    if [ "$bytes" -gt 0 ]; then
        [ -e "$room/broken.pgm" ] || wrong "$what: it left no picture"
    else
        [ ! -e "$room/broken.pgm" ] || wrong "$what: it left a picture"
    fi
    passed=$((passed + 1))
}

# A number as four bytes, the lowest first.
word() {
    for byte in $(($1 % 256)) $(($1 / 256 % 256)) $(($1 / 65536 % 256)) $(($1 / 16777216)); do
        # shellcheck disable=SC2059 # the format is the byte
        printf "\\$(printf %03o "$byte")"
    done
}

# A trace of N times one simple write, for a VRAM of 64 bytes.
simple_writes() {
    word "$1"
    word 16
    word 64
    word $((16 + 12 * $1))
    head -c $((12 * $1)) "$room/entries"
}

# The trace of the first N entries of the one in the file, for the same VRAM.
first_entries() {
    word "$1"
    word 16
    tail -c +9 "$2" | head -c 4
    word $((16 + 12 * $1))
    tail -c +17 "$2" | head -c $((12 * $1))
}

# A file in pieces, with pauses between them: a part of the header, of an entry, and the rest.
in_pieces() {
    from=1
    for size in 1 9 13 600 7; do
        tail -c +"$from" "$1" | head -c "$size"
        from=$((from + size))
        sleep 0.1
    done
    tail -c +"$from" "$1"
}

# A file byte by byte.
byte_by_byte() {
    dd if="$1" bs=1 2>/dev/null
}

# A whole file, and the sender stays for a moment after its last byte.
stays_after() {
    cat "$1"
    sleep 0.3
}

# An error: status 2, a line on standard error, and no picture.
error_is() {
    want=$1
    shift
    rm -f "$room/none.pgm"
    status "$@"
    [ "$got" -eq 2 ] || wrong "$want: exit status $got, not 2"
    grep -q "$want" "$room/err" || wrong "$want: it said $(cat "$room/err")"
    [ ! -e "$room/none.pgm" ] || wrong "$want: it left a picture"
    passed=$((passed + 1))
}

case_is l8-000 8 0 811 3478 2094
case_is l8-004 640 0 468 10672 9995
case_is l8-012 64 0 830 10433 7790
case_is l8-015e 72 8 4080 128360 125176
case_is l8-021 512 0 4076 217148 193324
case_is x8-000-ask1 512 0 988 39049 30498
case_is x8-004 512 0 474 35009 9822
case_is x8-009 512 0 477 36285 30602
case_is x8-015 512 0 491 36434 27020

error_is 'No such file' "$room/missing.trace" "$room/none.pgm"
error_is 'does not divide' "$tests/cases/l8-000.trace" "$room/none.pgm" 7
error_is 'is not 0' "$tests/cases/l8-000.trace" "$room/none.pgm" 0
error_is 'is a decimal number' "$tests/cases/l8-000.trace" "$room/none.pgm" wide
error_is 'too large' "$tests/cases/l8-000.trace" "$room/none.pgm" 1024
error_is 'too large' "$tests/cases/l8-000.trace" "$room/none.pgm" 99999999999999999999
error_is 'is two hexadecimal digits' "$tests/cases/l8-000.trace" "$room/none.pgm" 8 zz
error_is 'usage' "$tests/cases/l8-000.trace" "$room/none.pgm" 8 00 more

# the largest number of entries, and one more
printf '\000\017\000\000\000\000\000\000\021\042\063\104' >"$room/entries"
for _ in 1 2 3 4 5 6 7 8 9 10 11 12 13 14 15 16 17; do
    cat "$room/entries" "$room/entries" >"$room/twice"
    mv "$room/twice" "$room/entries"
done
for entries in 4096 4097 65535 65536; do
    simple_writes "$entries" >"$room/long.trace"
    status "$room/long.trace" "$room/long.pgm" 8
    [ "$got" -eq 0 ] || wrong "$entries entries: exit status $got, not 0"
    printf 'number 0\nentries %s\npixels %s\nvram 64\nchanged 4\n' "$entries" $((4 * entries)) | cmp -s - "$room/out" ||
        wrong "$entries entries: it said $(cat "$room/out")"
    { printf 'P5\n8 8\n255\n\021\042\063\104' && head -c 60 /dev/zero; } | cmp -s - "$room/long.pgm" || wrong "$entries entries: another picture"
    passed=$((passed + 1))
    arrives_as long 8 cat "$room/long.trace"
done
simple_writes 65537 >"$room/longer.trace"
breaks_as '65,537 entries' 0 0 0 0 8 cat "$room/longer.trace"

# a file that is no trace answers 10 and leaves no picture, also where it is longer than any trace
head -c 100 "$tests/cases/l8-000.trace" >"$room/cut.trace"
head -c 786449 /dev/zero >"$room/large.trace"
for name in cut large longer; do
    status "$room/$name.trace" "$room/none.pgm" 8
    [ "$got" -eq 1 ] || wrong "$name: exit status $got, not 1"
    [ ! -e "$room/none.pgm" ] || wrong "$name left a picture"
    printf 'number 10\nentries 0\npixels 0\nvram 0\nchanged 0\n' | cmp -s - "$room/out" || wrong "$name: it said $(cat "$room/out")"
    passed=$((passed + 1))
done

# a trace that arrives in pieces, or with the sender still there after its last byte
trace=$tests/cases/l8-000.trace
status "$trace" "$room/l8-000.pgm" 8
arrives_as l8-000 8 in_pieces "$trace"
arrives_as l8-000 8 byte_by_byte "$trace"
arrives_as l8-000 8 stays_after "$trace"

# one that breaks off, goes on past its total, or is none: what was drawn so far is left. 80 entries and 5 bytes arrive; the first 50 of them change no pixel.
first_entries 80 "$trace" >"$room/first.trace"
status "$room/first.trace" "$room/first.pgm" 8
[ "$got" -eq 0 ] || wrong "the first entries: exit status $got, not 0"
drawn=$(sed -n 's/^pixels //p' "$room/out")
changed=$(sed -n 's/^changed //p' "$room/out")
[ "$drawn" -gt 0 ] && [ "$changed" -gt 0 ] || wrong "the first entries draw or change nothing"
breaks_as 'a trace that breaks off' 80 "$drawn" "$changed" 512 8 head -c $((16 + 12 * 80 + 5)) "$trace"
cmp -s "$room/broken.pgm" "$room/first.pgm" || wrong "a trace that breaks off: another picture"
breaks_as 'an endless stream after a trace' 80 "$drawn" "$changed" 512 8 cat "$room/first.trace" /dev/zero
cmp -s "$room/broken.pgm" "$room/first.pgm" || wrong "an endless stream after a trace: another picture"
breaks_as 'a header and no more' 0 0 0 512 8 head -c 16 "$trace"
breaks_as 'a part of a header' 0 0 0 0 8 head -c 15 "$trace"
breaks_as 'an endless stream' 0 0 0 0 8 cat /dev/zero
breaks_as 'no input' 0 0 0 0 8 true
error_is 'does not divide' - "$room/none.pgm" 7 <"$trace"
error_is 'Is a directory' - "$room/none.pgm" <"$room"
error_is 'Is a directory' "$room" "$room/none.pgm"

# held planes stay zero
status "$tests/cases/x8-009.trace" -o "$room/held.pgm" --held ff
[ "$got" -eq 0 ] || wrong "held planes: exit status $got, not 0"
[ "$(tail -c 32768 "$room/held.pgm" | tr -d '\000' | wc -c)" -eq 0 ] || wrong "held planes were drawn over"

# The proved program, from the file and as it arrives: what it says, and its picture. 64 divides every length of video memory.
as_proved() {
    for from in "$1" -; do
        rm -f "$room/tool.pgm" "$room/proved.pgm"
        got=0
        "$tool" replay "$from" "$room/tool.pgm" 64 <"$1" >"$room/out" 2>"$room/err" || got=$?
        "$proved" "$from" "$room/proved.pgm" 64 <"$1" >"$room/want" 2>"$room/complaint" || wrong "the proved program crashed on $1"
        [ ! -s "$room/complaint" ] || wrong "the proved program complains of $1: $(cat "$room/complaint")"
        cmp -s "$room/out" "$room/want" || wrong "$1 from '$from': the tool says $(cat "$room/out"), the proved program $(cat "$room/want")"
        accepted=1
        [ "$(head -n 1 "$room/out")" != 'number 0' ] || accepted=0
        [ "$got" -eq "$accepted" ] || wrong "$1 from '$from': exit status $got, not $accepted"
        if [ -e "$room/proved.pgm" ]; then
            cmp -s "$room/tool.pgm" "$room/proved.pgm" || wrong "$1 from '$from': another picture than the proved program's"
        else
            [ ! -e "$room/tool.pgm" ] || wrong "$1 from '$from': a picture where the proved program leaves none"
        fi
        seen="$seen $(sed -n 's/^number //p' "$room/out")"
        passed=$((passed + 1))
    done
}

seen=
for trace in "$tests"/cases/*.trace "$tests"/sample/*.trace "$damaged"/*.trace "$room/longer.trace" "$room/large.trace"; do
    as_proved "$trace"
done
for number in 0 8 10; do
    case "$seen " in
        *" $number "*) ;;
        *) wrong "no trace of these answers $number" ;;
    esac
done
if "$proved" "$room" >"$room/out" 2>"$room/err"; then :; fi
[ ! -s "$room/out" ] && [ -s "$room/err" ] || wrong "the proved program takes a folder for a trace: it said $(cat "$room/out")"

echo "replay: $((passed + 2)) cases as they should be"
