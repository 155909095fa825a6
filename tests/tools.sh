#!/bin/sh
# The tools as a technician calls them: sh tests/tools.sh EXECUTABLE. Every case compares status, standard output and standard error, or bytes.
set -eu
[ $# -eq 1 ] || { echo "usage: sh tests/tools.sh EXECUTABLE" >&2; exit 2; }
tool=$(CDPATH='' cd -- "$(dirname -- "$1")" && pwd)/$(basename -- "$1")
tests=$(CDPATH='' cd -- "$(dirname -- "$0")" && pwd)
room=$(mktemp -d)
trap 'rm -rf "$room"' EXIT
cd "$room"
mkdir cases
cp "$tests"/cases/*.trace "$tests"/cases/*.expected "$tests/sample/bedside.trace" cases
passed=0

wrong() {
    echo "tools: $*" >&2
    exit 1
}

pass() {
    passed=$((passed + 1))
}

# The tool's exit status, its two streams in files.
call() {
    got=0
    "$tool" "$@" >out 2>err || got=$?
}

# Text as the whole of a file.
holds() {
    { [ -z "$2" ] || printf '%s\n' "$2"; } | cmp -s - "$1"
}

# STATUS, standard output and standard error without their last newline, then the call.
says() {
    want=$1 said=$2 complained=$3
    shift 3
    call "$@"
    [ "$got" -eq "$want" ] || wrong "$*: exit status $got, not $want: $(cat err)"
    holds out "$said" || wrong "$*: it said $(cat out)"
    holds err "${complained:+zevkholtai: $complained}" || wrong "$*: it complained $(cat err)"
    pass
}

# The last call's status, and nothing on standard error.
answered() {
    [ "$got" -eq "$1" ] || wrong "$2: exit status $got, not $1: $(cat err)"
    [ ! -s err ] || wrong "$2: it complained $(cat err)"
}

# A message and status 2, and nothing on standard output.
fails() {
    says 2 '' "$@"
}

same() {
    cmp -s "$1" "$2" || wrong "$3: $1 is not $2"
    pass
}

none() {
    [ ! -e "$1" ] || wrong "$2: it left $1"
    pass
}

# Numbers, each as four bytes, the lowest first.
words() {
    for number; do
        for byte in $((number % 256)) $((number / 256 % 256)) $((number / 65536 % 256)) $((number / 16777216)); do
            bytes "$byte"
        done
    done
}

bytes() {
    for one; do
        # shellcheck disable=SC2059 # the format is the byte
        printf "\\$(printf %03o "$one")"
    done
}

# The text of some lines, recorded as the file.
recorded() {
    file=$1
    shift
    printf '%s\n' "$@" >recorded.txt
    call record recorded.txt "$file"
    [ "$got" -eq 0 ] || wrong "$file: $(cat err)"
}

pgm() {
    printf 'P5\n%s %s\n255\n' "$1" "$2"
}

# --- calls of no verb, help, and options

fails "no verb; 'zevkholtai help' lists them"
fails "unknown verb 'draw'; 'zevkholtai help' lists them" draw
fails "unknown verb '--draw'; 'zevkholtai help' lists them" --draw
says 0 'zevkholtai 1' '' --version
"$tool" help >help.txt
for way in --help -h; do
    says 0 "$(cat help.txt)" '' "$way"
done
for verb in replay list record show diff explain; do
    grep -q "^  $verb " help.txt || wrong "help does not list $verb"
    call "$verb" --help
    answered 0 "$verb --help"
    head -n 1 out | grep -q "^usage: zevkholtai $verb" || wrong "$verb --help: it said $(cat out)"
    grep -q '^Exit status: 0 ' out || wrong "$verb --help tells no exit status"
    pass
    fails "unknown option '--draw'" "$verb" --draw
done
trace=cases/l8-000.trace
fails 'usage: zevkholtai replay TRACE [PICTURE [WIDTH [HELD]]]' replay
fails 'usage: zevkholtai replay TRACE [PICTURE [WIDTH [HELD]]]' replay "$trace" none.pgm 8 00 more
fails 'usage: zevkholtai list TRACE [FROM [TO]]' list
fails 'usage: zevkholtai record TEXT TRACE' record "$trace"
fails 'usage: zevkholtai show TRACE -o PICTURE [OPTION...]' show -o none.pgm
fails 'show needs -o PICTURE' show "$trace"
fails 'none.txt: a picture'\''s name ends in .png or .pgm' show "$trace" -o none.txt
fails 'none.txt: a picture'\''s name ends in .png or .pgm' diff "$trace" "$trace" -o none.txt
fails '--width needs a value' replay "$trace" --width
fails '--plain takes no value' show "$trace" -o none.pgm --plain=1
fails '--width is given too often' replay "$trace" --width 8 --width=8
fails '--held is given too often' replay "$trace" --held 00 --held 80
fails '--held is given too often' diff "$trace" --held 00 --held 80 --held 00
fails '-o is given too often' show "$trace" -o none.pgm -o none.png
fails 'WIDTH and --width are the same' replay "$trace" none.pgm 8 --width 8
fails 'PICTURE and -o are the same' replay "$trace" none.pgm -o none.png
fails '--width is not 0' replay "$trace" --width 0
fails 'WIDTH is not 0' replay "$trace" none.pgm 0
fails "--width is a decimal number, not 'wide'" show "$trace" -o none.pgm --width wide
fails "--width is a decimal number, not ''" show "$trace" -o none.pgm --width=
fails "--width is a decimal number, not '+8'" diff "$trace" "$trace" --width +8
fails '--width 2097153 is too large: the largest video memory has 2097152 pixels' replay missing --width 2097153
fails '--width 99999999999999999999999 is too large: the largest video memory has 2097152 pixels' replay missing --width 99999999999999999999999
fails 'WIDTH 513 is too large: video memory has 512 pixels' replay "$trace" none.pgm 513
fails '--width 513 is too large: video memory has 512 pixels' replay "$trace" --width 513
fails '--width 513 is too large: video memory has 512 pixels' replay - -o none.pgm --width 513 <"$trace"
fails '--width 513 is too large: video memory has 512 pixels' diff "$trace" "$trace" --width 513
fails 'WIDTH does not divide the 512 pixels of video memory' replay "$trace" none.pgm 7
fails 'WIDTH does not divide the 512 pixels of video memory' replay - none.pgm 7 <"$trace"
fails '--width does not divide the 512 pixels of video memory' show "$trace" --width 7 -o none.pgm
fails '--width does not divide the 512 pixels of video memory' diff "$trace" "$trace" --width 7 -o none.pgm
for held in 0 000 zz +1 ''; do
    fails "--held is two hexadecimal digits, not '$held'" replay "$trace" --held "$held"
done
fails "HELD is two hexadecimal digits, not 'zz'" replay "$trace" none.pgm 8 zz
fails "--alarm is two hexadecimal digits, not '8'" show "$trace" -o none.pgm --alarm 8
fails "--at is a decimal number, not '-1'" show "$trace" -o none.pgm --at -1
fails '--at and --every do not go together' show "$trace" -o none.pgm --at 1 --every 1
fails '--every is not 0' show "$trace" -o none.pgm --every 0
fails '--at is past the last entry: the trace has 811, counted from 0' show "$trace" -o none.pgm --at 811
fails 'diff needs a second trace, or --held twice' diff "$trace" --held 80
fails 'standard input is read once, and cannot be both A and B' diff - - <"$trace"
fails "an output is a file, not '-'" replay "$trace" -o -
for file in none.pgm none.png none.txt; do
    none "$file" 'an error'
done

# --- files that cannot be read

missing='No such file or directory (os error 2)'
directory='Is a directory (os error 21)'
fails "missing: $missing" replay missing -o none.pgm
fails "missing: $missing" list missing
fails "missing: $missing" record missing none.trace
fails "missing: $missing" show missing -o none.pgm
fails "missing: $missing" show "$trace" --on missing -o none.pgm
fails "missing: $missing" diff "$trace" missing
fails "cases: $directory" replay cases
fails "cases: $directory" list cases
fails "cases: $directory" record cases none.trace
fails "cases: $directory" show cases -o none.pgm
fails "cases: $directory" diff cases cases
fails "standard input: $directory" replay - -o none.pgm <cases
fails "standard input: $directory" list - <cases
fails 'standard input: it is closed' replay - <&-
fails "cases: $directory" record - cases <<TEXT
vram 64
TEXT
says 0 "$(printf 'number 0\nentries 811\npixels 3478\nvram 512\nchanged 2094')" '' replay -- "$trace"
cp "$trace" ./-w
says 0 "$(cat out)" '' replay --width 8 -- -w
cp "$trace" secret
chmod 000 secret
# Root reads every file, so there nobody is asked to.
if [ "$(id -u)" -eq 0 ]; then
    chmod 711 "$room"
    cp "$tool" reachable
    printf '#!/bin/sh\nexec setpriv --reuid 65534 --clear-groups ./reachable "$@"\n' >as_nobody
    chmod 755 reachable as_nobody
    owner=$tool
    tool=./as_nobody
fi
if "$tool" --version >out 2>&1; then
    fails 'secret: Permission denied (os error 13)' replay secret
    fails 'secret: Permission denied (os error 13)' record secret none.trace
fi
tool=${owner:-$tool}

# --- list and record

for file in cases/*.trace; do
    call list "$file"
    mv out listed
    "$tool" list - <"$file" >out || [ $? -eq 1 ] || wrong "list - of $file fails"
    same out listed "list - of $file"
    call record listed again.trace
    answered 0 "record of $file"
    [ ! -s out ] || wrong "record of $file: it said $(cat out)"
    same again.trace "$file" 'record of a listing'
    call record - again.trace <listed
    same again.trace "$file" 'record of a listing on standard input'
done

# the paper's own sample of a trace
{ words 1 16 64 28 && bytes 0 15 0 0 && words 0 && bytes 17 34 51 68; } >sample.trace
recorded made.trace 'vram 64' 'frame 0 44332211'
same made.trace sample.trace 'the sample S12'

# what stands in a line that is not looked at, and the ways to write a number
recorded plain.trace 'vram 128' 'register plane-mask 0000000Fh' 'frame lanes 5 00000004h 44332211h' 'register 00000021h 00000000h'
printf '# a comment | with a bar\n\n   \nvram 128 | whatever\r\n  7: register PLANE-MASK fh | 9 9 | whatever | more\r\n 3 :frame lanes 5 0x4 44332211\n  # 12: frame 0 0\nregister 21 0X0' >ways.txt
says 0 '' '' record ways.txt ways.trace
same ways.trace plain.trace 'the ways to write a number'

# a bad line is named, and nothing is written
bad() {
    complaint=$1
    shift
    printf '%s\n' "$@" >bad.txt
    says 1 '' "bad.txt:$complaint" record bad.txt none.trace
    none none.trace 'a bad line'
}
bad " no line says 'vram N'" '# nothing'
bad "2: before it comes 'vram N'" '' 'frame 0 0'
bad "3: a second 'vram'" 'vram 64' '' 'vram 64'
bad "1: after 'vram' comes a decimal number" 'vram 40h'
bad "1: after 'vram' comes a decimal number" 'vram'
for length in 0 63 2097216 4294967360 99999999999999999999; do
    bad '1: refused, 1: the length of video memory is 0, no multiple of 64, or over 2097152' "vram $length"
done
bad "2: 'draw' is not vram, frame, register or space" 'vram 64' 'draw 0 0'
bad "2: '' is not vram, frame, register or space" 'vram 64' '12:'
bad '2: the address is missing' 'vram 64' 'frame'
bad '2: the data is missing' 'vram 64' 'frame 0'
bad '2: the data is missing' 'vram 64' 'frame 0 | 0'
bad "2: '1' is one word too many" 'vram 64' 'frame 0 0 1'
bad "2: the address 'mode' is no hexadecimal number of 32 bits" 'vram 64' 'frame mode 0'
bad "2: the data '100000000' is no hexadecimal number of 32 bits" 'vram 64' 'frame 0 100000000'
bad "2: the data '0x' is no hexadecimal number of 32 bits" 'vram 64' 'frame 0 0x'
bad "2: there is no register 'colour', and it is no hexadecimal number of 32 bits" 'vram 64' 'register colour 0'
bad '2: the register is missing' 'vram 64' 'register'
bad "2: after 'lanes' comes a decimal number up to 255" 'vram 64' 'frame lanes 256 0 0'
bad '2: refused, 2: the space is not 0 (frame) or 1 (register), or the lanes exceed 15' 'vram 64' 'frame lanes 16 0 0'
bad '3: refused, 2: the space is not 0 (frame) or 1 (register), or the lanes exceed 15' 'vram 64' 'frame 0 0' 'space 2 0 0'
awk 'BEGIN { print "vram 64"; for (i = 0; i < 65536; i++) print "frame 0 44332211" }' >long.txt
says 0 '' '' record long.txt long.trace
[ "$(wc -c <long.trace)" -eq 786448 ] || wrong 'the longest trace has not 786,448 bytes'
echo 'frame 0 0' >>long.txt
says 1 '' "long.txt:65538: refused, 11: there is no room for a trace's entry or header" record long.txt none.trace
none none.trace 'too many entries'
fails 'standard input: it has over 33554432 bytes' record - none.trace </dev/zero

# what each write does
cat >kinds.txt <<'TEXT'
vram 4096
    0: register foreground 44332211h       | 0 0 | 11 22 33 44
    1: register background 000000AAh       | 0 0 | AA 00 00 00
    2: register plane-mask FFFFFFFFh       | 0 0 | FF FF FF FF
    3: register pixel-mask-once 0000000Fh  | 0 0 | 4 of 32 pixels, one-shot
    4: frame 00000000h 44332211h           | 0 4 | simple, 4 pixels from 0
    5: frame lanes 5 00000004h 44332211h   | 0 2 | simple, 4 pixels from 4
    6: register mode 00000001h             | 0 0 | opaque stipple
    7: register pixel-mask 0000FFFFh       | 0 0 | 16 of 32 pixels
    8: frame 00000020h F0F0F0F0h           | 0 16 | opaque stipple, 32 pixels from 32
    9: register mode 00000005h             | 0 0 | transparent stipple
   10: frame 00000040h 80000001h           | 0 2 | transparent stipple, 32 pixels from 64
   11: register fill-mask 0000FFFFh        | 0 0 | FF FF 00 00
   12: register mode 00000021h             | 0 0 | opaque fill
   13: frame 00000100h 0002001Fh           | 0 32 | opaque fill, 32 pixels from 258
   14: register mode 00000045h             | 0 0 | transparent fill
   15: frame 00000100h 0002001Fh           | 0 16 | transparent fill, 32 pixels from 258
   16: frame 00000100h FFFCF800h           | 0 1 | transparent fill, 1 pixel from 256
   17: register block-colour-0 03020100h   | 0 0 | 00 01 02 03
   18: register block-colour-7 07060504h   | 0 0 | 04 05 06 07
   19: register mode 0000000Dh             | 0 0 | block stipple
   20: frame 00000200h 0000FFFFh           | 0 16 | block stipple, 32 pixels from 512
   21: register mode 0000002Dh             | 0 0 | block fill
   22: frame 00000204h 000307FFh           | 0 1024 | block fill, 2048 pixels from 519
   23: register pixel-shift 00000010h      | 0 0 | shift 0, the next copy reads
   24: register mode 00000007h             | 0 0 | copy
   25: frame 00000008h FFFFFFFFh           | 0 0 | copy, reads 32 pixels from 8
   26: frame 00000010h 000000FFh           | 0 8 | copy, writes 32 pixels from 16
   27: register copy-destination 00000040h | 9 0 | 64 pixels from 64; refused, 9: a 64-byte destination comes with no 64-byte source loaded; a run ends here
   28: register copy-source 00000040h      | 0 0 | 64 pixels from 64; after the run's end at entry 27
   29: register copy-destination 00000080h | 0 64 | 64 pixels from 128; after the run's end at entry 27
   30: register continue 0000FFFFh         | 5 0 | line mask FFFFh, with no line before it; refused, 5: the mode is not listed, or a continue comes outside the line modes; after the run's end at entry 27
   31: register mode 00008002h             | 0 0 | opaque line cap; after the run's end at entry 27
   32: register continue 1234ABCDh         | 13 0 | line mask ABCDh, with no line before it; refused, 13: a continue comes before any accepted line; after the run's end at entry 27
   33: register bresenham-1 0001FFFEh      | 0 0 | address step 1, error step -2; after the run's end at entry 27
   34: register bresenham-2 FF800007h      | 0 0 | address step -128, error step 7; after the run's end at entry 27
   35: register bresenham-3 FFFF8009h      | 0 0 | error -1, 9 places; after the run's end at entry 27
   36: frame 00000100h 0003FFFFh           | 0 9 | opaque line cap, 9 places from 259; after the run's end at entry 27
   37: register continue 0000FFFFh         | 0 16 | line mask FFFFh, 16 places from 268; after the run's end at entry 27
   38: register bresenham-3 00008001h      | 0 0 | error 1, 1 place; after the run's end at entry 27
   39: register bresenham-3 7FFF8000h      | 0 0 | error 65535, 16 places; after the run's end at entry 27
   40: frame 00000800h 00000000h           | 12 0 | opaque line cap, 16 places from 2048; refused, 12: the error of a line or a continue lies outside signed 16 bits; after the run's end at entry 27
   41: register bresenham-3 80000000h      | 0 0 | error -65536, 16 places; after the run's end at entry 27
   42: frame 00000FF8h 00000000h           | 8 0 | opaque line cap, 16 places from 4088; refused, 8: a place that the line visits lies outside video memory; after the run's end at entry 27
   43: frame FFFFFFFCh 00030000h           | 8 0 | opaque line cap, 16 places from 4294967295; refused, 8: a place that the line visits lies outside video memory; after the run's end at entry 27
   44: frame 00000002h 00000000h           | 7 0 | opaque line cap, 16 places from 2; refused, 7: the address is off its boundary; after the run's end at entry 27
   45: frame lanes 3 00000000h 00000000h   | 3 0 | opaque line cap, 16 places from 0; refused, 3: the lanes are not 15, on a register write or in a mode other than simple; after the run's end at entry 27
   46: register raster-operation FFFFF0F6h | 0 0 | xor; after the run's end at entry 27
   47: register raster-operation 00000106h | 6 0 | xor; refused, 6: a raster operation has any of bits 11:8 set, or a pixel shift any of bits 3:0; after the run's end at entry 27
   48: register mode 00000025h             | 5 0 | a mode that is not listed; refused, 5: the mode is not listed, or a continue comes outside the line modes; after the run's end at entry 27
   49: register 00000021h 00000000h        | 4 0 | no register; refused, 4: there is no such register; after the run's end at entry 27
TEXT
cut -d '|' -f 1 kinds.txt >kinds.lines
says 0 '' '' record kinds.lines kinds.trace
says 1 "$(cat kinds.txt)" '' list kinds.trace
says 0 "$(sed -n '1p;2,28p' kinds.txt)" '' list kinds.trace 0 26
says 0 "$(sed -n '1p;15,17p' kinds.txt)" '' list kinds.trace 13 15
says 1 "$(sed -n '1p;48,51p' kinds.txt)" '' list kinds.trace 46
says 1 "$(sed -n '1p;51p' kinds.txt)" '' list kinds.trace 49 49
fails 'FROM is past the last entry: the trace has 50, counted from 0' list kinds.trace 50
fails 'TO is past the last entry: the trace has 50, counted from 0' list kinds.trace 0 50
fails 'FROM is larger than TO' list kinds.trace 3 2
fails "TO is a decimal number, not '2h'" list kinds.trace 0 2h
recorded empty.trace 'vram 64'
says 0 'vram 64' '' list empty.trace
fails 'FROM is past the last entry: the trace has 0, counted from 0' list empty.trace 0
{ words 1 16 64 28 && bytes 7 16 0 0 && words 1 2; } >space.trace
says 1 'vram 64
    0: space 7 lanes 16 00000001h 00000002h | 2 0 | neither frame nor register; refused, 2: the space is not 0 (frame) or 1 (register), or the lanes exceed 15; a run ends here' '' list space.trace
says 1 'vram 5760
 4080: frame 00001664h 0000016Ah           | 8 0 | opaque stipple, 32 pixels from 5732; refused, 8: a pixel of the span lies outside video memory; a run ends here
 4081: register pixel-mask FFFFFFFFh       | 0 0 | 32 of 32 pixels; after the run'\''s end at entry 4080
 4082: register mode 00000000h             | 0 0 | simple; after the run'\''s end at entry 4080' '' list cases/l8-015e.trace 4080

# --- replay: what is said where an entry is refused

# NUMBER, ENTRIES, PIXELS, VRAM, CHANGED: the lines of replay.
went() {
    printf 'number %s\nentries %s\npixels %s\nvram %s\nchanged %s' "$@"
}
says 1 "$(went 8 4080 128360 5760 125176)" 'entry 4080 refused, 8: a pixel of the span lies outside video memory (opaque stipple, frame 00001664h)' \
    replay cases/l8-015e.trace
says 1 "$(cat out)" "$(sed 's/^zevkholtai: //' err)" replay - <cases/l8-015e.trace
refused_as() {
    sentence=$1 line=$2
    shift 2
    recorded refused.trace 'vram 64' "$@" "$line"
    says 1 "$(went "${sentence%%:*}" $# 0 64 0)" "entry $# refused, $sentence" replay refused.trace
    says 1 "$(cat out)" "entry $# refused, $sentence" replay - <refused.trace
}
refused_as '8: a pixel of the span lies outside video memory (simple, frame FFFFFFFCh)' 'frame FFFFFFFC 0'
refused_as '8: a place that the line visits lies outside video memory (transparent line, frame 00000040h)' 'frame 40 0' 'register mode 6'
refused_as '4: there is no such register (register 00000021h = 00000007h)' 'register 21 7'
refused_as '6: a raster operation has any of bits 11:8 set, or a pixel shift any of bits 3:0 (register pixel shift = 00000001h)' \
    'register pixel-shift 1' 'register fill-mask 1' 'register plane-mask 0'
refused_as '13: a continue comes before any accepted line (register continue = 00000000h)' 'register continue 0' 'register mode 2'
says 1 "$(went 2 0 0 64 0)" 'entry 0 refused, 2: the space is not 0 (frame) or 1 (register), or the lanes exceed 15 (space 7, 00000001h = 00000002h, lanes 16)' \
    replay space.trace

# --- what is wrong with bytes that are no trace

# MESSAGE, and the arriving trace's where it is another: in replay, list, show, diff and replay from standard input.
no_trace() {
    lines=$(went 10 0 0 0 0)
    says 1 "$lines" "no trace, 10: $1" replay broken.trace -o none.pgm --width 8
    says 1 '' "no trace, 10: $1" list broken.trace
    says 1 '' "no trace, 10: $1" show broken.trace -o none.pgm --width 8
    says 1 '' "broken.trace: no trace, 10: $1" diff "$trace" broken.trace -o none.pgm
    says 1 '' "broken.trace: no trace, 10: $1" diff broken.trace --held 00 --held 80
    none none.pgm 'no trace'
    says 1 "${3:-$lines}" "no trace, 10: ${2:-$1}" replay - <broken.trace
}
: >broken.trace
no_trace 'the header ends at byte 0 of 16'
head -c 5 "$trace" >broken.trace
no_trace 'the header ends at byte 5 of 16'
words 65537 16 64 786460 >broken.trace
no_trace 'byte 0: 65537 entries announced, at most 65536'
words 5 17 64 76 >broken.trace
no_trace "byte 4: the entries' offset is 17, not 16"
for length in 0 63 2097216; do
    words 0 16 "$length" 16 >broken.trace
    no_trace "byte 8: a video memory of $length bytes (0, no multiple of 64, or over 2097152)"
done
words 5 16 64 99 >broken.trace
no_trace 'byte 12: the total is 99, not 16 + 12 * 5 = 76'
head -c 100 "$trace" >broken.trace
no_trace 'it breaks off at byte 100; its header says 9748' 'it breaks off: 100 bytes came, and 9648 of its 9748 are owed' "$(went 10 7 12 512 0)"
{ cat sample.trace && bytes 0; } >broken.trace
no_trace 'it goes on past byte 28, where its header says it ends' '' "$(went 10 1 4 64 4)"
{ head -c 1230 "$trace" && bytes 5 && tail -c +1232 "$trace"; } >broken.trace
"$tool" record - first.trace <<TEXT
$("$tool" list "$trace" 0 100)
TEXT
"$tool" replay first.trace >first
sed -e 's/^number 0/number 10/' first >want
no_trace 'byte 1230: a pad byte of entry 101 is 5, not 0' '' "$(cat want)"
says 1 "$(went 10 0 0 0 0)" "no trace, 10: byte 4: the entries' offset is 0, not 16" replay /dev/zero
says 1 "$(went 10 0 0 0 0)" "no trace, 10: byte 4: the entries' offset is 0, not 16" replay - </dev/zero
# once a number has come, no more is read
{
    cat refused.trace
    sent=0
    head -c 10000000 /dev/zero 2>sender || sent=$?
    echo "$sent" >sent
} | {
    says 1 "$(went 13 1 0 64 0)" 'entry 1 refused, 13: a continue comes before any accepted line (register continue = 00000000h)' replay -
}
[ "$(cat sent)" -ne 0 ] || wrong 'replay - goes on reading after a refused entry'
pass
cat long.trace sample.trace >broken.trace
says 1 "$(went 10 0 0 0 0)" 'no trace, 10: it goes on past byte 786448, where its header says it ends' replay broken.trace
says 1 '' "$(printf 'broken.trace: no trace, 10: it goes on past byte 786448, where its header says it ends\nzevkholtai: standard input: no trace, 10: the header ends at byte 0 of 16')" \
    diff broken.trace - </dev/null

# --- pictures

have_python=
if python3 -c 'import zlib' 2>/dev/null; then have_python=yes; fi
cat >check.py <<'PYTHON'
"""A PNG against the colours it must have: check.py PNG WAY PGM [PGM], where WAY is grey, diff or the alarm planes."""
import struct, sys, zlib

def chunks(data):
    assert data[:8] == b"\x89PNG\r\n\x1a\n"
    at = 8
    while at < len(data):
        size, = struct.unpack_from(">I", data, at)
        name, content = data[at + 4:at + 8], data[at + 8:at + 8 + size]
        assert struct.unpack_from(">I", data, at + 8 + size)[0] == zlib.crc32(name + content)
        yield name, content
        at += 12 + size

def pixels(pgm):
    magic, size, largest, rest = open(pgm, "rb").read().split(b"\n", 3)
    columns, rows = map(int, size.split())
    assert magic == b"P5" and largest == b"255" and len(rest) == columns * rows
    return columns, rows, rest

def colour(way, byte, other):
    if way == "grey":
        return (byte,) * 3
    if way == "diff":
        return (byte // 4,) * 3 if byte == other else (255, 0, 0)
    alarm = int(way, 16)
    grey = byte & ~alarm
    return (255, grey // 4, grey // 4) if byte & alarm else (grey,) * 3

png, way = sys.argv[1:3]
columns, rows, bytes_ = pixels(sys.argv[3])
others = pixels(sys.argv[-1])[2]
found = list(chunks(open(png, "rb").read()))
names = [name for name, _ in found]
assert names == [b"IHDR", b"PLTE", b"IDAT", b"IEND"] or names == [b"IHDR", b"IDAT", b"IEND"]
content = dict(found)
assert content[b"IHDR"] == struct.pack(">IIBBBBB", columns, rows, 8, 3 if b"PLTE" in content else 0, 0, 0, 0)
assert content[b"IEND"] == b""
palette = content.get(b"PLTE", bytes(i // 3 for i in range(768)))
raw = zlib.decompress(content[b"IDAT"])
assert len(raw) == rows * (columns + 1)
for row in range(rows):
    line = raw[row * (columns + 1):(row + 1) * (columns + 1)]
    assert line[0] == 0
    for column, index in enumerate(line[1:]):
        at = row * columns + column
        assert tuple(palette[3 * index:3 * index + 3]) == colour(way, bytes_[at], others[at]), (row, column)
PYTHON

# PNG, COLUMNS, ROWS, bytes of a palette with its frame, WAY, PGM [PGM]: signature and size, and where python3 is, every chunk and pixel.
png_is() {
    png=$1 columns=$2 rows=$3 palette=$4
    shift 4
    head -c 8 "$png" >signature
    bytes 137 80 78 71 13 10 26 10 | cmp -s - signature || wrong "$png has no PNG's signature"
    raw=$((rows * (columns + 1)))
    size=$((8 + 25 + palette + 12 + 2 + 5 * ((raw + 65534) / 65535) + raw + 4 + 12))
    [ "$(wc -c <"$png")" -eq "$size" ] || wrong "$png has $(wc -c <"$png") bytes, not $size"
    [ -z "$have_python" ] || python3 check.py "$png" "$@" || wrong "$png: other pixels"
    pass
}

while read -r name columns rows last; do
    { pgm "$columns" "$rows" && cat "cases/$name.expected"; } >want.pgm
    want=0
    [ "$name" != l8-015e ] || want=1
    for way in "replay cases/$name.trace shown.pgm $columns" "replay --width=$columns cases/$name.trace -o shown.pgm --held 00" \
        "show -o shown.pgm cases/$name.trace --width $columns" "show -o shown.pgm cases/$name.trace --width $columns --at $last"; do
        rm -f shown.pgm
        # shellcheck disable=SC2086 # words
        call $way
        [ "$got" -eq "$want" ] || wrong "$way: exit status $got: $(cat err)"
        same shown.pgm want.pgm "$way"
    done
    call replay "cases/$name.trace" shown.png "$columns"
    png_is shown.png "$columns" "$rows" 0 grey want.pgm
    call show "cases/$name.trace" -o shown.PNG --width "$columns" --plain --held 00
    png_is shown.PNG "$columns" "$rows" 0 grey want.pgm
    call show "cases/$name.trace" -o shown.png --width "$columns" --alarm C0
    [ "$got" -eq "$want" ] || wrong "show $name: exit status $got: $(cat err)"
    [ ! -s out ] || wrong "show $name: it said $(cat out)"
    png_is shown.png "$columns" "$rows" 780 c0 want.pgm
done <<TABLE
l8-000 8 64 810
l8-004 640 48 467
l8-012 64 514 829
l8-015e 72 80 4082
l8-021 512 64 4075
x8-000-ask1 512 64 987
x8-004 512 64 473
x8-009 512 64 476
x8-015 512 64 490
TABLE

# a PNG of more than one block
call replay cases/bedside.trace want.pgm 256
call show cases/bedside.trace -o shown.png --width 256
png_is shown.png 256 256 780 grey want.pgm

# a picture after an entry on the way, and every so many
says 0 '' '' show "$trace" -o at.pgm --at 100 --width 8
call replay first.trace want.pgm 8
same at.pgm want.pgm 'show --at 100'
call replay "$trace" last.pgm 8
says 0 '' '' show "$trace" -o every.v1.pgm --every 300 --width 8
for index in 00299 00599 00810; do
    says 0 '' '' show "$trace" -o at.pgm --at "${index#00}" --width 8
    same "every.v1-$index.pgm" at.pgm 'show --every 300'
done
same every.v1-00810.pgm last.pgm 'show --every 300'
[ "$(find . -name 'every*' | wc -l)" -eq 3 ] || wrong 'show --every 300 left other pictures'
says 0 '' '' show sample.trace -o once.pgm --every 7 --width 8
{ pgm 8 8 && bytes 17 34 51 68 && head -c 60 /dev/zero; } >want.pgm
same once-00000.pgm want.pgm 'show --every 7'
fails '--every: the trace has no entry' show empty.trace -o none.pgm --every 7 --width 8
says 0 '' '' show empty.trace -o at.pgm --width 8
{ pgm 8 8 && head -c 64 /dev/zero; } >want.pgm
same at.pgm want.pgm 'a trace without entries'
sentence='entry 4080 refused, 8: a pixel of the span lies outside video memory (opaque stipple, frame 00001664h)'
says 1 '' "$sentence" show cases/l8-015e.trace -o stop.pgm --every 4080 --width 72
{ pgm 72 80 && cat cases/l8-015e.expected; } >want.pgm
same stop-04079.pgm want.pgm 'show --every up to a refused entry'
same stop-04080.pgm want.pgm 'show --every at a refused entry'
none stop-04081.pgm 'show --every past a refused entry'
says 0 '' '' show cases/l8-015e.trace -o at.pgm --at 4079 --width 72
same at.pgm want.pgm 'show before a refused entry'
says 1 '' "$sentence" show cases/l8-015e.trace -o at.pgm --at 4080 --width 72

# alarm planes that are held stay, and are red over the grey of the others
i=0
while [ "$i" -lt 256 ]; do
    bytes "$i"
    i=$((i + 1))
done >all
recorded over.trace 'vram 256' 'register mode 45' 'register fill-mask FFFFFFFF' 'register foreground 55555555' 'frame 80 7F'
{ printf 'P5 # a comment\n# another\n16\t16 255\n' && cat all; } >on.pgm
{ pgm 16 16 && head -c 128 all && i=128 && while [ "$i" -lt 256 ]; do bytes $((i / 128 * 128 + 85)); i=$((i + 1)); done; } >want.pgm
says 0 '' '' show over.trace --on on.pgm --held 80 -o alarm.pgm --width 16
same alarm.pgm want.pgm 'held planes on a picture'
says 0 '' '' show over.trace --on on.pgm --held 80 -o alarm.png --width 16
png_is alarm.png 16 16 780 80 want.pgm
i=0
while [ "$i" -lt 256 ]; do
    if [ "$i" -lt 128 ]; then bytes "$i" "$i" "$i"; else bytes 255 $((i % 128 / 4)) $((i % 128 / 4)); fi
    i=$((i + 1))
done >palette
tail -c +42 alarm.png | head -c 768 >found
same found palette 'the palette'
says 0 '' '' show over.trace --on on.pgm --held 80 -o alarm.png --width 16 --plain
png_is alarm.png 16 16 0 grey want.pgm
says 0 '' '' show over.trace --on on.pgm --held 80 --alarm 01 -o alarm.png --width 16
png_is alarm.png 16 16 780 01 want.pgm
# PGM header and content, and what is wrong with it
not_on() {
    fails "off.pgm: $1" show over.trace --on off.pgm -o none.pgm --width 16
    none none.pgm 'a bad --on'
}
{ printf 'P2\n16 16\n255\n' && cat all; } >off.pgm
not_on 'it is no binary PGM (P5)'
{ printf 'P5\n16 16\n254\n' && cat all; } >off.pgm
not_on 'its largest grey is not 255'
{ pgm 16 15 && cat all; } >off.pgm
not_on 'it has not as many bytes as its header says'
{ pgm 16 16 && cat all && bytes 0; } >off.pgm
not_on 'it has not as many bytes as its header says'
{ pgm 16 18446744073709551615 && cat all; } >off.pgm
not_on 'it has not as many bytes as its header says'
{ pgm 16 17 && cat all && head -c 16 all; } >off.pgm
not_on 'it has 272 pixels, and video memory 256'
printf 'P5\n16 16 # no end' >off.pgm
not_on 'its header is damaged'
printf 'P516 16\n255\n' >off.pgm
not_on 'its header is damaged'

# --- diff

says 0 'entries: alike, 988
answers: alike, number 0
pictures: alike' '' diff cases/x8-000-ask1.trace cases/x8-000-ask1.trace
cp cases/l8-015e.trace refused.trace
says 0 'entries: alike, 4083
answers: alike, number 8
pictures: alike' '' diff refused.trace - --held 0f -o same.pgm --width 72 <cases/l8-015e.trace
{ pgm 72 80 && head -c 5760 /dev/zero; } >want.pgm
same same.pgm want.pgm 'no difference'
recorded a.trace 'vram 128' 'register plane-mask FFFFFFFF' 'frame 10 44332211' 'frame 20 01010101'
recorded b.trace 'vram 128' 'register plane-mask FFFFFFFF' 'frame lanes 5 10 44332211' 'frame 20 01010101'
says 1 'entries: 3 and 3, the first that differs is 1
A     1: frame 00000010h 44332211h           | 0 4 | simple, 4 pixels from 16
B     1: frame lanes 5 00000010h 44332211h   | 0 2 | simple, 4 pixels from 16
answers: number 0, the first that differs is of entry 1 (simple, frame 00000010h): 0 4 and 0 2
pictures: 2 pixels differ, columns 1 to 3, rows 2 to 2' '' diff a.trace b.trace --width 8 -o apart.pgm
{ pgm 8 16 && head -c 17 /dev/zero && bytes 255 0 255 && head -c 108 /dev/zero; } >want.pgm
same apart.pgm want.pgm 'the difference'
call diff a.trace b.trace --width 8 -o apart.png
call replay a.trace a.pgm 8
call replay b.trace b.pgm 8
png_is apart.png 8 16 780 diff a.pgm b.pgm
recorded c.trace 'vram 128' 'register plane-mask FFFFFFFF'
says 1 'entries: 3 and 1, the first that differs is 1
A     1: frame 00000010h 44332211h           | 0 4 | simple, 4 pixels from 16
B ends at 1
answers: alike, number 0
pictures: 8 pixels differ, columns 0 to 6, rows 2 to 5' '' diff a.trace c.trace --width 7
says 1 'entries: 1 and 3, the first that differs is 1
A ends at 1
B     1: frame 00000010h 44332211h           | 0 4 | simple, 4 pixels from 16
answers: alike, number 0
pictures: 8 pixels differ, columns 16 to 35, rows 0 to 0' '' diff c.trace a.trace
recorded d.trace 'vram 128' 'frame 80 0' 'frame 10 44332211' 'frame 20 01010101'
says 1 'entries: 3 and 3, the first that differs is 0
A     0: register plane-mask FFFFFFFFh       | 0 0 | FF FF FF FF
B     0: frame 00000080h 00000000h           | 8 0 | simple, 4 pixels from 128; refused, 8: a pixel of the span lies outside video memory; a run ends here
answers: number 0 and 8, the first that differs is of entry 0 (register plane mask = FFFFFFFFh): 0 0 and 8 0
pictures: 8 pixels differ, columns 16 to 35, rows 0 to 0' '' diff a.trace d.trace
recorded longer.trace 'vram 128' 'register plane-mask FFFFFFFF' 'frame 10 44332211' 'frame 20 01010101' 'frame lanes 1 80 0'
says 1 'entries: 3 and 4, the first that differs is 3
A ends at 3
B     3: frame lanes 1 00000080h 00000000h   | 8 0 | simple, 4 pixels from 128; refused, 8: a pixel of the span lies outside video memory; a run ends here
answers: number 0 and 8, B at entry 3 (simple, frame 00000080h, lanes 1)
pictures: alike' '' diff a.trace longer.trace
recorded e.trace 'vram 128' 'frame 10 44332211' 'frame 80 0' 'frame 20 01010101'
says 1 'entries: 3 and 3, the first that differs is 0
A     0: frame 00000080h 00000000h           | 8 0 | simple, 4 pixels from 128; refused, 8: a pixel of the span lies outside video memory; a run ends here
B     0: frame 00000010h 44332211h           | 0 4 | simple, 4 pixels from 16
answers: number 8, the first that differs is of entry 0 (simple, frame 00000080h): 8 0 and 0 4
pictures: 4 pixels differ, columns 16 to 19, rows 0 to 0' '' diff d.trace e.trace
recorded f.trace 'vram 192' 'register plane-mask FFFFFFFF' 'frame 10 44332211' 'frame 20 01010101'
says 1 'entries: alike, 3
answers: alike, number 0
video memory: 128 and 192 bytes
pictures: they differ' 'no picture: the two differ in length' diff a.trace f.trace -o none.pgm --width 8
none none.pgm 'a difference of lengths'
says 1 'entries: alike, 3
answers: alike, number 0
pictures: 1 pixel differs, columns 3 to 3, rows 2 to 2' '' diff a.trace --held 00 --held 40 --width 8
says 1 "$(cat out)" '' diff --held=00 a.trace --width=8 a.trace --held=40
says 0 'entries: alike, 3
answers: alike, number 0
pictures: alike' '' diff a.trace a.trace --held 40
recorded g.trace 'vram 128' 'register plane-mask FFFFFFFF' 'frame 10 04332211' 'frame 20 01010101'
entries='entries: 3 and 3, the first that differs is 1
A     1: frame 00000010h 44332211h           | 0 4 | simple, 4 pixels from 16
B     1: frame 00000010h 04332211h           | 0 4 | simple, 4 pixels from 16
answers: alike, number 0'
says 1 "$entries
pictures: alike" '' diff a.trace g.trace --held 40 --held 00
says 1 "$entries
pictures: 1 pixel differs, columns 19 to 19, rows 0 to 0" '' diff a.trace g.trace --held 00 --held 40
recorded h.trace 'vram 128' 'register plane-mask FFFFFFFF' 'frame 80 0'
says 1 'entries: 3 and 2, the first that differs is 0
A     0: frame 00000080h 00000000h           | 8 0 | simple, 4 pixels from 128; refused, 8: a pixel of the span lies outside video memory; a run ends here
B     0: register plane-mask FFFFFFFFh       | 0 0 | FF FF FF FF
answers: number 8, the first that differs is of entry 0 (simple, frame 00000080h): 8 0 and 0 0
pictures: alike' '' diff d.trace h.trace

# --- explain

call explain
answered 0 explain
[ "$(wc -l <out)" -eq 68 ] || wrong 'explain: not 14, 23, 12 and 16 lines, and three empty ones'
pass
mv out tables
for number in 0 1 2 3 4 5 6 7 8 9 10 11 12 13; do
    call explain "$number"
    answered 0 "explain $number"
    [ "$(wc -l <out)" -eq 2 ] || wrong "explain $number: it said $(cat out)"
    head -n 1 out >found
    sed -n "$((number + 1))p" tables >want
    same found want "explain $number"
done
says 0 'number 8   a pixel of the span lies outside video memory
Frame writes, the 64-byte copy, continues and read-backs can get it. Look at the first pixel, the width and the length of video memory: pixels count though they are masked, and places of a line though they are not drawn.' '' explain 8
plane='register 0028h  plane-mask        read, write  planes that can change; pixel p takes byte p mod 4'
for word in plane-mask 'plane mask' PLANE_MASK 28 28h 0x28 0028; do
    says 0 "$plane" '' explain "$word"
done
says 0 "$plane" '' explain plane mask
copy='mode 0007h  copy                  32 pixels are read and, by the next write, drawn elsewhere'
says 0 "$copy
operation 3   copy           source" '' explain copy
says 0 "$copy" '' explain 07
says 0 'operation 6   xor            source xor old' '' explain xor
says 0 'mode 0045h  transparent-fill      1 to 2048 pixels take foreground where the fill mask is set' '' explain 45
says 0 'register 0164h  copy-destination  write only   address of 64 pixels to draw from those loaded
operation 14  nand           not (source and old)' '' explain copy-destination nand
says 0 'mode 0000h  simple                4 pixels take the data'\''s bytes, by lanes and pixel mask' '' explain 00
for word in 14 colour h 0x '' 100000030; do
    fails "nothing is called '$word'; 'zevkholtai explain' lists all" explain "$word"
done
fails "nothing is called 'colour'; 'zevkholtai explain' lists all" explain 8 colour
# the formula of an operation gives, for source bit s and old bit d, bit 3 - 2s - d of its number
call explain
sed -n 's/^operation \([0-9]*\) *[a-z-]*  */\1 /p' out | sed 's/xor/^/g; s/and/\&/g; s/or/|/g; s/not /!/g; s/source/s/g; s/old/d/g' >formulas
[ "$(wc -l <formulas)" -eq 16 ] || wrong 'explain: not sixteen formulas'
while read -r number formula; do
    for s in 0 1; do
        for d in 0 1; do
            [ "$(eval "echo \$(($formula))")" -eq $((number >> (3 - 2 * s - d) & 1)) ] || wrong "operation $number is not $formula"
        done
    done
    pass
done <formulas

# --- an output that is an input

cp "$trace" in.pgm
cp in.pgm kept
recorded in.trace 'vram 512'
printf 'vram 512\n' >in.txt
ln -s in.pgm symbolic.pgm
ln in.pgm hard.pgm
ln -s in.txt symbolic.txt
ln in.txt hard.txt
for output in in.pgm ./in.pgm symbolic.pgm hard.pgm; do
    complaint="$output: it is read too, and would be written over"
    fails "$complaint" replay in.pgm "$output" 8
    fails "$complaint" replay in.pgm -o "$output" --width 8
    fails "$complaint" replay - -o "$output" --width 8 <in.pgm
    fails "$complaint" show in.pgm -o "$output" --width 8
    fails "$complaint" show - -o "$output" --width 8 <in.pgm
    fails "$complaint" diff in.pgm "$trace" -o "$output" --width 8
    fails "$complaint" diff "$trace" in.pgm -o "$output" --width 8
    fails "$complaint" diff "$trace" - -o "$output" --width 8 <in.pgm
    same in.pgm kept 'an output that is the input'
done
cp last.pgm start.pgm
cp last.pgm kept
ln -s start.pgm other.pgm
fails 'other.pgm: it is read too, and would be written over' show "$trace" --on start.pgm -o other.pgm --width 8
same start.pgm kept 'an output that is --on'
ln "$trace" under-00599.pgm
cp "$trace" kept
fails 'under-00599.pgm: it is read too, and would be written over' show "$trace" -o under.pgm --every 300 --width 8
none under-00299.pgm 'an output that is the input, among others'
same "$trace" kept 'an output that is the input, among others'
for output in in.txt symbolic.txt hard.txt; do
    fails "$output: it is read too, and would be written over" record in.txt "$output"
    fails "$output: it is read too, and would be written over" record - "$output" <in.txt
    holds in.txt 'vram 512' || wrong "record wrote over its input by $output"
done

# --- streams that fail, and a small stack

full='No space left on device (os error 28)'
# The call's standard output is the file.
lost() {
    file=$1 complained=$2
    shift 2
    got=0
    "$tool" "$@" >"$file" 2>err || got=$?
    [ "$got" -eq 2 ] || wrong "$* > $file: exit status $got"
    holds err "zevkholtai: $complained" || wrong "$* > $file: it complained $(cat err)"
    pass
}
closed() {
    got=0
    "$tool" "$@" >&- 2>err || got=$?
    [ "$got" -eq 2 ] || wrong "$* >&-: exit status $got"
    holds err 'zevkholtai: standard output: it is closed' || wrong "$* >&-: it complained $(cat err)"
    pass
}
for line in --help --version explain 'list --help' "replay $trace" "list $trace" 'list cases/l8-021.trace' "diff $trace $trace"; do
    # shellcheck disable=SC2086 # words
    lost /dev/full "standard output: $full" $line
    # shellcheck disable=SC2086 # words
    closed $line
done
fails "/dev/full: $full" record in.txt /dev/full
ln -s /dev/full full.pgm
ln -s /dev/full full-00810.png
fails "full.pgm: $full" show "$trace" -o full.pgm --width 8
fails "full-00810.png: $full" show "$trace" -o full.png --every 811 --width 8
says 2 "$(went 0 811 3478 512 2094)" "/dev/full: $full" replay "$trace" /dev/full 8
says 2 'entries: alike, 811
answers: alike, number 0
pictures: alike' "full.pgm: $full" diff "$trace" "$trace" -o full.pgm --width 8
says 2 "$(went 0 811 3478 512 2094)" "missing/none.pgm: $missing" replay "$trace" missing/none.pgm 8
# whoever reads is gone
{
    got=0
    "$tool" list cases/l8-021.trace 2>err || got=$?
    echo "$got" >status
} | head -c 1 >out
got=$(cat status)
answered 2 'a broken pipe'
pass
# what is said on standard error can be lost, and the status stays
got=0
"$tool" replay cases/l8-015e.trace >out 2>/dev/full || got=$?
[ "$got" -eq 1 ] || wrong "standard error is full: exit status $got"
pass
recorded large.trace 'vram 2097152' 'frame 1FFFFC 44332211'
# shellcheck disable=SC3045 # every shell that we know has ulimit -s
for line in "replay long.trace" "list long.trace" "record kinds.lines none.trace" "diff large.trace large.trace" \
    "show large.trace -o none.png --alarm 80" "replay large.trace none.png" explain; do
    # shellcheck disable=SC2086 # words
    (ulimit -s 256 && "$tool" $line >out 2>err) || wrong "a stack of 256 KiB: $line: $(cat err)"
    pass
done
got=0
# shellcheck disable=SC3045 # as above
(ulimit -s 256 && "$tool" replay - <cases/l8-015e.trace >out 2>err) || got=$?
[ "$got" -eq 1 ] || wrong "a stack of 256 KiB: replay -: exit status $got"
pass

echo "tools: $passed cases as they should be"
