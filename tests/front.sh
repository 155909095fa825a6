#!/bin/sh
# The front door as people call it, on a tree that is built: through a link, several at once, with a small stack, without a temporary folder; on a tree that
# is not, with a stand-in for the toolchain; and what it installs, as another user runs it.
set -eu
tests=$(CDPATH='' cd -- "$(dirname -- "$0")" && pwd)
top=$(CDPATH='' cd -- "$tests/.." && pwd)
front=$top/zevkholtai
room=$(mktemp -d)
trap 'rm -rf "$room"' EXIT
chmod 755 "$room" # another user goes through it
passed=0

wrong() {
    echo "front door: $*" >&2
    exit 1
}

# CASE, the exit status wanted, then the command; its two streams are left in files.
case_is() {
    name=$1 want=$2
    shift 2
    got=0
    "$@" >"$room/out" 2>"$room/err" || got=$?
    [ "$got" -eq "$want" ] || wrong "$name: exit status $got, not $want: $(cat "$room/out" "$room/err")"
    passed=$((passed + 1))
}

# What the last case must have said, on standard output or standard error.
said() {
    grep -q -e "$2" "$room/$1" || wrong "$name: nothing like '$2' in: $(cat "$room/$1")"
}

trace=$tests/cases/l8-000.trace
answer='number 0
entries 811
pixels 3478
vram 512
changed 2094'

# ---- Help: of every verb, at once, and the manual page has all of it.
case_is 'no verb' 2 "$front"
said err '^usage'
case_is 'a verb that there is not' 2 "$front" fly
said err "unknown verb 'fly'"
case_is 'the version' 0 "$front" --version
cp "$room/out" "$room/version"
case_is "the tool's version" 0 "$top/target/tools/zevkholtai" --version
cmp -s "$room/out" "$room/version" || wrong 'the front door and the tool are of different versions'
case_is help 0 "$front" help
cp "$room/out" "$room/verbs"
for verb in replay list record show diff explain demo lib install bench test; do
    grep -q "^  $verb " "$room/verbs" || wrong "help does not list $verb"
    case_is "$verb --help" 0 "$front" "$verb" --help
    said out "^usage: zevkholtai $verb"
done
sed 's/\\-/-/g' "$top/docs/zevkholtai.1" >"$room/page"
grep -oh -e '--[a-z][a-z]*' "$top"/tools/help/*.txt | sort -u >"$room/options"
[ "$(wc -l <"$room/options")" -ge 7 ] || wrong 'the help texts name few options'
while IFS= read -r option; do
    grep -q -e "$option" "$room/page" || wrong "the manual page has no $option"
done <"$room/options"
for verb in replay list record show diff explain; do
    grep -q "zevkholtai $verb" "$room/page" || wrong "the manual page has no $verb"
    case_is "the tool's $verb --help" 0 "$top/target/tools/zevkholtai" "$verb" --help
    cmp -s "$room/out" "$top/tools/help/$verb.txt" || wrong "the tool says another help of $verb"
done

# ---- A tree that is built.
case_is 'an answer' 0 "$front" replay "$trace"
[ "$(cat "$room/out")" = "$answer" ] || wrong "an answer: $(cat "$room/out")"
ln -s "$front" "$room/door"
ln -s door "$room/door of doors"
case_is 'through a link to a link, from another folder' 0 sh -c 'cd / && "$1" replay "$2"' sh "$room/door of doors" "$trace"
[ "$(cat "$room/out")" = "$answer" ] || wrong "through a link: $(cat "$room/out")"

# six at once, each with its picture
for i in 1 2 3 4 5 6; do
    {
        code=0
        "$front" replay "$trace" "$room/at-once-$i.pgm" 8 >"$room/at-once-$i" 2>&1 || code=$?
        echo "status $code" >>"$room/at-once-$i"
    } &
done
wait
for i in 1 2 3 4 5 6; do
    [ "$(cat "$room/at-once-$i")" = "$answer
status 0" ] || wrong "one of six at once: $(cat "$room/at-once-$i")"
    tail -c 512 "$room/at-once-$i.pgm" | cmp -s - "$tests/cases/l8-000.expected" || wrong 'one of six at once: another picture'
    passed=$((passed + 1))
done

cp "$trace" "$room/kept.trace"
case_is 'a picture over its trace' 2 "$front" replay "$room/kept.trace" "$room/kept.trace" 8
cmp -s "$trace" "$room/kept.trace" || wrong 'a trace was written over'
case_is 'a folder for a trace' 2 "$front" replay "$room"
case_is 'an answer that cannot be written' 2 sh -c '"$1" replay "$2" >/dev/full' sh "$front" "$trace"
for verb in help --version 'replay --help' lib; do
    # shellcheck disable=SC2086 # the verb and its option are words
    case_is "$verb that cannot be written" 2 sh -c 'exec >/dev/full; "$@"' sh "$front" $verb
done
case_is 'an accepted trace whose messages are lost' 0 sh -c 'cd "$2" && "$1" replay 2>/dev/full' sh "$front" "$room"
case_is 'an error whose message is lost' 2 sh -c '"$1" fly 2>/dev/full' sh "$front"
case_is 'a trace that is refused' 1 "$front" replay "$tests/cases/l8-015e.trace"
said err 'entry 4080 refused, 8: '
case_is 'no temporary folder is asked for' 0 env TMPDIR="$room/missing" "$front" replay "$trace"
case_is 'a small stack' 0 sh -c 'ulimit -s 1024 && "$1" replay "$2"' sh "$front" "$trace"
[ "$(cat "$room/out")" = "$answer" ] || wrong "a small stack: $(cat "$room/out")"

case_is 'the demonstration' 0 "$front" demo "$room/demo.pgm"
[ "$(wc -c <"$room/demo.pgm")" -eq $((65536 + 15)) ] || wrong 'the demonstration: another picture'
case_is 'the demonstration to a bad path' 2 "$front" demo "$room/missing/demo.pgm"
said err 'No such file'
case_is 'the demonstration to a bad path, and its message lost' 2 sh -c '"$1" demo "$2" 2>/dev/full' sh "$front" "$room/missing/demo.pgm"
case_is 'an option of the demonstration' 2 "$front" demo -h
case_is 'the demonstration to a folder' 2 "$front" demo "$room"
case_is 'the demonstration, unheard' 2 sh -c '"$1" demo >/dev/full' sh "$front"
case_is 'the demonstration without a temporary folder' 2 env TMPDIR="$room/missing" "$front" demo
said err 'temporary folder'
case_is 'the demonstration on a small stack' 0 sh -c 'ulimit -s 1024 && "$1" demo' sh "$front"

# README shows the tools as they answer
sed -n '/^## A technician/,/^## What is proved/s/^    //p' "$top/README.md" >"$room/shown"
sed -n 's/^\$ //p' "$room/shown" | while IFS= read -r line; do
    echo "\$ $line"
    (cd "$top" && eval "$line") 2>&1 </dev/null || true
done >"$room/answered"
for verb in replay list explain show; do
    grep -q "^\$ ./zevkholtai $verb " "$room/answered" || wrong "README does not show $verb"
done
diff "$room/shown" "$room/answered" >&2 || wrong 'README shows other answers'
passed=$((passed + 1))

# ---- A tree that is not built: the toolchain is a stand-in, which notes what it is asked.
tree=$room/tree
mkdir -p "$tree/crates/demo" "$tree/bindings" "$tree/tools" "$room/stand-in"
cp "$front" "$tree/zevkholtai"
printf 'card:\nhost staticlib: card\nhost_run staticlib: card\nhost_serial staticlib: card\ndemo: card\n' >"$tree/crates.txt"
mkdir "$tree/crates/host" "$tree/crates/host_run" "$tree/crates/host_serial"
echo 'what the engine is made of' >"$tree/crates/one"
cat >"$room/stand-in/rt" <<'STANDIN'
#!/bin/sh
echo "rt $*" >>"$NOTES"
[ ! -e "$BROKEN" ] || { echo 'a proof that does not hold'; exit 1; }
[ "$1" != ci ] || { cat "$GATE"; exit "${GATE_STATUS:-0}"; }
echo 'crate card: modules loaded=41 checked=3'
echo 'logic=proved functions=1 sum=0'
mkdir -p out
touch "out/lib${PWD##*/}.a"
printf '#!/bin/sh\nkill -SEGV $$\n' >out/demo
chmod 755 out/demo
turns=0
while [ -e "$AWAITED" ] && [ "$turns" -lt 100 ] && ! grep -qs 'this one waits' "$AWAITED"/first-err-*; do
    turns=$((turns + 1))
    sleep 0.1
done
STANDIN
cat >"$room/stand-in/cargo" <<'STANDIN'
#!/bin/sh
echo "cargo $*" >>"$NOTES"
mkdir -p "$CARGO_TARGET_DIR/release"
printf '#!/bin/sh\n[ "$2" != crash ] || kill -SEGV $$\necho "tool $*"\n' >"$CARGO_TARGET_DIR/release/zevkholtai"
chmod 755 "$CARGO_TARGET_DIR/release/zevkholtai"
STANDIN
printf '#!/bin/sh\ncat >/dev/null\ntouch libzevkholtai.a\n' >"$room/stand-in/ar"
chmod 755 "$room/stand-in/rt" "$room/stand-in/cargo" "$room/stand-in/ar"
NOTES=$room/notes BROKEN=$room/broken AWAITED=$room/missing GATE=$room/gate
export NOTES BROKEN AWAITED GATE

# the front door of that tree
there() {
    PATH=$room/stand-in:$PATH "$tree/zevkholtai" "$@"
}

noted() {
    grep -c "^$1" "$NOTES" || true
}

touch "$BROKEN"
case_is 'a proof that does not hold' 2 there replay one
said err 'a proof that does not hold'
rm "$BROKEN" "$NOTES"
case_is 'help, before anything is built' 0 there help
[ ! -e "$NOTES" ] || wrong 'help built something'
AWAITED=$room # the first to build goes on once another call waits for it
for i in 1 2 3; do
    {
        code=0
        there replay "one $i" >"$room/first-$i" 2>"$room/first-err-$i" || code=$?
        echo "status $code" >>"$room/first-$i"
    } &
done
wait
for i in 1 2 3; do
    [ "$(cat "$room/first-$i")" = "tool replay one $i
status 0" ] || wrong "a first call among three: $(cat "$room/first-$i" "$room/first-err-$i")"
done
AWAITED=$room/missing
[ "$(noted 'rt lib')" -eq 3 ] && [ "$(noted cargo)" -eq 1 ] || wrong "three first calls built more than once: $(cat "$NOTES")"
grep -qh 'zevkholtai: proving and building' "$room"/first-err-* || wrong 'a first call does not say what it does'
grep -qh 'zevkholtai: card proved ([0-9]* s)' "$room"/first-err-* || wrong 'a first call does not say which crate was proved'
grep -qh 'another call is building here' "$room"/first-err-* || wrong 'a call that waits does not say so'
passed=$((passed + 4))
case_is 'a call on the built tree' 0 there replay two
[ ! -s "$room/err" ] && [ "$(noted rt)" -eq 3 ] || wrong "a call on the built tree: $(cat "$room/err" "$NOTES")"
echo 'changed' >>"$tree/crates/one"
case_is 'a call after a change' 0 there replay two
[ "$(noted 'rt lib')" -eq 6 ] || wrong "a change was not built: $(cat "$NOTES")"
case_is 'a program that crashes' 2 there replay crash
said err 'crashed'
case_is 'a demonstration that crashes' 2 there demo
said err 'crashed'
rm "$tree/target/tools/zevkholtai"
case_is 'a call after the tool was lost' 0 there replay two
printf '#!/bin/sh\nexit 1\n' >"$room/stand-in/ar"
echo 'changed again' >>"$tree/crates/one"
case_is 'a library that cannot be joined' 2 there replay two
printf '#!/bin/sh\necho broken\nexit 101\n' >"$room/stand-in/cargo"
printf '#!/bin/sh\ncat >/dev/null\ntouch libzevkholtai.a\n' >"$room/stand-in/ar"
case_is 'a tool that does not compile' 2 there replay two
said err 'broken'
printf '#!/bin/sh\nexit 1\n' >"$room/stand-in/cksum"
chmod 755 "$room/stand-in/cksum"
case_is 'files that cannot be read' 2 there replay two
said err 'cannot be read'
rm "$room/stand-in/cksum"

# the toolchain's gate: what it fails, and an edit that it cannot try
printf 'rt: FAILED: card\n4 passed, 1 failed\n' >"$GATE"
case_is 'a gate that fails' 2 there test
said out '^4 passed, 1 failed$'
said err "'rt ci' failed"
printf 'rt: ok; handles allowed: none; must-fail edits: 3 refused, 1 bad; all was done\n5 passed, 0 failed\n' >"$GATE"
case_is 'a bad must-fail edit' 2 there test
said err 'edit is bad'
said err "'rt ci' failed"
! grep -q 'passed' "$room/out" || wrong 'a bad must-fail edit passed'
printf 'rt: ok; handles allowed: none; must-fail edits: 3 refused; all was done\n5 passed, 0 failed\n' >"$GATE"
GATE_STATUS=1
export GATE_STATUS
case_is 'a gate that fails though its last line is good' 2 there test
said err "'rt ci' failed"
! grep -q 'passed' "$room/out" || wrong 'a gate that fails passed'
unset GATE_STATUS
printf 'rt: crates are proved\n5 passed, 0 failed\n' >"$GATE"
case_is 'a gate that does not say what it did' 2 there test
said err "'rt ci' failed"
! grep -q 'passed' "$room/out" || wrong 'a gate that does not say what it did passed'
printf 'rt: ok; handles allowed: none; must-fail edits: 3 refused, 1 of them only by a limit; all was done\n5 passed, 0 failed\n' >"$GATE"
case_is 'a gate that passes, with a tool that does not compile' 2 there test
said out '^rt: ok'
said err 'broken'
! grep -q 'passed' "$room/out" || wrong 'the last line came before the last check'

# a commit that today's toolchain cannot build
git init -q "$tree"
printf 'host:\n' >"$tree/old.txt"
old=$(printf '100644 blob %s\tcrates.txt\n' "$(git -C "$tree" hash-object -w old.txt)" | git -C "$tree" mktree)
old=$(git -C "$tree" -c user.name=x -c user.email=x commit-tree -m old "$old")
case_is 'bench beside a commit in the older form' 2 there bench "$old"
said err 'older than'
case_is 'bench beside no commit' 2 there bench nothing
said err "knows no commit 'nothing'"

# ---- What is installed, in an empty folder, by one whose files others may not read; then another user runs it, far from here.
prefix="$room/the prefix"
case_is install 0 sh -c 'umask 077 && "$1" install "$2"' sh "$front" "$prefix"
another() {
    if [ "$(id -u)" -eq 0 ] && command -v setpriv >/dev/null 2>&1; then
        set -- setpriv --reuid 65534 --regid 65534 --clear-groups "$@"
    fi
    (cd / && env -i PATH=/usr/bin:/bin "$@")
}
sample=$prefix/share/zevkholtai/bedside.trace
case_is 'an installed replay' 0 another "$prefix/bin/zevkholtai" replay "$sample"
said out '^number 0$'
cp "$room/out" "$room/tool-said"
case_is 'the installed proved replay' 0 another "$prefix/bin/zevkholtai-replay" "$sample"
cmp -s "$room/out" "$room/tool-said" || wrong 'the installed programs say different things'
case_is 'the installed proved replay on a stack that may grow' 0 sh -c 'ulimit -S -s 1024 && "$1" "$2"' sh "$prefix/bin/zevkholtai-replay" "$sample"
cmp -s "$room/out" "$room/tool-said" || wrong 'on a stack that may grow the proved replay says another thing'
case_is 'the installed proved replay on a small stack' 2 sh -c 'ulimit -s 1024 && "$1" "$2"' sh "$prefix/bin/zevkholtai-replay" "$sample"
said err 'needs a stack of 4096 KB'
cp "$sample" "$room/kept.trace"
ln -s kept.trace "$room/link.pgm"
case_is 'the installed proved replay over its trace' 2 "$prefix/bin/zevkholtai-replay" "$room/kept.trace" "$room/link.pgm" 256
case_is 'the installed proved replay over its input' 2 sh -c '"$1" - "$2" 256 <"$2"' sh "$prefix/bin/zevkholtai-replay" "$room/kept.trace"
cmp -s "$sample" "$room/kept.trace" || wrong 'the installed proved replay wrote over its trace'
case_is 'an installed demonstration' 0 another "$prefix/bin/zevkholtai-demo"
case_is 'an installed explanation' 0 another "$prefix/bin/zevkholtai" explain 8
case_is 'the installed manual page' 0 another cat "$prefix/share/man/man1/zevkholtai.1"
said out '^.TH ZEVKHOLTAI 1'
if command -v pkg-config >/dev/null 2>&1; then
    flags=$(PKG_CONFIG_PATH=$prefix/lib/pkgconfig pkg-config --cflags --libs zevkholtai)
    [ "zevkholtai $(PKG_CONFIG_PATH=$prefix/lib/pkgconfig pkg-config --modversion zevkholtai)" = "$(cat "$room/version")" ] ||
        wrong 'another version for pkg-config'
else
    flags="'-I$prefix/include' '-L$prefix/lib' -lzevkholtai"
fi
case_is 'a host built on what is installed' 0 eval "cc -std=c99 -o '$room/host' '$top/examples/host.c' $flags"
case_is 'that host' 0 another "$room/host"
case_is 'install anew' 0 "$front" install "$prefix"
case_is 'install below a file' 2 "$front" install "$sample/below"
case_is 'install nowhere' 2 "$front" install

echo "front door: $passed cases as they should be"
