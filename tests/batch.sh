#!/usr/bin/env bash
# The program `batch` on the batches under tests/batch: for each NAME.in it must write exactly the octets of NAME.out, which come from the
# second program; whole, in pieces as a pipe brings them, and split between questions as README.md has it. And it answers a question before
# the next one comes, tells what fails, and takes no arguments but two. tests/batch_io.py has descriptors that do not block, signals, and
# failures in the middle.
set -u
cd "$(dirname "$0")/.." || exit 1

program=target/bin/batch
work=$(mktemp -d)
trap 'rm -rf "$work"' EXIT

fail() {
    printf 'batch: %s\n' "$*"
    exit 1
}

[ -x "$program" ] || fail "there is no $program: make makes it"

echo 'the stored batches are those of the second program'
export CARGO_TARGET_DIR=${CARGO_TARGET_DIR:-$PWD/target/cargo}
cargo run --offline --quiet --release -p comparison --bin questions -- "$work/stored" >"$work/told" \
    || fail 'the second program writes no batches'
diff -r "$work/stored" tests/batch || fail 'tests/batch is not what the second program writes'

count=0
compare() {
    cmp "$work/out" "$2" || fail "$1: not the answers of the second program"
    [ ! -s "$work/err" ] || fail "$1: told $(cat "$work/err")"
    count=$((count + 1))
}

# told CASE LINE..: standard error has these lines and no other
told() {
    printf '%s\n' "${@:2}" >"$work/lines"
    cmp "$work/err" "$work/lines" || fail "$1: told $(cat "$work/err")"
}

echo 'each batch, whole and in pieces'
for input in tests/batch/*.in; do
    name=${input%.in}
    "$program" <"$input" >"$work/out" 2>"$work/err"
    compare "$name" "$name.out"
    for piece in 1 3 1214; do
        dd if="$input" bs=$piece 2>"$work/told" | "$program" >"$work/out" 2>"$work/err"
        compare "$name in pieces of $piece" "$name.out"
    done
done
[ "$count" -gt 200 ] || fail "only $count runs"

echo 'a batch that is split between questions, with the commands of README.md'
python3 - tests/batch/thousand.in >"$work/questions.hex" <<'EOF' || fail 'the questions of a batch cannot be told apart'
import sys
octets = open(sys.argv[1], 'rb').read()
at = 0
while at < len(octets):
    start = at
    for tag in 1, 2, 3, 4:
        if octets[at] != tag:
            sys.exit(1)
        at += 3 + 256 * octets[at + 1] + octets[at + 2]
    print(octets[start:at].hex().upper())
EOF
sed -n '/^    split -n/,/^    cat part/p' README.md | sed "s|target/bin/batch|$PWD/$program|" >"$work/commands"
[ "$(wc -l <"$work/commands")" = 3 ] || fail 'README.md does not tell how a batch is split'
(cd "$work" && sh -e commands) >"$work/told" 2>"$work/err" || fail "README's commands: $(cat "$work/err")"
[ "$(ls "$work"/part.??.answers | wc -l)" = 4 ] || fail 'README.md splits a batch into other than four parts'
cp "$work/answers" "$work/out"
compare 'a batch in four parts' tests/batch/thousand.out

echo 'an answer comes before the input ends'
coproc waiting { "$program" 2>"$work/err"; }
cat tests/batch/whole-case.in >&"${waiting[1]}"
timeout 10 head -c "$(wc -c <tests/batch/whole-case.out)" <&"${waiting[0]}" >"$work/out" || fail 'no answer while the pipe is open'
compare 'a pipe that stays open' tests/batch/whole-case.out
kill "$waiting_PID" 2>/dev/null

echo 'what fails is told'
octets() { wc -c <"$1"; }
"$program" <tests >"$work/out" 2>"$work/err"
told 'a directory as input' 'batch: standard input: Is a directory' 'batch: 0 octets read, 0 octets written'
[ ! -s "$work/out" ] || fail 'a directory as input has answers'
"$program" <&- >"$work/out" 2>"$work/err"
told 'a closed input' 'batch: standard input: Bad file descriptor' 'batch: 0 octets read, 0 octets written'
[ ! -s "$work/out" ] || fail 'a closed input has answers'
"$program" <tests/batch/whole-case.in >&- 2>"$work/err"
told 'a closed output' 'batch: standard output: Bad file descriptor' \
    "batch: $(octets tests/batch/whole-case.in) octets read, 0 octets written"
"$program" <tests/batch/empty.in >&- 2>"$work/err"
[ ! -s "$work/err" ] || fail 'a closed output and nothing to write: something is told'
[ -w /dev/full ] || fail 'there is no /dev/full, which refuses what is written to it'
timeout 10 "$program" <tests/batch/whole-case.in >/dev/full 2>"$work/err" || fail 'it goes on where nothing can be written'
told 'a full output' 'batch: standard output: No space left on device' \
    "batch: $(octets tests/batch/whole-case.in) octets read, 0 octets written"
"$program" --help >/dev/full 2>"$work/err"
told 'help on a full output' 'batch: standard output: No space left on device' 'batch: 0 octets read, 0 octets written'
# a file that may have 1,024 octets: the write of all answers takes as many, and the next one fails
(trap '' XFSZ && ulimit -f 1 && "$program" <tests/batch/thousand.in >"$work/out" 2>"$work/err")
told 'an output that is full in the middle' 'batch: standard output: File too large' \
    "batch: $(octets tests/batch/thousand.in) octets read, 1024 octets written"
head -c 1024 tests/batch/thousand.out | cmp - "$work/out" || fail 'an output that is full in the middle: other octets'

echo 'arguments'
version=$(cat VERSION)
"$program" --version <&- >"$work/out" 2>"$work/err"
echo "batch (Qorshudan) $version" | cmp - "$work/out" || fail "--version says $(cat "$work/out")"
"$program" --help <&- >"$work/help" 2>>"$work/err"
grep -q 'exit status' "$work/help" || fail '--help says nothing of the exit status'
[ ! -s "$work/err" ] || fail "--version or --help: told $(cat "$work/err")"
wrong() {
    { "$program" "$@" >"$work/out" 2>"$work/err" && cat; } <tests/batch/whole-case.in >"$work/rest"
    told "arguments $*" 'batch: wrong usage: --help and --version are the only arguments' "$(head -n 1 "$work/help")"
    [ ! -s "$work/out" ] || fail "arguments $*: an answer"
    cmp "$work/rest" tests/batch/whole-case.in || fail "arguments $*: something is read"
}
wrong -h
wrong ''
wrong --help --version
wrong --helping
wrong "--version$(printf '%0100d' 0)"

echo 'descriptors that do not block, signals, failures in the middle'
command -v python3 >/dev/null || fail 'no python3'
timeout 120 python3 tests/batch_io.py "$program" || fail 'input and output'

echo "batch: ok, $count runs"
