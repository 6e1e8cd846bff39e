#!/usr/bin/env bash
# Tests what C, C++ and Rust programs get: the header, the Rust package, both examples, and the
# library under odd inputs. Needs a C and a C++ compiler, nm, valgrind, cargo and
# target/staticlib/libqorshudan.a. What QORSHUDAN_SKIP names, of `c++` and `valgrind`, is left out.
# All output goes to target/.
set -eu
cd "$(dirname "$0")/.."
export LC_ALL=C

fail() {
    printf 'library: %s\n' "$*" >&2
    exit 1
}

# Expects that two texts are the same; the first argument says what they are.
same() {
    [ "$2" = "$3" ] || fail "$1
expected: $2
but got:  $3"
}

# Whether a part is to be left out: never, unless it is asked for by name.
skip() {
    [[ " ${QORSHUDAN_SKIP:-} " == *" $1 "* ]]
}

cc=${CC:-cc}
cxx=${CXX:-c++}
tools=("$cc" nm cargo)
skip c++ || tools+=("$cxx")
skip valgrind || tools+=(valgrind)
for tool in "${tools[@]}"; do
    command -v "$tool" >/dev/null || fail "no $tool"
done
library=target/staticlib/libqorshudan.a
[ -f "$library" ] || fail "no $library: 'make' makes it"
out=target/library
mkdir -p "$out"
warnings=(-Wall -Wextra -Werror -pedantic)

echo 'the header and the Rust package declare what the library exports'
exported=$(nm -g --defined-only "$library" | awk 'NF == 3 { print $3 }' | sort)
declared=$(sed -nE 's/^(QORSHUDAN_RESULT|uint64_t) (qorshudan_[a-z_]+)\(.*/\2/p' include/qorshudan.h | sort)
same 'the functions of the library' "$declared" "$exported"
in_rust=$(sed -nE 's/^ *pub fn (qorshudan_[a-z_]+)\(.*/\1/p' bindings/rust/src/exported.rs | sort)
same 'the functions that the Rust package declares' "$exported" "$in_rust"

echo 'the library needs two functions of the C library and nothing else'
same 'what it needs' 'memcpy memset' "$(nm -u "$library" | awk 'NF == 2 { print $2 }' | sort -u | xargs)"

echo 'the header in a C99 program'
"$cc" -std=c99 "${warnings[@]}" -Iinclude tests/header.c "$library" -o "$out/header-c"
"$out/header-c" || fail 'the header in a C99 program'
if skip c++; then
    echo 'skipped, as QORSHUDAN_SKIP asks: the header in a C++17 program'
else
    echo 'the header in a C++17 program'
    "$cxx" -x c++ -std=c++17 "${warnings[@]}" -Iinclude tests/header.c -x none "$library" \
        -o "$out/header-c++"
    "$out/header-c++" || fail 'the header in a C++17 program'
    same "the header's sentences in C++" "$("$out/header-c" sentences)" "$("$out/header-c++" sentences)"
fi

echo "the header's sentences are those of README"
count=0
while IFS= read -r line; do
    case $line in
    'number 0: '* | 'reason 0: '*) continue ;;
    number\ *) number=${line#number } row="| ${number%%:*} | ${number#*: }" ;;
    reason\ *) reason=${line#reason } row="${reason%%:*} (${reason#*: })" ;;
    esac
    grep -qF -- "$row" README.md || fail "README.md does not have: $row"
    count=$((count + 1))
done < <("$out/header-c" sentences)
same 'the sentences looked for' 21 "$count"

echo "the Rust package's tests"
export CARGO_TARGET_DIR=$PWD/target/cargo
unset QORSHUDAN_LIB_DIR
package=(--offline --quiet --manifest-path bindings/rust/Cargo.toml)
cargo test "${package[@]}" >"$out/cargo.log" 2>&1 || {
    cat "$out/cargo.log" >&2
    fail 'the tests of the Rust package'
}

echo 'the two examples'
"$cc" -std=c99 -O2 "${warnings[@]}" -Iinclude examples/deny.c "$library" -o "$out/deny"
cargo build "${package[@]}" --example deny
examples=("$out/deny" "$CARGO_TARGET_DIR/debug/examples/deny")

# Runs an example with the arguments given and expects its exit status and every octet of its
# standard output, which a file has, and of its standard error.
expect() {
    local status=$1 output=$2 errors=$3 got=0
    shift 3
    "$@" >"$out/printed" 2>"$out/errors" || got=$?
    cmp "$out/printed" "$output" || fail "$*: not the octets of $output"
    cmp "$out/errors" "$errors" || fail "$*: not what it should say on standard error"
    same "$*: the exit status" "$status" "$got"
}

echo 'the stored gaps are those of the second program'
rm -rf "$out/stored"
mkdir "$out/stored"
cp tests/deny/*.args "$out/stored"
cargo run --offline --quiet --release --manifest-path comparison/Cargo.toml --bin gaps -- "$out/stored" >"$out/told" \
    || fail 'the second program prints nothing'
diff -r --exclude=README.md "$out/stored" tests/deny || fail 'tests/deny is not what the second program prints'

# The stored cases are those of a larger command. Those without the word of another of its tasks in front have the form of the examples,
# APEX NAME [LIMIT], or are wrong usage, which the examples tell on standard error, printing nothing. That command took no argument of more
# than 4096 octets; the examples do.
echo 'the stored gaps, by both examples'
: >"$out/nothing"
"$out/deny" --help >"$out/usage"
gaps=0 wrong=0
for given in tests/deny/*.args; do
    name=${given%.args}
    mapfile -t args <"$given"
    case ${args[0]-} in compare | key | fold | --help) continue ;; esac
    case $(head -n 1 "$name.out") in
    'an argument is longer than 4096 octets') continue ;;
    usage:*)
        for example in "${examples[@]}"; do
            expect 2 "$out/nothing" "$out/usage" "$example" ${args[@]+"${args[@]}"}
        done
        wrong=$((wrong + 1))
        ;;
    *)
        status=0
        ! grep -q '^[a-z ]*: refused ' "$name.out" || status=1
        for example in "${examples[@]}"; do
            expect "$status" "$name.out" "$out/nothing" "$example" "${args[@]}"
        done
        gaps=$((gaps + 1))
        ;;
    esac
done
[ "$gaps" -ge 80 ] || fail "only $gaps gaps"
[ "$wrong" -ge 15 ] || fail "only $wrong cases of wrong usage"
echo "$gaps gaps, $wrong cases of wrong usage"

echo 'help, and arguments of 100,000 characters'
long=$(printf '%0100000d' 0)
printf '%s\n' "apex: refused 14 at 63: no name's text goes on like this" 'key: 6100' >"$out/long"
for example in "${examples[@]}"; do
    expect 0 "$out/usage" "$out/nothing" "$example" --help
    expect 1 "$out/long" "$out/nothing" "$example" "$long" a. "$long"
done
grep -q '^usage: deny APEX NAME \[LIMIT\]$' "$out/usage" || fail 'the usage does not say how to call the example'

echo "README's Rust program, in a package that depends on this one"
mkdir -p "$out/user/src"
cat >"$out/user/Cargo.toml" <<'END'
[package]
name = "user"
version = "0.1.0"
edition = "2021"

[dependencies]
qorshudan = { path = "../../../bindings/rust" }

[workspace]
END
awk '/^```$/ { on = 0 } on { print } /^```rust$/ { on = 1 }' README.md >"$out/user/src/main.rs"
user=(cargo run --offline --quiet --manifest-path "$out/user/Cargo.toml")
same 'what it prints' '\000.example.com.' "$("${user[@]}")"
mkdir -p "$out/elsewhere" "$out/nowhere"
cp "$library" "$out/elsewhere"
same 'what it prints with a library elsewhere' '\000.example.com.' "$(QORSHUDAN_LIB_DIR=$PWD/$out/elsewhere "${user[@]}")"
! QORSHUDAN_LIB_DIR=$PWD/$out/nowhere "${user[@]}" >"$out/told" 2>&1 || fail 'it is built where there is no library'
grep -qF "There is no $PWD/$out/nowhere/libqorshudan.a: \`make\` in the repository makes it" "$out/told" || {
    cat "$out/told" >&2
    fail 'without a library it is not said what makes it'
}

echo 'every function with odd slices, limits and spaces'
"$cc" -std=c99 -O2 -g "${warnings[@]}" -Iinclude tests/robust.c "$library" -o "$out/robust"
"$out/robust" heap || fail 'odd slices on the heap'
"$out/robust" pages || fail 'odd slices at the ends of pages'
if skip valgrind; then
    echo 'skipped, as QORSHUDAN_SKIP asks: the same, and the C example, under valgrind'
else
    echo 'the same, and the C example, under valgrind'
    valgrind -q --error-exitcode=9 "$out/robust" heap || fail 'odd slices under valgrind'
    valgrind -q --error-exitcode=9 "$out/deny" example.com. foo.example.com. >/dev/null || fail 'the C example under valgrind'
fi

echo 'library: ok'
