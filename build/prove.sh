#!/usr/bin/env bash
# Has rt prove and compile what `make` needs, and shows how far it is, a line for each crate:
#
#     build/prove.sh check N CRATE..      proves these crates, the first ones of N, and compiles the programs among them into target/bin
#     build/prove.sh staticlib N NAME_c   proves the last crate of N, over those, and writes it as target/staticlib/libNAME.a
#     build/prove.sh passed               notes that `rt ci` has just passed: what it proved is not proved again, as long as it stays the same
#
# RT and CC name the two tools. All that rt says goes to target/make.log, and is shown where rt fails.
#
# `rt ci` leaves each program that it ran, and each library as it proved it, in crates/*/out. No command of rt takes these libraries, as they
# hold statements without proofs; so the static library is then written over them by the kit's compiler itself, in the words in which
# `rt ci` calls it: that crate is proved again, and none below it. Where a check of one's own has left other libraries there, `rt lib` is
# called, which begins with what that check proved.
set -u
cd "$(dirname "$0")/.." || exit 1

rt=${RT:-rt} cc=${CC:-cc} command=$1
log=$PWD/target/make.log note=target/ci-passed

fail() {
    printf 'make: %s\n' "$*" >&2
    exit 1
}

# A sum of all that the proofs read, and of the libraries and the programs that stand in crates/*/out.
sum() {
    find crates.txt build/requires crates/*/src crates/*/specs crates/*/proofs crates/*/out/rlib/*.rlib/format crates/*/out/rlib/stamp \
        $(programs) -type f 2>/dev/null | sort | xargs sha256sum | sha256sum
}

programs() {
    for main in crates/*/src/main.rt; do
        main=${main#crates/}
        echo "crates/${main%%/*}/out/${main%%/*}"
    done
}

if [ "$command" = passed ]; then
    mkdir -p target
    sum >"$note"
    exit
fi

total=$2
shift 2
command -v "${rt%% *}" >/dev/null || fail "no $rt: the Rattle kit is not on the PATH"
command -v "${cc%% *}" >/dev/null || fail "no $cc: a C compiler is needed, to link the shared library"
[[ ${rt%% *} != */* || $rt = /* ]] || rt=$PWD/$rt

mkdir -p target
is_passed=
[ -f "$note" ] && [ "$(cat "$note")" = "$(sum)" ] && is_passed=1

if [ "$command" = check ]; then
    : >"$log"
    kit=$($rt version) wanted=$(sed -n 's/^kit //p' build/requires)
    [ "${kit%% *}" = "$wanted" ] || echo "This was proved with $wanted, and the kit here is $kit."
    if [ -n "$is_passed" ]; then
        echo "rt ci has just proved the $total crates that the library and the programs need: its programs are taken, and its libraries."
    else
        echo "Proves and compiles the $total crates that the library and the programs need. From nothing, that takes one to three minutes for"
        echo 'each 1,000 lines; a crate that was proved before, and has not changed since, is not proved again.'
    fi
fi

# Calls a command in a crate's folder; what it says goes to the log, and is shown where it fails.
in_crate() {
    local crate=$1
    shift
    (cd "crates/$crate" && "$@" </dev/null) >"$log.part" 2>&1
    local status=$?
    printf '== %s: %s\n' "$crate" "$*" >>"$log"
    cat "$log.part" >>"$log"
    if [ "$status" -ne 0 ]; then
        cat "$log.part" >&2
        fail "crates/$crate: $1 failed with status $status; what it said stands above, and in $log"
    fi
}

# What the last command did, in a few words.
done_by() {
    if grep -q '^logic=proved' "$log.part"; then echo "$SECONDS s"; else echo 'proved before'; fi
}

# What the kit's compiler is told of a static library that stands over what `rt ci` left, a word to a line.
words_of() {
    local crate=$1 kit=$2 below jobs
    jobs=$(nproc)
    [ "$jobs" -le 4 ] || jobs=4
    printf '%s\n' build --crate-name "$crate" src/lib.rt --extern "std=$kit/rlibs/std.rlib" -L "dependency=$kit/rlibs"
    for below in $(awk -v crate="$crate" -F: '{ sub(/#.*/, ""); split($1, head, " ") } head[1] == crate { print $2 }' crates.txt); do
        printf '%s\n' --extern "$below=$PWD/crates/$below/out/rlib/$below.rlib"
    done
    for below in $(awk -v want="$crate" -f build/needs.awk crates.txt); do
        [ "$below" = "$crate" ] || printf '%s\n' -L "dependency=$PWD/crates/$below/out/rlib"
    done
    printf '%s\n' --antt-project "$kit/rattle/logic/antt-project.json" --logic-built "$kit/logic_built" --jobs "$jobs"
    printf '%s\n' --links "$crate=" --crate-type staticlib --toolchain "$kit/toolchain" --backend llvm -o "out/lib$crate.a"
}

# Whether each library below a crate is as `rt ci` left it.
left_by_ci() {
    local below
    for below in $(awk -v want="$1" -f build/needs.awk crates.txt); do
        if [ "$below" != "$1" ]; then
            [ -f "crates/$below/out/rlib/$below.rlib/format" ] && [ ! -e "crates/$below/out/rlib/stamp" ] || return 1
        fi
    done
}

case $command in
check)
    count=0
    for crate in "$@"; do
        count=$((count + 1))
        SECONDS=0 made=crates/$crate/out/$crate
        if [ -n "$is_passed" ]; then
            : >"$log.part"
        elif [ -f "crates/$crate/src/main.rt" ]; then
            in_crate "$crate" $rt run
        else
            in_crate "$crate" $rt lib
        fi
        if [ -f "crates/$crate/src/main.rt" ]; then
            mkdir -p target/bin
            cp "$made" target/bin/.made && mv target/bin/.made "target/bin/$crate" || fail "there is no $made"
        fi
        [ -n "$is_passed" ] || echo "crate $count of $total: $crate ($(done_by))"
    done
    ;;
staticlib)
    SECONDS=0
    kit=$(dirname "$(dirname "$(realpath "$(command -v "${rt%% *}")")")")
    made=crates/$1/out/lib$1.a
    mkdir -p "crates/$1/out" target/staticlib
    if [ -n "$is_passed" ] && [ -x "$kit/bin/rattle" ] && left_by_ci "$1"; then
        mapfile -t words < <(words_of "$1" "$kit")
        in_crate "$1" "$kit/bin/rattle" "${words[@]}"
    else
        in_crate "$1" $rt lib
    fi
    cp "$made" target/staticlib/.made && mv target/staticlib/.made "target/staticlib/lib${1%_c}.a" || fail "there is no $made"
    echo "crate $total of $total: $1 ($(done_by))"
    ;;
*)
    fail "prove.sh takes check, staticlib or passed, and not $command"
    ;;
esac
rm -f "$log.part"
