#!/usr/bin/env bash
# One version everywhere, that of the file VERSION:
#
#     tests/versions.sh sources    in the files, before anything is built; and README names the kit and the rustc of build/requires
#     tests/versions.sh built      as header, library, pkg-config file, programs and the Python module tell it
#
# The Rust package's tests compare its own, and so do those of the Python module.
set -eu
cd "$(dirname "$0")/.."
export LC_ALL=C.UTF-8

fail() {
    printf 'versions: %s\n' "$*" >&2
    exit 1
}

version=$(cat VERSION)
[[ $version =~ ^([0-9]+)\.([0-9]+)\.([0-9]+)$ ]] || fail "VERSION has '$version', which is not MAJOR.MINOR.PATCH"
major=${BASH_REMATCH[1]} minor=${BASH_REMATCH[2]} patch=${BASH_REMATCH[3]}
[[ $minor -lt 256 && $patch -lt 256 ]] || fail "$version: minor and patch have one octet each in the library's number"
number=$((major * 65536 + minor * 256 + patch))

# Expects that a file has exactly this line.
has() {
    grep -qxF -- "$2" "$1" || fail "$1 does not have the line: $2"
}

# Expects that the first line of a file that matches a pattern is this one.
first() {
    local line
    line=$(grep -m 1 -- "$2" "$1") || fail "$1 has no line like: $2"
    [ "$line" = "$3" ] || fail "$1 has '$line' and not '$3'"
}

case ${1-} in
sources)
    has include/qorshudan.h "#define QORSHUDAN_VERSION \"$version\""
    has include/qorshudan.h "#define QORSHUDAN_VERSION_MAJOR $major"
    has include/qorshudan.h "#define QORSHUDAN_VERSION_MINOR $minor"
    has include/qorshudan.h "#define QORSHUDAN_VERSION_PATCH $patch"
    # the crates may be left out for a time, and PORTING-LEFT.md then names them
    for crate in qorshudan qorshudan_c; do
        [ -f PORTING-LEFT.md ] && [ ! -d crates/$crate ] \
            || has crates/$crate/src/lib.rt "    ensures { result ≡ $major * 2 ^ 16 + $minor * 2 ^ 8 + $patch }"
    done
    has bindings/python/qorshudan/_version.py "__version__ = \"$version\""
    first bindings/rust/Cargo.toml '^version = ' "version = \"$version\""
    # every lock file that has the package, wherever its workspace is
    locked=$(find . -path ./target -prune -o -name Cargo.lock -exec grep -h -A 1 -x 'name = "qorshudan"' {} + | grep '^version' | sort -u)
    [ "$locked" = "version = \"$version\"" ] || fail "a Cargo.lock has of qorshudan: $locked"
    first docs/CHANGES.md '^## ' "## $version"
    kit=$(sed -n 's/^kit //p' build/requires) rust=$(sed -n 's/^rust //p' build/requires)
    grep -qF "begins with $kit)" README.md || fail "README.md does not name the kit, $kit"
    grep -qF "cargo and rustc $rust or later" README.md || fail "README.md does not name the least cargo and rustc, $rust"
    # the edition 2024 came with 1.85
    asked=$(find . -path ./target -prune -o -name Cargo.toml -exec \
        sed -n -e 's/^rust-version = "\([0-9.]*\)".*/\1/p' -e 's/^edition = "2024".*/1.85/p' {} + | sort -V | tail -n 1)
    [ "$asked" = "$rust" ] || fail "the packages ask for rustc $asked, and build/requires says $rust"
    for page in man/*; do
        head -n 1 "$page" | grep -qF "\"Qorshudan $version\"" || fail "$page is not of $version"
    done
    ;;
built)
    # What a command prints, and what it must print.
    tells() {
        local expected=$1 told
        shift
        told=$("$@") || fail "$* failed"
        [ "$told" = "$expected" ] || fail "$* tells '$told' and not '$expected'"
    }
    mkdir -p target/library
    "${CC:-cc}" -std=c99 -Iinclude tests/header.c target/staticlib/libqorshudan.a -o target/library/header-version
    tells "$version $number $number" target/library/header-version version
    tells "Version: $version" grep '^Version: ' target/qorshudan.pc
    [ -f "target/shared/libqorshudan.so.$version" ] || fail "no target/shared/libqorshudan.so.$version"
    tells "batch (Qorshudan) $version" target/bin/batch --version </dev/null
    python() {
        env PYTHONDONTWRITEBYTECODE=1 PYTHONPATH=bindings/python "QORSHUDAN_LIBRARY=target/shared/libqorshudan.so.$version" "${PYTHON:-python3}" "$@"
    }
    tells "$version" python -c 'import qorshudan; print(qorshudan.version())'
    tells "qorshudan $version" python -m qorshudan --version
    ;;
*) fail 'usage: tests/versions.sh sources|built' ;;
esac
echo "versions: ok, $version"
