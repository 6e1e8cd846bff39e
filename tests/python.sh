#!/usr/bin/env bash
# Tests the Python module and the command `qorshudan` as they are installed in a temporary prefix: every function beside the second program,
# odd inputs, the command's answers and exit statuses; how the library is found, and what is said where it is not; and the wheel.
# Needs what `make` makes, and cargo; nothing is proved again. PYTHON names another Python than python3. The names of tests that were
# skipped go to target/python/skipped.
set -eu
cd "$(dirname "$0")/.."
export LC_ALL=C.UTF-8 RT=false PYTHONDONTWRITEBYTECODE=1
unset MAKEFLAGS MFLAGS MAKELEVEL LD_LIBRARY_PATH PYTHONPATH PYTHONHOME QORSHUDAN_LIBRARY QORSHUDAN_COMMAND QORSHUDAN_CASES

fail() {
    printf 'python: %s\n' "$*" >&2
    exit 1
}

# Expects that two texts are the same; the first argument says what they are.
same() {
    [ "$2" = "$3" ] || fail "$1
expected: $2
but got:  $3"
}

python=${PYTHON:-python3}
"$python" -c 'import sys; sys.exit(sys.version_info < (3, 9))' || fail "$python is not there, or older than 3.9"
out=$PWD/target/python
rm -rf "$out"
mkdir -p "$out"
work=$(mktemp -d)
trap 'rm -rf "$work"' EXIT
version=$(cat VERSION)
soname=libqorshudan.so.${version%%.*}

echo 'cases of the second program'
seed=${QORSHUDAN_SEED:-$(date +%s)}
echo "seed $seed"
CARGO_TARGET_DIR=${CARGO_TARGET_DIR:-$PWD/target/cargo} \
    cargo run --offline --quiet --release -p comparison --bin answers -- "$seed" 1500 >"$out/cases" || fail 'the second program prints no cases'

echo 'an installation'
prefix=$work/prefix
make install "PREFIX=$prefix" "PYTHON=$python" >"$out/make.log" 2>&1 || {
    cat "$out/make.log" >&2
    fail 'make install'
}
module=$("$python" build/python_dir.py "$prefix")
[ -f "$module/qorshudan/__init__.py" ] || fail "no module in $module"

echo 'the tests, on the installed module and the installed command'
tests=$PWD/bindings/python/tests/run.py
# Runs tests over the module in a folder, with a Python; all that they say is shown where one fails.
run_in() {
    local name=$1 folder=$2 interpreter=$3
    shift 3
    (cd / && env "PYTHONPATH=$folder" "QORSHUDAN_CASES=$out/cases" "QORSHUDAN_COMMAND=$prefix/bin/qorshudan" "$interpreter" "$tests" "$@") \
        >"$out/$name.log" 2>&1 || {
        cat "$out/$name.log" >&2
        fail "the tests of the Python module ($name)"
    }
    grep '^Ran ' "$out/$name.log"
}
run_in installed "$module" "$python"
grep '^skipped: ' "$out/installed.log" | tee "$out/skipped" || true

# of other Pythons, those that are there
for minor in 9 10 11 12 13 14; do
    other=python3.$minor
    if "$other" -c '' 2>/dev/null && [ "$("$other" --version)" != "$("$python" --version)" ]; then
        echo "the same with $other, but for the command"
        run_in "$other" "$module" "$other" test_cases test_papers test_odd test_refusals test_denial
    fi
done

echo 'the prefix may be moved, and the command is called by a link, in any directory'
mv "$prefix" "$work/moved"
mkdir "$work/bin" "$work/elsewhere"
ln -s ../moved/bin/qorshudan "$work/bin/qorshudan"
same 'what the command says' '\000.foo.example.com.' \
    "$(cd "$work/elsewhere" && ../bin/qorshudan neighbours example.com. foo.example.com. | sed -n 's/^successor: //p')"
mv "$work/moved" "$prefix"

# What Python says of the module in a folder, with an environment: where the library is, or the error.
loaded() {
    local folder=$1
    shift
    (cd "$work/elsewhere" && env "PYTHONPATH=$folder" "$@" "$python" -c 'import qorshudan._library as l; print(l.path)' 2>&1 | tail -n 1)
}

echo 'where the library is looked for'
same 'the installed one' "$prefix/lib/$soname" "$(loaded "$module")"
same 'the one in the environment' "$prefix/lib/libqorshudan.so" "$(loaded "$PWD/bindings/python" "QORSHUDAN_LIBRARY=$prefix/lib/libqorshudan.so")"
same 'what the loader finds' "$soname" "$(loaded "$PWD/bindings/python" "LD_LIBRARY_PATH=$prefix/lib")"
told=$(loaded "$PWD/bindings/python")
[[ $told == *"no shared library of Qorshudan: "*"QORSHUDAN_LIBRARY names another." ]] || fail "without a library it says: $told"
told=$(loaded "$PWD/bindings/python" "QORSHUDAN_LIBRARY=$PWD/VERSION")
[[ $told == *"$PWD/VERSION is there, and cannot be loaded: "* ]] || fail "of a file that is no library it says: $told"
other_version() {
    printf '#include <stdint.h>\nuint64_t qorshudan_version(void) { return %s; }\n' "$2" >"$work/other.c"
    "${CC:-cc}" -shared -fPIC "$work/other.c" -o "$1"
}
IFS=. read -r major minor patch <VERSION
other_version "$work/newer.so" "$(((major << 16) + ((minor + 1) << 8)))"
told=$(loaded "$PWD/bindings/python" "QORSHUDAN_LIBRARY=$work/newer.so")
same 'of another version' "ImportError: $work/newer.so is version $major.$((minor + 1)).0 of Qorshudan, and this module is for $version" "$told"
other_version "$work/bare.so" "$(((major << 16) + (minor << 8) + patch))"
told=$(loaded "$PWD/bindings/python" "QORSHUDAN_LIBRARY=$work/bare.so")
[[ $told == "ImportError: $work/bare.so is no library of Qorshudan $version: "*qorshudan_* ]] || fail "of a library without functions it says: $told"
rm "$prefix/lib/"libqorshudan.so*
status=0
told=$("$prefix/bin/qorshudan" fold a. 2>&1) || status=$?
[[ $status -eq 1 && $told == "qorshudan: no shared library of Qorshudan: "* ]] || fail "the command without a library: $status, $told"

if "$python" -c 'import setuptools' 2>/dev/null; then
    echo 'the wheel, with the library inside'
    sources=$(find bindings/python | sort)
    make wheel "PYTHON=$python" >"$out/make.log" 2>&1 || {
        cat "$out/make.log" >&2
        fail 'make wheel'
    }
    wheel=$(echo target/wheel/"qorshudan-$version"-py3-none-*.whl)
    [ -f "$wheel" ] || fail 'no wheel'
    same 'the files of the sources after it' "$sources" "$(find bindings/python | sort)"
    "$python" -m zipfile -e "$wheel" "$work/wheel"
    same 'the library in the wheel' "$work/wheel/qorshudan/$soname" "$(loaded "$work/wheel" "QORSHUDAN_LIBRARY=$work/newer.so")"
    (cd "$work/wheel" && "$python" - ./*.dist-info/RECORD) <<'END' || fail "the wheel's list of files"
import base64, csv, hashlib, os, sys
listed = {}
for name, digest, length in csv.reader(open(sys.argv[1])):
    listed[name] = digest
    if digest:
        content = open(name, "rb").read()
        assert len(content) == int(length), name
        assert digest == "sha256=" + base64.urlsafe_b64encode(hashlib.sha256(content).digest()).decode().rstrip("="), name
found = {os.path.relpath(os.path.join(folder, name)) for folder, _, names in os.walk(".") for name in names}
assert found == set(listed), found ^ set(listed)
END
    (cd / && PYTHONPATH=$work/wheel QORSHUDAN_CASES=$out/cases "$python" "$tests" test_papers test_odd test_cases test_denial) >"$out/wheel.log" 2>&1 || {
        cat "$out/wheel.log" >&2
        fail 'the tests on the wheel'
    }
else
    echo 'skipped: the wheel: setuptools is not installed' | tee -a "$out/skipped"
fi

echo 'python: ok'
