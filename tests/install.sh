#!/usr/bin/env bash
# Tests `make install` and `make uninstall` in a temporary prefix: exactly the files that README names; a C program that is built against
# them with pkg-config alone, shared and static; what the shared library shows; and that nothing is left after. It also runs README's
# first command. Needs what `make` makes; nothing is proved again here, since rt is replaced by a program that fails.
set -eu
cd "$(dirname "$0")/.."
export LC_ALL=C RT=false PYTHONDONTWRITEBYTECODE=1
unset MAKEFLAGS MFLAGS MAKELEVEL LD_LIBRARY_PATH PYTHONPATH QORSHUDAN_LIBRARY PKG_CONFIG_PATH PKG_CONFIG_LIBDIR PKG_CONFIG_SYSROOT_DIR

fail() {
    printf 'install: %s\n' "$*" >&2
    exit 1
}

# Expects that two texts are the same; the first argument says what they are.
same() {
    [ "$2" = "$3" ] || fail "$1
expected: $2
but got:  $3"
}

work=$(mktemp -d)
trap 'rm -rf "$work"' EXIT
cc=${CC:-cc}
version=$(cat VERSION)
soname=libqorshudan.so.${version%%.*}

# Runs make; what it says is shown where it fails.
run_make() {
    make "$@" >"$work/make.log" 2>&1 || {
        cat "$work/make.log" >&2
        fail "make $*"
    }
}

# The files and links under a directory, without the directories.
files() {
    (cd "$1" && find . ! -type d | sort)
}

echo 'make has nothing left to do'
run_make CC=false

echo 'make says what is missing'
for tool in RT CC; do
    message=$(env RT=true CC=true "$tool=no-such-tool" build/prove.sh check 1 name 2>&1) && fail "it goes on without $tool"
    [[ $message == 'make: no no-such-tool: '* ]] || fail "without $tool it says: $message"
done

echo 'what is installed'
# of the Python module, every file that is in the sources, and where the library is
python=${PYTHON:-python3}
prefix=$work/prefix
module=$("$python" build/python_dir.py "$prefix")
module=.${module#"$prefix"}/qorshudan
installed="./bin/qorshudan
./bin/qorshudan-batch
./include/qorshudan.h
./lib/libqorshudan.a
./lib/libqorshudan.so
./lib/$soname
./lib/libqorshudan.so.$version
./lib/pkgconfig/qorshudan.pc
$( (cd bindings/python/qorshudan && printf "$module/%s\n" *.py py.typed _installed.py) )
./share/man/man1/qorshudan-batch.1
./share/man/man1/qorshudan.1
./share/man/man3/qorshudan.3"
installed=$(sort <<<"$installed")
run_make install "PREFIX=$prefix"
same 'the files' "$installed" "$(files "$prefix")"
same 'the link with the soname' "libqorshudan.so.$version" "$(readlink "$prefix/lib/$soname")"
same 'the link without a number' "$soname" "$(readlink "$prefix/lib/libqorshudan.so")"
cmp include/qorshudan.h "$prefix/include/qorshudan.h" || fail 'another header'
cmp target/staticlib/libqorshudan.a "$prefix/lib/libqorshudan.a" || fail 'another static library'
run_make install "PREFIX=$prefix"
same 'the files after a second time' "$installed" "$(files "$prefix")"

echo 'what the shared library shows'
shared=$prefix/lib/libqorshudan.so.$version
same 'the soname' "$soname" "$(readelf -d "$shared" | sed -n 's/.*(SONAME).*\[\(.*\)\]$/\1/p')"
declared=$(sed -nE 's/^(QORSHUDAN_RESULT|uint64_t) (qorshudan_[a-z_]+)\(.*/\2/p' include/qorshudan.h | sort)
[ "$(wc -w <<<"$declared")" -ge 12 ] || fail 'hardly any function in the header'
same 'its functions' "$declared" "$(nm -D --defined-only "$shared" | awk '{ print $3 }' | sort)"
same 'what it needs' 'memcpy memset' "$(nm -D -u "$shared" | sed -n 's/^ *U \([^@]*\).*/\1/p' | sort | xargs)"
! readelf -d "$shared" | grep -q TEXTREL || fail 'its code has to be changed when it is loaded'

echo "README's C program, with what pkg-config says of the installed files alone"
awk '/^```$/ { on = 0 } on { print } /^```c$/ { on = 1 }' README.md >"$work/program.c"
expected='\000.example.com.'
warnings=(-std=c99 -Wall -Wextra -Werror -pedantic)
export PKG_CONFIG_PATH=$prefix/lib/pkgconfig
same 'the version that pkg-config tells' "$version" "$(pkg-config --modversion qorshudan)"
# shellcheck disable=SC2046
"$cc" "${warnings[@]}" "$work/program.c" $(pkg-config --cflags --libs qorshudan) -o "$work/shared" || fail 'it does not build'
readelf -d "$work/shared" | grep -q "(NEEDED).*\[$soname\]" || fail 'the program does not ask for the shared library'
same 'what it prints' "$expected" "$(LD_LIBRARY_PATH=$prefix/lib "$work/shared")"
# shellcheck disable=SC2046
"$cc" -static "${warnings[@]}" "$work/program.c" $(pkg-config --static --cflags --libs qorshudan) -o "$work/static" || fail 'it does not build statically'
! readelf -d "$work/static" | grep -q '(NEEDED)' || fail 'the static program asks for a shared library'
same 'what the static one prints' "$expected" "$("$work/static")"
unset PKG_CONFIG_PATH

echo 'the installed program'
"$prefix/bin/qorshudan-batch" <tests/batch/whole-case.in | cmp - tests/batch/whole-case.out || fail 'it answers otherwise'

echo 'the installed command and the installed module'
same 'what the command says' "$expected" "$("$prefix/bin/qorshudan" neighbours com. example.com. | sed -n 's/^successor: //p')"
same 'what the module says' "$expected" "$(PYTHONPATH=$prefix/$module/.. "$python" -c 'import qorshudan
print(qorshudan.successor("example.com.", apex="com."))')"

echo 'the manual page names every function of the header'
count=0
for function in $(grep -oE '\bqorshudan_[a-z_]+\(' include/qorshudan.h | tr -d '(' | sort -u); do
    grep -qE "\b$function\b" man/qorshudan.3 || fail "man/qorshudan.3 does not name $function"
    count=$((count + 1))
done
[ "$count" -ge 19 ] || fail "only $count functions"

echo 'into a staging directory'
stage=$work/stage
run_make install "DESTDIR=$stage" PREFIX=/opt/qorshudan
same 'the files' "$installed" "$(files "$stage/opt/qorshudan")"
same 'all of them' "$(wc -l <<<"$installed")" "$(files "$stage" | wc -l)"
! grep -q "$work" "$stage/opt/qorshudan/lib/pkgconfig/qorshudan.pc" || fail 'the pkg-config file names the staging directory'
export PKG_CONFIG_LIBDIR=$stage/opt/qorshudan/lib/pkgconfig PKG_CONFIG_SYSROOT_DIR=$stage
# shellcheck disable=SC2046
"$cc" "${warnings[@]}" "$work/program.c" $(pkg-config --cflags --libs qorshudan) -o "$work/staged" || fail 'a program does not build'
same 'what a program prints' "$expected" "$(LD_LIBRARY_PATH=$stage/opt/qorshudan/lib "$work/staged")"
unset PKG_CONFIG_LIBDIR PKG_CONFIG_SYSROOT_DIR
! grep -rqF "$stage" "$stage/opt/qorshudan/bin/qorshudan" "$stage/opt/qorshudan/$module" || fail 'the command or the module names the staging directory'
same 'what the command says' "$expected" "$("$stage/opt/qorshudan/bin/qorshudan" neighbours com. example.com. | sed -n 's/^successor: //p')"
run_make uninstall "DESTDIR=$stage" PREFIX=/opt/qorshudan
run_make install "DESTDIR=$stage" PREFIX=/usr LIBDIR=/usr/lib/x86_64-linux-gnu PYTHON=/usr/bin/python3 PYTHONDIR=/usr/lib/python3/dist-packages
same 'the first line of a package of its own' '#!/usr/bin/python3' "$(head -n 1 "$stage/usr/bin/qorshudan")"
same 'what its command says' "$expected" "$("$python" "$stage/usr/bin/qorshudan" neighbours com. example.com. | sed -n 's/^successor: //p')"
run_make uninstall "DESTDIR=$stage" PREFIX=/usr LIBDIR=/usr/lib/x86_64-linux-gnu PYTHONDIR=/usr/lib/python3/dist-packages
same 'what is left of it' '' "$(files "$stage")"
run_make install "DESTDIR=$stage" PREFIX=/opt/qorshudan

echo 'uninstall leaves no file'
run_make uninstall "PREFIX=$prefix"
same 'what is left' '' "$(files "$prefix")"
run_make uninstall "DESTDIR=$stage" PREFIX=/opt/qorshudan
same 'what is left in the staging directory' '' "$(files "$stage")"

# the command may end with status 1: it shows a refusal
echo "README's first command"
command=$(sed -n 's/^    \(make && cc .*\)/\1/p' README.md)
same 'the lines of that command' 1 "$(grep -c . <<<"$command")"
bash -c "$command" >"$work/first" 2>&1 || [ $? -eq 1 ] || fail 'it fails'
gap=$(sed -n '/^gap: /,/^key: /p' "$work/first")
same 'what it shows' "$(sed -e '1,/^    make && cc /d' README.md | sed -n 's/^    \(.*\)/\1/p' | sed -n '/^gap: /,/^key: /p')" "$gap"
same 'its lines' 7 "$(grep -c . <<<"$gap")"

echo "README's question for batch"
command=$(sed -n 's/^    \(printf .* | target\/bin\/batch | od -An -tx1\)$/\1/p' README.md)
same 'the lines of that command' 1 "$(grep -c . <<<"$command")"
answer=$(bash -c "$command" | xargs)
[ -n "$answer" ] || fail 'no answer'
grep -qF "\`$answer\`" README.md || fail "README.md does not have the answer '$answer'"

echo 'install: ok'
