#!/usr/bin/env bash
# Counts how often a comparison reads each octet of its two names, in valgrind's trace of the
# library's memory. Past the check, no length octet may be read more than twice. Needs a C compiler,
# valgrind and target/staticlib/libqorshudan.a; where QORSHUDAN_SKIP names valgrind, it says so and
# counts nothing. All output goes to target/.
set -euo pipefail
cd "$(dirname "$0")/.."

library=target/staticlib/libqorshudan.a
[ -f "$library" ] || {
    echo "reads: no $library: 'make' makes it" >&2
    exit 1
}
if [[ " ${QORSHUDAN_SKIP:-} " == *' valgrind '* ]]; then
    echo 'skipped, as QORSHUDAN_SKIP asks: the reads of a comparison'
    exit 0
fi
command -v valgrind >/dev/null || {
    echo 'reads: no valgrind' >&2
    exit 1
}
out=target/library
mkdir -p "$out"
# without -no-pie, the two uses would not have the names at the same addresses
"${CC:-cc}" -std=c99 -O2 -no-pie -Wall -Wextra -Werror -pedantic -Iinclude \
    tests/reads.c "$library" -o "$out/reads"
valgrind --tool=lackey --basic-counts=no --trace-mem=yes --log-fd=1 "$out/reads" run \
    | "$out/reads" count
echo 'reads: ok'
