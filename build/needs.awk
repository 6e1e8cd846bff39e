# The crates of this repository that the crates in `want` need, themselves included, each behind those that it needs:
#     awk -v want='batch qorshudan_c' -f build/needs.awk crates.txt
# A line of crates.txt is `NAME: DEP ..`, or `NAME staticlib: DEP ..`.
function visit(crate, list, count, i) {
    if (!(crate in needs) || crate in seen)
        return
    seen[crate] = 1
    count = split(needs[crate], list, " ")
    for (i = 1; i <= count; i++)
        visit(list[i])
    print crate
}
BEGIN { FS = ":" }
{ sub(/#.*/, "") }
NF == 2 { split($1, words, " "); needs[words[1]] = $2 }
END {
    count = split(want, list, " ")
    for (i = 1; i <= count; i++)
        visit(list[i])
}
