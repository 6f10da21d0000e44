# shellcheck shell=bash
# What the program is built of, as sums: ./xsk, ./prove, ./test and tests/dist read this file. TOP is the top of the repository.

# crates_of_program TOP: xsk and each crate of the repository below it, one a line.
crates_of_program() {
    awk -F: '
        /^[^#]/ { below[$1] = $2 }
        END {
            found[last = 1] = "xsk"; is_found["xsk"]
            for (at = 1; at <= last; at++) {
                count = split(below[found[at]], names, " ")
                for (n = 1; n <= count; n++)
                    if (names[n] in below && !(names[n] in is_found)) { found[++last] = names[n]; is_found[names[n]] }
            }
            for (at = 1; at <= last; at++) print found[at]
        }' "$1/crates.txt" | LC_ALL=C sort
}

# sums_of_files TOP CRATE ..: the lines of these crates in crates.txt, and a line of b2sum for each file of their src, specs and proofs.
sums_of_files() (
    cd -- "$1" || exit
    shift
    rows=$(IFS='|' && echo "$*")
    grep -E "^($rows):" crates.txt | LC_ALL=C sort
    folders=()
    for part in src specs proofs; do
        for crate; do
            [ ! -d "crates/$crate/$part" ] || folders+=("crates/$crate/$part")
        done
    done
    find "${folders[@]}" -type f -print0 | LC_ALL=C sort -z | xargs -0 b2sum -l 256
)

# sum_of_sources TOP [CRATE ..]: one sum of all this, for all crates of the program where none is named.
sum_of_sources() {
    local crates=("${@:2}") sum
    [ ${#crates[@]} -gt 0 ] || mapfile -t crates < <(crates_of_program "$1")
    sum=$(sums_of_files "$1" "${crates[@]}" | b2sum -l 256) && echo "${sum%% *}"
}

# is_built TOP SUM: whether the program that ./prove or ./test left in crates/xsk/out is of the sources with that sum.
is_built() {
    local program=$1/crates/xsk/out/xsk
    [ -x "$program" ] && [ ! "$program" -nt "$program.sources" ] && [ "$(<"$program.sources")" = "$2" ]
}
