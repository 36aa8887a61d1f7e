#!/usr/bin/env bash
# Measures dictionaries beside each other in a way that a busy host doesn't fool: each program makes its dictionary once, and then all take
# turns, a cell of some milliseconds each, round after round. Of each it tells the least of all rounds, how many times the first program's
# least that is, the median of the same within rounds, and of its own nanoseconds the median and both quartiles. Beside each row it tells `steal`, the share of the busy time that the host gave
# to others (/proc/stat); rounds above 5 % are left out, and rows above 5 % or with fewer than five rounds.
#
# `ratios.sh [--row MIX/KEYS]... [--threads N]... [--pages small|huge]... [--series NAME]... [--rounds N] [--cell MS] [--wear N]
# [--archive FILE] [--beside FILE]`. With `--wear` so many updates are made for each key before the first round, and the row says so: a tree
# isn't then as it was filled. A mix is a number of gets of 100, `load`, or `fill`, which fills a new dictionary in each cell. Without --row it
# measures ten rows, of which that of 10,000,000 keys takes 5 GB. The programs are the C library, the proved one or that of `--archive`,
# with the first waiter and with the others; that of `--beside`, which may be of another commit; the same steps in C++; plain CITRUS;
# TBB's map, by gcc and by clang; and for gets alone the library's lanes, which look up many keys at once. All draw the same keys, and it
# fails where their answers aren't the same. Huge pages are asked for as in bench/size.sh. Rows go to bench/results/ratios.csv, in place of
# all that are there where nothing is named. It stands outside the gate.
set -eu
# shellcheck source=bench/peers.sh
. "$(dirname "$0")/peers.sh"
# shellcheck source=bench/turns.sh
. "$top/bench/turns.sh"
usage() {
    echo 'usage: ratios.sh [--row MIX/KEYS]... [--threads N]... [--pages small|huge]... [--series NAME]... [--rounds N] [--cell MS] [--wear N]
           [--archive FILE] [--beside FILE]' >&2
    exit 2
}

rows=() crews=() pages=() series=() rounds=60 cell=15 wear=0 archive=() beside=()
named=
while [ $# -gt 0 ]; do
    [ $# -ge 2 ] || usage
    case $1 in
        --row)
            [[ $2 =~ ^([0-9]+|load|fill)/[1-9][0-9]*$ ]] || usage
            rows+=("$2") named=yes
            ;;
        --threads) crews+=("$2") named=yes ;;
        --pages) pages+=("$2") named=yes ;;
        --series) series+=("$2") named=yes ;;
        --rounds) rounds=$2 ;;
        --cell) cell=$2 ;;
        --wear) wear=$2 named=yes ;;
        --archive) archive=("$2") ;;
        --beside) beside=("$2") ;;
        *) usage ;;
    esac
    shift 2
done
[ ${#rows[@]} != 0 ] || rows=(100/20000 100/200000 100/2000000 100/10000000 98/200000 90/20000 50/1000 load/16384 fill/20000 fill/200000)
[ ${#crews[@]} != 0 ] || crews=(1)
[ ${#pages[@]} != 0 ] || pages=(small)
[ ${#series[@]} != 0 ] ||
    series=('C library' 'second waiter' 'third waiter' 'C library before' 'C++' 'plain CITRUS' 'TBB map' 'TBB by clang' '4 lanes' '8 lanes'
        'C++ 4 lanes' 'C++ 8 lanes')

# Builds the program of a series, and notes by which word it runs that series: `make_ready SERIES`. TBB's is left out where TBB isn't there.
declare -A program=() word=()
make_ready() {
    word[$1]=$1
    case $1 in
        'C library') build_library "${archive[@]}" && program[$1]=$out/embed word[$1]='C library first waiter' ;;
        'second waiter' | 'third waiter') build_library "${archive[@]}" && program[$1]=$out/embed word[$1]="C library $1" ;;
        'C library before')
            [ ${#beside[@]} != 0 ] || return 0
            install_library "$out/before" "${beside[@]}" && build_over "$out/before" embed embed_before &&
                program[$1]=$out/embed_before word[$1]='C library first waiter'
            ;;
        '4 lanes' | '8 lanes')
            install_library "$out/installed" "${archive[@]}" && build_over "$out/installed" lanes lanes && program[$1]=$out/lanes
            ;;
        'C++ 4 lanes' | 'C++ 8 lanes') build_cpp same_lanes && program[$1]=$out/same_lanes ;;
        'C++') build_cpp same && program[$1]=$out/same word[$1]='C++ first waiter' ;;
        'plain CITRUS') build_cpp citrus && program[$1]=$out/citrus ;;
        'std::map under mutex') build_cpp locked && program[$1]=$out/locked ;;
        'TBB map') ! build_with oneapi/tbb/concurrent_map.h libtbb-dev tbb tbb || program[$1]=$out/tbb ;;
        'TBB by clang')
            hash clang++ 2>/dev/null && build_with oneapi/tbb/concurrent_map.h libtbb-dev tbb tbb || return 0
            compile clang++ tbb tbb_by_clang tbb && program[$1]=$out/tbb_by_clang word[$1]='TBB map'
            ;;
        *) usage ;;
    esac
}
for name in "${series[@]}"; do make_ready "$name"; done

# Starts a program, which makes its dictionary: `start NAME MIX KEYS THREADS PAGES`.
start() {
    local huge=0
    [ "$5" != huge ] || huge=1
    GLIBC_TUNABLES=glibc.malloc.hugetlb=$huge start_program "$1" \
        "${program[$1]}" --only "${word[$1]}" --mix "$2" --pairs "$3" --threads "$4" --wear "$wear" turns
}

# A row: `measure MIX KEYS THREADS PAGES`.
measure() {
    local name row=$1/$2 operations
    for name in "${series[@]}"; do
        case $name in *lanes) [ "$1" = 100 ] || continue ;; esac
        [ -z "${program[$name]:-}" ] || start "$name" "$@"
    done
    hear_all "$3"
    [ "$wear" = 0 ] || row="$row after $wear updates a key"
    find_operations "$cell"
    take_rounds "$rounds" "$operations" "$4,$row,$3"
    stop_all
    echo "$row, $3 threads, $4 pages, after $SECONDS s" >&2
}

: >"$out/ratio_cells"
for kind in "${pages[@]}"; do
    for crew in "${crews[@]}"; do
        for row in "${rows[@]}"; do measure "${row%/*}" "${row#*/}" "$crew" "$kind" >>"$out/ratio_cells"; done
    done
done

# shellcheck disable=SC2016
same_turns "$out/ratio_cells" '$3 == 1 || $2 ~ /^(100|fill)\//'
ratios "$out/ratio_cells" 5 >"$out/ratio_rows"
if [ -z "$named" ] || [ ! -e "$results/ratios.csv" ]; then
    measured_here "up to $rounds rounds a row, cells of $cell ms" >"$results/ratios.csv"
    echo "pages,row,threads,$ratio_columns" >>"$results/ratios.csv"
fi
put_rows "$out/ratio_rows" ratios
"$top/bench/tables.sh" ratios
