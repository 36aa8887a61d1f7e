#!/usr/bin/env bash
# Measures maps from strings in turns, as bench/ratios.sh does maps from numbers: gets, ranges of 100 strings, removes with an insert behind each
# and inserts of new strings, and how many bytes of memory a string takes. The maps are those of the library in C++ and Rust; std::map and
# std::unordered_map under a shared_mutex; TBB's concurrent map; BTreeMap under a RwLock; and DashMap. Hash maps have no ranges. TBB's map takes
# nothing out beside other calls: a remove leaves a tombstone, which the insert behind it makes a value again. Debian 12 has no
# crossbeam-skiplist.
#
# `strings.sh [--set SET]... [--strings N]... [--threads N]... [--work get|range|update|insert|memory]... [--series NAME]... [--rounds N]
# [--cell MS] [--archive FILE]`. The sets are `user` (user:000123), `uuid`, `url`, `word` and `bytes` (16 drawn ones), or a file of yours with half
# as many lines more as the strings that are measured, since the others are for inserts. All draw the same strings, and it fails where their
# answers aren't the same. The library is the proved one or that of `--archive`. Rows go to bench/results/strings.csv, and those of memory to
# strings_memory.csv, in place of all that are there where nothing is named: medians with quartiles, leasts, and `steal`. It stands outside the gate.
set -eu
# shellcheck source=bench/peers.sh
. "$(dirname "$0")/peers.sh"
# shellcheck source=bench/library.sh
. "$top/bench/library.sh"
# shellcheck source=bench/turns.sh
. "$top/bench/turns.sh"
usage() {
    echo 'usage: strings.sh [--set SET]... [--strings N]... [--threads N]... [--work get|range|update|insert|memory]... [--series NAME]...
           [--rounds N] [--cell MS] [--archive FILE]' >&2
    exit 2
}

sets=() counts=() crews=() works=() series=() rounds=30 cell=15 archive=()
named=
while [ $# -gt 0 ]; do
    [ $# -ge 2 ] || usage
    case $1 in
        --set) sets+=("$2") named=yes ;;
        --strings) counts+=("$2") named=yes ;;
        --threads) crews+=("$2") named=yes ;;
        --work)
            case $2 in get | range | update | insert | memory) works+=("$2") named=yes ;; *) usage ;; esac
            ;;
        --series) series+=("$2") named=yes ;;
        --rounds) rounds=$2 ;;
        --cell) cell=$2 ;;
        --archive) archive=("$2") ;;
        *) usage ;;
    esac
    shift 2
done
[ ${#sets[@]} != 0 ] || sets=(user uuid url word bytes)
[ ${#counts[@]} != 0 ] || counts=(100000 1000000)
[ ${#crews[@]} != 0 ] || crews=(1 4)
[ ${#works[@]} != 0 ] || works=(get range update insert memory)
[ ${#series[@]} != 0 ] || series=(string_map StringMap std::map 'TBB map' 'BTreeMap under RwLock' DashMap std::unordered_map)

# Debian's sources of crates, for cargo.
sources=/usr/share/cargo/registry
from_debian=(--config 'source.crates-io.replace-with="debian"' --config "source.debian.directory=\"$sources\"")

install_library "$out/installed" "${archive[@]}"
export CITRUS_LIB_DIR=$out/installed/lib
build_cpp string_sets

# Builds the program of a series: `make_ready SERIES`.
declare -A program=()
make_ready() {
    case $1 in
        string_map | std::map | std::unordered_map) build_over "$out/installed" strings strings && program[$1]=$out/strings ;;
        'TBB map') ! build_with oneapi/tbb/concurrent_map.h libtbb-dev strings_tbb tbb || program[$1]=$out/strings_tbb ;;
        StringMap | 'BTreeMap under RwLock')
            hash cargo 2>/dev/null || { left_out "$1, since there is no cargo"; return 0; }
            build_rust bench/rust_strings rust_strings && program[$1]=$out/rust_strings
            ;;
        DashMap)
            if hash cargo 2>/dev/null && compgen -G "$sources/dashmap-5*" >/dev/null; then
                build_rust bench/dashmap dashmap_strings "${from_debian[@]}" && program[$1]=$out/dashmap_strings
            else
                left_out "DashMap, which Debian's librust-dashmap-dev has"
            fi
            ;;
        *) usage ;;
    esac
}
for name in "${series[@]}"; do make_ready "$name"; done

# The strings of a set, and half as many more for inserts: `texts_of SET STRINGS`.
texts_of() {
    "$out/string_sets" "$1" $(($2 + $2 / 2)) >"$out/texts"
}

# Whether a map does such work: `does SERIES WORK`.
does() {
    case $1,$2 in DashMap,range | std::unordered_map,range) false ;; esac
}

# All works of these strings: `measure SET STRINGS THREADS`. Each begins with maps as they were filled.
measure() {
    local work name operations
    for work in "${works[@]}"; do
        [ "$work" != memory ] || continue
        for name in "${series[@]}"; do
            [ -z "${program[$name]:-}" ] || ! does "$name" "$work" || start_program "$name" "${program[$name]}" "$out/texts" "$2" "$3" "$name" turns
        done
        hear_all "$3"
        find_operations "$cell" "$work"
        take_rounds "$rounds" "$work $operations" "${1##*/},$work/$2,$3"
        stop_all
    done
    echo "$1, $2 strings, $3 threads, after $SECONDS s" >&2
}

# Lines `SET,STRINGS,SERIES,BYTES`: `measure_memory SET STRINGS`.
measure_memory() {
    local name
    for name in "${series[@]}"; do
        [ -z "${program[$name]:-}" ] || echo "${1##*/},$2,$name,$("${program[$name]}" "$out/texts" "$2" 4 "$name" memory)"
    done
}

: >"$out/string_cells"
: >"$out/string_memory"
for set in "${sets[@]}"; do
    for count in "${counts[@]}"; do
        texts_of "$set" "$count"
        for crew in "${crews[@]}"; do measure "$set" "$count" "$crew" >>"$out/string_cells"; done
        [[ " ${works[*]} " != *' memory '* ]] || measure_memory "$set" "$count" >>"$out/string_memory"
    done
done
same_turns "$out/string_cells" 1

# Begins a summary anew where nothing is named: `begin NAME WHAT COLUMNS`.
begin() {
    if [ -z "$named" ] || [ ! -e "$results/$1.csv" ]; then
        measured_here "$2" >"$results/$1.csv"
        echo "$3" >>"$results/$1.csv"
    fi
}
begin strings "up to $rounds rounds a row, cells of $cell ms" "set,row,threads,$ratio_columns"
begin strings_memory 'one run, for 4 threads' set,strings,series,bytes
ratios "$out/string_cells" "$((rounds < 5 ? rounds : 5))" >"$out/string_rows"
put_rows "$out/string_rows" strings
put_rows "$out/string_memory" strings_memory
"$top/bench/tables.sh" strings strings_memory
