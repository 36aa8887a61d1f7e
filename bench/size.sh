#!/usr/bin/env bash
# Measures an index of many pairs: how long it takes to open and to fill in no order, what gets and a mix of 90 gets, 5 inserts and 5 removes
# of 100 cost, and how much memory it takes; with 1,000,000 and 10,000,000 pairs, by 1 and 4 threads, with pages of 4 KiB and with huge ones;
# beside TBB's concurrent map and a BTreeMap under the locks of parking_lot. `size.sh [--pairs N]... [--threads N]... [--pages small|huge]...
# [--series NAME]... [--operations N] [--archive FILE]` measures those rows alone that are named; `--pairs 100000000` is one to name, and its
# open takes 15 GB for a moment. It installs the proved library for itself, or the libcitrus_c.a that `--archive` names. Each row is a process
# of its own. Rows are added to bench/results/size.csv where some are named, and else take the place of all that are there.
#
# Huge pages are asked for by glibc's malloc, with GLIBC_TUNABLES=glibc.malloc.hugetlb=1 (glibc 2.35 and later), where the system lets programs
# ask (/sys/kernel/mm/transparent_hugepage/enabled is `madvise` or `always`). It stands outside the gate.
set -eu
# shellcheck source=bench/peers.sh
. "$(dirname "$0")/peers.sh"
# shellcheck source=bench/results.sh
. "$top/bench/results.sh"
usage() {
    echo 'usage: size.sh [--pairs N]... [--threads N]... [--pages small|huge]... [--series NAME]... [--operations N] [--archive FILE]' >&2
    exit 2
}

sizes=() crews=() pages=() series=() operations=2000000 archive=()
while [ $# -gt 0 ]; do
    case $1 in
        --pairs) sizes+=("$2") ;;
        --threads) crews+=("$2") ;;
        --pages) case ${2:-} in small | huge) pages+=("$2") ;; *) usage ;; esac ;;
        --series) series+=("$2") ;;
        --operations) operations=$2 ;;
        --archive) archive=("$2") ;;
        *) usage ;;
    esac
    shift 2
done
named=${#sizes[@]}${#crews[@]}${#pages[@]}${#series[@]}
[ ${#sizes[@]} != 0 ] || sizes=(1000000 10000000)
[ ${#crews[@]} != 0 ] || crews=(1 4)
[ ${#pages[@]} != 0 ] || pages=(small huge)
[ ${#series[@]} != 0 ] || series=('C library first waiter' 'TBB map' 'BTreeMap under parking_lot Mutex' 'BTreeMap under parking_lot RwLock')

build_library "${archive[@]}"
programs=("$out/embed")
! build_with oneapi/tbb/concurrent_map.h libtbb-dev tbb tbb || programs+=("$out/tbb")
! build_btree || programs+=("$out/btree")

# Whether malloc asks for huge pages: 0 or 1.
declare -A asks=([small]=0 [huge]=1)
! grep -q '\[never\]' /sys/kernel/mm/transparent_hugepage/enabled 2>/dev/null || echo 'this system gives no huge pages' >&2
: >"$out/size_rows"
for count in "${sizes[@]}"; do
    for crew in "${crews[@]}"; do
        for kind in "${pages[@]}"; do
            for name in "${series[@]}"; do
                for program in "${programs[@]}"; do
                    GLIBC_TUNABLES=glibc.malloc.hugetlb=${asks[$kind]} "$program" --operations "$operations" --pairs "$count" --threads "$crew" --only "$name" size
                done | sed "s/ waiter//; s/^/$kind,/" >>"$out/size_rows"
            done
            echo "$count pairs, $crew threads, $kind pages, after $SECONDS s" >&2
        done
    done
done
if [ "$named" = 0000 ] || [ ! -e "$results/size.csv" ]; then
    measured_here "$operations operations a thread" >"$results/size.csv"
    echo 'pages,series,pairs,threads,open_s,fill_ns,get_ns,mixed_ns,open_mb,most_mb,mb,answers' >>"$results/size.csv"
fi
# A row that was measured again takes the place of the one before.
awk -F, 'NR == FNR { now[$1, $2, $3, $4]; next } /^#/ || !(($1, $2, $3, $4) in now)' "$out/size_rows" "$results/size.csv" >"$out/size.csv"
cat "$out/size_rows" >>"$out/size.csv"
cp "$out/size.csv" "$results/size.csv"
"$top/bench/tables.sh" size
# All have answered the same.
awk -F, '!/^#/ && !/^pages/ {
    cell = $3 "," $4
    if (!(cell in sum)) sum[cell] = $12 ""
    else if (sum[cell] != $12 "") { print "not the same answers with pairs, threads " cell ": " $2 > "/dev/stderr"; bad = 1 }
} END { exit bad }' "$out/size_rows"
