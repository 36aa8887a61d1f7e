#!/usr/bin/env bash
# Measures what a reader that stays costs those who write, for each waiter, by how many slots a handle may keep back:
# `stays.sh [--rounds N] [--seconds S] [--idle-seconds S] [--short] [--archive FILE]`. One and two writers insert and remove drawn keys among
# 10,000 and 200,000, without a reader and beside one that holds a value all the time; one writer does so among 20,000 beside none, 4 and 8
# readers of SCHED_IDLE; and one writer replaces, or inserts ascending keys, beside a thread that looks up and lists, with and without the held
# value. It installs the proved library for itself, or the libcitrus_c.a that is named. Medians of the rounds, and the longest update of all,
# go to stays.csv, stays_idle.csv and stays_others.csv of bench/results, and are printed as tables. A round takes some six minutes, and an
# index 500 MB, twice until it is open. A run beside which the host gave more than 5 % to others is left out. `--short` tries all that once, for
# 0.3 s each, beside whatever runs, and only prints it. It stands outside the gate.
set -eu
# shellcheck source=bench/peers.sh
. "$(dirname "$0")/peers.sh"
# shellcheck source=bench/results.sh
. "$top/bench/results.sh"
rounds=3 seconds=2 idle_seconds=3 most_steal=5 short='' archive=()
while [ $# -gt 0 ]; do
    case $1 in
        --short) rounds=1 seconds=0.3 idle_seconds=0.3 most_steal=101 short=yes && shift && continue ;;
        --rounds) rounds=$2 ;;
        --seconds) seconds=$2 ;;
        --idle-seconds) idle_seconds=$2 ;;
        --archive) archive=("$2") ;;
        *)
            echo 'usage: stays.sh [--rounds N] [--seconds S] [--idle-seconds S] [--short] [--archive FILE]' >&2
            exit 2
            ;;
    esac
    shift 2
done

install_library "$out/installed" "${archive[@]}"
gcc -std=gnu11 -O2 -Wall -Wextra -pthread "-I$out/installed/include" -o "$out/stays" "$top/bench/stays.c" -L"$out/installed/lib" -lcitrus

# Adds a line of the program with the round, from which it draws keys, and the steal, where the host gave the processors to it:
# `add_line FILE WORD..`.
add_line() {
    local file=$1 line busy stolen busy_before stolen_before steal
    shift
    read_ticks
    busy_before=$busy stolen_before=$stolen
    line=$("$out/stays" "$@" "$round")
    read_ticks
    steal=$((1000 * (stolen - stolen_before) / (busy - busy_before + 1)))
    steal=$((steal / 10)).$((steal % 10))
    if [ "${steal%.*}" -lt "$most_steal" ]; then echo "$line,$round,$steal" >>"$file"; else left_out "$*, steal $steal %"; fi
}

held() {
    local waiter keys writers keep
    for keys in 10000 200000; do
        for writers in 1 2; do
            for waiter in 0 1 2; do
                for keep in 64 0 65536 2000000; do
                    add_line "$1" mixed $waiter $keys $writers $keep none "$seconds"
                    add_line "$1" mixed $waiter $keys $writers $keep held "$seconds"
                done
            done
        done
    done
}

idle() {
    local waiter keep readers
    for waiter in 0 1 2; do
        for keep in 64 4096 65536; do
            for readers in 0 4 8; do add_line "$1" mixed $waiter 20000 1 $keep $readers "$idle_seconds"; done
        done
    done
}

others() {
    local kind waiter keep
    for kind in replaces ascending; do
        for waiter in 0 1 2; do
            for keep in 64 0; do
                add_line "$1" $kind $waiter 10000 1 $keep none "$seconds"
                add_line "$1" $kind $waiter 10000 1 $keep held "$seconds"
            done
        done
    done
}

# Of each column by itself the median of the rounds, of the longest update the greatest, and in how many of the rounds a writer stood still, and
# when. `times` is the median of how many times the updates of the same round without a reader those beside readers are: in a second of the time
# in which they came; `times_in_all` is the same of the whole time.
summary_of() {
    echo kind,waiter,keys,writers,keep,readers,seconds,updates,rate,longest_us,stood,at_ms,kept,room,gets,lists,times,times_in_all,runs,steal
    awk -F, -v OFS=, '
        {
            cell = $1 OFS $2 OFS $3 OFS $4 OFS $5
            alone = cell OFS $17
            if ($6 == "none" || $6 == "0") { rate[alone] = $9; all[alone] = $8 / $7 }
            cell = cell OFS $6
            if (!(cell in runs)) order[++cells] = cell
            nth = ++runs[cell]
            for (f = 7; f <= 16; f++) value[cell, f, nth] = $f
            if (rate[alone]) { n = ++both[cell]; value[cell, 17, n] = $9 / rate[alone]; value[cell, 18, n] = $8 / $7 / all[alone] }
            if ($10 > longest[cell] + 0) longest[cell] = $10
            if ($11 > 0) value[cell, 12, ++stood[cell]] = $12
            steal[cell] += $18
        }
        function median(cell, f, count, i, j, kept, sorted) {
            if (!count) return ""
            for (i = 1; i <= count; i++) {
                kept = value[cell, f, i]
                for (j = i - 1; j >= 1 && sorted[j] + 0 > kept + 0; j--) sorted[j + 1] = sorted[j]
                sorted[j + 1] = kept
            }
            return sorted[int((count + 1) / 2)]
        }
        function line_of(cell, n) {
            return cell OFS median(cell, 7, n) OFS median(cell, 8, n) OFS median(cell, 9, n) OFS longest[cell] OFS stood[cell] + 0 OFS \
                median(cell, 12, stood[cell]) OFS median(cell, 13, n) OFS median(cell, 14, n) OFS median(cell, 15, n) OFS median(cell, 16, n)
        }
        function ratio(cell, f) { return both[cell] ? sprintf("%.3f", median(cell, f, both[cell])) : "" }
        END {
            for (i = 1; i <= cells; i++) {
                cell = order[i]
                print line_of(cell, runs[cell]), ratio(cell, 17), ratio(cell, 18), runs[cell], sprintf("%.1f", steal[cell] / runs[cell])
            }
        }' "$1"
}

parts=(held idle others)
declare -A file_of=([held]=stays [idle]=stays_idle [others]=stays_others) lasts=([held]=$seconds [idle]=$idle_seconds [others]=$seconds)
for part in "${parts[@]}"; do
    measured_here "$rounds rounds of ${lasts[$part]} s" >"$out/${file_of[$part]}.csv"
    : >"$out/${file_of[$part]}_lines"
done
for ((round = 1; round <= rounds; round++)); do
    for part in "${parts[@]}"; do $part "$out/${file_of[$part]}_lines"; done
    echo "round $round of $rounds, after $SECONDS s" >&2
done
for part in "${parts[@]}"; do summary_of "$out/${file_of[$part]}_lines" >>"$out/${file_of[$part]}.csv"; done
if [ -n "$short" ]; then
    for part in "${parts[@]}"; do cat "$out/${file_of[$part]}.csv"; done
    exit
fi
for part in "${parts[@]}"; do cp "$out/${file_of[$part]}.csv" "$results/"; done
"$top/bench/tables.sh" stays stays_idle stays_others
