# For the other scripts here to read in: from lines of programs to a summary in bench/results.
# shellcheck shell=bash disable=SC2034
top=$(cd "$(dirname "${BASH_SOURCE[0]}")/.." && pwd)
results=$top/bench/results
mkdir -p "$results"

# When and where it was measured, as a comment: `measured_here WHAT`.
measured_here() {
    local name load
    name=$(sed -n 's/^model name[^:]*: *//p' /proc/cpuinfo | head -1 | sed 's/([A-Z]*)//g; s/ Processor//; s/,//g')
    read -r load _ </proc/loadavg
    echo "# $(date +%F), $1; $(nproc) processors, $name, load $load before"
}

# Reads lines `NAME, MIX, N threads[ of P]: NS ns[, cut][, answers SUM]`, and writes each as
# `series,mix,keys,threads,places,ns,sum`, with a series that begins with the word: `cells WORD`. A cell that was cut has no sum.
cells() {
    awk -v word="$1" -F ': ' '{
        split($1, left, ", ")
        split(left[3], crew, " ")
        split(left[2], mix, " ")
        sub(/ waiter/, "", left[1])
        gets = "load"; keys = 16384
        if (mix[1] ~ /^[0-9]+$/) { gets = mix[1]; keys = mix[6] }
        if (mix[1] == "gets") { gets = 100; keys = mix[4] }
        sum = $2 ~ /cut/ || $2 !~ /answers/ ? "" : $2
        sub(/.*answers /, "", sum)
        series = left[1] == "map under a lock" ? word "BTreeMap under a lock" : word left[1]
        printf "%s,%s,%s,%s,%s,%s,%s\n", series, gets, keys, crew[1], (crew[4] ? crew[4] : crew[1]), $2 + 0, sum
    }'
}

# How many ticks the processors were busy since the machine began, and how many of these the host gave to others: in `busy` and `stolen`.
read_ticks() {
    local ticks
    read -r -a ticks </proc/stat
    stolen=${ticks[8]}
    busy=$((ticks[1] + ticks[2] + ticks[3] + ticks[6] + ticks[7] + stolen))
}

# Runs a command that writes lines as above, and adds its cells to a file, each with `steal`: of 100 of the time that the processors were
# busy meanwhile, how much the host gave to others. Above 5 the cells are left out: `add_cells FILE WORD COMMAND..`.
add_cells() {
    local file=$1 word=$2 busy stolen busy_before stolen_before steal
    shift 2
    read_ticks
    busy_before=$busy stolen_before=$stolen
    "$@" | cells "$word" >"$file.now"
    read_ticks
    steal=$((1000 * (stolen - stolen_before) / (busy - busy_before + 1)))
    steal=$((steal / 10)).$((steal % 10))
    if [ "${steal%.*}" -lt 5 ]; then sed "s/\$/,$steal/" "$file.now" >>"$file"; else echo "left out: $*, steal $steal %" >&2; fi
    rm "$file.now"
}

# Of the cells that stand in a file, the minimum, the median and the maximum of each, and the mean of `steal` where it is told.
summary() {
    echo 'series,mix,keys,threads,places,minimum_ns,median_ns,runs,steal,maximum_ns'
    sort -t, -k 1,1 -k 2,2 -k 3,3n -k 4,4n -k 5,5n -k 6,6n "$1" | awk -F, '
        function flush() {
            if (!count) return
            printf "%s,%.1f,%.1f,%d,%s,%.1f\n", cell, ns[1], (ns[int((count + 1) / 2)] + ns[int((count + 2) / 2)]) / 2, count,
                told ? sprintf("%.1f", steal / count) : "", ns[count]
        }
        {
            now = $1 "," $2 "," $3 "," $4 "," $5
            if (now != cell) { flush(); cell = now; count = steal = told = 0 }
            ns[++count] = $6
            if ($8 != "") { told = 1; steal += $8 }
        }
        END { flush() }'
}

# Whether all dictionaries answered the same, where the sum doesn't depend on how threads take turns. The proved tree and the same steps
# in C++ have the numbers of updates in it, the others 1 for each update, so there are two sums. The map under a lock that
# tree_benches had until November 2026 counts no updates.
same_answers() {
    awk -F, '$7 != "" && $1 !~ /BTreeMap under a lock$/ && ($4 == 1 || $2 == "load" || $2 == 100) {
        numbered = $1 ~ /^(proved|before) [a-z]+$/ || $1 ~ /^C\+\+ /
        cell = $2 "," $3 "," $4 "," numbered
        if (!(cell in sum)) { sum[cell] = $7 ""; first[cell] = $1 }
        else if (sum[cell] != $7 "") { print "not the same answers at " cell ": " first[cell] " and " $1 > "/dev/stderr"; bad = 1 }
    }
    END { exit bad }' "$1"
}

# Adds to a summary the series `best under a lock`: in each cell the ordered map that had the least median.
with_best() {
    awk -F, '
        /^#/ || /^series/ { next }
        { print }
        $1 ~ / under / {
            cell = $2 "," $3 "," $4 "," $5
            if (!(cell in best) || $7 < best[cell]) { best[cell] = $7; least[cell] = $6 }
        }
        END { for (cell in best) print "best under a lock," cell "," least[cell] "," best[cell] ",0" }' "$1"
}
