#!/usr/bin/env bash
# Writes the tables of README.md, docs/BENCHMARKS.md and bench/TABLES.md from the summaries in bench/results: what stands between `<!-- NAME -->`
# and `<!-- end of NAME -->` is replaced where the summary of this name is there. `tables.sh NAME..` prints tables instead.
set -eu
# shellcheck source=bench/results.sh
. "$(dirname "$0")/results.sh"

# The head of a table: `head_of COLUMN..`.
head_of() {
    printf '| %s ' "$@"
    echo '|'
    printf '|---%.0s' "$@"
    echo '|'
}

# The minima of the proved tree, and how many times those of C++ they are; then medians.
tree() {
    head_of gets keys threads first second third 'first, times C++' second third \
        'first, median' 'best map under a lock' TBB 'skip list' Ellen 'plain CITRUS' 'steal, %'
    with_best "$1" | awk -F, '
        BEGIN { split("90 50 load 98 100", mixes, " "); split("1 2 4", crews, " "); split("first second third", waiters, " ") }
        { least[$1, $2, $4] = $6; median[$1, $2, $4] = $7; keys[$2] = $3 }
        $9 != "" && $9 + 0 >= steal[$2, $4] + 0 { steal[$2, $4] = $9 }
        function ns(value) { return value == "" ? "-" : sprintf("%.0f", value) }
        function times(ours, theirs) { return ours == "" || theirs == "" ? "-" : sprintf("%.2f", ours / theirs) }
        END {
            for (m = 1; m <= 5; m++) for (c = 1; c <= 3; c++) {
                mix = mixes[m]; crew = crews[c]
                row = "| " mix " | " keys[mix] " | " crew
                for (w = 1; w <= 3; w++) row = row " | " ns(least["proved " waiters[w], mix, crew])
                for (w = 1; w <= 3; w++) row = row " | " times(least["proved " waiters[w], mix, crew], least["C++ " waiters[w], mix, crew])
                print row " | " ns(median["proved first", mix, crew]) " | " ns(median["best under a lock", mix, crew]) " | " \
                    ns(median["TBB map", mix, crew]) " | " ns(median["libcds skip list", mix, crew]) " | " \
                    ns(median["libcds Ellen tree", mix, crew]) " | " ns(median["plain CITRUS", mix, crew]) " | " \
                    (steal[mix, crew] == "" ? "-" : steal[mix, crew]) " |"
            }
        }'
}

# Each row has what one, two and four threads take.
waits() {
    head_of waiter what 1 2 4 'times C++, 1' 2 4
    awk -F, '/^#/ || /^waiter/ { next }
        {
            row = $1 " | " $2
            if (row != last) { if (last) print "| " last " |" ns times " |"; last = row; ns = times = "" }
            ns = ns " " $4 " |"
            times = times (times ? " |" : "") sprintf(" %.2f", $4 / $5)
        }
        END { print "| " last " |" ns times " |" }' "$1"
}

# Each row has what one and four threads take. Only waits depend on the places.
sections() {
    head_of what places 'first waiter' second third 'liburcu, memb' qsbr 'four threads: first' second third memb qsbr
    awk -F, '/^#/ || /^series/ { next }
        {
            name = $1
            places = name ~ / of 64$/ ? "64" : "few"
            sub(/ waiter of .*/, "", name)
            sub(/^liburcu /, "", name)
            ns[name, $2, places, $3] = $4
            if (!seen[$2]++) order[++count] = $2
        }
        function row(what, places, crew, s, c, cell) {
            printf "| %s | %s |", what, places
            for (c = 1; c <= 2; c++) for (s = 1; s <= 5; s++) {
                cell = ns[series[s], what, places, crews[c]]
                printf " %s |", cell == "" ? "-" : cell < 100 ? sprintf("%.1f", cell) : sprintf("%.0f", cell)
            }
            print ""
        }
        END {
            split("first second third memb qsbr", series, " "); split("1 4", crews, " ")
            for (i = 1; i <= count; i++) {
                row(order[i], "few")
                if (order[i] ~ /wait|poll/) row(order[i], "64")
            }
        }' "$1"
}

# Lists of the C library beside writers, and where a library from before was measured too, what it did.
writers() {
    head_of 'pairs of a list' writers tries 'lists a second' 'that failed' 'updates a second' '999 of 1,000 took, µs' 'the longest, µs' \
        'before: tries' lists 'that failed' updates '999 of 1,000' 'the longest'
    awk -F, '/^#/ || /^series/ { next }
        {
            row = $3 "," $4
            if (!(row in seen)) { seen[row]; order[++rows] = row }
            cells[$1, row] = ($3 ? $2 " | " $5 " | " $6 : "- | - | -") " | " $7 " | " $8 " | " $9
        }
        END {
            for (i = 1; i <= rows; i++) {
                split(order[i], part, ",")
                past = cells["before", order[i]]
                print "| " (part[1] ? part[1] : "none") " | " part[2] " | " cells["now", order[i]] " | " (past ? past : "- | - | - | - | - | -") " |"
            }
        }' "$1"
}

# The series with more threads than processors, and what heads their columns.
crowded_series='C library first;C library first in turn;C++ first;TBB map;std::map under mutex;std::map under shared_mutex;BTreeMap under Mutex;BTreeMap under RwLock;BTreeMap under parking_lot Mutex;BTreeMap under parking_lot RwLock'
crowded_heads=('the C library' 'updates in turn' 'C++, which yields' TBB 'std::map, mutex' shared_mutex 'BTreeMap, Mutex' RwLock 'parking_lot Mutex' RwLock)

# Medians of an operation.
crowded() {
    head_of gets keys threads "${crowded_heads[@]}"
    awk -F, -v series="$crowded_series" '/^#/ || /^series/ { next }
        {
            row = $2 "," $3 "," $4
            if (!(row in seen)) { seen[row]; order[++rows] = row }
            median[$1, row] = $7
        }
        function ns(name, row) { return (name, row) in median ? sprintf("%.0f", median[name, row]) : "-" }
        END {
            columns = split(series, names, ";")
            for (i = 1; i <= rows; i++) {
                split(order[i], part, ",")
                line = "| " part[1] " | " part[2] " | " part[3]
                for (n = 1; n <= columns; n++) line = line " | " ns(names[n], order[i])
                print line " |"
            }
        }' "$1"
}

# What half of the updates take, 999 of 1,000, and the longest: three rows of each mix and number of threads.
crowded_updates() {
    head_of gets keys threads 'updates, µs' "${crowded_heads[@]}"
    awk -F, -v series="$crowded_series" '/^#/ || /^series/ { next }
        {
            row = $2 "," $3 "," $4
            if (!(row in seen)) { seen[row]; order[++rows] = row }
            for (f = 5; f <= 7; f++) ns[$1, row, f] = $f
        }
        function us(name, row, f) { return (name, row, f) in ns ? sprintf(f == 5 ? "%.2f" : "%.0f", ns[name, row, f] / 1000) : "-" }
        END {
            columns = split(series, names, ";"); split("half;999 of 1,000;the longest", whats, ";")
            for (i = 1; i <= rows; i++) for (f = 5; f <= 7; f++) {
                split(order[i], part, ",")
                line = "| " part[1] " | " part[2] " | " part[3] " | " whats[f - 4]
                for (n = 1; n <= columns; n++) line = line " | " us(names[n], order[i], f)
                print line " |"
            }
        }' "$1"
}

# Indexes of many pairs: a row for each process.
size() {
    head_of pairs threads pages what 'to open, s' 'MB for it' 'MB then' 'ns to fill, a pair' 'ns a get' 'ns mixed'
    awk -F, '/^#/ || /^pages/ { next } { print $3, $4, $1, $2, $5, $9, $11, $6, $7, $8, $12 }' OFS=, "$1" | sort -t, -k1,1n -k2,2n -k3,3r -s |
        awk -F, '{ printf "| %s | %s | %s | %s | %s | %s | %s | %.0f | %.0f | %.0f |\n", $1, $2, $3, $4, $5, $6, $7, $8, $9, $10 }'
}

# What open handles that do nothing cost the one that calls.
handles() {
    head_of waiter handles 'MB' 'to open, µs' 'ns a share' 'a reopen' 'an insert' 'a remove' 'a wait for a key' 'for all keys'
    awk -F, '/^#/ || /^waiter/ { next } { printf "| %s | %s | %s | %s | %s | %s | %s | %s | %s | %s |\n", $1, $2, $3, $4, $5, $6, $7, $8, $9, $10 }' "$1"
}

# For the three tables of readers that stay: what a summary has of each cell, and how its numbers are written.
# shellcheck disable=SC2016
stays_words='
    BEGIN { split("first second third", waiters, " ") }
    /^#/ || /^kind/ { next }
    {
        row = $1 "," $2 "," $3 "," $4 "," $5
        if (!(row in seen)) { seen[row]; order[++rows] = row }
        for (f = 7; f <= 20; f++) cell[row, $6, f] = $f
    }
    function ms(row, readers) { return sprintf("%.1f", cell[row, readers, 10] / 1000) }
    function a_second(row, readers, f) { return sprintf("%.0f", cell[row, readers, f] / cell[row, readers, 7]) }
    function keep_of(row, part) { return part[5] == 0 ? "usual, " cell[row, "none", 14] / part[4] : part[5] }
    function stood_of(row, readers) {
        if (cell[row, readers, 11] == 0) return "no | -"
        return cell[row, readers, 11] " of " cell[row, readers, 19] " | " sprintf("%.2f", cell[row, readers, 12])
    }'

# What a reader that holds a value costs writers.
stays() {
    head_of keys writers waiter 'a handle keeps back' 'updates a second, no reader' 'the longest, ms' 'beside one that holds' 'the longest, ms' \
        'times those without' 'stood still, in runs' 'after, ms' 'updates in all' 'times those without' 'kept back at the end'
    awk -F, "$stays_words"'
        END {
            for (i = 1; i <= rows; i++) {
                row = order[i]
                split(row, part, ",")
                printf "| %s | %s | %s | %s | %s | %s | ", part[3], part[4], waiters[part[2] + 1], keep_of(row, part), cell[row, "none", 9], ms(row, "none")
                if (!((row, "held", 9) in cell)) { print "- | - | - | - | - | - | - | - |"; continue }
                printf "%s | %s | %s | %s | ", cell[row, "held", 9], ms(row, "held"), cell[row, "held", 17], stood_of(row, "held")
                printf "%s | %s | %s of %s |\n", cell[row, "held", 8], cell[row, "held", 18], cell[row, "held", 13], cell[row, "held", 14]
            }
        }' "$1"
}

# One writer beside readers that the system seldom runs.
stays_idle() {
    head_of waiter 'the handle keeps back' 'updates, no reader' 'the longest, ms' 'beside 4' 'the longest, ms' 'times those without' \
        'beside 8' 'the longest, ms' 'times those without'
    awk -F, "$stays_words"'
        END {
            for (i = 1; i <= rows; i++) {
                row = order[i]
                split(row, part, ",")
                printf "| %s | %s |", waiters[part[2] + 1], part[5]
                for (readers = 0; readers <= 8; readers += 4) {
                    known = (row, readers, 8) in cell
                    printf known ? " " cell[row, readers, 8] " | " ms(row, readers) " |" : " - | - |"
                    if (readers) printf " %s |", known ? cell[row, readers, 18] : "-"
                }
                print ""
            }
        }' "$1"
}

# Other updates, and lookups and lists meanwhile, with and without a reader that holds a value.
stays_others() {
    head_of updates waiter 'the handle keeps back' reader 'updates a second' 'the longest, ms' 'stood still, in runs' 'after, ms' \
        'gets a second' 'lists of 16 pairs'
    awk -F, "$stays_words"'
        END {
            for (i = 1; i <= rows; i++) for (r = 0; r <= 1; r++) {
                row = order[i]
                split(row, part, ",")
                readers = r ? "held" : "none"
                if (!((row, readers, 8) in cell)) continue
                printf "| %s | %s | %s | %s ", part[1] == "replaces" ? "replaces" : "inserts of ascending keys", waiters[part[2] + 1], \
                    keep_of(row, part), r ? "holds" : "none"
                printf "| %s | %s | %s | %s | %s |\n", cell[row, readers, 9], ms(row, readers), stood_of(row, readers), \
                    a_second(row, readers, 15), a_second(row, readers, 16)
            }
        }' "$1"
}

# Lookups one by one, and by lanes at once.
many() {
    head_of pairs 'one by one' '1 lane' '2 lanes' 4 8 'a wait beside no lanes' 'beside 8 idle ones' 'beside 8 busy ones'
    awk -F, '/^#/ || /^what/ { next }
        {
            if (!($3 in seen)) { seen[$3]; order[++rows] = $3 }
            ns[$1, $2, $3] = sprintf("%.0f", $4)
        }
        END {
            for (i = 1; i <= rows; i++) {
                pairs = order[i]
                row = "| " pairs " | " ns["look up", 0, pairs]
                for (lanes = 1; lanes <= 8; lanes *= 2) row = row " | " ns["look up at once", lanes, pairs]
                print row " | " ns["wait beside no lanes", 0, pairs] " | " ns["wait beside idle lanes", 8, pairs] " | " \
                    ns["wait beside busy lanes", 8, pairs] " |"
            }
        }' "$1"
}

shapes() {
    head_of 'keys come' keys threads 'ns a put' 'slots of a way' 'times log2 of the keys' 'longest way'
    awk -F, '/^#/ || /^order/ { next } { printf "| %s | %s | %s | %s | %s | %s | %s |\n", $1, $2, $3, $4, $5, $6, $7 }' "$1"
}

# Millions of operations a second of a simulated machine: each row has all programs, and for two of them the lines that moved.
processors() {
    head_of processors threads 'a pause, ns' 'gets of 100, keys' before pairs 'pairs and kept' queue 'queue and kept' 'plain CITRUS' \
        'lines moved an update, before' 'queue and kept' plain
    awk -F, '/^#/ || /^gets/ { next }
        {
            row = $3 " | " $4 " | " $8 " | " $1 ", " $2
            if (!(row in seen)) { seen[row]; order[++rows] = row }
            rate[$5, row] = $10; lines[$5, row] = $13
        }
        function digits(value) { return value == "" ? "-" : sprintf(value < 10 ? "%.1f" : "%.0f", value) }
        END {
            programs = split("before;pairs;pairs and kept;queue;queue and kept;plain", names, ";")
            for (i = 1; i <= rows; i++) {
                line = order[i]
                for (n = 1; n <= programs; n++) line = line " | " digits(rate[names[n], order[i]])
                print "| " line " | " digits(lines["before", order[i]]) " | " digits(lines["queue and kept", order[i]]) " | " digits(lines["plain", order[i]]) " |"
            }
        }' "$1"
}

# What a wait for readers takes at 96 busy places, and what it makes of all operations.
processors_waits() {
    head_of 'gets of 100, keys' waiter 'looks under way' 'a wait, µs' 'million operations a second' 'lines moved an update'
    awk -F, '/^#/ || /^gets/ { next } { printf "| %s, %s | %s | %s | %.1f | %.0f | %.0f |\n", $1, $2, $6, $7, $14 / 1000, $10, $13 }' "$1"
}

# Each row has both rules: what the library did with four attempts by all slots, and what it does.
depth() {
    head_of 'keys come' keys 'longest way, four attempts' 'times log2' '24 attempts' 'times log2' 'slots of a way, four' '24' \
        'turns for 1,000 puts, four' '24' 'waits for 1,000 puts, four' '24'
    awk -F, '/^#/ || /^order/ { next }
        {
            row = $1 "," $2
            if (!(row in order)) { rows[++count] = row; order[row] = $1 " | " $2 }
            rule = $3 == "24 attempts"
            slots[row, rule] = $4; longest[row, rule] = $5; turns[row, rule] = $6; waits[row, rule] = $7; log2[row] = log($2) / log(2)
        }
        END {
            for (i = 1; i <= count; i++) {
                row = rows[i]
                printf "| %s | %d | %.1f | %d | %.1f | %s | %s | %s | %s | %s | %s |\n", order[row], longest[row, 0], longest[row, 0] / log2[row], \
                    longest[row, 1], longest[row, 1] / log2[row], slots[row, 0], slots[row, 1], turns[row, 0], turns[row, 1], waits[row, 0], waits[row, 1]
            }
        }' "$1"
}

# Medians of the Rust crate, and of other maps for Rust, with the least and the greatest where they were kept.
rust_map() {
    head_of gets keys threads 'first waiter' second third 'BTreeMap, Mutex' RwLock DashMap
    awk -F, '
        BEGIN {
            split("90 50 load 98 100", mixes, " "); split("1 2 4", crews, " ")
            split("citrus_map first,citrus_map second,citrus_map third,BTreeMap under Mutex,BTreeMap under RwLock,DashMap", series, ",")
        }
        { median[$1, $2, $4] = sprintf("%.0f", $7) ($10 == "" ? "" : sprintf(" (%.0f to %.0f)", $6, $10)); keys[$2] = $3 }
        END {
            for (m = 1; m <= 5; m++) for (c = 1; c <= 3; c += 2) {
                row = "| " mixes[m] " | " keys[mixes[m]] " | " crews[c] " |"
                for (s = 1; s <= 6; s++) {
                    ns = median[series[s], mixes[m], crews[c]]
                    row = row " " (ns == "" ? "-" : ns) " |"
                }
                print row
            }
        }' "$1"
}

# README's table, of two summaries: medians of the library in Rust and in C, beside the maps that each is measured with.
figures() {
    # shellcheck disable=SC2016
    head_of 'gets of 100, keys' threads 'Citrus in Rust' '`BTreeMap` under the better of two locks' DashMap 'Citrus in C' "TBB's map"
    { with_best "$results/rust_map.csv" && grep -E '^(C library first|TBB map),' "$results/embed.csv"; } | awk -F, '
        BEGIN {
            split("100 98 90 50", mixes, " "); split("1 4", crews, " ")
            split("citrus_map first,best under a lock,DashMap,C library first,TBB map", series, ",")
        }
        { median[$1, $2, $4] = $7; keys[$2] = $3 }
        function grouped(number) { return number < 1000 ? number : sprintf("%d,%03d", number / 1000, number % 1000) }
        END {
            for (m = 1; m <= 4; m++) for (c = 1; c <= 2; c++) {
                row = c == 1 ? "| " mixes[m] ", " grouped(keys[mixes[m]]) " | 1 |" : "| | 4 |"
                for (s = 1; s <= 5; s++) row = row sprintf(" %.0f |", median[series[s], mixes[m], crews[c]])
                print row
            }
        }'
}

# Thousands of requests a second, medians.
server() {
    head_of command connections citrus_server redis-server
    awk -F, '/^#/ || /^server/ { next }
        {
            row = $2 " | " $3
            if (!seen[row]++) order[++rows] = row
            rate[row, $1] = sprintf("%.0f", $5 / 1000)
        }
        function of(name) { return (order[r], name) in rate ? rate[order[r], name] : "-" }
        END { for (r = 1; r <= rows; r++) print "| " order[r] " | " of("citrus_server") " | " of("redis-server") " |" }' "$1"
}

# Seconds that pass, of each command in a row of its text.
threads() {
    head_of text operations scripts 'run, first waiter' second third hash 'C++'
    awk -F, '/^#/ || /^what/ { next }
        {
            row = $2 " | " $3 " | " $4
            if (!seen[row]++) order[++rows] = row
            what = $1
            sub(/^(run|load) --waiter /, "", what)
            seconds[row, what == "run" ? "eer" : what] = $5
        }
        END {
            split("eer d deer hash C++", whats, " ")
            for (r = 1; r <= rows; r++) {
                printf "| %s |", order[r]
                for (w = 1; w <= 5; w++) printf " %s |", (order[r], whats[w]) in seconds ? sprintf("%.2f", seconds[order[r], whats[w]]) : "-"
                print ""
            }
        }' "$1"
}

# Processor seconds of each command, how many times those of C++ they are, and the peak.
text() {
    head_of operations scripts 'run, s' 'times C++' MiB 'check, s' 'times C++' MiB 'load, s' 'times C++' MiB
    awk -F, '/^#/ || /^what/ { next }
        {
            row = $2 " | " $3
            if (!seen[row]++) order[++rows] = row
            found[row] = found[row] sprintf(" | %.3f | %.2f | %.0f", $5, $5 / $8, $6)
        }
        END { for (r = 1; r <= rows; r++) print "| " order[r] found[order[r]] " |" }' "$1"
}

limits() {
    head_of what command 'bytes read' 'bytes written' 'processor seconds' MiB
    awk -F, '/^#/ || /^what/ { next } { printf "| %s | %s | %d | %d | %.2f | %.0f |\n", $1, $2, $3, $4, $6, $7 }' "$1"
}

# The rows of sections of 10 ms, in which the writer rests.
cookies() {
    head_of waiter deletes 'rest after each' 'at most, ms' 'with cookies' 'in the mean, µs' 'with cookies' 'long calls' 'with cookies'
    awk -F, '$2 == "10 ms" && $4 != "none" {
        printf "| %s | %s | %s | %s | %s | %s | %s | %d of %d | %d of %d |\n", $1, $3, $4, $5, $6, $7, $8, $9, $10, $11, $12 }' "$1"
}

# Programs in turns: of each row the first one's least, and how many times that the others take. A row that has them tells the median and
# both quartiles too.
ratios() {
    head_of pages 'gets of 100, keys' threads what 'least, ns' 'median, ns (quartiles)' 'times the first' 'median of rounds' 'rounds' 'steal, %'
    awk -F, '/^#/ || /^pages/ { next } {
        median = $11 == "" ? "-" : $11 " (" $12 " to " $13 ")"
        printf "| %s | %s | %s | %s | %s | %s | %s | %s | %s of %s | %s |\n", $1, $2, $3, $4, $5, median, $6, $7, $8, $9, $10 }' "$1"
}

# The maps from strings, and what heads their columns.
string_series='string_map;StringMap;std::map;TBB map;BTreeMap under RwLock;DashMap;std::unordered_map'
string_heads=(string_map StringMap std::map "TBB's map" BTreeMap DashMap std::unordered_map)

# Medians of an operation, with the leasts.
strings() {
    head_of set strings threads what "${string_heads[@]}" 'steal, %'
    awk -F, -v series="$string_series" '/^#/ || /^set/ { next }
        {
            split($2, part, "/")
            row = $1 " | " part[2] " | " $3 " | " (part[1] == "update" ? "remove, insert" : part[1])
            if (!(row in steal)) { order[++rows] = row; steal[row] = $10 }
            cell[$4, row] = sprintf("%.0f (%.0f)", $11, $5)
        }
        END {
            columns = split(series, names, ";")
            for (i = 1; i <= rows; i++) {
                line = order[i]
                for (n = 1; n <= columns; n++) line = line " | " ((names[n], order[i]) in cell ? cell[names[n], order[i]] : "-")
                print "| " line " | " steal[order[i]] " |"
            }
        }' "$1"
}

# Bytes a string.
strings_memory() {
    head_of set strings "${string_heads[@]}"
    awk -F, -v series="$string_series" '/^#/ || /^set/ { next }
        {
            row = $1 " | " $2
            if (!seen[row]++) order[++rows] = row
            cell[$3, row] = sprintf("%.0f", $4)
        }
        END {
            columns = split(series, names, ";")
            for (i = 1; i <= rows; i++) {
                line = order[i]
                for (n = 1; n <= columns; n++) line = line " | " ((names[n], order[i]) in cell ? cell[names[n], order[i]] : "-")
                print "| " line " |"
            }
        }' "$1"
}

# How long single calls take: medians of the runs, with the least and the greatest.
latency() {
    head_of 'gets of 100, keys' threads what call 'half take, ns' '99 of 100' '999 of 1,000' 'the longest, µs'
    awk -F, '/^#/ || /^series/ { next }
        function spread(from) { return $from == $(from + 2) ? $from : $from " (" $(from + 1) " to " $(from + 2) ")" }
        { printf "| %s | %s | %s | %s | %s | %s | %s | %.0f |\n", $2, $3, $1, $4, spread(5), spread(8), spread(11), $14 / 1000 }' "$1"
}

# Medians through the C library, with the least and the greatest where they were kept; and by how much its minima are above those of the tree's own calls.
embed() {
    head_of gets keys threads first second third 'more than the tree, first' second third 'best std::map under a lock' TBB
    with_best "$1" | awk -F, '
        BEGIN { split("90 50 load 98 100", mixes, " "); split("1 2 4", crews, " "); split("first second third", waiters, " ") }
        { least[$1, $2, $4] = $6; median[$1, $2, $4] = sprintf("%.0f", $7) ($10 == "" ? "" : sprintf(" (%.0f to %.0f)", $6, $10)); keys[$2] = $3 }
        function ns(value) { return value == "" ? "-" : value }
        END {
            for (m = 1; m <= 5; m++) for (c = 1; c <= 3; c += 2) {
                mix = mixes[m]; crew = crews[c]
                row = "| " mix " | " keys[mix] " | " crew
                for (w = 1; w <= 3; w++) row = row " | " ns(median["C library " waiters[w], mix, crew])
                for (w = 1; w <= 3; w++) {
                    library = least["C library " waiters[w], mix, crew]; ours = least["proved " waiters[w], mix, crew]
                    row = row " | " (library == "" || ours == "" ? "-" : sprintf("%+.0f", library - ours))
                }
                print row " | " ns(median["best under a lock", mix, crew]) " | " ns(median["TBB map", mix, crew]) " |"
            }
        }'
}

# A table, and when and where it was measured, or by which model.
table() {
    "$1" "$results/$1.csv"
    echo
    sed -n '1s/^# \([0-9-]*\), \(.*\)$/Measured on \1: \2./p; 1s/^# \(By .*\)$/\1/p' "$results/$1.csv"
}

# Of the pictures that standard input names, with a caption each, those that are there: `pictures FOLDER`.
pictures() {
    local name caption
    while read -r name caption; do
        [ ! -e "$top/docs/pictures/bench_$name.svg" ] || printf '![%s](%s/bench_%s.svg)\n\n%s\n\n' "$name" "$1" "$name" "$caption"
    done
}

pictures_for_users() {
    pictures pictures <<'END'
maps Operations a second of all threads together, medians. More is better, and a line that rises gains by threads.
crowd The same with more threads than processors.
keys How an operation's time grows with the keys, medians; both axes are logarithmic. A twin of the tree in C++ is drawn, [as fast as the library](#in-turns). Where a median is more than twice the best run, that is named.
END
}

pictures_for_builders() {
    pictures ../docs/pictures <<'END'
threads Operations a second of all threads together, medians: the proved tree's own calls, and what it is measured beside.
ratio The proved tree beside the same steps in C++, minima. At 1 it takes as long as the C++, below less.
layout What words that stand apart gain, at four threads with the first waiter, medians. Less is better.
places How the time grows with the places of the table, medians, in the same steps in C++.
processors Simulated: operations a second of all threads together, by the way in which callers wait for the words that all updates exchange.
END
}

# Puts a file in place of what stands between the marks of this name, in the page that has them: `put_in NAME FILE`.
put_in() {
    local page
    page=$(grep -lxF "<!-- $1 -->" "$top/README.md" "$top/docs/BENCHMARKS.md" "$top/bench/TABLES.md")
    awk -v name="$1" -v file="$2" '
        $0 == "<!-- end of " name " -->" { while ((getline line <file) > 0) print line; inside = 0 }
        !inside { print }
        $0 == "<!-- " name " -->" { inside = 1 }' "$page" >"$out/page"
    cp "$out/page" "$page"
}

if [ $# -gt 0 ]; then
    for name in "$@"; do table "$name"; done
    exit
fi
out=$top/bench/out
mkdir -p "$out"
for name in tree waits sections writers shapes depth threads text limits cookies embed many ratios strings strings_memory latency crowded crowded_updates size handles stays stays_idle stays_others rust_map server processors processors_waits; do
    [ -e "$results/$name.csv" ] || continue
    grep -qxF "<!-- $name -->" "$top/docs/BENCHMARKS.md" "$top/bench/TABLES.md" || continue
    { echo; table "$name"; echo; } >"$out/table"
    put_in "$name" "$out/table"
done
if [ -e "$results/rust_map.csv" ] && [ -e "$results/embed.csv" ]; then
    { echo; figures; echo; } >"$out/table"
    put_in figures "$out/table"
fi
for readers in users builders; do
    { echo; "pictures_for_$readers"; } >"$out/table"
    put_in "pictures for $readers" "$out/table"
done
