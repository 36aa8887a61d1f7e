# For the other scripts here to read in: programs that make a dictionary each and take turns, a cell of some milliseconds, round after round
# (bench/cpp/turns.hpp), so that a busy host hits all alike. It has whoever reads it in end all programs when it ends.
# shellcheck shell=bash disable=SC2034
# shellcheck source=bench/results.sh
. "$(dirname "${BASH_SOURCE[0]}")/results.sh"

room=$(mktemp -d)
names=() pids=() asks=() tells=() picos=() sums=() answer=()
stop_all() {
    local i end
    for i in "${!names[@]}"; do kill "${pids[i]}" 2>/dev/null || true; done
    for end in "${asks[@]}" "${tells[@]}"; do exec {end}>&-; done
    wait
    names=() pids=() asks=() tells=()
}
trap 'stop_all; rm -rf "$room"' EXIT

# Starts a program of a series, which makes its dictionary: `start_program SERIES COMMAND..`.
start_program() {
    local name=$1 ask tell
    shift
    mkfifo "$room/ask" "$room/tell"
    exec {ask}<>"$room/ask" {tell}<>"$room/tell"
    rm "$room/ask" "$room/tell"
    "$@" <&"$ask" >&"$tell" &
    names+=("$name") pids+=($!) asks+=("$ask") tells+=("$tell")
}

# Waits so many seconds for what a program answers: `hear NUMBER SECONDS`. It is in `answer`.
hear() {
    read -r -t "$2" -u "${tells[$1]}" -a answer || { echo "${names[$1]} doesn't answer" >&2; exit 1; }
}

# Waits until all have made their dictionaries: `hear_all THREADS`. Programs of one thread get one processor for all, so that none has a
# better one.
hear_all() {
    local i
    for i in "${!names[@]}"; do
        # A dictionary of 10,000,000 keys is made in some minutes.
        hear "$i" 900
        [ "$1" != 1 ] || taskset -cp "$(($(nproc) - 1))" "${pids[i]}" >/dev/null
    done
}

# Has each program make what a line asks for, beginning with another one each time: `take_turns LINE FIRST`. What they answer is in `picos`,
# the picoseconds of one operation, and in `sums`.
take_turns() {
    local i k
    for ((k = 0; k < ${#names[@]}; k++)); do
        i=$((($2 + k) % ${#names[@]}))
        echo "$1" >&"${asks[i]}"
        hear "$i" 60
        picos[i]=$(((answer[1] * 1000) / answer[0])) sums[i]=${answer[2]}
    done
}

# Finds with how many operations the first program's cell takes so long: `find_operations MILLISECONDS [WORD]`, with a word before the number in
# each line. It is in `operations`. Two thirds of a cell are timed.
find_operations() {
    local i word=${2:+$2 }
    operations=3000
    for i in 1 2; do
        take_turns "$word$operations" 0
        operations=$(($1 * 1500000000 / (picos[0] + 1)))
    done
}

# Takes turns so often: `take_rounds ROUNDS LINE BEGIN`. A line for each program and round: `BEGIN,ROUND,BUSY,STOLEN,SERIES,PICOSECONDS,SUM`,
# where what stands at the begin has three fields.
take_rounds() {
    local i round busy stolen before_busy before_stolen
    for ((round = 1; round <= $1; round++)); do
        read_ticks
        before_busy=$busy before_stolen=$stolen
        take_turns "$2" "$round"
        read_ticks
        for i in "${!names[@]}"; do
            echo "$3,$round,$((busy - before_busy)),$((stolen - before_stolen)),${names[i]},${picos[i]},${sums[i]}"
        done
    done
}

# Whether all have answered the same in each round, where that doesn't depend on how threads take turns: in the lines for which an awk condition
# holds, of those that `take_rounds` wrote to a file: `same_turns FILE CONDITION`.
same_turns() {
    awk -F, "$2"' {
        round = $1 "," $2 "," $3 "," $4
        if (!(round in sum)) { sum[round] = $9 ""; first[round] = $7 }
        else if (sum[round] != $9 "") { print "not the same answers at " round ": " first[round] " and " $7 > "/dev/stderr"; bad = 1 }
    } END { exit bad }' "$1"
}

# What heads the columns of `ratios` behind the three that lines begin with.
ratio_columns=series,least_ns,times_the_first,median_times,kept,rounds,steal,median_ns,quarter_ns,three_quarters_ns

# Of the rounds that are kept the least of each series, and its ratios to the first one; of its own nanoseconds the median and both quartiles:
# `ratios FILE NEEDED`. Rounds are left out in which the host gave more than 5 % of the busy time to others, and so are rows in which it did, and
# those of which fewer rounds are kept than are needed.
ratios() {
    awk -F, -v needed="$2" '
        # Sorts the values, and tells the one that so much of them is below.
        function part(values, count, share,    i, j, value, at) {
            for (i = 2; i <= count; i++) {
                value = values[i]
                for (j = i - 1; j > 0 && values[j] > value; j--) values[j + 1] = values[j]
                values[j + 1] = value
            }
            at = 1 + share * (count - 1)
            i = int(at)
            return i == count ? values[i] : values[i] + (at - i) * (values[i + 1] - values[i])
        }
        { row = $1 "," $2 "," $3 }
        !(row in rounds) { order[++rows] = row; first[row] = $7; rounds[row] = 0 }
        $7 == first[row] { rounds[row]++; busy[row] += $5; stolen[row] += $6; own = $8 }
        !((row, $7) in least) { names[row] = names[row] "," $7; least[row, $7] = 1e18 }
        $6 <= 0.05 * $5 {
            if ($7 == first[row]) kept[row]++
            if ($8 < least[row, $7]) least[row, $7] = $8
            ratio[row, $7, ++count[row, $7]] = $8 / own
            nanos[row, $7, count[row, $7]] = $8 / 1000
        }
        END {
            for (r = 1; r <= rows; r++) {
                row = order[r]; share = busy[row] ? 100 * stolen[row] / busy[row] : 0
                if (share > 5 || kept[row] < needed) {
                    printf "left out: %s, steal %.1f %%, %d rounds kept\n", row, share, kept[row] >"/dev/stderr"
                    continue
                }
                many = split(substr(names[row], 2), each, ",")
                for (i = 1; i <= many; i++) {
                    name = each[i]
                    many_of = count[row, name]
                    for (k = 1; k <= many_of; k++) { values[k] = ratio[row, name, k]; own_ns[k] = nanos[row, name, k] }
                    times = least[row, name] / least[row, first[row]]
                    printf "%s,%s,%.1f,%.3f,%.3f,%d,%d,%.1f,%.1f,%.1f,%.1f\n", row, name, least[row, name] / 1000, times,
                        part(values, many_of, 0.5), kept[row], rounds[row], share, part(own_ns, many_of, 0.5), part(own_ns, many_of, 0.25),
                        part(own_ns, many_of, 0.75)
                }
            }
        }' "$1"
}

# Puts rows that `ratios` wrote into bench/results/NAME.csv, in place of those that begin with the same three fields: `put_rows FILE NAME`.
put_rows() {
    [ -s "$1" ] || return 0
    awk -F, 'NR == FNR { now[$1, $2, $3]; next } /^#/ || !(($1, $2, $3) in now)' "$1" "$results/$2.csv" >"$1.all"
    cat "$1" >>"$1.all"
    mv "$1.all" "$results/$2.csv"
}
