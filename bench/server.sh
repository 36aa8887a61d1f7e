#!/usr/bin/env bash
# Measures the index server of ffi/server beside redis-server, both asked by redis-benchmark with drawn keys of 100,000, at 1, 4 and 16
# connections: `server.sh [--rounds N] [--requests N] [--pipeline N] [--threads N] [--workers N] [--idle N]`, with so many requests under way
# a connection, so many threads of redis-benchmark, so many workers of the index server (its own choice where nothing is said), and so many
# more connections to each server that ask nothing. One thread of redis-benchmark may be slower than a server; with more it takes the time by
# quarters of a second, so many requests are to be made. The best and the median of the rounds go to bench/results/server.csv; the memory
# that the idle connections take is told. Where Debian's redis-server or redis-tools isn't installed it is left out, with a word. It stands
# outside the gate.
set -eu
# shellcheck source=bench/library.sh
. "$(dirname "$0")/library.sh"
# shellcheck source=bench/results.sh
. "$top/bench/results.sh"
rounds=5 requests=500000 pipeline=16 threads=1 idle=0 workers=()
while [ $# -gt 0 ]; do
    case $1 in
        --rounds) rounds=$2 ;;
        --requests) requests=$2 ;;
        --pipeline) pipeline=$2 ;;
        --threads) threads=$2 ;;
        --workers) workers=(--workers "$2") ;;
        --idle) idle=$2 ;;
        *) echo "usage: server.sh [--rounds N] [--requests N] [--pipeline N] [--threads N] [--workers N] [--idle N]" >&2; exit 2 ;;
    esac
    shift 2
done

hash redis-benchmark redis-cli 2>/dev/null || { left_out "the servers, since Debian's redis-tools isn't installed"; exit 0; }
has_library || exit 1
build_rust ffi/server citrus_server
started=()
end_servers() { [ ${#started[@]} = 0 ] || kill "${started[@]}" 2>/dev/null || true; }
trap end_servers EXIT

# Waits until the server at a port answers.
answers() {
    for _ in $(seq 100); do
        [ "$(redis-cli -p "$1" ping 2>/dev/null)" != PONG ] || return 0
        sleep 0.1
    done
    left_out "the server at port $1, which doesn't answer"
    return 1
}

# A port that nobody has at this moment.
free_port() { python3 -c 'import socket; s = socket.socket(); s.bind(("127.0.0.1", 0)); print(s.getsockname()[1])'; }

# Has connections to a server that were answered once and ask no more, and tells what memory it has for them: `stand_idle NAME PORT PROCESS`.
# Each is a file of both processes.
stand_idle() {
    [ "$idle" != 0 ] || return 0
    mkfifo "$out/$1_stands"
    python3 - "$@" "$idle" >"$out/$1_stands" <<'END' &
import socket, sys, time
name, port, process, count = sys.argv[1], int(sys.argv[2]), sys.argv[3], int(sys.argv[4])
def memory():
    with open(f"/proc/{process}/status") as status:
        return next(int(line.split()[1]) for line in status if line.startswith("VmRSS"))
before = memory()
crowd = [socket.create_connection(("127.0.0.1", port)) for _ in range(count)]
for one in crowd:
    one.sendall(b"PING\r\n")
for one in crowd:
    assert one.recv(100) == b"+PONG\r\n"
print(f"{name}: {count} idle connections take {(memory() - before) * 1024 // count} bytes each", flush=True)
time.sleep(1e6)
END
    started+=($!)
    head -n 1 "$out/$1_stands" >&2
    rm "$out/$1_stands"
}

servers=()
port=$(free_port)
"$out/citrus_server" --port "$port" --pairs 200000 "${workers[@]}" >"$out/citrus_server_says" &
started+=($!)
! answers "$port" || { servers+=("citrus_server $port") && stand_idle citrus_server "$port" $!; }
if hash redis-server 2>/dev/null; then
    port=$(free_port)
    redis-server --port "$port" --bind 127.0.0.1 --save '' --appendonly no --dir "$out" >"$out/redis_server_says" &
    started+=($!)
    ! answers "$port" || { servers+=("redis-server $port") && stand_idle redis-server "$port" $!; }
else
    left_out "redis-server, which Debian's package of that name has"
fi

# The requests a second of one command: `rate PORT CONNECTIONS WORD..`. A key that isn't a number is no key of ours, so the words are given: a
# digit, and behind it the twelve that redis-benchmark draws, which may begin with zeros.
rate() {
    local port=$1 connections=$2
    shift 2
    local crew=()
    [ "$threads" = 1 ] || crew=(--threads "$threads")
    redis-benchmark -p "$port" -c "$connections" "${crew[@]}" -n "$requests" -r 100000 -P "$pipeline" --csv "$@" |
        awk -F '","' 'END { print $2 }'
}

how="$pipeline under way a connection, $threads threads of redis-benchmark, $idle idle connections"
measured_here "$rounds rounds of $requests requests, $how" >"$out/server.csv"
: >"$out/server_cells"
for ((round = 1; round <= rounds; round++)); do
    for server in "${servers[@]}"; do
        read -r name port <<<"$server"
        for connections in 1 4 16; do
            echo "$name,set,$connections,$(rate "$port" "$connections" SET 1__rand_int__ 1__rand_int__)" >>"$out/server_cells"
            echo "$name,get,$connections,$(rate "$port" "$connections" GET 1__rand_int__)" >>"$out/server_cells"
        done
    done
    echo "round $round of $rounds, after $SECONDS s" >&2
done

{
    echo 'server,command,connections,best_requests_per_second,median_requests_per_second,runs'
    sort -t, -k 1,1 -k 2,2 -k 3,3n -k 4,4n "$out/server_cells" | awk -F, '
        function middle() { return (rate[int((count + 1) / 2)] + rate[int((count + 2) / 2)]) / 2 }
        function flush() { if (count) printf "%s,%.0f,%.0f,%d\n", cell, rate[count], middle(), count }
        {
            now = $1 "," $2 "," $3
            if (now != cell) { flush(); cell = now; count = 0 }
            rate[++count] = $4
        }
        END { flush() }'
} >>"$out/server.csv"
cp "$out/server.csv" "$results/server.csv"
