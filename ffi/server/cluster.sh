#!/usr/bin/env bash
# Tries three index servers behind nutcracker, Debian's proxy that shares keys out by consistent hashing, all at 127.0.0.1: `cluster.sh
# [PROGRAM]`, with a citrus_server that was built elsewhere. It shows what a client gets, what happens when one of the three goes and comes
# back, and what can't be had through the proxy; then it ends all that it started. Its status is 0 where everything was as it says, and else
# 1. It takes some seconds, and more where the server is built first.
set -eu
here=$(cd "$(dirname "$0")" && pwd)
PATH=$PATH:/usr/sbin
say() { printf 'cluster.sh: %s\n' "$*" >&2; }

missing=0
needs() { hash "$1" 2>/dev/null || { say "$1 is missing, which $2 has"; missing=1; }; }
needs nutcracker "Debian's package nutcracker"
needs redis-cli "Debian's package redis-tools"
needs redis-benchmark "Debian's package redis-tools"
[ $# != 0 ] || needs cargo "the toolchain of Rust (rustup.rs)"
[ "$missing" = 0 ] || exit 1

room=$(mktemp -d)
started=()
end_all() {
    [ ${#started[@]} = 0 ] || kill "${started[@]}" 2>/dev/null || true
    wait
    rm -rf "$room"
}
trap end_all EXIT

program=${1:-$room/build/release/citrus_server}
if [ $# = 0 ]; then
    (cd "$here" && cargo build --quiet --release --offline --target-dir "$room/build") ||
        { say "the server can't be built: ffi/install.sh PREFIX first, then export PKG_CONFIG_PATH=PREFIX/lib/pkgconfig"; exit 1; }
fi

declare -A ports pids

# Whether words succeed within ten seconds.
comes_to() { for _ in $(seq 100); do ! "$@" >/dev/null 2>&1 || return 0; sleep 0.1; done; return 1; }

# Starts a server under a name, at the port that it had before, or at one that the system chooses.
start() {
    local name=$1 port=${ports[$1]:-0}
    "$program" --port "$port" --pairs 100000 --workers 2 >"$room/$name" 2>&1 &
    pids[$name]=$!
    started+=($!)
    comes_to grep -q 'listens at' "$room/$name" || { say "server $name didn't start: $(cat "$room/$name")"; exit 1; }
    ports[$name]=$(sed -n 's/.*listens at [0-9.]*:\([0-9]*\):.*/\1/p' "$room/$name")
}

# A port that nobody listens at, from this one on.
free_from() { local port=$1; while (exec 3<>"/dev/tcp/127.0.0.1/$port") 2>/dev/null; do port=$((port + 1)); done; echo "$port"; }

# No server is left out of the ring when it is lost (auto_eject_hosts). Else its keys would go to the others for a while, and two servers
# would have values for one key when it is back.
start_proxy() {
    local name monitor
    proxy=$(free_from 22121)
    monitor=$(free_from $((proxy + 1)))
    {
        printf 'index:\n  listen: 127.0.0.1:%s\n  redis: true\n  hash: murmur\n  distribution: ketama\n' "$proxy"
        printf '  auto_eject_hosts: false\n  timeout: 1000\n  server_retry_timeout: 500\n  server_failure_limit: 1\n  servers:\n'
        for name in one two three; do printf '   - 127.0.0.1:%s:1 %s\n' "${ports[$name]}" "$name"; done
    } >"$room/nutcracker.yml"
    nutcracker --conf-file="$room/nutcracker.yml" --output="$room/nutcracker" --stats-addr=127.0.0.1 --stats-port="$monitor" &
    started+=($!)
    comes_to redis-cli -p "$proxy" ping || { say "nutcracker didn't start: $(cat "$room/nutcracker")"; exit 1; }
}

# A reply in one line, as redis-cli shows it to people: `reply PORT WORD..`.
reply() { redis-cli --no-raw -p "$1" "${@:2}" 2>&1 | tr -s '\n' ' ' | sed 's/ $//'; }

# Asks the proxy, shows what it says, and looks whether that is like this pattern: `shows PATTERN WORD..`.
wrong=0
shows() {
    local pattern=$1 told
    shift
    told=$(reply "$proxy" "$@")
    printf '  %-24s %s\n' "${*^^}" "$told"
    # The pattern is meant as one.
    # shellcheck disable=SC2053
    [[ $told == $pattern ]] || { say "that should be: $pattern"; wrong=1; }
}

where_pairs_are() {
    local name
    for name in one two three; do
        printf '  %-6s port %s: %s pairs\n' "$name" "${ports[$name]}" "$(redis-cli -p "${ports[$name]}" dbsize)"
    done
}

for name in one two three; do start "$name"; done
start_proxy
echo "Three servers behind a proxy at 127.0.0.1:$proxy, which any client of Redis can use:"
shows OK set 5 50
shows '"50"' get 5
shows OK mset 1 10 2 20 3 30 4 40
shows '1) "10" 2) "20" 3) (nil)' mget 1 2 99
shows '(integer) 51' incr 5
shows '(integer) 2' del 1 2 99
shows '(nil)' get 1
shows '(error) ERR key *' get 02
shows OK mset 1 10 2 20 6 60 7 70 8 80 9 90 10 100
echo 'redis-benchmark by the proxy, with words that are numbers:'
for words in 'SET 1__rand_int__ 1__rand_int__' 'GET 1__rand_int__' 'MGET 1__rand_int__ 1__rand_int__'; do
    # shellcheck disable=SC2086
    redis-benchmark -p "$proxy" -c 16 -P 16 -n 50000 -r 20000 --csv $words 2>/dev/null >"$room/rate"
    awk -F '","' -v words="$words" 'END { printf "  %-44s %.0f requests a second\n", words, $2 }' "$room/rate"
done
echo 'Each has a share of the keys:'
where_pairs_are

# A key that server two has, and one that another has.
its=$(redis-cli -p "${ports[two]}" range - + limit 1 | sed -n 2p)
others=$(redis-cli -p "${ports[one]}" range - + limit 1 | sed -n 2p)
echo "Server two goes. Its keys, as $its, are errors for as long; all others, as $others, are as before:"
kill "${pids[two]}"
wait "${pids[two]}" 2>/dev/null || true
shows '(error) ERR *' get "$its"
shows '"*"' get "$others"
shows '(error) ERR *' mget "$its" "$others"
echo 'It comes back at once when it is started again. Nothing is saved, so its share is empty:'
start two
comes_to eval "[ \"\$(reply $proxy exists $its)\" = '(integer) 0' ]" || true
shows '(nil)' get "$its"
shows OK set "$its" 1
shows '"1"' get "$its"
shows '"*"' get "$others"

echo 'What goes over all keys has no place in a proxy that knows one key at a time: it ends the connection.'
for words in 'range - +' 'revrange + -' dbsize flushall; do
    # shellcheck disable=SC2086
    shows '*Server closed the connection*' $words
done
echo 'Ask each server of its own:'
where_pairs_are
[ "$wrong" = 0 ] || exit 1
echo 'All was as said, and all that was started is ended.'
