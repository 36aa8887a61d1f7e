#!/usr/bin/env bash
# Drives the index server by Redis's clients, those of them that are here: Debian's redis-cli, redis-benchmark and python3-redis; and asks it
# and Debian's redis-server the same. `clients.sh PROGRAM` with a citrus_server that was built. Lines tell what was tried, `ok: ..`, `FAILED: ..`
# and `left out: ..`; the status is 1 where something failed. It takes some seconds, and ends all that it started.
# Functions are called by name as words of others, which shellcheck can't see.
# shellcheck disable=SC2317
set -u
here=$(cd "$(dirname "$0")" && pwd)
program=${1:?a citrus_server that was built}
room=$(mktemp -d)
started=()
failed=0
end_all() {
    [ ${#started[@]} = 0 ] || kill "${started[@]}" 2>/dev/null
    wait
    rm -rf "$room"
}
trap end_all EXIT

# Runs words, and shows what they told where they fail: `tries NAME WORDS..`.
tries() {
    local name=$1
    shift
    if "$@" >"$room/told" 2>&1; then
        echo "ok: $name"
    else
        tail -n 40 "$room/told"
        echo "FAILED: $name"
        failed=1
    fi
}
has() { hash "$1" 2>/dev/null || { echo "left out: $1, which Debian's package $2 has"; return 1; }; }

# Whether words succeed within ten seconds.
comes_to() { for _ in $(seq 100); do ! "$@" >/dev/null 2>&1 || return 0; sleep 0.1; done; return 1; }

# Starts a server with these words too, and sets `port`.
start() {
    "$program" --port 0 --pairs 100000 --workers 2 "$@" >"$room/says" 2>&1 &
    started+=($!)
    comes_to grep -q 'listens at' "$room/says" || { echo "FAILED: the server doesn't start: $(cat "$room/says")"; exit 1; }
    port=$(sed -n 's/.*listens at [0-9.]*:\([0-9]*\):.*/\1/p' "$room/says")
}
start --strings
strings=$port
start

# A reply in one line, as redis-cli shows it to people.
reply() { timeout 10 redis-cli --no-raw -p "$port" "$@" 2>&1 | tr -s '\n' ' ' | sed 's/ $//'; }

# redis-cli in both protocols: `answers PATTERN WORD..`.
answers() {
    local pattern=$1 told
    told=$(reply "${@:2}")
    # shellcheck disable=SC2053
    [[ $told == $pattern ]] || { echo "${*:2}: $told, and it should be $pattern"; return 1; }
}
talks() {
    answers OK set 5 50 exat 99999999999 && answers '(integer) 99999999999' expiretime 5 && answers '"50"' -3 get 5 && answers '(nil)' -3 get 6 && answers OK -n 0 set 6 60 &&
        answers '*"server" => "citrus_server" *' -3 hello 3 && answers '# Keyspace*db0:keys=2,expires=1,avg_ttl=0*' info keyspace &&
        answers '*redis_version:7*' info server && answers '"5" "6"' --scan && answers OK flushall
}
# The server of strings; `--scan` goes by cursors.
talks_of_strings() {
    local port=$strings
    answers OK set 'user: 7' $'a\n\xff' ex 100 && answers '"a?n?xff"' get 'user: 7' && answers OK mset user:1 1 user:2 2 other 3 && answers '"user:1" "user:2"' --scan --pattern 'user:?' &&
        answers '"other" "user: 7" "user:1" "user:2"' --scan && answers '(integer) -5' decrby n 5 && answers '# Keyspace*db0:keys=5,expires=1,avg_ttl=0*' info keyspace &&
        answers '1) "other" 2) 1) "n" 2) "-5"' range - + limit 1 && answers OK flushall
}
# What isn't one call of redis-cli: the lines of a transaction go by one connection.
in_a_transaction() { [[ $(printf 'set 5 50\nmulti\nset 5 51\nexec\nget 5\n' | timeout 10 redis-cli -p "$port") == OK*OK*QUEUED*EXECABORT*50 ]]; }

# Each of its tests that is named, for a moment.
benchmark() {
    timeout 30 redis-benchmark -p "${of:-$port}" -c 4 -P 16 -n 20000 -r 1000 -q "$@" >"$room/rate" 2>&1 && grep -q 'requests per second' "$room/rate" &&
        ! grep -qi 'error' "$room/rate"
}

if has redis-cli redis-tools; then
    tries 'redis-cli is answered in both protocols' talks
    tries 'redis-cli is answered by the server of strings' talks_of_strings
    tries 'nothing of a transaction that redis-cli sends is done' in_a_transaction
fi
if has redis-benchmark redis-tools; then
    tries 'redis-benchmark sets and gets' benchmark SET 1__rand_int__ 1__rand_int__
    tries 'redis-benchmark sets keys that go' benchmark SET 1__rand_int__ 1__rand_int__ PX 5
    tries 'redis-benchmark gets' benchmark GET 1__rand_int__
    of=$strings tries 'redis-benchmark makes tests of its own with strings' benchmark -t set,get,incr,mset
fi
python=$(for one in python3 /usr/bin/python3; do "$one" -c 'import redis' 2>/dev/null && echo "$one" && break; done)
if [ -n "$python" ]; then
    tries 'redis-py is answered' timeout 30 "$python" "$here/tests/redis_py.py" "$port"
else
    echo "left out: redis-py, which Debian's package python3-redis has"
fi
if has redis-server redis-server; then
    of_redis=$(python3 -c 'import socket; s = socket.socket(); s.bind(("127.0.0.1", 0)); print(s.getsockname()[1])')
    redis-server --port "$of_redis" --bind 127.0.0.1 --save '' --appendonly no --dir "$room" >"$room/redis_says" 2>&1 &
    started+=($!)
    comes_to bash -c "exec 3<>/dev/tcp/127.0.0.1/$of_redis"
    same() { timeout 60 python3 "$here/tests/same_as_redis.py" "$1" "$of_redis" "${@:2}"; }
    tries 'what Redis has too is answered as by redis-server' same "$port" "$here/tests/same_as_redis.txt"
    tries 'strings are answered as by redis-server' same "$strings" "$here/tests/same_as_redis.txt" "$here/tests/same_as_redis_strings.txt"
fi
exit "$failed"
