#!/usr/bin/env python3
"""Talks to this server by redis-py, as Debian's python3-redis has it: `redis_py.py PORT`. Its status is 0 where all was as a program expects."""
import sys
import time

import redis


def refused(call, words):
    """The call fails, with words that tell what to do."""
    try:
        call()
    except redis.exceptions.RedisError as error:
        assert words in str(error), error
        return
    raise AssertionError(f"it isn't refused: {words}")


def talks(client):
    assert client.ping() and client.client_setname("me") and client.client_getname() == "me" and client.client_id() > 0
    assert client.set(5, 50) and client.get(5) == "50" and client.type(5) == "string"
    assert client.set(5, 51, nx=True) is None and client.set(5, 51, xx=True, get=True) == "50"
    assert client.set(6, 60, ex=100) and 90 < client.ttl(6) <= 100 and client.persist(6) and client.ttl(6) == -1
    assert client.expire(6, 100) and client.getex(6, persist=True) == "60" and client.ttl(6) == -1 and client.ttl(7) == -2
    assert client.mset({1: 10, 2: 20}) and client.mget(1, 2, 3) == ["10", "20", None] and client.incr(1) == 11
    assert client.exists(1, 2, 3) == 2 and client.unlink(1, 2, 3) == 2
    assert list(client.scan_iter(count=1)) == ["5", "6"] and list(client.scan_iter(match="6*")) == ["6"]
    told = client.info()
    assert told["db0"]["keys"] == client.dbsize() == 2 and told["connected_clients"] >= 1 and told["used_memory"] > 0


def goes(client):
    assert client.set(7, 70, px=30) and client.get(7) == "70"
    time.sleep(0.04)
    assert client.get(7) is None


def transactions(client):
    """The usual pipeline is one, and nothing of it is done."""
    client.set(5, 50)
    refused(client.pipeline().incr(5).incr(5).execute, "pipeline(transaction=False)")
    assert client.get(5) == "50"
    refused(lambda: client.pipeline().watch(5), "WATCH")
    assert client.pipeline(transaction=False).incr(5).incr(5).execute() == [51, 52]


def main():
    client = redis.Redis(port=int(sys.argv[1]), decode_responses=True, client_name="test", db=0)
    client.flushall()
    talks(client)
    goes(client)
    transactions(client)
    refused(redis.Redis(port=int(sys.argv[1]), db=1).ping, "DB index is out of range")
    client.flushdb()
    assert client.dbsize() == 0


if __name__ == "__main__":
    main()
