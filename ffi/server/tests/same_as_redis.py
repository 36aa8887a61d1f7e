#!/usr/bin/env python3
"""Asks this server and redis-server the same, and tells where an answer isn't the same: `same_as_redis.py PORT PORT_OF_REDIS FILE..`. The requests
are those of the files. Times that are left may differ by what passes between the two. Its status is 0 where all answers were the same."""
import re
import socket
import sys


class Client:
    """A connection, and what came by it."""

    def __init__(self, port):
        self.socket = socket.create_connection(("127.0.0.1", port), timeout=10)
        self.file = self.socket.makefile("rb")

    def ask(self, line):
        self.socket.sendall(line.encode() + b"\r\n")
        return self.reply()

    def reply(self):
        """The bytes of one whole reply."""
        told = self.file.readline()
        kind, rest = told[:1], told[1:].strip()
        if kind in b"$=" and int(rest) >= 0:
            told += self.file.read(int(rest) + 2)
        elif kind in b"*%" and int(rest) > 0:
            told += b"".join(self.reply() for _ in range(int(rest) * (2 if kind == b"%" else 1)))
        return told

    def close(self):
        self.file.close()
        self.socket.close()


def sessions(names):
    for name in names:
        with open(name, encoding="utf-8") as file:
            text = re.sub(r"(?m)^#.*\n", "", file.read())
        yield from (part.splitlines() for part in text.strip().split("\n\n"))


def is_same(line, ours, theirs):
    """Whether both said the same, or to a TTL nearly the same."""
    if line.startswith("TTL") and re.match(rb":\d+\r", ours) and re.match(rb":\d+\r", theirs):
        return abs(int(ours[1:]) - int(theirs[1:])) <= 10
    return ours == theirs


def main():
    ports = [int(word) for word in sys.argv[1:3]]
    count, different = 0, 0
    for lines in sessions(sys.argv[3:]):
        clients = [Client(port) for port in ports]
        for client in clients:
            client.ask("FLUSHALL")
        for line in lines:
            ours, theirs = (client.ask(line) for client in clients)
            count += 1
            if not is_same(line, ours, theirs):
                different += 1
                print(f"{line}: {ours!r}, and Redis {theirs!r}")
        for client in clients:
            client.close()
    print(f"{count} requests, {different} answered otherwise than by Redis")
    sys.exit(0 if count and not different else 1)


if __name__ == "__main__":
    main()
