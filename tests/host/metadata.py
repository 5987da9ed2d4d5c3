#!/usr/bin/env python3
"""Clients of a metadata service.

  metadata.py port                      prints a port of 127.0.0.1 that nobody listens at
  metadata.py free PORT                 ends with 0 where nobody listens at that port of 127.0.0.1
  metadata.py wait PORT                 waits until somebody listens there, by a connection that sends nothing
  metadata.py crowd PORT PATH N M WANT  N clients at once ask for PATH, M times each, one connection a time; prints how many of the
                                        replies were 200 with WANT as their body, and what the first other one was
  metadata.py hang PORT SECONDS         connects, sends the beginning of a head, and stays for so long; prints what was written to it
  metadata.py storm PORT PATH WANT PATH WANT N M
                                        N processes with ten clients each, all at once, M connections each client: requests for both paths,
                                        in pieces or not, cut heads, garbage, and a token of no pod; prints how many were answered as they are
                                        to be, and what the first other answer was
  metadata.py slow PORT PATH            sends a request for PATH one byte at a time; prints the first line of the reply
"""
import os
import socket
import sys
import threading
import time

FLAVOR = "Metadata-Flavor: AppContainer\r\n"


def connect(port):
    for _ in range(200):
        try:
            return socket.create_connection(("127.0.0.1", port), timeout=60)
        except OSError:
            time.sleep(0.05)
    raise SystemExit("nobody listens")


def request(path):
    return f"GET {path} HTTP/1.1\r\nHost: x\r\n{FLAVOR}\r\n".encode()


def reply(link):
    parts = []
    while True:
        part = link.recv(65536)
        if not part:
            return b"".join(parts)
        parts.append(part)


def crowd(port, path, clients, times, wanted):
    good, other = [0] * clients, []

    def ask(number):
        for _ in range(times):
            with connect(port) as link:
                link.sendall(request(path))
                said = reply(link)
            head, _, body = said.partition(b"\r\n\r\n")
            if head.startswith(b"HTTP/1.1 200 OK\r\n") and body == wanted.encode():
                good[number] += 1
            else:
                other.append(said[:200])

    threads = [threading.Thread(target=ask, args=(number,)) for number in range(clients)]
    for thread in threads:
        thread.start()
    for thread in threads:
        thread.join()
    print(sum(good), *(repr(it) for it in other[:1]))


def kinds(first, second):
    """What a client sends, in which pieces, and how the reply is to begin and to end."""
    good = b"HTTP/1.1 200 OK\r\n"
    whole = [(request(path), good, b"\r\n\r\n" + wanted.encode()) for path, wanted in (first, second)]
    foreign = request("/" + "f" * 32 + "/acMetadata/v1/pod/uuid")
    return [
        ([whole[0][0]], *whole[0][1:]),
        ([whole[1][0]], *whole[1][1:]),
        ([whole[0][0][:20], whole[0][0][20:]], *whole[0][1:]),
        ([whole[1][0][:60], whole[1][0][60:70], whole[1][0][70:]], *whole[1][1:]),
        ([whole[0][0][:50]], b"HTTP/1.1 400 Bad Request\r\n", b"\r\n\r\n"),
        ([bytes(range(256))], b"HTTP/1.1 400 Bad Request\r\n", b"\r\n\r\n"),
        ([foreign], b"HTTP/1.1 404 Not Found\r\n", b"\r\n\r\n"),
    ]


def storm(port, first, second, processes, times):
    """Forks so many processes, each of which tells by a pipe what it counted."""
    ends = []
    for process in range(processes):
        here, there = os.pipe()
        if os.fork() == 0:
            good, other = one_storm(port, kinds(first, second), process, times)
            os.write(there, f"{good} {other}".encode()[:4000])
            os._exit(0)
        os.close(there)
        ends.append(here)
    good, others = 0, []
    for end in ends:
        count, _, other = os.read(end, 4096).decode().partition(" ")
        good += int(count)
        others += [other] if other else []
        os.wait()
    print(good, *others[:1])


def one_storm(port, sorts, process, times):
    good, other = [0] * 10, []

    def client(number):
        for turn in range(times):
            pieces, begin, end = sorts[(process + number + turn) % len(sorts)]
            try:
                said = exchange(port, pieces)
            except OSError as error:
                said = repr(error).encode()
            if said.startswith(begin) and said.endswith(end):
                good[number] += 1
            else:
                other.append(said[:200])

    threads = [threading.Thread(target=client, args=(number,)) for number in range(10)]
    for thread in threads:
        thread.start()
    for thread in threads:
        thread.join()
    return sum(good), repr(other[0]) if other else ""


def exchange(port, pieces):
    with connect(port) as link:
        for piece in pieces:
            link.sendall(piece)
            if len(pieces) > 1:
                time.sleep(0.001)
        link.shutdown(socket.SHUT_WR)
        return reply(link)


def main(verb, *words):
    if verb == "port":
        with socket.socket() as free:
            free.bind(("127.0.0.1", 0))
            print(free.getsockname()[1])
    elif verb == "free":
        with socket.socket() as link:
            raise SystemExit(link.connect_ex(("127.0.0.1", int(words[0]))) == 0)
    elif verb == "wait":
        connect(int(words[0])).close()
    elif verb == "crowd":
        crowd(int(words[0]), words[1], int(words[2]), int(words[3]), words[4])
    elif verb == "hang":
        with connect(int(words[0])) as link:
            link.sendall(b"GET /")
            link.settimeout(float(words[1]))
            try:
                print(reply(link).split(b"\r\n")[0].decode())
            except OSError as error:
                print(type(error).__name__)
    elif verb == "storm":
        storm(int(words[0]), words[1:3], words[3:5], int(words[5]), int(words[6]))
    elif verb == "slow":
        with connect(int(words[0])) as link:
            for byte in request(words[1]):
                link.sendall(bytes([byte]))
                time.sleep(0.002)
            print(reply(link).split(b"\r\n")[0].decode())


main(*sys.argv[1:])
