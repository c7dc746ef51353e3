"""Two processes run the two sites of a plan over a socketpair, and end by themselves.

Each run has a number, so a letter that an older run has left in a connection would be refused.
"""

import os
import secrets
import socket
import struct
import sys

from dine import Kind, Site, run_number

JOBS = int(sys.argv[1]) if len(sys.argv) > 1 else 3
PLAN = "version = 2\n" + "".join(
    f'[[site]]\nname = "{name}"\njobs = [{", ".join([act] * JOBS)}]\n'
    for name, act in (("a", '{ name = "x", add = 1 }'), ("b", '{ name = "y", add = 100 }'))
) + '[[edge]]\nends = ["a", "b"]\nvalue = 7\n'


def send(sock: socket.socket, letter: bytes) -> None:
    sock.sendall(struct.pack("<I", len(letter)) + letter)


def receive(sock: socket.socket) -> bytes:
    def exactly(n: int) -> bytes:
        data = b""
        while len(data) < n:
            more = sock.recv(n - len(data))
            if not more:
                raise EOFError("the neighbour is gone")
            data += more
        return data

    return exactly(struct.unpack("<I", exactly(4))[0])


def run(number: int, random: int, sock: socket.socket) -> str:
    site = Site(PLAN, number, run=run_number(PLAN, random))
    letters = 0
    while not site.is_finished:
        event, letter = site.turn()
        if event is None:
            site.take(receive(sock))
            letters += 1
        elif event.kind is Kind.BEGIN:
            site.end()  # before this call the process does its job
        elif letter:
            send(sock, letter)
    here = [f"edge {p.edge}: {site.log(i)}, value {site.value(i)}" for i, p in enumerate(site.places) if p.has_fork]
    return f"process {os.getpid()}, site {number}: {site.ate} meals, took {letters} letters. {' '.join(here)}"


def main() -> int:
    ours, theirs = socket.socketpair()
    random = secrets.randbits(64)  # drawn once, and known to both
    child = os.fork()
    if child == 0:
        ours.close()
        print(run(1, random, theirs), flush=True)
        os._exit(0)
    theirs.close()
    print(run(0, random, ours), flush=True)
    return os.waitstatus_to_exitcode(os.waitpid(child, 0)[1])


if __name__ == "__main__":
    sys.exit(main())
