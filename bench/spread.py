#!/usr/bin/env python3
"""What four peers bring beside one, where each is AWAY seconds away: `spread.py [PROGRAM]`, where PROGRAM is `.build/cf` unless it is named.

A made chain of 20,000 blocks, of which an eighth pays the watched script and is fetched, is served over loopback. Between the server and `sync` stand
four addresses that hand on what comes, each way AWAY seconds after it came. `sync` from one of them and from all four run in turns, as often as TRIES
says; of each the time in the middle counts, and that of four is to be at most MOST times that of one. Each is to end with status 0 and the text of
`scan`.
"""
import os
import queue
import socket
import sys
import tempfile
import threading
import time

from load import BLOCKS, PAID, ROOT, SEED, Run, fails, line, middle, served, written
from made_chain import records

AWAY, PEERS, TRIES, MOST = 0.005, 4, 3, 0.35


def without_delay(connection):
    connection.setsockopt(socket.IPPROTO_TCP, socket.TCP_NODELAY, 1)
    return connection


class Far(threading.Thread):
    """An address at which each connection is one to another address, and each byte comes later by AWAY seconds."""

    def __init__(self, address):
        super().__init__(daemon=True)
        host, port = address.rsplit(":", 1)
        self.place, self.server = (host, int(port)), socket.create_server(("127.0.0.1", 0))
        self.address = "127.0.0.1:%d" % self.server.getsockname()[1]
        self.start()

    def run(self):
        while True:
            near = without_delay(self.server.accept()[0])
            far = without_delay(socket.create_connection(self.place))
            for source, sink in ((near, far), (far, near)):
                waiting = queue.SimpleQueue()
                threading.Thread(target=self.take, args=(source, waiting), daemon=True).start()
                threading.Thread(target=self.give, args=(waiting, sink), daemon=True).start()

    @staticmethod
    def take(source, waiting):
        data = b"first"
        while data:
            try:
                data = source.recv(1 << 18)
            except OSError:
                data = b""
            waiting.put((time.monotonic() + AWAY, data))

    @staticmethod
    def give(waiting, sink):
        while True:
            moment, data = waiting.get()
            time.sleep(max(0, moment - time.monotonic()))
            try:
                if not data:
                    sink.shutdown(socket.SHUT_WR)
                    return
                sink.sendall(data)
            except OSError:
                return


def main():
    program = sys.argv[1] if len(sys.argv) > 1 else os.path.join(ROOT, ".build", "cf")
    with tempfile.TemporaryDirectory() as folder:
        made = written(folder, "made.dat", records((SEED, BLOCKS)))
        watch = written(folder, "paid.txt", [PAID.encode()])
        text = Run([program, "scan", made, watch]).join().text()
        server, address = served(program, made, TRIES * (1 + PEERS))
        far = [Far(address).address for _ in range(PEERS)]
        runs = {1: [], PEERS: []}
        for _ in range(TRIES):
            for peers, each in runs.items():
                each.append(Run([program, "sync", watch] + far[:peers]).join())
        bad = fails("the server", server.join(), b"")
        for peers, each in runs.items():
            line("sync from %d that are %g ms away" % (peers, AWAY * 1000), middle(each))
            bad |= any([fails("sync", run, text) for run in each])
        ratio = middle(runs[PEERS]).seconds / middle(runs[1]).seconds
        print("%d peers take %.2f times what one takes; %s is the most that is wanted" % (PEERS, ratio, MOST))
        return 1 if bad or ratio > MOST else 0


if __name__ == "__main__":
    sys.exit(main())
