"""What the tests share that let the built program buy and sell on the loopback: the parties and their keys, a house that the program serves, goods, and
frames of a stream."""

import ctypes
import pathlib
import signal
import socket
import struct
import subprocess
import sys
import threading
import time

TOP = pathlib.Path(__file__).resolve().parent.parent
sys.dont_write_bytecode = True
sys.path.insert(0, str(TOP / "examples"))
import formats

PROGRAM = TOP / "crates/netbill/out/netbill"
HOUSE, OPERATOR, MASTER, SESSION = (bytes([byte]) * 32 for byte in (0x11, 0x22, 0x66, 0x99))
HEAD = formats.head(HOUSE, OPERATOR, bytes([0x33]) * 16)
CONSUMER = formats.Party(1, formats.CONSUMER, 1, 7, bytes([0x44]) * 32)
MERCHANT = formats.Party(2, formats.MERCHANT, 2, 0, bytes([0x55]) * 32)
STRANGER = formats.Party(3, formats.CONSUMER, 3, 8, bytes([0x46]) * 32)
CAP, FUNDS, PRICE, PRODUCT = 1000, 100_000, 300, 7

# The bytes of sealed goods in one part.
PART = 1_000_000

# In seconds: one run of the program.
LONGEST_RUN = 60

# Ports below those that the system gives out by itself.
FIRST_PORT, LAST_PORT = 20000, 30000


def fail(why):
    """Ends the test, from whatever thread."""
    print(f"tests/{pathlib.Path(sys.argv[0]).stem}: {why}", file=sys.stderr, flush=True)
    signal.raise_signal(signal.SIGTERM)
    sys.exit(1)


def made(size):
    """Goods of so many bytes: the squares of their places, modulo 251."""
    squares = bytes(place * place % 251 for place in range(251))
    return (squares * (size // 251 + 1))[:size]


def take(stream):
    """The next whole frame of a stream, its kind and its body, or nothing."""
    head = stream.read(8)
    if len(head) < 8:
        return None
    body = stream.read(formats.number(head[4:]))
    return head[3], body


def fields(body, count):
    """So many texts behind their lengths."""
    found = []
    for _ in range(count):
        size = formats.number(body[:4])
        found.append(body[4 : 4 + size])
        body = body[4 + size :]
    return found


def dies_with_test():
    """The process that calls this is killed where the thread ends that started it."""
    ctypes.CDLL(None).prctl(1, signal.SIGKILL)


def started(words, **more):
    """A process that goes on beside the test, and not behind it."""
    return subprocess.Popen(words, stderr=subprocess.DEVNULL, preexec_fn=dies_with_test, **more)


def listens(port):
    """Whether a process listens on a port of the loopback."""
    wanted = f"0100007F:{port:04X}"
    lines = pathlib.Path("/proc/net/tcp").read_text().splitlines()[1:]
    return any(line.split()[1] == wanted and line.split()[3] == "0A" for line in lines)


def wallet(path, party=CONSUMER, cap=100, items=()):
    """A wallet's file."""
    path.write_bytes(formats.journal(formats.wallet_head(party.id, party.account, party.nonce, party.key), cap, items))
    return path


def ends_each():
    """The address of a listener that ends each link at once."""
    closing = socket.create_server(("127.0.0.1", 0))

    def run():
        while True:
            closing.accept()[0].close()

    threading.Thread(target=run, daemon=True).start()
    return f"127.0.0.1:{closing.getsockname()[1]}"


class Served:
    """The house's program, serving."""

    def __init__(self, folder, draw, workers=2, cap=CAP, parties=(CONSUMER, MERCHANT, STRANGER), funds=FUNDS):
        self.journal, self.workers = folder / "house", workers
        self.first = [*(party.entry() for party in parties), formats.Fund(CONSUMER.account, funds, 1).entry()]
        self.cap = cap or len(self.first)
        self.journal.write_bytes(formats.journal(HEAD, self.cap, self.first))
        for _ in range(100):
            self.port = draw.randrange(FIRST_PORT, LAST_PORT)
            if self.starts():
                return
        fail("no port could be had")

    def starts(self):
        """The program serves on the house's ports. False where one of them is taken."""
        words = [PROGRAM, "serve", self.journal, f"127.0.0.1:{self.port}", str(self.workers), str(10_000 // self.workers)]
        self.process = started(words)
        while self.process.poll() is None:
            if all(listens(self.port + worker) for worker in range(self.workers)):
                return True
            time.sleep(0.01)
        return False

    def address(self, worker=0):
        """Where a worker of it listens."""
        return f"127.0.0.1:{self.port + worker}"

    def entries(self):
        """The entries that stand in its journal."""
        read = formats.read_journal(self.journal.read_bytes(), formats.journal(HEAD, self.cap, [])[:-1])
        return read[0] if read else fail("the front of the house's journal has changed")


def settled(house, prices):
    """Each order was settled once, and the balances are those of the prices that were paid. How many payments there are."""
    entries = house.entries()
    if entries[: len(house.first)] != house.first:
        fail("what the house recorded first has changed")
    orders = [entry[33:49] for entry in entries if entry[0] in (formats.PAID, formats.REFUSED)]
    if len(orders) != len(set(orders)):
        fail("an order was settled twice")
    count = sum(entry[0] == formats.PAID for entry in entries)
    if count != len(prices):
        fail(f"{count} payments, where {len(prices)} purchases were paid")
    left = formats.balance(entries, struct.pack(">I", CONSUMER.account))
    had = formats.balance(entries, struct.pack(">I", MERCHANT.account))
    if (left, had) != (formats.number(house.first[-1][5:13]) - sum(prices), sum(prices)):
        fail(f"balances {left} and {had} behind {count} payments")
    return count
