"""Buys with the consumer's program, on the loopback: from a house that the built program serves, and from a seller that is played here, by the
layouts of docs/FORMATS.md. The test holds the program to this:

- A purchase of goods of 0, 1 and 1,200,000 bytes from an honest seller ends with status 0 and the goods. Run again, over links that end at once,
  it writes the same goods.
- The seller does harm: it sends each frame twice, sends what is no frame, half a frame, a frame of a wrong kind or of another purchase, a
  refusal behind which it keeps the link, frames without end, or ends the link. A purchase that did not end says so with status 12 and writes nothing, and the wallet goes on
  next time, at an honest seller, to the goods. Where the order was sent the house is asked, and the purchase ends by its answer.
- A seller that endorses with a wrong key, and one whose buyer has too little money: status 10. A house that refuses: 12.
- A wallet of cap 1 that is full, and one that is full behind its order: 14. One that holds something else, one damaged at any place of its front and its items, and one of a house: 8.
  A wallet that another process holds, an address where nobody listens, also where the system joins who dials it to itself, a wallet that is not there: 17.
- An output that fails: 4, and the goods next time.
- The program is killed at 20 moments, before and behind each message of a purchase, and started again, until the goods are there.

In the end each order that was paid was paid once, and the balances are those of the purchases that ended paid.

A kill leaves what the program gave to the system. What a failure of power leaves is not tried here.
"""

import contextlib
import fcntl
import hashlib
import pathlib
import random
import signal
import socket
import struct
import subprocess
import sys
import tempfile
import threading
import time

sys.dont_write_bytecode = True

from parties import CONSUMER, FUNDS, LONGEST_RUN, MASTER, MERCHANT, PART, PRICE, PRODUCT, PROGRAM, STRANGER, Served, ends_each, fail, fields, formats, made, settled, take, wallet

KILLS = 20

# The frames that are read for one purchase.
MOST_FRAMES = 10_000

# In seconds: the whole test.
SECONDS = 300

# A network of a process's own, where a seller listens at 7000, and whose system has two ports for connections: who dials the first of them is joined to itself, which a
# socket shows first. It is closed by a reset, so that the port is free again.
NETWORK = ["unshare", "--map-root-user", "--net", sys.executable, "-c", """
import fcntl, os, socket, struct, sys
SIOCSIFFLAGS, IFF_UP = 0x8914, 1
with socket.socket() as link:
    fcntl.ioctl(link, SIOCSIFFLAGS, struct.pack("16sH22x", b"lo", IFF_UP))
with open("/proc/sys/net/ipv4/ip_local_port_range", "w") as ports:
    ports.write("40000 40001")
with socket.create_connection(("127.0.0.1", 40000)) as link:
    if link.getsockname() != link.getpeername():
        sys.exit("no socket is joined to itself")
    link.setsockopt(socket.SOL_SOCKET, socket.SO_LINGER, struct.pack("ii", 1, 0))
seller = socket.create_server(("127.0.0.1", 7000))
seller.set_inheritable(True)
os.execv(sys.argv[1], sys.argv[1:])
"""]

PRICE_ASKED, QUOTE, GOODS_ASKED, GOODS, ORDER, PASSED_ON = 0x01, 0x02, 0x03, 0x04, 0x05, 0x08


class Sale:
    """A purchase as its seller knows it."""

    def __init__(self, seller, tid):
        self.epoid = formats.epoid(MERCHANT.id, int(time.time()), tid)
        self.key = seller.key(tid)
        self.sealed = seller.sealed(self.key)
        self.checksum = hashlib.sha256(self.sealed).digest()
        self.passed = None


class Seller:
    """A merchant that listens. What it does wrong is told by its mode, and when: behind so many messages of a link."""

    def __init__(self):
        self.listener = socket.create_server(("127.0.0.1", 0))
        self.port = self.listener.getsockname()[1]
        self.goods, self.sales, self.kept = b"", {}, {}
        self.mode, self.behind, self.kill, self.house, self.price = "honest", 0, None, None, PRICE
        threading.Thread(target=self.run, daemon=True).start()

    def key(self, tid):
        """The key of a purchase's goods. Those of more than a part are all sealed under one key, and so once: that takes seconds here."""
        return formats.code(MASTER, b"goods" + struct.pack(">II", MERCHANT.id, tid if len(self.goods) <= PART else 0))

    def sealed(self, key):
        """The goods, sealed; those of one key are sealed once."""
        name = key + hashlib.sha256(self.goods).digest()
        if name not in self.kept:
            self.kept[name] = formats.seal(key, b"good", self.goods)
        return self.kept[name]

    def run(self):
        while True:
            link, _ = self.listener.accept()
            threading.Thread(target=self.serve, args=(link,), daemon=True).start()

    def serve(self, link):
        """Serves a consumer's link."""
        with link, link.makefile("rb") as stream, contextlib.suppress(ConnectionError, BrokenPipeError):
            if self.mode == "ends":
                return
            count = 0
            while frame := take(stream):
                if self.kill and self.kill("before", count):
                    return
                answers = self.answers(*frame)
                if self.mode != "honest" and count >= self.behind:
                    if not self.harms(link, frame, answers):
                        return
                else:
                    for answer in answers:
                        link.sendall(answer)
                if self.kill and self.kill("behind", count):
                    return
                count += 1

    def harms(self, link, frame, answers):
        """Does what its mode says in the place of an answer. False where the link ends then."""
        if self.mode == "twice":
            for answer in answers + answers:
                link.sendall(answer)
            return True
        answer = answers[0] if answers else b""
        if self.mode == "noise":
            link.sendall(b"HTTP/1.1 400 Bad Request\r\n\r\n")
        elif self.mode == "half":
            link.sendall(answer[: len(answer) // 2])
        elif self.mode == "refuses":
            # the link stays open: the buyer ends it
            link.sendall(formats.refusal(53, 1, 0, bytes(32)))
            if link.recv(1):
                fail("a message came behind a refusal")
        elif self.mode == "others":
            # a wrong kind, a body that is none, another purchase, and then the answer
            link.sendall(formats.frame(formats.DONE, bytes(20)) + formats.frame(QUOTE, b"xx") + formats.frame(QUOTE, bytes(8) + formats.sized(bytes(52))))
            link.sendall(answer)
            return True
        elif self.mode == "endless":
            flood = formats.frame(QUOTE, struct.pack(">Q", 999) + formats.sized(bytes(52)))
            for _ in range(MOST_FRAMES // 100 + 2):
                link.sendall(flood * 100)
            time.sleep(0.2)
        return False

    def answers(self, kind, body):
        """The frames by which a message is answered."""
        ticket, sealed = fields(body, 2)
        shown = formats.unsealed(MERCHANT.key, b"tick", ticket)
        if shown is None:
            fail("a message came whose ticket does not open")
        session = shown[16:48]
        plain = formats.unsealed(session, {PRICE_ASKED: b"m001", GOODS_ASKED: b"m003", ORDER: b"m005"}[kind], sealed)
        if plain is None:
            fail(f"a message of kind {kind} came that does not open")
        tid = formats.number(plain[:8])
        name = struct.pack(">Q", tid)
        sale = self.sales.setdefault(tid, None) or Sale(self, tid)
        self.sales[tid] = sale
        if kind == PRICE_ASKED:
            return [formats.frame(QUOTE, name + formats.sized(formats.seal(session, b"m002", name + struct.pack(">IQ", PRODUCT, self.price))))]
        if kind == GOODS_ASKED:
            place = formats.number(plain[8:16])
            head = name + sale.epoid + struct.pack(">QQ", len(sale.sealed), place) + sale.checksum
            part = sale.sealed[place : place + PART]
            return [formats.frame(GOODS, name + formats.sized(formats.seal(session, b"m004", head)) + formats.sized(part))]
        if not sale.passed:
            order = fields(plain[8:], 1)[0]
            if sale.checksum not in order or sale.epoid not in order:
                fail("an order came of other goods than those that were sent")
            sale.passed = self.pays(order, sale)
        return [formats.frame(PASSED_ON, name + formats.sized(sale.passed))]

    def pays(self, order, sale):
        """The consumer's receipt: the house is asked to move the money."""
        key = bytes(32) if self.mode == "fouls" else sale.key
        endorsement = formats.sized(order) + struct.pack(">I", MERCHANT.account) + formats.sized(b"") + key
        sealed = formats.seal(MERCHANT.key, b"endo", endorsement)
        frame = formats.frame(formats.ENDORSED, struct.pack(">I", MERCHANT.id) + formats.sized(sealed))
        with socket.create_connection(self.house, timeout=LONGEST_RUN) as link, link.makefile("rb") as stream:
            link.sendall(frame)
            kind, body = take(stream)
        if kind != formats.RESULT:
            fail(f"the house answered an endorsed order with kind {kind}")
        return fields(body, 2)[1]


class Shop:
    """All that a purchase needs."""

    def __init__(self, folder, draw):
        self.folder, self.house, self.seller = folder, Served(folder, draw), Seller()
        self.seller.house = ("127.0.0.1", self.house.port + 1)
        self.server, self.wallets, self.paid = self.house.address(), 0, set()
        self.ends = ends_each()

    def wallet(self, cap=100, party=CONSUMER):
        """A wallet's file."""
        self.wallets += 1
        return wallet(self.folder / f"wallet{self.wallets}", party, cap)

    def words(self, wallet, tid, limit=400, server=None, seller=None, network=()):
        at = seller or f"127.0.0.1:{self.seller.port}"
        return [*network, PROGRAM, "buy", wallet, server or self.server, at, str(MERCHANT.id), str(PRODUCT), str(limit), str(tid)]

    def buys(self, wallet, tid, wanted, place=0, **more):
        """A run of the program that has to end with this status. It writes the goods, at status 0, and else nothing."""
        run = subprocess.run(self.words(wallet, tid, **more), capture_output=True, timeout=LONGEST_RUN)
        told = b"" if wanted == 0 else f"netbill: status {wanted} at {place}\n".encode()
        if run.returncode != wanted or run.stderr != told:
            fail(f"purchase {tid}, {self.seller.mode}: status {run.returncode} and {run.stderr} where {wanted} at {place} was wanted")
        if run.stdout != (self.seller.goods if wanted == 0 else b""):
            fail(f"purchase {tid}: {len(run.stdout)} bytes at status {wanted}, where the goods have {len(self.seller.goods)}")
        if wanted == 0:
            self.paid.add(tid)

    def again(self, wallet, tid):
        """A purchase that was paid, over links that end at once."""
        self.buys(wallet, tid, 0, server=self.ends, seller=self.ends)


def whole(shop, tid):
    """Purchases from an honest seller, and of a wallet that has made others."""
    shop.seller.mode = "honest"
    wallet = shop.wallet()
    for size in 0, 1, 1_200_000:
        shop.seller.goods = made(size)
        shop.buys(wallet, tid, 0)
        shop.again(wallet, tid)
        tid += 1
    return tid


def harmed(shop, tid):
    """Sellers that do harm, from the first message on, behind the quote, and at the order. The wallet goes on at an honest one."""
    shop.seller.goods = made(5000)
    for mode in "twice", "others":
        wallet, shop.seller.mode, shop.seller.behind = shop.wallet(), mode, 0
        shop.buys(wallet, tid, 0)
        shop.again(wallet, tid)
        tid += 1
    for mode in "noise", "half", "refuses", "endless", "quits":
        for behind in 0, 1, 2:
            wallet, shop.seller.mode, shop.seller.behind = shop.wallet(), mode, behind
            # at the order the house has the money already, and is asked, but behind frames without end
            if behind == 2 and mode != "endless":
                shop.buys(wallet, tid, 0)
            else:
                shop.buys(wallet, tid, 12)
            shop.seller.mode = "honest"
            shop.buys(wallet, tid, 0)
            shop.again(wallet, tid)
            tid += 1
    # links that end at once: the seller's, then both
    wallet = shop.wallet()
    shop.seller.mode = "ends"
    shop.buys(wallet, tid, 12)
    shop.buys(wallet, tid, 12, server=shop.ends, seller=shop.ends)
    shop.seller.mode = "honest"
    shop.buys(wallet, tid, 0)
    return tid + 1


def unpaid(shop, tid):
    """Ends without goods."""
    shop.seller.goods = made(10)
    wallet, shop.seller.mode, shop.seller.behind = shop.wallet(), "fouls", 99
    shop.buys(wallet, tid, 10)
    shop.buys(wallet, tid, 10)
    shop.paid.add(tid)
    shop.seller.mode = "honest"
    poor = shop.wallet(party=STRANGER)
    shop.buys(poor, tid + 1, 10)
    shop.buys(poor, tid + 1, 10, server=shop.ends, seller=shop.ends)
    # a stranger's key: the house refuses the ticket
    unknown = shop.wallet(party=STRANGER._replace(id=9))
    shop.buys(unknown, tid + 2, 12)
    return tid + 3


def wallets(shop, tid):
    """Wallets with which nothing can be bought."""
    shop.seller.goods, shop.seller.mode = made(10), "honest"
    full = shop.wallet(cap=1)
    shop.buys(full, tid, 14)
    shop.buys(full, tid + 1, 14)
    # full behind the order: the money has moved, and there is no room for the receipt
    ordered = shop.wallet(cap=4)
    shop.buys(ordered, tid + 4, 14)
    shop.buys(ordered, tid + 4, 14, seller=shop.ends)
    shop.paid.add(tid + 4)
    good = shop.wallet()
    shop.buys(good, tid + 2, 0)
    image = good.read_bytes()
    bad = shop.folder / "bad"
    bad.write_bytes(shop.house.journal.read_bytes())
    shop.buys(bad, tid + 3, 8)
    bad.write_bytes(b"")
    shop.buys(bad, tid + 3, 8)
    bad.write_bytes(image[:1] + b"x" + image[2:])
    shop.buys(bad, tid + 3, 8)
    bad.write_bytes(image[:50])
    shop.buys(bad, tid + 3, 8, place=8)
    found = formats.items(image, 96)[0]
    for number, (gate, item) in enumerate(found):
        # the item cut, one of another kind, and the file ending behind it
        bad.write_bytes(image[: gate + 5 + len(item) // 2])
        shop.buys(bad, tid + 2, 8, place=gate)
        bad.write_bytes(image[: gate + 5] + b"\x09" + image[gate + 6 :])
        shop.buys(bad, tid + 2, 8)
        bad.write_bytes(image[: gate + 5 + len(item)])
        shop.buys(bad, tid + 2, 8, place=gate + 5 + len(item))
    with good.open("rb") as held:
        fcntl.flock(held, fcntl.LOCK_EX)
        shop.buys(good, tid + 2, 17)
    shop.again(good, tid + 2)
    with socket.create_server(("127.0.0.1", 0)) as nobody:
        port = nobody.getsockname()[1]
    shop.buys(good, tid + 3, 17, seller=f"127.0.0.1:{port}")
    shop.buys(good, tid + 3, 17, server=f"127.0.0.1:{port}")
    shop.buys(shop.folder / "nowhere", tid + 3, 17)
    if subprocess.run([*NETWORK, "/bin/true"], stderr=subprocess.DEVNULL).returncode == 0:
        shop.buys(good, tid + 3, 17, server="127.0.0.1:40000", seller="127.0.0.1:7000", network=NETWORK)
    else:
        print("tests/buy: a network of its own cannot be had: that nobody is joined to itself is left out", file=sys.stderr)
    return tid + 5


def outputs(shop, tid):
    """An output that fails."""
    shop.seller.goods, shop.seller.mode = made(5000), "honest"
    wallet = shop.wallet()
    with open("/dev/full", "wb") as full:
        run = subprocess.run(shop.words(wallet, tid), stdout=full, stderr=subprocess.PIPE, timeout=LONGEST_RUN)
    if run.returncode != 4:
        fail(f"purchase {tid} into a full output: status {run.returncode}")
    shop.again(wallet, tid)
    return tid + 1


def killed(shop, tid, draw):
    """The program is killed before and behind each message that the seller answers, each time in a purchase of its own, and at random moments, until the goods
    are there."""
    shop.seller.goods = made(1_200_000)
    aimed = [(when, count) for count in range(4) for when in ("before", "behind")]
    for when, at in aimed:
        wallet, killed = shop.wallet(), threading.Event()
        process = subprocess.Popen(shop.words(wallet, tid), stdout=subprocess.DEVNULL, stderr=subprocess.DEVNULL)

        def kill(now, count, process=process, when=when, at=at, killed=killed):
            """Kills the program at its moment. True where it did."""
            if killed.is_set() or (now, count) != (when, at):
                return False
            process.kill()
            killed.set()
            return True

        shop.seller.kill = kill
        process.wait(timeout=LONGEST_RUN)
        shop.seller.kill = None
        # behind the last message the program may have ended before it was killed
        if (when, at) != aimed[-1] and (not killed.is_set() or process.returncode != -signal.SIGKILL):
            fail(f"purchase {tid} was not killed {when} message {at}: it ended with {process.returncode}")
        shop.buys(wallet, tid, 0)
        shop.again(wallet, tid)
        tid += 1
    kills = len(aimed)
    wallet = shop.wallet()
    while kills < KILLS:
        process = subprocess.Popen(shop.words(wallet, tid), stdout=subprocess.DEVNULL, stderr=subprocess.DEVNULL)
        time.sleep(draw.random() * 0.1)
        process.kill()
        if process.wait() != -signal.SIGKILL:
            # it came to its end before: another purchase
            shop.buys(wallet, tid, 0)
            wallet, tid = shop.wallet(), tid + 1
        kills += 1
    shop.buys(wallet, tid, 0)
    shop.again(wallet, tid)
    return tid + 1, kills


def main(seed):
    signal.alarm(SECONDS)
    draw = random.Random(seed)
    with tempfile.TemporaryDirectory() as folder:
        shop = Shop(pathlib.Path(folder), draw)
        try:
            tid = whole(shop, 1)
            tid = harmed(shop, tid)
            tid = unpaid(shop, tid)
            tid = wallets(shop, tid)
            tid = outputs(shop, tid)
            tid, kills = killed(shop, tid, draw)
            count = settled(shop.house, [PRICE] * len(shop.paid))
        finally:
            shop.house.process.kill()
    print(f"tests/buy: {tid - 1} purchases, {count} paid, {kills} kills, seed {seed}")


if __name__ == "__main__":
    if not PROGRAM.exists():
        sys.exit("tests/buy: the program is not built: ./netbill builds it")
    main(int(sys.argv[1]) if len(sys.argv) > 1 else random.SystemRandom().randrange(1 << 32))
