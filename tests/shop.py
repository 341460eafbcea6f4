"""A shop between processes, on the loopback: the built program serves a house, sells from a stall, and buys with wallets. The test holds it to this:

- 20 purchases of goods of 0 bytes to 3 MB by two buyers at once, while buyers, the seller and the house are killed, each by its own number, at
  random moments, and started again until every purchase has ended; and 6 more through relays between the buyer, the seller and the house that give frames
  of the buyer's links twice, cut frames into pieces, and end the link where they swallow one. Then every purchase wrote exactly the goods and is paid as its wallet says, each
  order was paid once, the balances are those of the prices, and the stall has every sale up to the order that it endorsed, and the result where it was told.
- A house that refuses orders, that ends the link within a sale, and that is gone between two sales and comes back: the seller serves on, and ends with 13
  where it is not there, and the next one goes on from the stall.
- Two buyers at once where one link is sold on: one gets the goods, and the other one's next run does. No link: status 0, when the house was dialled.
- A port that is taken, a house that is not there, a stall that is not there or held: 17. A shelf with a bad item, one that is too long: 5, and
  nothing listens and nobody is dialled. A stall that is full: 14, one that is damaged, one of another kind, one whose shelf lost a product or has other goods
  of it: 8. Another price and further products are sold from then on.
- Offers to groups, and buyers with a credential that holds, one that has ended, one of another consumer, of a group without an offer, and none: the house moves the price
  of each. A key, a request, offers and a shelf that are bad: 5, and groups that are none: 2.
- A price above a buyer's limit: buyer and seller wait for each other until the time limit of links ends it; the buyer ends with 12, and the seller serves
  the next one.

A kill leaves what the program gave to the system. What a failure of power leaves is not tried here.
"""

import fcntl
import pathlib
import random
import signal
import socket
import struct
import subprocess
import sys
import tempfile
import threading
import time

sys.dont_write_bytecode = True
from parties import CONSUMER, FIRST_PORT, LAST_PORT, LONGEST_RUN, MASTER, MERCHANT, PROGRAM, Served, ends_each, fail, formats, listens, made, settled, started, wallet

# In seconds: the whole test at most, which takes a little more than a minute where nothing else runs, and how long links between parties wait for a frame.
SECONDS, WAIT = 300, 60

# The goods of the products that are sold under fire, and what they cost.
SIZES = (0, 1, 5000, 999_968, 1_000_001, 3_000_000)
GOODS = {7 + place: (100 + place, made(size)) for place, size in enumerate(SIZES)}

# Purchases under fire and through relays, how many processes are killed, and the longest shelf.
PURCHASES, RELAYED, KILLS, LONGEST_SHELF = 20, 6, 30, 268_435_456

ENDORSED, SHELF_HI = 0x06, b"7;300;Poem;2\nhi"

# The key of who keeps groups, and a second that is far away.
KEEPER, FAR = bytes([77]) * 32, 4_102_444_800


def shelf(goods):
    """A shelf with these products."""
    return b"".join(b"%d;%d;;%d\n" % (product, price, len(text)) + text for product, (price, text) in goods.items())


def stall(path, cap=1000, items=()):
    """A stall's file."""
    path.write_bytes(formats.journal(formats.stall_head(MERCHANT.id, MERCHANT.account, MERCHANT.key, MASTER), cap, items))
    return path


class Seller:
    """The program, selling from a stall."""

    def __init__(self, folder, draw, server, text, links=1000, cap=1000, path=None, word="sell"):
        self.path, self.word = path or stall(folder / "stall", cap), word
        self.shelf, self.server, self.links = folder / "shelf", server, links
        self.shelf.write_bytes(text)
        for _ in range(100):
            self.port = draw.randrange(FIRST_PORT, LAST_PORT)
            if self.starts():
                return
        fail("no port could be had for a seller")

    @property
    def address(self):
        return f"127.0.0.1:{self.port}"

    def words(self, links=None):
        return [PROGRAM, self.word, self.path, self.address, self.server, str(self.links if links is None else links)]

    def starts(self, links=None):
        """The program sells. False where it ended before it listened."""
        self.process = started(self.words(links), stdin=self.shelf.open("rb"))
        while self.process.poll() is None:
            if listens(self.port):
                return True
            time.sleep(0.01)
        return False

    def ends(self, wanted):
        """It ends by itself, with this status."""
        found = self.process.wait(timeout=LONGEST_RUN)
        if found != wanted:
            fail(f"a seller ended with {found} where {wanted} was wanted")

    def kinds(self):
        """How often each sale has an item of each kind, by its consumer and its number."""
        found, _, fault = formats.items(self.path.read_bytes(), 96)
        if fault:
            fail("the stall is damaged")
        sales = {}
        for _, item in found:
            sales.setdefault(item[1:13], []).append(item[0])
        return sales


def ended(words, wanted, place=0, text=b""):
    """A run of the program that has to end with this status, on this input. What it wrote."""
    run = subprocess.run([PROGRAM, *words], input=text, capture_output=True, timeout=LONGEST_RUN + WAIT)
    told = b"" if wanted == 0 else f"netbill: status {wanted} at {place}\n".encode()
    if (run.returncode, run.stderr) != (wanted, told):
        fail(f"{words[0]}: status {run.returncode} and {run.stderr} where {wanted} at {place} was wanted")
    return run.stdout


def buy(path, server, seller, tid, product=7, limit=400):
    """The words of a purchase."""
    return ["buy", path, server, seller, str(MERCHANT.id), str(product), str(limit), str(tid)]


def whole(seller, count, told=True):
    """The stall has so many sales, each with its items, one of each kind. A seller that was not told the result, since its link or itself ended before, has the order that it
    endorsed as the last of a sale: the buyer was told by the house."""
    kinds = seller.kinds()
    if len(kinds) != count or any(items != [1, 2, 3, 4] and (told or items != [1, 2, 3]) for items in kinds.values()):
        fail(f"the stall has {kinds} where {count} whole sales were wanted")


class Purchases:
    """A buyer's purchases, one after another, each run again until it has ended."""

    def __init__(self, path, server, seller, tids):
        self.path, self.server, self.seller, self.tids = path, server, seller, list(tids)
        self.process, self.runs, self.prices = None, 0, []

    def run(self):
        for tid in self.tids:
            product = 7 + tid % len(GOODS)
            price, goods = GOODS[product]
            while True:
                self.process = subprocess.Popen([PROGRAM, *buy(self.path, self.server, self.seller, tid, product)], stdout=subprocess.PIPE, stderr=subprocess.DEVNULL)
                text, self.runs = self.process.communicate()[0], self.runs + 1
                status = self.process.returncode
                if status == 0:
                    break
                if text and not goods.startswith(text):
                    fail(f"purchase {tid} wrote what is none of its goods")
                if status not in (-signal.SIGKILL, 12, 17):
                    fail(f"purchase {tid} ended with {status}")
                time.sleep(0.02)
            if text != goods:
                fail(f"purchase {tid} wrote {len(text)} bytes where the goods have {len(goods)}")
            self.prices.append(price)

    def again(self, ends):
        """Each purchase is paid as the wallet says: over links that end at once it writes the goods."""
        for tid in self.tids:
            product = 7 + tid % len(GOODS)
            if ended(buy(self.path, ends, ends, tid, product), 0) != GOODS[product][1]:
                fail(f"purchase {tid} is not paid as its wallet says")


def under_fire(folder, draw):
    """Purchases while everybody is killed again and again."""
    house = Served(folder, draw, workers=3)
    seller = Seller(folder, draw, house.address(), shelf(GOODS))
    half = PURCHASES // 2
    buyers = [Purchases(wallet(folder / f"wallet{n}"), house.address(1 + n), seller.address, range(n * half, (n + 1) * half)) for n in range(2)]
    threads = [threading.Thread(target=buyer.run, daemon=True) for buyer in buyers]
    for thread in threads:
        thread.start()
    kills, resold = 0, 0
    while any(thread.is_alive() for thread in threads):
        # who sells is started again by whoever looks after it, where it ended
        if seller.process.poll() not in (None, 0, 13, 17, -signal.SIGKILL):
            fail(f"the seller ended with {seller.process.returncode}")
        if seller.process.poll() is not None:
            resold += 1
            seller.starts()
        time.sleep(draw.random() * 0.2)
        if kills == KILLS:
            continue
        kills += 1
        victim = draw.choice(["buyer", "buyer", "seller", "house"])
        if victim == "buyer":
            process = draw.choice(buyers).process
            if process and process.poll() is None:
                process.kill()
        elif victim == "seller":
            seller.process.kill()
            seller.process.wait()
        else:
            house.process.kill()
            house.process.wait()
            if not house.starts():
                fail("the house does not serve again")
    ends = ends_each()
    for buyer in buyers:
        buyer.again(ends)
    seller.process.kill()
    seller.process.wait()
    settled(house, [price for buyer in buyers for price in buyer.prices])
    whole(seller, PURCHASES, told=False)
    house.process.kill()
    return kills, sum(buyer.runs for buyer in buyers)


class Relay:
    """Passes frames on from who dials it to an address, and back. By chance it gives one twice, cuts it into pieces, or swallows it and ends the link. It may
    be told to swallow the frames of a kind, or to hear nobody."""

    def __init__(self, target, draw, chance=0.0, repeats=True):
        self.target, self.draw, self.chance, self.repeats, self.swallows, self.kept = target, draw, chance, repeats, None, 0
        self.listener = socket.create_server(("127.0.0.1", 0))
        self.address = f"127.0.0.1:{self.listener.getsockname()[1]}"
        threading.Thread(target=self.run, daemon=True).start()

    def run(self):
        while True:
            try:
                near, _ = self.listener.accept()
                host, port = self.target.split(":")
                far = socket.create_connection((host, int(port)))
            except OSError:
                if self.listener.fileno() < 0:
                    return
                near.close()
                continue
            for one, other in (near, far), (far, near):
                threading.Thread(target=self.passes, args=(one, other), daemon=True).start()

    def passes(self, one, other):
        """Frames of one side go to the other one, up to its end."""
        try:
            with one.makefile("rb") as stream:
                while (head := stream.read(8)) and len(head) == 8:
                    frame = head + stream.read(formats.number(head[4:]))
                    if frame[3] == self.swallows or self.draw.random() < self.chance / 4:
                        self.kept += 1
                        break
                    piece = self.draw.randrange(1, 4096) if self.draw.random() < self.chance else len(frame)
                    for _ in range(2 if self.repeats and self.draw.random() < self.chance else 1):
                        for place in range(0, len(frame), max(piece, len(frame) // 64)):
                            other.sendall(frame[place : place + max(piece, len(frame) // 64)])
        except OSError:
            pass
        for link in one, other:
            try:
                link.shutdown(socket.SHUT_RDWR)
            except OSError:
                pass

    def closes(self):
        """Who dials is refused from now on."""
        self.listener.shutdown(socket.SHUT_RDWR)
        self.listener.close()


def relayed(folder, draw):
    """Purchases through relays that repeat, cut and swallow. Between the seller and the house nothing is repeated: a seller reads one reply for each
    order, so that behind one reply too many it hears each time of the order before, passes that on to the same consumer, and both wait as long as links do."""
    house = Served(folder, draw, workers=2)
    server = Relay(house.address(), draw, 0.1, repeats=False)
    seller = Seller(folder, draw, server.address, shelf(GOODS))
    relays = Relay(house.address(1), draw, 0.1), Relay(seller.address, draw, 0.3)
    buyer = Purchases(wallet(folder / "wallet"), relays[0].address, relays[1].address, range(RELAYED))
    thread = threading.Thread(target=buyer.run, daemon=True)
    thread.start()
    while thread.is_alive():
        if seller.process.poll() is not None:
            if seller.process.returncode not in (13, 17):
                fail(f"the seller behind a relay ended with {seller.process.returncode}")
            seller.starts()
        time.sleep(0.05)
    buyer.again(ends_each())
    seller.process.kill()
    seller.process.wait()
    settled(house, buyer.prices)
    whole(seller, RELAYED, told=False)
    house.process.kill()
    return buyer.runs


def houses(folder, draw):
    """Houses that refuse, end the link within a sale, are gone between two, and come back."""
    (folder / "full").mkdir()
    full = Served(folder / "full", draw, cap=None)
    # each of the buyers comes twice: it asks the house what became of its order, and sends it again
    seller = Seller(folder / "full", draw, full.address(), SHELF_HI, links=4)
    for tid in 1, 2:
        ended(buy(wallet(folder / f"refused{tid}"), full.address(1), seller.address, tid), 12)
    seller.ends(0)
    full.process.kill()
    house = Served(folder, draw)
    relay = Relay(house.address(), draw)
    path = wallet(folder / "wallet")
    seller = Seller(folder, draw, relay.address, SHELF_HI, links=20)
    if ended(buy(path, house.address(1), seller.address, 1), 0) != b"hi":
        fail("the first goods are others")
    # the link ends as the order is endorsed: what was kept is endorsed again, over a link that is dialled anew
    relay.swallows = ENDORSED
    ended(buy(path, house.address(1), seller.address, 2), 12)
    relay.swallows = None
    ended(buy(path, house.address(1), seller.address, 2), 0)
    # nobody is there, so that nothing can be settled
    relay.closes()
    seller.process.send_signal(signal.SIGSTOP)
    house.process.kill()
    house.process.wait()
    seller.process.send_signal(signal.SIGCONT)
    house.starts()
    ended(buy(path, house.address(1), seller.address, 3), 12)
    seller.ends(13)
    relay = Relay(house.address(), draw)
    seller.server = relay.address
    if not seller.starts(links=1):
        fail("a seller does not go on from its stall")
    ended(buy(path, house.address(1), seller.address, 3), 0)
    seller.ends(0)
    settled(house, [300] * 3)
    whole(seller, 3)
    house.process.kill()


def few_links(folder, draw):
    """Two buyers at once for one link; and no link."""
    house = Served(folder, draw, workers=3)
    seller = Seller(folder, draw, house.address(), SHELF_HI, links=1)
    paths = [wallet(folder / f"wallet{n}") for n in range(2)]
    words = [buy(path, house.address(1 + n), seller.address, 1 + n) for n, path in enumerate(paths)]
    both = [subprocess.Popen([PROGRAM, *one], stdout=subprocess.PIPE, stderr=subprocess.DEVNULL) for one in words]
    texts = [process.communicate(timeout=LONGEST_RUN)[0] for process in both]
    statuses = [process.returncode for process in both]
    if sorted(statuses) not in ([0, 12], [0, 17]) or texts[statuses.index(0)] != b"hi":
        fail(f"two buyers at once ended with {statuses}")
    seller.ends(0)
    if not seller.starts():
        fail("a seller does not start again")
    last = 1 - statuses.index(0)
    ended(words[last], 0)
    seller.ends(0)
    ended(seller.words(links=0)[1:], 0, text=SHELF_HI)
    settled(house, [300] * 2)
    whole(seller, 2)
    house.process.kill()


def refusals(folder, draw):
    """Stalls, shelves and addresses with which nothing can be sold."""
    house = Served(folder, draw)
    seller = Seller(folder, draw, house.address(), SHELF_HI, links=1)
    path = wallet(folder / "wallet")
    # two sellers can not have one port, nor one stall
    other = stall(folder / "other")
    ended(["sell", other, seller.address, house.address(), "1"], 17, text=SHELF_HI)
    with socket.create_server(("127.0.0.1", 0)) as one, socket.create_server(("127.0.0.1", 0)) as other_one:
        free, nobody = (f"127.0.0.1:{listener.getsockname()[1]}" for listener in (one, other_one))
    ended(["sell", seller.path, free, house.address(), "1"], 17, text=SHELF_HI)
    ended(["sell", other, free, nobody, "1"], 17, text=SHELF_HI)
    ended(["sell", folder / "nowhere", free, house.address(), "1"], 17, text=SHELF_HI)
    with other.open("rb") as held:
        fcntl.flock(held, fcntl.LOCK_EX)
        ended(["sell", other, free, house.address(), "1"], 17, text=SHELF_HI)
    # the shelf is read before anything is opened but the stall: a house that is not there is not dialled
    ended(["sell", other, free, nobody, "1"], 5, 2, text=SHELF_HI + SHELF_HI)
    ended(["sell", other, free, nobody, "1"], 5, 1, text=SHELF_HI[:-1])
    ended(["sell", other, free, nobody, "1"], 5, 1, text=bytes(LONGEST_SHELF))
    ended(["sell", other, free, nobody, "1"], 5, 0, text=bytes(LONGEST_SHELF + 1))
    ended(buy(path, house.address(1), seller.address, 1), 0)
    seller.ends(0)
    # the stall knows the product and its goods, but not its price
    image = seller.path.read_bytes()
    for text, wanted in (b"", 8), (b"9;1;;0\n", 8), (b"7;300;;2\nHI", 8), (b"9;1;;0\n7;1;;2\nhi", 0):
        ended(seller.words(links=0)[1:], wanted, text=text)
    for bad, place in (b"", 0), (image[:50], 8), (image[:-1], len(image) - 1), (house.journal.read_bytes(), 0), (path.read_bytes(), 0):
        other.write_bytes(bad)
        ended(["sell", other, free, house.address(), "1"], 8, place, text=SHELF_HI)
    # room for less items than a sale keeps
    stall(other, cap=1)
    small = Seller(folder, draw, house.address(), SHELF_HI, links=5, path=other)
    ended(buy(path, house.address(1), small.address, 2), 12)
    small.ends(14)
    house.process.kill()


def discounts(folder, draw):
    """What is paid with a credential and without, where groups are offered the product for less, and the statuses of the three words."""
    house = Served(folder, draw)
    text = formats.offers(KEEPER, [(7, 5, 200), (7, 9, 150)]) + b"\n" + SHELF_HI
    card = ended(["credential", "1", str(FAR), "5,9"], 0, text=KEEPER)
    if card != formats.credential(KEEPER, 1, FAR, [5, 9]):
        fail(f"a credential has other bytes: {card.hex()}")
    old, other, sixth = (formats.credential(KEEPER, *row) for row in ((1, 2000, [5, 9]), (3, FAR, [5, 9]), (1, FAR, [6])))
    rows = (card, 150), (b"", 300), (old, 300), (other, 300), (sixth, 300), (formats.credential(KEEPER, 1, FAR, [5]), 200)
    seller = Seller(folder, draw, house.address(), text, links=len(rows), word="selloffers")
    path = wallet(folder / "wallet")
    for tid, (request, _) in enumerate(rows, 1):
        if ended(["buywith", *buy(path, house.address(1), seller.address, tid)[1:]], 0, text=request) != b"hi":
            fail(f"purchase {tid} with a credential has other goods")
    seller.ends(0)
    settled(house, [price for _, price in rows])
    # the key is 32 bytes, a request at most 64, and groups ascend
    for key in b"", KEEPER[1:], KEEPER + b"\0", KEEPER * 9:
        ended(["credential", "1", "2000", "5,9"], 5, min(len(key), 33), text=key)
    high = str(2**32)
    for words in [high, "2000", "5"], ["1", str(2**64), "5"], ["1", "2000", "9,5"], ["1", "2000", "5,5"], ["1", "2000", "5,"], ["1", "2000", "1,2,3,4,5"], ["1", "2000", high], ["1", "2000", "05"]:
        ended(["credential", *words], 2, text=KEEPER)
    nobody = "127.0.0.1:1"
    ended(["buywith", *buy(path, nobody, nobody, 9)[1:]], 5, 64, text=bytes(65))
    # the first bad line of the offers, and behind good ones the first bad item of the shelf
    for bad, place in (b"", 1), (text[1:], 1), (text.replace(b"9;150", b"9;0"), 3), (text.replace(b"7;9", b"7;5"), 3), (text + SHELF_HI, 2), (bytes(LONGEST_SHELF + 1), 0):
        ended(["selloffers", seller.path, nobody, nobody, "1"], 5, place, text=bad)
    house.process.kill()


class Dear(threading.Thread):
    """A price above a buyer's limit, beside all other trials: it takes as long as links wait."""

    def __init__(self, folder, draw):
        super().__init__(daemon=True)
        self.folder, self.house = folder, Served(folder, draw, workers=3)
        self.seller = Seller(folder, draw, self.house.address(), SHELF_HI, links=2)
        self.done = False

    def run(self):
        start = time.monotonic()
        first = threading.Thread(target=ended, args=(buy(wallet(self.folder / "poor"), self.house.address(1), self.seller.address, 1, limit=299), 12))
        first.start()
        time.sleep(WAIT / 2)
        if ended(buy(wallet(self.folder / "rich"), self.house.address(2), self.seller.address, 2), 0) != b"hi":
            fail("the next buyer has other goods")
        first.join()
        if not WAIT - 1 < time.monotonic() - start < 2 * WAIT:
            fail(f"a price above the limit held the seller for {time.monotonic() - start} seconds")
        self.seller.ends(0)
        settled(self.house, [300])
        self.house.process.kill()
        self.done = True


def main(seed):
    signal.signal(signal.SIGALRM, lambda *_: fail(f"no end came in {SECONDS} seconds; seed {seed}"))
    signal.alarm(SECONDS)
    draw = random.Random(seed)
    with tempfile.TemporaryDirectory() as room:
        folders = [pathlib.Path(room) / name for name in ("dear", "fire", "relayed", "houses", "few", "refusals", "discounts")]
        for folder in folders:
            folder.mkdir()
        dear = Dear(folders[0], draw)
        dear.start()
        kills, runs = under_fire(folders[1], draw)
        through = relayed(folders[2], draw)
        houses(folders[3], draw)
        few_links(folders[4], draw)
        refusals(folders[5], draw)
        discounts(folders[6], draw)
        dear.join()
        if not dear.done:
            fail("the price above a limit was not tried to its end")
    print(f"tests/shop: {PURCHASES} purchases in {runs} runs, {kills} kills; {RELAYED} through relays in {through}; seed {seed}")


if __name__ == "__main__":
    if not PROGRAM.exists():
        sys.exit("tests/shop: the program is not built: ./netbill builds it")
    main(int(sys.argv[1]) if len(sys.argv) > 1 else random.SystemRandom().randrange(1 << 32))
