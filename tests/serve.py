"""Serves the house's program on a file, to many links at once, on the loopback. Each link has a list of requests: orders, each given
twice, and status queries. It sends them in pieces of random sizes, and reads the replies. Let E be the entries that the journal has in
the end. The test holds the program to this:

- E begins with what was there at the start. Behind that, each order that was asked for stands once, in some order, and is paid or
  refused by the balance that the entries before it leave, at a moment of this test. Those of one link stand in the order of the link.
- The reply to an order is byte for byte the one that its entry gives, each time.
- The reply to a status query is byte for byte the one that the first N of E give, N being the number that it shows; N is no less
  than what the link was told before, and no more than the number of entries in E.
- A link that closes at once, that sends what is no frame, that stops within a frame, or that reads no reply takes nothing from the
  others: they are all answered while it is held.
- The server ends with status 0 when each port has given its links.

A second server is asked by links that do harm, one behind the other on each worker, while the last worker's link is held open. Each reply is
the one that the entries give, and they stay as they are:

- Of 20,000 frames sent at once all 10,000 that a session answers are replied to, and then the link ends, at a client that reads while it
  sends. Of 40 frames in front of a megabyte that is none all 40 are replied to.
- A link that ends its side has each reply. One that sends a frame byte by byte has its reply.
- A link that is reset within its replies, and one that sends what is no frame without end, take nothing from the one behind it.
- A port that gave its last link refuses who comes then, while the server goes on.

A third one is asked by 1,000 links at once, each of which is answered.

Then the server is killed behind random numbers of replies, and started again over the same journal. After each kill the entries begin
with those that were there before, and the reply to each order that was handed out whole, in whatever run, is the one that its entry
gives.

A kill leaves what the program gave to the system. What a failure of power leaves is not tried here.
"""

import pathlib
import random
import signal
import socket
import struct
import subprocess
import sys
import tempfile
import threading
import time

TOP = pathlib.Path(__file__).resolve().parent.parent
sys.dont_write_bytecode = True
sys.path.insert(0, str(TOP / "examples"))
import formats

PROGRAM = TOP / "crates/netbill/out/netbill"
HOUSE, OPERATOR, GOODS = (bytes([byte]) * 32 for byte in (0x11, 0x22, 0x77))
HEAD = formats.head(HOUSE, OPERATOR, bytes([0x33]) * 16)
CAP, WORKERS, LINKS, CONSUMERS, KILLS = 20000, 4, 8, 6, 20

# The frames that one session answers, and the links of a server that is asked by many at once.
MOST_FRAMES, CROWD = 10000, 1000

# The orders of a link: to a server that is left alone, and to one that is killed.
ORDERS, KILL_ORDERS = 40, 20

# In seconds: the whole test, and the wait for a server's replies.
SECONDS, LONGEST_START = 120, 2

# Ports below those that the system gives out by itself.
FIRST_PORT, LAST_PORT = 20000, 30000


def fail(why):
    """Ends the test, from whatever thread."""
    print(f"tests/serve: {why}", file=sys.stderr, flush=True)
    signal.raise_signal(signal.SIGTERM)


def read_journal(path):
    """The entries of the journal."""
    read = formats.read_journal(path.read_bytes(), formats.journal(HEAD, CAP, [])[:-1])
    return read[0] if read else fail("the front of the journal has changed, or it ends within an item")


class Server:
    """A run of the program, listening."""

    def __init__(self, journal, draw, links):
        self.left = [links] * WORKERS
        for _ in range(100):
            self.port = draw.randrange(FIRST_PORT, LAST_PORT)
            words = ["serve", journal, f"127.0.0.1:{self.port}", str(WORKERS), str(links)]
            self.process = subprocess.Popen([PROGRAM, *words], stderr=subprocess.DEVNULL)
            if self.listens():
                return
        fail("no port could be had")

    def listens(self):
        """Waits until the program listens, or ended with status 17."""
        while self.process.poll() is None:
            if self.is_listening(self.port + WORKERS - 1):
                return True
            time.sleep(0.002)
        if self.process.returncode != 17:
            fail(f"the server ended with status {self.process.returncode} before it was asked anything")
        return False

    def is_listening(self, port):
        """Whether this process listens on a port, by what the system tells: a connection would be one of its links."""
        wanted = f"0100007F:{port:04X}"
        for line in pathlib.Path("/proc/net/tcp").read_text().splitlines()[1:]:
            fields = line.split()
            if fields[1] == wanted and fields[3] == "0A":
                return True
        return False

    def dial(self, worker):
        """A link to a worker."""
        self.left[worker] -= 1
        link = socket.create_connection(("127.0.0.1", self.port + worker), timeout=SECONDS)
        link.setsockopt(socket.IPPROTO_TCP, socket.TCP_NODELAY, 1)
        return link


def take(stream):
    """The next whole reply of a stream, or nothing."""
    head = stream.read(8)
    body = stream.read(formats.number(head[4:8])) if len(head) == 8 else b""
    return head + body if len(head) == 8 and len(body) == formats.number(head[4:8]) else None


def talk(server, worker, seed, requests, replies):
    """Sends these requests on one link, in pieces of random sizes, and puts the replies that come whole into the list."""
    draw = random.Random(seed)
    try:
        link = server.dial(worker)
    except OSError:
        return
    with link, link.makefile("rb") as stream:
        sent = b"".join(frame for frame, _ in requests)

        def send():
            at = 0
            try:
                while at < len(sent):
                    size = draw.choice([1, 7, 100, 1000, 5000])
                    link.sendall(sent[at : at + size])
                    at += size
                    if draw.random() < 0.05:
                        time.sleep(draw.random() * 0.01)
                link.shutdown(socket.SHUT_WR)
            except OSError:
                pass

        sender = threading.Thread(target=send)
        sender.start()
        try:
            while reply := take(stream):
                replies.append(reply)
        except OSError:
            pass
        sender.join()


def requests_of(draw, parties, moment, serials, count):
    """The requests of a link: orders, each given twice, the second time later, and status queries. With each frame stands what it asks:
    an order, or who asks for which identifier."""
    merchant, consumers = parties
    waiting, known = [], []
    for _ in range(count):
        order = formats.Order(draw.choice(consumers), merchant, 7, draw.randint(1, 60), moment, next(serials), GOODS)
        request = order.frame(), order
        known.append(order)
        waiting.append(request)
        yield request
        if draw.random() < 0.7:
            yield waiting.pop(draw.randrange(len(waiting)))
        if draw.random() < 0.5:
            about = draw.choice(known)
            asker = draw.choice([about.consumer, merchant])
            yield formats.status(asker.id, asker.key, about.epoid(), 0), (asker, about.epoid())
    yield from waiting


def see_entries(entries, start, orders, first, last):
    """Sees that behind the first entries there are orders of these alone, each once, as it should be decided there. Gives the place of
    each, by its identifier."""
    balances, places = {}, {}
    asked = {order.epoid(): order for order in orders}
    for place, entry in enumerate(entries):
        if entry[0] == formats.FUNDED:
            balances[entry[1:5]] = balances.get(entry[1:5], 0) + formats.number(entry[5:13])
        if entry[0] == formats.PAID:
            price = formats.number(entry[61:69])
            balances[entry[69:73]] -= price
            balances[entry[73:77]] = balances.get(entry[73:77], 0) + price
        if place < start:
            continue
        order = asked.get(entry[33:49])
        if not order or entry[33:49] in places:
            fail(f"entry {place} was not asked for, or stands twice")
        places[entry[33:49]] = place
        account = order.consumer.entry()[6:10]
        moment = formats.number(entry[77:85] if entry[0] == formats.PAID else entry[86:94])
        has = balances.get(account, 0) + order.price * (entry[0] == formats.PAID)
        wanted = order.paid(moment) if has >= order.price else order.refused(36, has, order.price, moment)
        if entry != wanted or not first <= moment <= last:
            fail(f"entry {place} is not what its order asks for")
    return places


def see_replies(entries, places, requests, replies):
    """Sees that each reply of a link is the one that the entries give, and that its orders stand in the order of the link."""
    told, last, results = 0, -1, {}
    for (_, asked), reply in zip(requests, replies):
        if isinstance(asked, formats.Order):
            place = places.get(asked.epoid())
            if place is None:
                fail("an order was replied to, and has no entry")
            if place not in results:
                results[place] = formats.reply(HOUSE, entries, place)
                if place < last:
                    fail("the orders of a link stand in another order")
                last = place
            if reply != results[place]:
                fail("a reply to an order is not the one that its entry gives")
            told = max(told, place + 1)
        else:
            asker, epoid = asked
            text = formats.unsealed(asker.key, b"stat", reply[8:])
            count = formats.number(text[:8]) if text else 0
            if not told <= count <= len(entries) or reply != formats.told(HOUSE, entries[:count], asker.entry()[1:5], epoid):
                fail("a reply to a status query is not the one that the entries give")
            told = count


def make_house(journal):
    """Makes a journal, enrols the parties and funds the consumers. Gives the parties."""
    made = subprocess.run([PROGRAM, "init", journal, str(CAP)], input=HEAD)
    merchant = formats.Party(1, formats.MERCHANT, 1, 0, bytes([0x55]) * 32)
    consumers = [formats.Party(n, formats.CONSUMER, n, n, bytes([n]) * 32) for n in range(2, CONSUMERS + 2)]
    funds = [formats.Fund(consumer.account, 3000, consumer.account) for consumer in consumers]
    frames = b"".join(it.frame(OPERATOR) for it in [merchant, *consumers, *funds])
    answered = subprocess.run([PROGRAM, "batch", journal], input=frames, stdout=subprocess.PIPE)
    if made.returncode or answered.returncode:
        fail(f"init ended with status {made.returncode}, and batch with {answered.returncode}")
    return merchant, consumers


def run_links(server, draw, parties, moment, serials, orders):
    """Talks on all links that are left, at once, with so many orders on each. Gives the requests and the replies of each, and the threads
    by their workers."""
    talks, threads = [], [[] for _ in range(WORKERS)]
    for worker in range(WORKERS):
        for _ in range(server.left[worker]):
            requests, replies = list(requests_of(draw, parties, moment, serials, orders)), []
            talks.append((requests, replies))
            threads[worker].append(threading.Thread(target=talk, args=(server, worker, draw.random(), requests, replies)))
            threads[worker][-1].start()
    return talks, threads


def finish(threads):
    """Waits for threads."""
    for thread in threads:
        thread.join()


def serve_well(draw, journal, parties, serials):
    """One server that is left alone. The first link of each worker does harm: it closes at once, sends what is no frame, stops within a
    frame, or reads no reply. The links of the first two workers are answered while the last two are held so; then these are let go."""
    start, first = len(read_journal(journal)), int(time.time())
    server = Server(journal, draw, LINKS)
    harmful = [server.dial(worker) for worker in range(WORKERS)]
    harmful[0].close()
    harmful[1].sendall(b"NB\x02 this is no frame")
    harmful[2].sendall(b"NB\x01\x06\x00\x00")
    asks = formats.status(parties[0].id, parties[0].key, bytes(16), 0) * 9999
    flood = threading.Thread(target=pour, args=(harmful[3], asks))
    flood.start()
    talks, threads = run_links(server, draw, parties, first, serials, ORDERS)
    finish(threads[0] + threads[1])
    for link in harmful[1:]:
        let_go(link)
    finish(threads[2] + threads[3] + [flood])
    if server.process.wait() != 0:
        fail(f"the server ended with status {server.process.returncode}")
    entries = read_journal(journal)
    orders = [asked for requests, _ in talks for _, asked in requests if isinstance(asked, formats.Order)]
    places = see_entries(entries, start, orders, first, int(time.time()))
    for requests, replies in talks:
        if len(replies) != len(requests):
            fail(f"{len(replies)} replies to {len(requests)} requests")
        see_replies(entries, places, requests, replies)
    return len(talks), sum(len(replies) for _, replies in talks), len(entries) - start


def let_go(link):
    """Closes a link, also where a thread writes to it."""
    try:
        link.shutdown(socket.SHUT_RDWR)
    except OSError:
        pass
    link.close()


def pour(link, frames):
    """Sends frames, and reads no reply."""
    try:
        link.sendall(frames)
    except OSError:
        pass


def see_answered(link, sent, wanted, ends=False):
    """Sends these bytes at once, and reads the replies meanwhile: they are these, and then the link ends."""
    sender = threading.Thread(target=pour, args=(link, sent))
    sender.start()
    if ends:
        sender.join()
        link.shutdown(socket.SHUT_WR)
    count = 0
    with link, link.makefile("rb") as stream:
        try:
            while count < len(wanted) and (reply := take(stream)):
                if reply != wanted[count]:
                    fail(f"reply {count} is not the one that the entries give")
                count += 1
            if ends and stream.read(1):
                fail("there are more replies than requests")
        except OSError as error:
            fail(f"{count} of {len(wanted)} replies came, and then {error}")
    if count < len(wanted):
        fail(f"{count} of {len(wanted)} replies came")
    sender.join()


def reset_within_replies(link, asks, length):
    """Sends frames, reads a part of a reply, and resets the link."""
    link.sendall(asks)
    link.recv(length)
    link.setsockopt(socket.SOL_SOCKET, socket.SO_LINGER, struct.pack("ii", 1, 0))
    link.close()


def send_without_end(link):
    """Sends what is no frame until the link is closed."""
    try:
        while True:
            link.sendall(bytes(1 << 16))
    except OSError:
        link.close()


def drip(link, ask, wanted):
    """Sends a frame byte by byte, and sees that it is answered."""
    for at in range(len(ask)):
        link.sendall(ask[at : at + 1])
        time.sleep(0.005)
    see_answered(link, b"", [wanted], ends=True)


def is_refused(server, worker):
    """Whether a worker's port refuses who comes."""
    try:
        socket.create_connection(("127.0.0.1", server.port + worker), timeout=5).close()
    except ConnectionRefusedError:
        return True
    return False


def serve_harm(draw, journal, parties):
    """One server that is asked by links that do harm."""
    entries = read_journal(journal)
    asker, epoid = parties[0], bytes(16)
    ask = formats.status(asker.id, asker.key, epoid, 0)
    told = formats.told(HOUSE, entries, asker.entry()[1:5], epoid)
    server = Server(journal, draw, 3)
    held = server.dial(WORKERS - 1)
    held.sendall(ask)

    def many():
        see_answered(server.dial(0), ask * (2 * MOST_FRAMES), [told] * MOST_FRAMES)
        see_answered(server.dial(0), ask * 40 + bytes(1 << 20), [told] * 40)
        see_answered(server.dial(0), ask * 5, [told] * 5, ends=True)
        if not is_refused(server, 0):
            fail("a port that gave its last link takes one more")

    def resets():
        reset_within_replies(server.dial(1), ask * 1000, len(told) // 2)
        reset_within_replies(server.dial(1), ask * 40 + bytes(1 << 20), len(told) // 2)
        see_answered(server.dial(1), ask, [told], ends=True)

    def endless():
        send_without_end(server.dial(2))
        drip(server.dial(2), ask, told)
        see_answered(server.dial(2), ask, [told], ends=True)

    threads = [threading.Thread(target=work) for work in (many, resets, endless)]
    for thread in threads:
        thread.start()
    finish(threads)
    if server.process.poll() is not None:
        fail("the server ended while a link was held")
    see_answered(held, b"", [told], ends=True)
    for _ in range(2):
        see_answered(server.dial(WORKERS - 1), ask, [told], ends=True)
    if server.process.wait() != 0:
        fail(f"the server ended with status {server.process.returncode}")
    if read_journal(journal) != entries:
        fail("the entries have changed, and nothing was asked to be recorded")


def serve_crowd(draw, journal, parties):
    """One server that is asked by many links at once."""
    entries = read_journal(journal)
    asker, epoid = parties[0], bytes(16)
    ask = formats.status(asker.id, asker.key, epoid, 0)
    told = formats.told(HOUSE, entries, asker.entry()[1:5], epoid)
    server = Server(journal, draw, CROWD // WORKERS)
    threads = [
        threading.Thread(target=lambda worker=place % WORKERS: see_answered(server.dial(worker), ask, [told], ends=True))
        for place in range(CROWD)
    ]
    for thread in threads:
        thread.start()
    finish(threads)
    if server.process.wait() != 0:
        fail(f"the server ended with status {server.process.returncode}")


def wait_for_replies(server, talks, wanted):
    """Waits until the links have so many replies between them, or the server has ended, or for too long."""
    end = time.monotonic() + LONGEST_START
    while server.process.poll() is None and time.monotonic() < end and sum(len(replies) for _, replies in talks) < wanted:
        time.sleep(0.0005)


def kill_often(draw, journal, parties, serials):
    """Kills the server behind random numbers of replies, and starts it again. Gives how many kills fell while it was asked, and the
    replies handed out."""
    within, first, runs = 0, int(time.time()), []
    entries = read_journal(journal)
    start = len(entries)
    for kill in range(KILLS):
        server = Server(journal, draw, 2)
        talks, threads = run_links(server, draw, parties, first, serials, KILL_ORDERS)
        wait_for_replies(server, talks, draw.randrange(sum(len(requests) for requests, _ in talks) // 2))
        within += server.process.poll() is None
        server.process.kill()
        server.process.wait()
        finish(sum(threads, []))
        before, entries = entries, read_journal(journal)
        if entries[: len(before)] != before:
            fail(f"kill {kill}: the entries do not begin with those that were there before")
        runs += talks
    orders = [asked for requests, _ in runs for _, asked in requests if isinstance(asked, formats.Order)]
    places = see_entries(entries, start, orders, first, int(time.time()))
    for requests, replies in runs:
        see_replies(entries, places, requests, replies)
    return within, sum(len(replies) for _, replies in runs)


def numbers():
    """The serial numbers of orders."""
    serial = 0
    while True:
        yield (serial := serial + 1)


def test(seed, folder):
    """The test."""
    draw, journal, serials = random.Random(seed), folder / "house.journal", numbers()
    parties = make_house(journal)
    links, replies, entries = serve_well(draw, journal, parties, serials)
    print(f"tests/serve: {links} links beside {WORKERS} that do harm, {replies} replies, {entries} orders", flush=True)
    serve_harm(draw, journal, parties)
    print(f"tests/serve: all {MOST_FRAMES} replies to 20,000 frames, all 40 in front of a megabyte that is none; a closed port refuses", flush=True)
    serve_crowd(draw, journal, parties)
    print(f"tests/serve: {CROWD} links at once, each answered", flush=True)
    within, replies = kill_often(draw, journal, parties, serials)
    print(f"tests/serve: {KILLS} kills, {within} while it was asked; {replies} replies handed out")
    if 2 * within < KILLS:
        fail("fewer than half of the kills fell while it was asked")
    if not replies:
        fail("no reply was handed out before a kill")


def late(number, frame):
    """Ends a test that takes too long."""
    fail(f"not done after {SECONDS} seconds")


if __name__ == "__main__":
    if not PROGRAM.exists():
        fail("the program is not built: 'rt run' in crates/netbill builds it")
    seed = int(sys.argv[1]) if sys.argv[1:] else random.randrange(1 << 32)
    print(f"tests/serve: seed {seed}", flush=True)
    signal.signal(signal.SIGALRM, late)
    signal.alarm(SECONDS)
    with tempfile.TemporaryDirectory() as folder:
        test(seed, pathlib.Path(folder))
