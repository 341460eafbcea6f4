"""Kills the house's program at random moments of one batch on a file, and starts it each time with the same frames, from the
first on. Then one run goes to its end. Let E be the entries that the journal has by then. The test holds the program to this:

- E is what the frames ask for, in their order and each once. Each order is paid or refused by the balance that the entries
  before it leave, at a moment of this test.
- After each kill the journal's entries are the first of E, and among them is each whose reply was handed out.
- Each reply that was handed out whole, in whatever run, is byte for byte the one that the first N of E give: N is the number
  of entries at the start of its run, or up to the request's own entry where that is more. So an enrolment or a fund is told
  one place for ever, and the balance of that time; an order's result is the same bytes each time.
- While a run holds the journal, another ends with status 17.

A kill leaves what the program gave to the system. What a failure of power leaves is not tried here.
"""

import functools
import pathlib
import random
import select
import signal
import subprocess
import sys
import tempfile
import time

TOP = pathlib.Path(__file__).resolve().parent.parent
sys.dont_write_bytecode = True
sys.path.insert(0, str(TOP / "examples"))
import formats

PROGRAM = TOP / "crates/netbill/out/netbill"
HOUSE, OPERATOR, GOODS = (bytes([byte]) * 32 for byte in (0x11, 0x22, 0x77))
HEAD = formats.head(HOUSE, OPERATOR, bytes([0x33]) * 16)
FRAMES, KILLS, CONSUMERS, SECONDS = 300, 50, 20, 60

# A run is given so many frames beyond those that it has answered, and, before a kill, so many beyond the one that the kill
# waits for: so each kill comes before the input ends, however fast the disk is.
AHEAD, SLACK = 8, 3


def fail(why):
    """Ends the test."""
    sys.exit(f"tests/kill: {why}")


def requests(draw, moment):
    """The frames, each with what has to become of it: a party, a fund or an order that is recorded, or what makes the reply out
    of the entries where nothing is."""
    merchant = formats.Party(1, formats.MERCHANT, 1, 0, draw.randbytes(32))
    consumers = [formats.Party(n, formats.CONSUMER, n, n, draw.randbytes(32)) for n in range(2, CONSUMERS + 2)]
    yield merchant.frame(OPERATOR), merchant
    for serial, consumer in enumerate(consumers):
        fund = formats.Fund(consumer.account, 1000, serial)
        yield consumer.frame(OPERATOR), consumer
        yield fund.frame(OPERATOR), fund
    for serial in range(2 * CONSUMERS + 1, FRAMES):
        consumer, price = draw.choice(consumers), draw.randint(1, 400)
        kind = draw.choice(["order"] * 6 + ["fund"] * 3 + ["query", "stranger"])
        if kind == "order":
            order = formats.Order(consumer, merchant, 7, price, moment, serial, GOODS)
            yield order.frame(), order
        elif kind == "query":
            yield query(draw.choice([consumer, merchant]), formats.epoid(merchant.id, moment, draw.randrange(serial)))
        else:
            fund = formats.Fund(consumer.account, price, serial)
            yield (fund.frame(OPERATOR), fund) if kind == "fund" else refused(fund.frame(GOODS))


def query(asker, epoid):
    """The frame that asks what became of an order, and what makes the reply to it."""
    frame = formats.status(asker.id, asker.key, epoid, 0)
    return frame, lambda entries: formats.told(HOUSE, entries, asker.entry()[1:5], epoid)


def refused(frame):
    """A frame whose tag is wrong, and what makes the reply to it."""
    return frame, lambda entries: formats.refusal(14, 0, 0, frame[-32:])


def entry_of(asked, entries, moment):
    """The entry that is recorded of a request behind these entries, at this moment."""
    if not isinstance(asked, formats.Order):
        return asked.entry()
    has = formats.balance(entries, asked.consumer.entry()[6:10])
    return asked.paid(moment) if has >= asked.price else asked.refused(36, has, asked.price, moment)


def moment_of(entry):
    """The moment that an entry names, where it names one."""
    field = {formats.PAID: entry[77:85], formats.REFUSED: entry[86:94]}.get(entry[0])
    return formats.number(field) if field else None


def read_journal(path):
    """The entries of a journal, and the place of the gate behind them."""
    read = formats.read_journal(path.read_bytes(), formats.journal(HEAD, FRAMES, [])[:-1])
    return read or fail("the front of the journal has changed, or it ends within an item")


def start(words, **streams):
    """Starts the program."""
    return subprocess.Popen([PROGRAM, *words], stderr=subprocess.DEVNULL, **streams)


def make_journal(path):
    """Makes a journal."""
    made = subprocess.run([PROGRAM, "init", path, str(FRAMES)], input=HEAD)
    if made.returncode != 0:
        fail(f"init ended with status {made.returncode}")
    return path


def take(stream):
    """The next whole reply of a stream, or nothing."""
    head = stream.read(8)
    body = stream.read(formats.number(head[4:8])) if len(head) == 8 else b""
    return head + body if len(head) == 8 and len(body) == formats.number(head[4:8]) else None


def is_silent(stream, due):
    """Waits for a stream's next bytes: whether there were none before that time."""
    return not select.select([stream], [], [], max(0, due - time.monotonic()))[0]


def run(journal, sent, stop=None):
    """Runs a batch, and kills it so many seconds after so many replies where `stop` says so. Gives the replies that were handed
    out whole, and the program's status, which is below zero where it was killed."""
    process = start(["batch", journal], stdin=subprocess.PIPE, stdout=subprocess.PIPE, bufsize=0)
    most = stop[0] + SLACK if stop else FRAMES
    replies, given, due = [], 0, None
    try:
        while True:
            ahead = min(most, len(replies) + AHEAD)
            if given < ahead:
                process.stdin.write(b"".join(sent[given:ahead]))
                given = ahead
                if given == FRAMES:
                    process.stdin.close()
            if stop and len(replies) >= stop[0]:
                due = due or time.monotonic() + stop[1]
                if is_silent(process.stdout, due):
                    process.kill()
            reply = take(process.stdout)
            if not reply:
                break
            replies.append(reply)
    except BrokenPipeError:
        fail("the program ended before its input")
    finally:
        process.kill()
        process.wait()
        process.stdin.close()
        process.stdout.close()
    return replies, process.returncode


def see_lock(journal, frame):
    """Sees that a second run is turned away while one holds the journal."""
    process = start(["batch", journal], stdin=subprocess.PIPE, stdout=subprocess.PIPE)
    process.stdin.write(frame)
    process.stdin.flush()
    reply = take(process.stdout)
    second = start(["batch", journal], stdin=subprocess.DEVNULL).wait()
    process.communicate()
    if second != 17 or process.returncode != 0:
        fail(f"a run that held the journal ended with status {process.returncode}, and one beside it with {second}")
    return [reply]


def see_entries(asked, entries, first, last):
    """Sees that the entries are what is asked for, and that their moments are between these two."""
    recorded = [it for it in asked if not callable(it)]
    if len(entries) != len(recorded):
        fail(f"{len(entries)} entries, and {len(recorded)} frames that are recorded")
    for place, it in enumerate(recorded):
        moment = moment_of(entries[place])
        if entries[place] != entry_of(it, entries[:place], moment) or (moment and not first <= moment <= last):
            fail(f"entry {place} is not what its frame asks for")


def see_replies(asked, entries, runs):
    """Sees that each reply of these runs is the one that the entries give. A run is the number of entries at its start, and its
    replies."""

    @functools.cache
    def result(place):
        return formats.reply(HOUSE, entries, place)

    @functools.cache
    def wanted(request, place, count):
        if callable(asked[request]):
            return asked[request](entries[:count])
        return result(place) if isinstance(asked[request], formats.Order) else formats.reply(HOUSE, entries[:count], place)

    for number, (held, replies) in enumerate(runs):
        place = 0
        for request, reply in enumerate(replies):
            recorded = not callable(asked[request])
            if reply != wanted(request, place, max(held, place + recorded)):
                fail(f"run {number}, reply {request}: not what the entries give at place {place}")
            place += recorded


def kill_often(draw, journal, sent, asked, pace):
    """Kills the program in its batch. Gives the runs, the entries that each left, and how many kills fell within the batch, and
    how many of these left an entry without its reply, or bytes of an entry behind the last gate."""
    runs, lists, within, open_ends, done = [], [read_journal(journal)[0]], 0, 0, 0
    for kill in range(KILLS):
        fresh = draw.randint(0, max(0, 2 * (FRAMES - done) // (KILLS - kill) - 2))
        stop = min(max(1, done + fresh), FRAMES - SLACK - 1), draw.random() * 2 * pace
        replies, status = run(journal, sent, stop)
        entries, gate = read_journal(journal)
        told = sum(not callable(it) for it in asked[: len(replies)])
        if told > len(entries):
            fail(f"kill {kill}: {told} entries were told, and the journal has {len(entries)}")
        if status == -signal.SIGKILL and len(replies) < FRAMES:
            within += 1
            open_ends += len(entries) > max(told, len(lists[-1])) or journal.stat().st_size > gate + 1
        elif status not in (0, -signal.SIGKILL):
            fail(f"run {kill} ended with status {status}")
        runs.append((len(lists[-1]), replies))
        lists.append(entries)
        done = max(done, len(replies))
    return runs, lists, within, open_ends


def run_whole(journal, sent):
    """Runs a batch to its end. Gives the number of entries at its start, and the replies."""
    held = len(read_journal(journal)[0])
    replies, status = run(journal, sent)
    if status != 0 or len(replies) != FRAMES:
        fail(f"a run that was left alone ended with status {status} after {len(replies)} replies")
    return held, replies


def test(seed, folder):
    """The test."""
    draw, first = random.Random(seed), int(time.time())
    sent, asked = zip(*requests(draw, first))

    # How long a frame takes here, from a run that is left alone.
    quiet = make_journal(folder / "quiet.journal")
    began = time.monotonic()
    alone = [run_whole(quiet, sent)]
    pace = (time.monotonic() - began) / FRAMES

    journal = make_journal(folder / "house.journal")
    runs, lists, within, open_ends = kill_often(draw, journal, sent, asked, pace)
    runs += [run_whole(journal, sent), run_whole(journal, sent)]
    runs.append((len(read_journal(journal)[0]), see_lock(journal, sent[0])))

    last = int(time.time())
    for path, told in (quiet, alone), (journal, runs):
        entries, _ = read_journal(path)
        see_entries(asked, entries, first, last)
        see_replies(asked, entries, told)
    for kill, left in enumerate(lists):
        if entries[: len(left)] != left:
            fail(f"run {kill} began with other entries than the journal has in the end")
    print(f"tests/kill: {KILLS} kills, {within} within the batch, {open_ends} of them within an entry; {len(entries)} entries")
    if 2 * within < KILLS:
        fail("fewer than half of the kills fell within the batch")


def late(number, frame):
    """Ends a test that takes too long."""
    fail(f"not done after {SECONDS} seconds")


if __name__ == "__main__":
    if not PROGRAM.exists():
        fail("the program is not built: 'rt run' in crates/netbill builds it")
    seed = int(sys.argv[1]) if sys.argv[1:] else random.randrange(1 << 32)
    print(f"tests/kill: seed {seed}", flush=True)
    signal.signal(signal.SIGALRM, late)
    signal.alarm(SECONDS)
    with tempfile.TemporaryDirectory() as folder:
        test(seed, pathlib.Path(folder))
