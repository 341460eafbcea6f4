"""Has each call of the system that the house's program makes on a file fail once, of those by which it reads, writes and syncs: with each error
that there is for it, and, of those that move bytes, by moving half of them. A library that is put before the C library does it (failing.c). The
program is held to this:

- A batch ends with 0, and with 3, 4 or 7 only where a read of the input, a write of the output, or a call of the disk in opening failed. A call that
  was interrupted is made again, and the rest of what was not moved is moved: then nothing else is told than where all goes well. Nor is it where a
  hint fails, by which a file is read ahead.
- Each reply that was handed out whole is a refusal with code 50, or the one that entries of the journal give which stand in it behind the run; or,
  behind a request that is in doubt, another refusal, of a request that has no entry.
- The journal is opened again behind each run, and is given the same requests: all are answered, and the entries are what they ask for, each once.
- Where `init` or `migrate` does not end well, the file holds what is no journal of its version, or the whole one, and the command is done again.
- What a statement writes is the whole text, or a part of it, from its front, and then the status is 4; the journal stays as it is.

Then the disk fills up at each byte of a journal that is made or moved, and at each of the last 2,000 bytes of one that is kept, by a limit of the
file's size and by a write that finds no room: the program is not ended by a signal, what is not recorded is refused with code 50, and it is recorded
once there is room; what is not made is told by status 7. How many places were tried is told: a slow machine tries fewer.
"""

import errno
import multiprocessing
import os
import pathlib
import random
import resource
import shutil
import signal
import struct
import subprocess
import sys
import tempfile
import time

TOP = pathlib.Path(__file__).resolve().parent.parent
sys.dont_write_bytecode = True
sys.path.insert(0, str(TOP / "examples"))
import formats

PROGRAM, TEST = TOP / "crates/netbill/out/netbill", f"tests/{pathlib.Path(sys.argv[0]).stem}"
HOUSE, OPERATOR, GOODS = (bytes([byte]) * 32 for byte in (0x11, 0x22, 0x77))
HEAD = formats.head(HOUSE, OPERATOR, bytes([0x33]) * 16)
CAP, RATE, FRONT = 64, 25, 96

# How a call fails: by these errors of errno.h, or by moving half of its bytes.
HALF = 0
ERRORS, MOVES = (errno.EIO, errno.ENOSPC, errno.EINTR), (errno.EINTR, HALF)
CALLS = {"read": (*ERRORS, HALF), "write": (*ERRORS, HALF), "pread": (*ERRORS, HALF), "pwrite": (*ERRORS, HALF), "fsync": ERRORS, "posix_fadvise": ERRORS, "hint": ERRORS}

# The status of a batch where a call fails for good, beside 0. Of a hint nothing is told.
TOLD = {"read": 3, "write": 4, "pread": 7, "pwrite": 0, "fsync": 7, "posix_fadvise": 7, "hint": 0}

# So many of the last bytes of a journal the disk fills up at; and in seconds, when no further one is tried, and the whole test at most, of which it takes a quarter where nothing else runs.
LAST_BYTES, LONGEST, SECONDS = 2000, 20, 180

CONSUMER = formats.Party(1, formats.CONSUMER, 1, 7, bytes([0x44]) * 32)
MERCHANT = formats.Party(2, formats.MERCHANT, 2, 0, bytes([0x55]) * 32)


def fail(why):
    """Ends the test."""
    sys.exit(f"{TEST}: {why}")


# ---- requests


def query(asker, epoid):
    """The frame that asks what became of an order, and what makes the reply to it."""
    frame = formats.status(asker.id, asker.key, epoid, 0)
    return frame, lambda entries: formats.told(HOUSE, entries, asker.entry()[1:5], epoid) if asker.entry() in entries else None


def requests(moment, orders):
    """Frames, each with what has to become of it: a party, a fund or an order that is recorded, or what makes the reply out of the entries."""
    for asked in CONSUMER, MERCHANT, formats.Fund(1, 500, 0):
        yield asked.frame(OPERATOR), asked
    for serial in range(1, orders + 1):
        order = formats.Order(CONSUMER, MERCHANT, 7, 200, moment, serial, GOODS)
        yield order.frame(), order
    yield query(CONSUMER, formats.epoid(MERCHANT.id, moment, 1))
    fund = formats.Fund(1, 10, 1)
    yield fund.frame(OPERATOR), fund
    yield query(MERCHANT, formats.epoid(MERCHANT.id, moment, 1))


def moment_of(entry):
    """The moment that an entry names, where it names one."""
    field = {formats.PAID: entry[77:85], formats.REFUSED: entry[86:94]}.get(entry[0])
    return formats.number(field) if field else None


def entry_of(asked, entries, moment):
    """The entry that is recorded of a request behind these entries, at this moment."""
    if not isinstance(asked, formats.Order):
        return asked.entry()
    has = formats.balance(entries, asked.consumer.entry()[6:10])
    return asked.paid(moment) if has >= asked.price else asked.refused(36, has, asked.price, moment)


def place_of(asked, entries):
    """The place of the entry of a request among these, if it is there."""
    for place, entry in enumerate(entries):
        moment = moment_of(entry)
        # What is to be recorded of an order is sealed here, which takes long: so its identifier is looked for first.
        if isinstance(asked, formats.Order):
            fits = moment is not None and entry[33:49] == asked.epoid()
        else:
            fits = moment is None
        if fits and entry == entry_of(asked, entries[:place], moment):
            return place
    return None


# ---- what the program told and left


def frames_of(stream):
    """The whole frames of a stream."""
    found = []
    while len(stream) >= 8 and len(stream) >= 8 + formats.number(stream[4:8]):
        size = 8 + formats.number(stream[4:8])
        found.append(stream[:size])
        stream = stream[size:]
    return found


def is_in_doubt(reply, before):
    """Whether a reply says that the disk failed, behind so many calls of it that did: with code 50, and that one more did."""
    return reply[3] == formats.REFUSAL and reply[8:25] == bytes([50]) + struct.pack(">QQ", before, before + 1)


def is_given(reply, asked, entries):
    """Whether the entries give this reply, of which the one that it tells of stands among them."""
    if callable(asked):
        return any(reply == asked(entries[:count]) for count in range(len(entries) + 1))
    place = place_of(asked, entries)
    return place is not None and any(reply == formats.reply(HOUSE, entries[:count], place) for count in range(place + 1, len(entries) + 1))


def entries_of(what, journal):
    """The entries of a journal."""
    read = formats.read_journal(journal.read_bytes(), formats.journal(HEAD, CAP, [])[:-1])
    return read[0] if read else fail(f"{what}: the front of the journal has changed, or it ends within an item")


def see_replies(what, asked, journal, sent):
    """Sees that each whole reply is given by the journal's entries, or says that the disk failed, or refuses, behind such a one, what has no entry. How
    many say that the disk failed."""
    entries, doubts = entries_of(what, journal), 0
    for place, reply in enumerate(frames_of(sent)):
        refuses = doubts and reply[3] == formats.REFUSAL and (callable(asked[place]) or place_of(asked[place], entries) is None)
        if not is_in_doubt(reply, doubts) and not refuses and not is_given(reply, asked[place], entries):
            fail(f"{what}: reply {place} was handed out, and the journal does not give it: {reply.hex()}")
        doubts += is_in_doubt(reply, doubts)
    return doubts


def see_all(what, asked, journal):
    """The journal is opened again and given all frames: each is answered, and the entries are what they ask for, each once."""
    status, sent, line = run(["batch", journal], b"".join(frame for frame, _ in asked))
    wanted = [it for _, it in asked if not callable(it)]
    if status != 0 or len(frames_of(sent)) != len(asked) or see_replies(what, [it for _, it in asked], journal, sent):
        fail(f"{what}: a run behind it ended with status {status}, {len(frames_of(sent))} replies, {line!r}")
    entries = entries_of(what, journal)
    if sorted(place_of(it, entries) for it in wanted) != list(range(len(entries))):
        fail(f"{what}: {len(entries)} entries are left, and not the {len(wanted)} that were asked for")


# ---- runs


def run(words, text, fails=None, calls=None, limit=None, room=None):
    """A run of the program: its status, what it sent, and the line on standard error."""
    told = {"NETBILL_FAILS": fails, "NETBILL_CALLS": calls, "NETBILL_ROOM": room}
    more = {name: str(word) for name, word in told.items() if word is not None}
    more = {**more, "LD_PRELOAD": library} if more else {}
    bound = (lambda: resource.setrlimit(resource.RLIMIT_FSIZE, (limit, limit))) if limit is not None else None
    ran = subprocess.run([PROGRAM, *words], input=text, capture_output=True, check=False, env=more, preexec_fn=bound)
    if ran.returncode < 0:
        fail(f"{words[0]} with {fails}, {limit}, {room}: ended by signal {-ran.returncode}")
    return ran.returncode, ran.stdout, ran.stderr.decode()


def counted(folder, words, text):
    """How often a run makes each call."""
    calls = folder / "calls"
    calls.unlink(missing_ok=True)
    if run(words, text, calls=calls)[0] != 0:
        fail(f"{words[0]}: a run that is left alone does not end well")
    lines = calls.read_text().split() if calls.exists() else []
    return {name: lines.count(name) for name in (*CALLS, "memory")}


def failing(counts):
    """Each call that can fail, in words, its name, and how it fails."""
    for name, ways in CALLS.items():
        for number in range(1, counts[name] + 1):
            for way in ways:
                yield f"{name} {number} {way}", name, way


def is_repaired(name, way):
    """Whether nothing is to be told where a call fails so: it is made again, or moves the rest, or was a hint."""
    return name == "hint" or way in MOVES and name not in ("fsync", "posix_fadvise")


def builds(folder):
    """Builds the library, and sees that it comes before the program's own. Why it does not, if so."""
    global library
    library = str(folder / "failing.so")
    if not shutil.which("cc"):
        return "there is no C compiler, cc"
    built = subprocess.run(["cc", "-O2", "-shared", "-fPIC", "-o", library, TOP / "tests/failing.c", "-ldl"], capture_output=True, text=True, check=False)
    if built.returncode != 0:
        return f"cc builds no library of the system's calls here: {built.stderr.splitlines()[:1]}"
    journal = folder / "first.journal"
    counts = counted(folder, ["init", journal, str(CAP)], HEAD)
    if counts["pread"] + counts["pwrite"] == 0:
        return "the program does not make its calls through the C library"
    if counts["fsync"] == 0:
        fail("the program makes a journal, and syncs nothing")
    return None


# ---- the trials


def batches(folder):
    """Each call of a batch fails. How many runs there were."""
    asked, journal, count = list(requests(int(time.time()), 3)), folder / "house.journal", 0
    text, empty = b"".join(frame for frame, _ in asked), formats.journal(HEAD, CAP, [])
    journal.write_bytes(empty)
    counts = counted(folder, ["batch", journal], text)
    if min(counts[name] for name in CALLS) == 0:
        fail(f"a batch makes none of a call: {counts}")
    for words, name, way in failing(counts):
        journal.write_bytes(empty)
        status, sent, line = run(["batch", journal], text, words)
        doubts = see_replies(words, [it for _, it in asked], journal, sent)
        repaired = is_repaired(name, way)
        if status not in ((0,) if repaired else (0, TOLD[name])) or line != (f"netbill: status {status} at 0\n" if status else ""):
            fail(f"{words}: a batch ended with status {status} and the line {line!r}")
        if way not in MOVES and not repaired and status == 0 and not doubts:
            fail(f"{words}: a call that failed was passed over")
        if way not in MOVES and name == "pwrite" and doubts != 1:
            fail(f"{words}: one write that failed left {doubts} requests in doubt")
        if repaired and (doubts or len(frames_of(sent)) != len(asked)):
            fail(f"{words}: a call that can be made again left {doubts} requests in doubt, and {len(frames_of(sent))} replies")
        if status == 0 and len(frames_of(sent)) != len(asked) or status == 7 and sent:
            fail(f"{words}: {len(frames_of(sent))} replies came with status {status}")
        see_all(words, asked, journal)
        count += 1
    return count


def made_by():
    """The two words by which a journal is made, and by which one is moved, the input of each, and the journal that it leaves."""
    old = formats.journal(HEAD, CAP, [CONSUMER.entry(), MERCHANT.entry()])
    moved = b"NBJRNL02" + old[8:92] + RATE.to_bytes(2, "big") + old[94:]
    return ("init", str(CAP), HEAD, formats.journal(HEAD, CAP, [])), ("migrate", str(RATE), old, moved)


def makings(folder):
    """Each call of making a journal fails, and of moving one. How many runs there were."""
    count = 0
    for word, number, text, whole in made_by():
        journal = folder / f"{word}.journal"
        words = [word, journal, number]
        journal.unlink(missing_ok=True)
        for told, name, way in failing(counted(folder, words, text)):
            journal.unlink(missing_ok=True)
            status, sent, line = run(words, text, told)
            left = journal.read_bytes() if journal.exists() else b""
            repaired = is_repaired(name, way)
            if sent or status not in ((0,) if repaired else (0, TOLD[name] or 7) if way in MOVES else (TOLD[name] or 7,)) or (left != whole if status == 0 else left[:8] == whole[:8] and left != whole):
                fail(f"{told}: {words[0]} ended with status {status}, {line!r}, and left {left.hex()}")
            again = run(words, text)[0]
            if again != (9 if left[:8] == whole[:8] else 0) or journal.read_bytes() != whole:
                fail(f"{told}: {words[0]} ended with status {again} when it was done again")
            count += 1
    return count


def statements(folder):
    """Each call of a statement fails. How many runs there were."""
    funds = [formats.Fund(1, amount, amount) for amount in range(1, 61)]
    image, journal, count = formats.journal(HEAD, CAP, [CONSUMER.entry(), *(fund.entry() for fund in funds)]), folder / "told.journal", 0
    text = "".join(formats.statement([CONSUMER.entry(), *(fund.entry() for fund in funds)], 1)).encode()
    journal.write_bytes(image)
    words = ["statement", journal, "1"]
    for told, name, way in failing(counted(folder, words, b"")):
        status, sent, line = run(words, b"", told)
        repaired = is_repaired(name, way)
        if status not in ((0,) if repaired else (0, TOLD[name]) if way in MOVES else (TOLD[name],)) or not text.startswith(sent) or (sent == text) != (status == 0) or sent and status not in (0, 4):
            fail(f"{told}: a statement ended with status {status}, {line!r}, and {len(sent)} bytes")
        if journal.read_bytes() != image:
            fail(f"{told}: a statement changed its journal")
        count += 1
    return count


def narrow_makings(folder, draw):
    """The disk fills up at each byte of a journal as it is made, and as one is moved: what it leaves is no journal, and one is made once there is room.
    At how many places that was tried, and of how many."""
    trials = [(*made, place) for made in made_by() for place in range(len(made[3]))]
    draw.shuffle(trials)

    def fills_up(journal, trial):
        word, number, text, whole, place = trial
        for way in "limit", "room":
            journal.unlink(missing_ok=True)
            status, sent, line = run([word, journal, number], text, **{way: place})
            left = journal.read_bytes()
            if status != 7 or sent or left[:8] == whole[:8]:
                fail(f"{word} on a disk of {place} bytes, by {way}: status {status}, {line!r}, and {left.hex()} is left")
            status, sent, line = run([word, journal, number], text)
            if status != 0 or sent or journal.read_bytes() != whole:
                fail(f"{word} on a disk of {place} bytes, by {way}, and then of more: status {status}, {line!r}")

    return shared(fills_up, folder, trials), len(trials)


def fillings(folder, draw):
    """The disk fills up at each of the last bytes of a journal, by the limit of a file's size, and by a write that finds no room. At how many places
    that was tried."""
    asked, journal = list(requests(int(time.time()), 24)), folder / "full.journal"
    journal.write_bytes(formats.journal(HEAD, CAP, []))
    see_all("a journal that is left alone", asked, journal)
    entries = entries_of("a journal that is left alone", journal)
    next_of = {place_of(it, entries): (frame, it) for frame, it in asked if not callable(it)}
    images = [formats.journal(HEAD, CAP, entries[:held]) for held in range(len(entries) + 1)]
    places = list(range(journal.stat().st_size - LAST_BYTES, journal.stat().st_size))
    draw.shuffle(places)

    def fills_up(journal, place):
        held = max(held for held, image in enumerate(images) if len(image) <= place)
        for way in "limit", "room":
            fills_up_at(journal, place, way, images[held], entries[:held], *next_of[held])

    return shared(fills_up, folder, places)


def fills_up_at(journal, place, way, image, entries, frame, it):
    """The disk fills up at this place of a journal with these entries as it is asked twice for one more, and has room when it is asked again."""
    what = f"a disk of {place} bytes, by {way}"
    journal.write_bytes(image)
    status, sent, line = run(["batch", journal], frame * 2, **{way: place})
    doubts = see_replies(what, [it] * 2, journal, sent)
    if (status, doubts, len(frames_of(sent))) != (0, 2, 2):
        fail(f"{what}: status {status}, {len(frames_of(sent))} replies, {doubts} of them in doubt, {line!r}")
    if entries_of(what, journal) != entries:
        fail(f"{what}: other entries are left than stood there")
    status, sent, line = run(["batch", journal], frame)
    if status != 0 or see_replies(what, [it], journal, sent) or len(entries_of(what, journal)) != len(entries) + 1:
        fail(f"{what}, and then of more: status {status}, {sent.hex()}, {line!r}")


def shared(fills_up, folder, places):
    """Tries these places, in a process for each processor, as long as there is time. How many were tried."""
    context, cores, end = multiprocessing.get_context("fork"), os.cpu_count() or 1, time.monotonic() + LONGEST
    count = context.Value("i", 0)

    def tries(number):
        for place in places[number::cores]:
            if time.monotonic() > end:
                break
            fills_up(folder / f"full{number}.journal", place)
            with count.get_lock():
                count.value += 1

    processes = [context.Process(target=tries, args=(number,), daemon=True) for number in range(cores)]
    for process in processes:
        process.start()
    for process in processes:
        process.join()
    if any(process.exitcode != 0 for process in processes):
        fail("a trial of a disk that fills up did not end well")
    return count.value


def late(number, frame):
    """Ends a test that takes too long."""
    fail(f"not done after {SECONDS} seconds")


def test(seed, folder):
    """The test."""
    why = builds(folder)
    if why:
        print(f"{TEST}: passed over: {why}")
        return
    made, told, answered = makings(folder), statements(folder), batches(folder)
    print(f"{TEST}: {answered} calls of a batch failed, {made} of making and moving a journal, {told} of a statement", flush=True)
    draw = random.Random(seed)
    narrow, places = narrow_makings(folder, draw)
    print(f"{TEST}: a disk filled up at {narrow} of {places} bytes of a journal as it was made or moved", flush=True)
    print(f"{TEST}: a disk filled up at {fillings(folder, draw)} of the last {LAST_BYTES} bytes of a journal")


if __name__ == "__main__":
    if not PROGRAM.exists():
        fail("the program is not built: 'rt run' in crates/netbill builds it")
    seed = int(sys.argv[1]) if sys.argv[1:] else random.randrange(1 << 32)
    print(f"{TEST}: seed {seed}", flush=True)
    signal.signal(signal.SIGALRM, late)
    signal.alarm(SECONDS)
    with tempfile.TemporaryDirectory() as name:
        test(seed, pathlib.Path(name))
