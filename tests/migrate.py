"""Moves journals by the house's program, from version 1 to version 2 with a rate, and holds it to this:

- A journal with entries of each kind that version 1 has is moved, and one with 32 in each item: the new file is the old one up to its last
  gate, but for the magic and the rate. It has mode 0600, and the old file is as it was.
- Both are opened, and the same requests, which are all recorded, get the same bytes from both; an order that is new is charged a fee in
  the new one alone.
- It is killed at random moments. What is left does not begin with the magic of version 2, or is the whole journal; where the file is
  removed and the command done again, the journal is there.
- A journal of version 2, a cut one, one that is longer than the limit and an empty input are refused, and so is a file that has a journal,
  that which the input was read from among them; on a disk that takes no byte the status is 7.

A kill leaves what the program gave to the system. What a failure of power leaves is not tried here.
"""

import pathlib
import random
import stat
import subprocess
import sys
import tempfile
import time

TOP = pathlib.Path(__file__).resolve().parent.parent
sys.dont_write_bytecode = True
sys.path.insert(0, str(TOP / "examples"))
import formats

PROGRAM = TOP / "crates/netbill/out/netbill"
HOUSE, OPERATOR, GOODS = (bytes([byte]) * 32 for byte in (0x11, 0x22, 0x77))
HEAD = formats.head(HOUSE, OPERATOR, bytes([0x33]) * 16)
FRONT, FEE_MAGIC = 96, b"NBJRNL02"
RATE, CAP, MANY, KILLS, MOST_INPUT = 25, 200_000, 60_000, 30, 268_435_456


def fail(why):
    """Ends the test."""
    sys.exit(f"tests/migrate: {why}")


def run(words, text):
    """A run of the program: its status, what it sent, and the line on standard error."""
    ran = subprocess.run([PROGRAM, *words], input=text, capture_output=True, check=False)
    return ran.returncode, ran.stdout, ran.stderr.decode()


def migrate(path, text, rate=RATE):
    """A journal is moved into a file: the status, and the place that is shown."""
    status, sent, line = run(["migrate", path, str(rate)], text)
    if sent or (line == "") != (status == 0):
        fail(f"status {status} came with the output {sent.hex()} and the line {line!r}")
    return status, int(line.split()[-1]) if line else 0


def refuses(what, ends, path, text, content):
    """It ends so, and the file has this."""
    told = migrate(path, text)
    if told != ends:
        fail(f"{what}: status {told[0]} at {told[1]}, and not {ends[0]} at {ends[1]}")
    if path.is_file() and path.read_bytes() != content:
        fail(f"{what}: the file has changed")


def new_image(old, rate=RATE):
    """What a journal of version 1 is moved to."""
    _, gate = formats.read_journal(old, old[:FRONT]) or fail("the old journal cannot be read")
    return FEE_MAGIC + old[8:92] + rate.to_bytes(2, "big") + old[94 : gate + 1]


def requests(moment):
    """Parties, funds, orders that are paid, and one that is refused."""
    merchant = formats.Party(1, formats.MERCHANT, 1, 0, bytes([0x44]) * 32)
    consumer = formats.Party(2, formats.CONSUMER, 2, 7, bytes([0x55]) * 32)
    yield from (merchant.frame(OPERATOR), consumer.frame(OPERATOR), formats.Fund(2, 1000, 5).frame(OPERATOR))
    for serial, price in enumerate((300, 400, 301)):
        yield formats.Order(consumer, merchant, 7, price, moment, serial, GOODS).frame()


def new_order(moment):
    """One more order, of 200, and its entry in a journal with a rate."""
    merchant = formats.Party(1, formats.MERCHANT, 1, 0, bytes([0x44]) * 32)
    consumer = formats.Party(2, formats.CONSUMER, 2, 7, bytes([0x55]) * 32)
    return formats.Order(consumer, merchant, 7, 200, moment, 9, GOODS)


def moves(room):
    """A journal is moved, and both houses tell the same of what was recorded."""
    old, new, moment = room / "old.journal", room / "new.journal", int(time.time())
    asked = b"".join(requests(moment))
    if run(["init", old, str(CAP)], HEAD)[0] or run(["batch", old], asked)[0]:
        fail("the old journal was not made")
    image = old.read_bytes()
    kinds = {entry[0] for entry in formats.read_journal(image, image[:FRONT])[0]}
    if len(kinds) != 4:
        fail(f"the old journal has entries of the kinds {sorted(kinds)} alone")
    if migrate(new, image) != (0, 0) or new.read_bytes() != new_image(image):
        fail("the journal was not moved")
    if stat.S_IMODE(new.stat().st_mode) != 0o600 or old.read_bytes() != image:
        fail("the new file has another mode than 0600, or the old one has changed")
    first, second = (run(["batch", journal], asked) for journal in (old, new))
    if first != second or first[0] or not first[1]:
        fail("the two houses do not tell the same of what was recorded")
    order, before = new_order(moment), new.read_bytes()
    if run(["batch", new], order.frame())[0] or run(["batch", old], order.frame())[0]:
        fail("a new order was not answered")
    entries = formats.read_journal(new.read_bytes(), before[:FRONT])[0]
    paid = formats.read_journal(old.read_bytes(), image[:FRONT])[0][-1]
    if (entries[-1][0], formats.number(entries[-1][69:77]), paid[0]) != (5, 200 * RATE // 1000, 3):
        fail("the new house does not charge the fee, or the old one does")
    return image, new.read_bytes()


def many_entries():
    """A journal of many entries, of 32 in each item."""
    entries = [formats.Party(n, formats.CONSUMER, n, 0, bytes([0x44]) * 32).entry() for n in range(1, MANY + 1)]
    items = [b"".join(entries[at : at + 32]) for at in range(0, MANY, 32)]
    return formats.journal(HEAD, CAP, items)


def killed(room, draw):
    """It is killed, and done again. How often a kill came before its end."""
    path, image = room / "killed.journal", many_entries()
    wanted, source = new_image(image), room / "source.journal"
    source.write_bytes(image)
    start = time.monotonic()
    if migrate(path, image) != (0, 0) or path.read_bytes() != wanted:
        fail("a journal of many entries was not moved")
    took, early = time.monotonic() - start, 0
    for _ in range(KILLS):
        path.unlink()
        with source.open("rb") as text:
            process = subprocess.Popen([PROGRAM, "migrate", path, str(RATE)], stdin=text, stderr=subprocess.DEVNULL)
        time.sleep(draw.uniform(0, 1.1 * took))
        process.kill()
        early += process.wait() != 0
        left = path.read_bytes() if path.exists() else b""
        if left.startswith(FEE_MAGIC) and left != wanted:
            fail("a kill left a part of a journal that begins as a whole one")
        if not left.startswith(FEE_MAGIC):
            path.unlink(missing_ok=True)
            if migrate(path, image) != (0, 0) or path.read_bytes() != wanted:
                fail("a journal was not moved behind a kill")
    return early


def bad(room, image, moved):
    """Inputs and outputs that are refused."""
    path = room / "none.journal"
    path.touch()
    refuses("an empty input", (5, 0), path, b"", b"")
    refuses("a journal of version 2", (5, 0), path, moved, b"")
    refuses("a journal that is cut", (5, 151), path, image[:200], b"")
    refuses("an input that is too long", (5, MOST_INPUT), path, image + bytes(MOST_INPUT + 1 - len(image)), b"")
    refuses("a file with a journal", (9, 0), room / "new.journal", image, moved)
    source = room / "source.journal"
    whole = source.read_bytes()
    refuses("the file that was read", (9, 0), source, whole, whole)
    refuses("a disk that takes no byte", (7, 0), pathlib.Path("/dev/full"), image, None)


def test(room, seed):
    """The test."""
    image, moved = moves(room)
    early = killed(room, random.Random(seed))
    bad(room, image, moved)
    if not early:
        fail("no kill came before the end")
    print(f"tests/migrate: seed {seed}: {KILLS} kills, {early} of them before the end")


if __name__ == "__main__":
    with tempfile.TemporaryDirectory() as name:
        test(pathlib.Path(name), int(sys.argv[1]) if len(sys.argv) > 1 else random.randrange(2**32))
