"""Opens journals of 1,000,000 entries, which is as many as one may hold. All but the last entry are the same: two parties, an order that
was paid, one that was refused, and as many enrolments and funds in turn. The program has to open the journal where the last entry
may come behind them, and then tells a query that there are 1,000,000; and to end with status 8 where the last entry uses a number, an
account, a reference or an identifier again.

And a journal whose last gate reaches 131,072: as many zeros stand behind that gate, over which the next items are written, and it opens as before.
Where the file may not grow by all of them the item is refused with code 50, and what stood before it stands; once the file may grow it is recorded.
"""

import pathlib
import resource
import subprocess
import sys
import tempfile

TOP = pathlib.Path(__file__).resolve().parent.parent
sys.dont_write_bytecode = True
sys.path.insert(0, str(TOP / "examples"))
import formats

PROGRAM = TOP / "crates/netbill/out/netbill"
HOUSE, OPERATOR, GOODS = (bytes([byte]) * 32 for byte in (0x11, 0x22, 0x77))
HEAD = formats.head(HOUSE, OPERATOR, bytes([0x33]) * 16)
COUNT, MOMENT = 1_000_000, 1000
GOOD, BAD, DISK_FAILED = (0, ""), (8, "netbill: status 8 at 0\n"), 50


def party(number):
    """The party of a number, with the account of the same number."""
    role = formats.MERCHANT if number == 1 else formats.CONSUMER
    return formats.Party(number, role, number, number, bytes([0x44]) * 32)


def order(serial, price):
    """An order of consumer 2 from merchant 1."""
    return formats.Order(party(2), party(1), 7, price, MOMENT, serial, GOODS)


def entries():
    """All entries but the last."""
    yield party(1).entry()
    yield party(2).entry()
    yield formats.Fund(2, 500, 2).entry()
    yield order(1, 300).paid(MOMENT)
    yield order(2, 201).refused(36, 200, 201, MOMENT)
    for place in range(5, COUNT - 1):
        number = (place + 1) // 2
        yield formats.Fund(number, 1, number).entry() if place % 2 == 0 else party(number).entry()


def last_entries():
    """What the last entry is, the entry, and how the program ends."""
    yield "a new party", party(COUNT).entry(), GOOD
    yield "a new reference", formats.Fund(1, 1, COUNT).entry(), GOOD
    yield "a new order", order(3, 200).paid(MOMENT), GOOD
    yield "a number again", party(2)._replace(account=COUNT).entry(), BAD
    yield "an account again", party(COUNT)._replace(account=2).entry(), BAD
    yield "a reference again", formats.Fund(1, 1, 2).entry(), BAD
    yield "a paid order again", order(1, 100).paid(MOMENT), BAD
    yield "a paid order refused", order(1, 201).refused(36, 200, 201, MOMENT), BAD
    yield "a refused order paid", order(2, 100).paid(MOMENT), BAD
    yield "a refused order again", order(2, 201).refused(36, 200, 201, MOMENT), BAD


def count_told(reply):
    """The number of entries that the reply to a status query of party 2 shows."""
    text = formats.unsealed(party(2).key, b"stat", reply[8:])
    return formats.number(text[:8]) if text else None


def test(journal):
    """The test."""
    front = formats.journal(HEAD, COUNT, entries())
    query = formats.status(2, party(2).key, order(1, 300).epoid(), COUNT)
    for what, entry, (status, line) in last_entries():
        journal.write_bytes(front[:-1] + formats.OPEN + formats.sized(entry) + formats.CLOSED)
        ran = subprocess.run([PROGRAM, "batch", journal], input=query, capture_output=True, check=False)
        if (ran.returncode, ran.stderr.decode()) != (status, line):
            sys.exit(f"tests/open: {what}: the program ended with status {ran.returncode}: {ran.stderr.decode()}")
        if count_told(ran.stdout) != (None if status else COUNT):
            sys.exit(f"tests/open: {what}: the reply is {ran.stdout.hex()}")
    print(f"tests/open: {COUNT} entries, with {len(list(last_entries()))} that come last")


def batch(journal, fund, most=resource.RLIM_INFINITY):
    """The reply to a fund, where the file may have so many bytes at most."""
    limit = lambda: resource.setrlimit(resource.RLIMIT_FSIZE, (most, most))
    ran = subprocess.run([PROGRAM, "batch", journal], input=fund.frame(OPERATOR), capture_output=True, check=False, preexec_fn=limit)
    if ran.returncode:
        sys.exit(f"tests/open: the program ended with status {ran.returncode}: {ran.stderr.decode()}")
    return ran.stdout


def test_ahead(journal):
    """A journal that reaches a multiple of AHEAD by the second of the funds that come behind it."""
    funds = [formats.Fund(2, 1, 1)]
    gate = len(formats.journal(HEAD, COUNT, [party(2).entry()])) - 1
    taken = len(formats.OPEN + formats.sized(funds[0].entry()))
    filled = (formats.AHEAD - gate - 1) // taken - 1
    funds = [formats.Fund(2, 1, reference) for reference in range(1, filled + 5)]
    images = [formats.journal(HEAD, COUNT, [party(2).entry()] + [fund.entry() for fund in funds[:count]]) for count in range(filled, filled + 5)]
    if not len(images[1]) - 1 < formats.AHEAD <= len(images[2]) - 1:
        sys.exit("tests/open: the second fund does not reach the multiple")
    journal.write_bytes(images[0])
    size = len(images[2]) + formats.AHEAD
    for count in range(4):
        if count == 1:
            refused = batch(journal, funds[filled + count], most=formats.AHEAD + 1000)
            entries, gate = formats.read_journal(journal.read_bytes(), formats.journal(HEAD, COUNT, [])[:-1]) or ([], 0)
            if refused[8:9] != bytes([DISK_FAILED]) or formats.journal(HEAD, COUNT, entries) != images[1] or gate != len(images[1]) - 1:
                sys.exit(f"tests/open: a fund whose zeros have no room is told {refused.hex()}, and {len(entries)} entries stand")
        batch(journal, funds[filled + count])
        image = images[count + 1]
        if journal.read_bytes() != (image if count == 0 else image + bytes(size - len(image))):
            sys.exit(f"tests/open: behind fund {count + 1} the journal has other bytes")
    print(f"tests/open: a journal that reaches {formats.AHEAD} bytes")


if __name__ == "__main__":
    with tempfile.TemporaryDirectory() as name:
        test(pathlib.Path(name) / "house.journal")
        test_ahead(pathlib.Path(name) / "house.journal")
