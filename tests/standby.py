"""A primary and its standby, as two processes with a pipe between them: `ship` reads a journal of the house, and `follow` takes its records into another
one. Records and acknowledgements are those of examples/formats.py. The test holds the program to this:

- 30 times one of the two is killed at a random moment, and both start again, `ship` from the place that the last acknowledgement told, or from one before. Each
  acknowledgement that came whole is the one for its record; and behind each kill the standby's entries are the first of the primary's, with all that were
  acknowledged.
- Then `promote` tells how many entries stand, and the standby answers: repeated orders and status queries get the bytes that the primary gives, and nothing is
  taken in twice.
- Records in another order, twice, from ahead, of another house, of another kind, with each byte turned, and of an entry that may not come next; a full standby;
  one that is ahead; one with a rate; a stream that is cut; a disk that is full: the code of each, how many entries stand, and the status.
- `ship` from the last place, and from above it; an output that is full; a file that is no journal, and one that another process holds.
- `examples/show` tells from where to ship next by what was told last, and nothing where that says that another entry stands there, or was under another key.

A kill leaves what the program gave to the system. What a failure of power leaves is not tried here.
"""

import pathlib
import random
import resource
import signal
import subprocess
import sys
import tempfile
import time

TOP = pathlib.Path(__file__).resolve().parent.parent
sys.dont_write_bytecode = True
sys.path.insert(0, str(TOP / "examples"))
import formats

PROGRAM = TOP / "crates/netbill/out/netbill"
HOUSE, OPERATOR, GOODS = (bytes([byte]) * 32 for byte in (0x11, 0x22, 0x77))
HEAD = formats.head(HOUSE, OPERATOR, bytes([0x33]) * 16)
BUYER = formats.Party(1, formats.CONSUMER, 1, 7, bytes([0x44]) * 32)
SELLER = formats.Party(2, formats.MERCHANT, 2, 0, bytes([0x55]) * 32)
MOMENT, CAP = 1000, 10_000

# How many orders the primary has, how often one is killed; in seconds, the whole test and one run.
ORDERS, KILLS, SECONDS, LONGEST_RUN = 6000, 30, 60, 20

# Of an acknowledgement's frame.
ROOM = 49


def fail(why):
    """Ends the test."""
    sys.exit(f"tests/standby: {why}")


def first_entries():
    """A house with two parties and funds, and orders that it paid."""
    orders = [formats.Order(BUYER, SELLER, 7, 3, MOMENT, serial, GOODS) for serial in range(ORDERS)]
    return [BUYER.entry(), SELLER.entry(), formats.Fund(BUYER.account, 100_000, 0).entry(), *(order.paid(MOMENT) for order in orders)], orders


def write_journal(path, entries, head=HEAD, cap=CAP, rate=None):
    """A journal's file."""
    path.write_bytes(formats.journal(head, cap, entries, rate))
    return path


def entries_of(path, cap=CAP):
    """The entries of a journal, without those behind its last gate."""
    read = formats.read_journal(path.read_bytes(), formats.journal(HEAD, cap, [])[:-1])
    return read[0] if read else fail(f"{path} is no journal of the house any more")


def record(place, entry, house=HOUSE, kind=formats.SHIPPED):
    """The frame of a record."""
    return formats.frame(kind, formats.shipped(house, place, entry))


def told(code, count):
    """The frame of an acknowledgement."""
    return formats.acknowledged(HOUSE, code, count)


def run(*words, given=b"", stdout=subprocess.PIPE, before=None):
    """A run of the program: its status, the place that it tells, and its output."""
    done = subprocess.run([PROGRAM, *words], input=given, stdout=stdout, stderr=subprocess.PIPE, timeout=LONGEST_RUN, preexec_fn=before)
    place = int(done.stderr.rsplit(b" ", 1)[1]) if done.stderr else 0
    return done.returncode, place, done.stdout


def see(name, came, wanted):
    """Something is as it has to be."""
    if came != wanted:
        fail(f"{name}: {came!r}, and not {wanted!r}")


def follows(name, standby, stream, answers, status=0, place=0, **more):
    """A standby that is given this stream gives these codes and counts."""
    see(name, run("follow", standby, given=stream, **more), (status, place, b"".join(told(*answer) for answer in answers)))


# ---- under fire


def one_round(draw, primary, standby, begin, is_killed):
    """Ships from a place to the standby, and kills one of the two after a number of acknowledgements: mostly the standby, since behind the other one it takes in all
    that stands in the pipe. Gives those that came whole."""
    ships = subprocess.Popen([PROGRAM, "ship", primary, str(begin)], stdout=subprocess.PIPE, stderr=subprocess.DEVNULL)
    taking = subprocess.Popen([PROGRAM, "follow", standby], stdin=ships.stdout, stdout=subprocess.PIPE, stderr=subprocess.DEVNULL)
    ships.stdout.close()
    most, answers = draw.randrange(25) if is_killed else None, []
    while most is None or len(answers) < most:
        answer = taking.stdout.read(ROOM)
        if len(answer) < ROOM:
            break
        answers.append(answer)
    if is_killed:
        time.sleep(draw.random() * 0.003)
        (ships if draw.random() < 0.2 else taking).kill()
    rest = taking.stdout.read()
    ships.wait(LONGEST_RUN), taking.wait(LONGEST_RUN)
    answers += [rest[at : at + ROOM] for at in range(0, len(rest) - ROOM + 1, ROOM)]
    if not is_killed:
        see("a pair that is left alone", (ships.returncode, taking.returncode), (0, 0))
    return answers


def under_fire(draw, folder, entries):
    """Kills one of the two again and again."""
    primary, standby = write_journal(folder / "primary", entries), folder / "standby"
    see("init", run("init", standby, str(CAP), given=HEAD), (0, 0, b""))
    known = within = 0
    for kill in range(KILLS + 1):
        stood = len(entries_of(standby))
        begin = known if draw.random() < 0.7 else draw.randint(0, known)
        answers = one_round(draw, primary, standby, begin, kill < KILLS)
        for at, answer in enumerate(answers, begin):
            see(f"the answer to record {at} in round {kill}", answer, told(1, stood) if at < stood else told(0, at + 1))
            known = max(known, at + 1)
        left = entries_of(standby)
        if left != entries[: len(left)] or len(left) < known:
            fail(f"round {kill} left {len(left)} entries that are not the first of the primary's with the {known} that were acknowledged")
        within += 0 < len(answers) < len(entries) - begin
    see("the entries in the end", entries_of(standby), entries)
    see("the primary", primary.read_bytes(), formats.journal(HEAD, CAP, entries))
    return primary, standby, within


def takes_over(primary, standby, entries, orders):
    """The standby answers in the place of the primary."""
    see("promote", run("promote", standby), (0, 0, b"promoted %d\n" % len(entries)))
    asked = b"".join(order.frame() for order in orders[::17])
    asked += b"".join(formats.status(party.id, party.key, orders[5].epoid(), 0) for party in (BUYER, SELLER))
    both = [run("batch", path, given=asked) for path in (primary, standby)]
    see("what the standby answers", both[1], both[0])
    if both[0][0] != 0 or len(both[0][2]) < 100 * len(orders[::17]):
        fail(f"the primary does not answer: {both[0][:2]}")
    see("the entries behind that", entries_of(standby), entries)


# ---- records that do harm


def harm(folder, entries):
    """Streams that no primary sends, or not so."""
    few = entries[:4]
    frames = [record(place, entry) for place, entry in enumerate(few)]
    fresh = lambda name, held=(), **more: write_journal(folder / name, held, **more)
    follows("each record in its place", fresh("straight"), b"".join(frames), [(0, 1), (0, 2), (0, 3), (0, 4)])
    follows("records 0, 2, 1, 1 and 2", fresh("crossed"), b"".join(frames[at] for at in (0, 2, 1, 1, 2)), [(0, 1), (3, 1), (0, 2), (1, 2), (0, 3)])
    follows("no record at all", fresh("none"), b"", [])
    other = record(1, few[1], house=OPERATOR)
    follows("a record of another house", fresh("other"), frames[0] + other + frames[1], [(0, 1), (4, 1), (0, 2)])
    follows("a frame of another kind", fresh("kind"), formats.frame(formats.ACKNOWLEDGED, frames[0][8:]) + frames[0], [(5, 0), (0, 1)])
    follows("a record where another entry stands", fresh("ahead", few), record(2, few[1]) + record(3, few[3]), [(2, 4), (1, 4)])
    follows("an entry that may not come next", fresh("illegal", few[:2]), record(2, few[1]) + record(2, few[2]), [(6, 2), (0, 3)])
    follows("a full standby", fresh("full", few[:2], cap=2), record(2, few[2]), [(6, 2)])
    follows("a payment without a fee where there is a rate, as in a journal that was moved", fresh("rate", few[:3], rate=25), record(3, few[3]), [(0, 4)])
    charged = formats.Order(BUYER, SELLER, 7, 500, MOMENT, 9, GOODS).charged(26, MOMENT)
    follows("a payment with the fee of another rate", fresh("other rate", few[:3], rate=25), record(3, charged), [(6, 3)])
    body = frames[0][8:]
    turned = [bytes([*body[:at], body[at] ^ 1, *body[at + 1 :]]) for at in range(len(body))]
    status, place, answers = run("follow", fresh("turned"), given=b"".join(formats.frame(formats.SHIPPED, text) for text in turned))
    codes = {answers[at + 8] for at in range(0, len(answers), ROOM)}
    see("a record with each byte turned", (status, place, codes, len(answers), entries_of(folder / "turned")), (0, 0, {4, 5}, ROOM * len(body), []))
    stream = b"".join(frames)
    for cut in (1, 7, 8, len(frames[0]) - 1, len(frames[0]) + 1, len(stream) - 1):
        whole = sum(sum(map(len, frames[: count + 1])) <= cut for count in range(len(frames)))
        follows(f"a stream of {cut} bytes", fresh("cut"), stream[:cut], [(0, count + 1) for count in range(whole)], status=5, place=cut)
    follows("what is no frame", fresh("noise"), frames[0] + b"NC" + frames[1], [(0, 1)], status=5, place=len(frames[0]) + 1)
    small = fresh("small")
    limit = len(formats.journal(HEAD, CAP, few[:1])) + 3
    follows("a disk that is full", small, frames[0] + frames[1] + frames[1], [(0, 1), (7, 1), (7, 1)], before=lambda: resource.setrlimit(resource.RLIMIT_FSIZE, (limit, limit)))
    follows("the same disk with room again", small, frames[1] + frames[2], [(0, 2), (0, 3)])


def ships(folder, entries):
    """What `ship` and `promote` come to."""
    few = entries[:4]
    primary = write_journal(folder / "few", few)
    for begin in range(5):
        see(f"ship from {begin}", run("ship", primary, str(begin)), (0, 0, b"".join(record(place, few[place]) for place in range(begin, 4))))
    see("ship from above", run("ship", primary, "5"), (16, 4, b""))
    see("ship from far above", run("ship", primary, str(2**64 - 1)), (16, 4, b""))
    see("promote", run("promote", primary), (0, 0, b"promoted 4\n"))
    see("promote a house without entries", run("promote", write_journal(folder / "empty", [])), (0, 0, b"promoted 0\n"))
    for words in (("ship", primary, "0"), ("promote", primary), ("follow", primary)):
        with open("/dev/full", "wb") as full:
            see(f"{words[0]} into an output that is full", run(*words, given=record(0, few[0]), stdout=full)[:2], (4, 0))
    (folder / "noise").write_bytes(b"noise")
    held = subprocess.Popen([PROGRAM, "follow", primary], stdin=subprocess.PIPE, stdout=subprocess.PIPE)
    held.stdin.write(record(0, few[0]))
    held.stdin.flush()
    see("a standby that waits", held.stdout.read(ROOM), told(1, 4))
    for words in (("ship", "0"), ("promote",), ("follow",)):
        see(f"{words[0]} of no journal", run(words[0], folder / "noise", *words[1:]), (8, 0, b""))
        see(f"{words[0]} of no file", run(words[0], folder / "nothing", *words[1:]), (17, 0, b""))
        see(f"{words[0]} of a journal that another process holds", run(words[0], primary, *words[1:]), (17, 0, b""))
    held.communicate(timeout=LONGEST_RUN)
    see("the standby that waited", held.returncode, 0)
    see("the journal", primary.read_bytes(), formats.journal(HEAD, CAP, few))


def shows(folder):
    """From where `examples/show` would ship next, by what a standby told last."""
    path = folder / "told"
    for answers, wanted in ([], ""), ([(0, 1), (0, 2)], "ship from 1 next time"), ([(3, 0)], "ship from 0 next time"), ([(0, 3), (2, 3)], ""), ([(4, 0)], ""):
        path.write_bytes(b"".join(told(*answer) for answer in answers))
        lines = subprocess.run([TOP / "examples/show", "acknowledgements", path], stdout=subprocess.PIPE, check=True, text=True).stdout.splitlines()
        see(f"what is shown of {answers}", ([line for line in lines if line.startswith("ship")], len(lines)), ([wanted] if wanted else [], len(answers) + (wanted != "")))


def late(number, frame):
    """Ends a test that takes too long."""
    fail(f"not done after {SECONDS} seconds")


def main():
    if not PROGRAM.is_file():
        fail(f"there is no {PROGRAM}: ./netbill builds it")
    seed = int(sys.argv[1]) if len(sys.argv) > 1 else random.randrange(10**6)
    signal.signal(signal.SIGALRM, late)
    signal.alarm(SECONDS)
    entries, orders = first_entries()
    with tempfile.TemporaryDirectory() as name:
        folder = pathlib.Path(name)
        primary, standby, within = under_fire(random.Random(seed), folder, entries)
        takes_over(primary, standby, entries, orders)
        harm(folder, entries)
        ships(folder, entries)
        shows(folder)
    print(f"tests/standby: seed {seed}, {KILLS} kills, {within} rounds that were cut; {len(entries)} entries")
    if 3 * within < KILLS:
        fail("fewer than a third of the kills fell within a round")


main()
