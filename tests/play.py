"""Scripts that the built program plays. The test holds it to this:

- The scripts of a purchase, whole, with goods of 100,000 bytes and of 1,000,000, which come in two parts, with a stop between writing and opening, and
  with what somebody injects: the report that stands here beside each.
- 100 scripts that are drawn, of up to three buyers and two sellers, with losses, repeats, stops, restarts and injections: the report of a model that
  stands in examples/scripts.py, written from FORMATS.md.
- A bad line in place of each line of a script, and behind the last: each kind of line with each word left out, one more, out of its range, with a
  leading zero, and with a party of another role or none; a line without end; no text at all; the longest script, and one byte more; 10,001 lines; bytes that are
  no text. Then status 5 at the number of the first bad line, or at the limit, and nothing is written.
- An output that is full: 4. An input that cannot be read: 3.
"""

import os
import pathlib
import random
import re
import subprocess
import sys
import time

TOP = pathlib.Path(__file__).resolve().parent.parent
sys.dont_write_bytecode = True
sys.path.insert(0, str(TOP / "examples"))
import scripts

PROGRAM = TOP / "crates/netbill/out/netbill"

# In seconds: the whole test, and one run.
SECONDS, LONGEST_RUN = 60, 20

# How many scripts are drawn, and the most bytes of a script.
DRAWN, LONGEST = 100, 1_048_576

HOUSE = f"house {'11' * 32}{'22' * 32}{'33' * 16}"
PARTIES = f"consumer 1 1 7 {'44' * 32}\nmerchant 2 2 {'55' * 32} {'66' * 32}\nfund 1 500"


def purchase(size):
    """A purchase of goods of so many bytes, up to the order that the seller sends the house."""
    return f"{HOUSE}\ncap 8\n{PARTIES}\nshelf 2 7 300 {size}\nclock 1000\nbuy 1 1 2 7 400\nserve 0\ndeliver 1\ndeliver 2\ndeliver 3\ndeliver 4\ndeliver 5\n"


def report(packets, commits, first, second, phase):
    """A report of a purchase between these two."""
    return f"packets {packets}\ncommits {commits}\nacct 1 balance {first}\nacct 2 balance {second}\npurchase 1 1 {phase}\n"


TO_THE_END = "deliver 6\nserve 7\ndeliver 8\nquiet consumer 1 1\nserve 10\ndeliver 11\n"
STOPPED = "deliver 6\ndeliver 7\nturn 1\nwrite 1\nstop without\nrestart merchant 2\nrestart consumer 1\nquiet merchant 2 1 1\nserve 8\ndeliver 9\ndeliver 10\n"
IN_PARTS = "deliver 6\ndeliver 7\ndeliver 8\nserve 9\ndeliver 10\nquiet consumer 1 1\nserve 12\ndeliver 13\n"
EARLY = f"{HOUSE}\ncap 8\n{PARTIES}\nshelf 2 7 300 0\nclock 1000\nbuy 1 1 2 7 400\nserve 0\ndeliver 1\ndeliver 2\ninject merchant 2 5 -\ndeliver 4\n"

# Each worked script with its report.
WORKED = {
    "purchase": (purchase(0) + TO_THE_END, report(12, 4, 200, 300, "paid 0")),
    "purchase of 100,000 bytes": (purchase(100_000) + TO_THE_END, report(12, 4, 200, 300, "paid 100000")),
    "purchase in parts": (purchase(1_000_000) + IN_PARTS, report(14, 4, 200, 300, "paid 1000000")),
    "purchase with a stop": (purchase(0) + STOPPED, report(11, 4, 200, 300, "paid 0")),
    "an injected order": (EARLY, report(5, 3, 500, 0, "asked")),
    "an injected request": (purchase(0) + TO_THE_END + "inject server 6 00\nserve 12\n", report(13, 4, 200, 300, "paid 0")),
}


def fail(why):
    """Ends the test."""
    sys.exit(f"tests/play: {why}")


def played(text, **more):
    """A run of the program: its status, the place that it tells, and its output."""
    run = subprocess.run([PROGRAM, "play"], input=text, stdout=more.get("stdout", subprocess.PIPE), stderr=subprocess.PIPE, timeout=LONGEST_RUN)
    told = re.fullmatch(rb"netbill: status (\d+) at (\d+)\n", run.stderr)
    if run.returncode < 0 or (told is None) != (run.returncode == 0) or (told and int(told[1]) != run.returncode):
        fail(f"ended with {run.returncode}, and said {run.stderr!r}")
    return run.returncode, int(told[2]) if told else 0, run.stdout


def holds(name, text, wanted):
    """The program says what is wanted of a text: a report, or the number of its first bad line."""
    came = played(text)
    if came != ((5, wanted, b"") if isinstance(wanted, int) else (0, 0, wanted)):
        pathlib.Path("/tmp/netbill-play.script").write_bytes(text)
        fail(f"{name}: {came}, and not {wanted!r}: /tmp/netbill-play.script")


# ---- scripts that are bad

# A good line of each kind, and what each of its words may not be.
KEY, NUMBER4, NUMBER8 = "aa" * 32, ["-1", "01", "x", "4294967296", ""], ["-1", "00", "1x", "18446744073709551616", ""]
HEXES = ["ab" * 31, "ab" * 33, "ag" * 32, "a" * 63, ""]
KINDS = {
    f"consumer 9 9 9 {KEY}": [NUMBER4 + ["0", "1", "2"], NUMBER4 + ["0", "1", "2"], NUMBER8, HEXES],
    f"merchant 9 9 {KEY} {KEY}": [NUMBER4 + ["0", "1", "2"], NUMBER4 + ["0", "1", "2"], HEXES, HEXES],
    "fund 1 5": [NUMBER4 + ["0", "9"], ["0", "01", "1000000000000000001", "999999999999999501", "x", ""]],
    "shelf 2 8 5 5": [NUMBER4 + ["1", "9"], NUMBER4 + ["7"], ["0", "1000000001", "05", ""], ["2000001", "00", "x", ""]],
    "clock 5": [NUMBER8],
    "buy 1 5 2 7 5": [NUMBER4 + ["2", "9"], NUMBER8, NUMBER4 + ["1", "9"], NUMBER4, NUMBER8],
    **{f"{name} 0": [NUMBER4] for name in ("deliver", "turn", "write", "open", "answer", "serve")},
    "quiet consumer 1 5": [["server", ""], NUMBER4 + ["2", "9"], NUMBER8],
    "quiet merchant 2 1 5": [["server", ""], NUMBER4 + ["1", "9"], NUMBER4 + ["2", "9"], NUMBER8],
    "stop with": [["", "out", "0"]],
    "stop without": [["withoutt", "With"]],
    "restart consumer 1": [["server", ""], NUMBER4 + ["2", "9"]],
    "restart merchant 2": [["server", ""], NUMBER4 + ["1", "9"]],
    "inject server 6 00": [["", "house"], ["0", "17", "06", ""], ["0", "0g", "", "ab" * 1001]],
    "inject consumer 1 6 -": [["", "seller"], NUMBER4 + ["2", "9"], ["0", "17", "06", ""], ["0", "--", ""]],
    "inject merchant 2 6 -": [["", "seller"], NUMBER4 + ["1", "9"], ["0", "17", "06", ""], ["0", "--", ""]],
}


def bad_lines():
    """Lines that are bad wherever they stand behind the parties: of each kind with each word left out or wrong, and with one more."""
    for line, wrongs in KINDS.items():
        words = line.split(" ")
        yield line + " 1"
        yield line + " "
        yield " " + line
        yield line.upper()
        for place in range(1, len(words)):
            yield " ".join(words[:place] + words[place + 1 :])
            for wrong in wrongs[place - 1]:
                yield " ".join([*words[:place], wrong, *words[place + 1 :]])
    yield from ("", " ", "play", f"house {'11' * 80}", "cap 8", "consumer", "quiet server 1 1", "stop", "inject", "buy")


def first_lines():
    """Lines that are bad as the first one, and as the second."""
    for wrong in ("", "house", f"house {'11' * 79}", f"house {'11' * 81}", f"house {'1g' * 80}", f"house {'11' * 80} 1", f"House {'11' * 80}", "cap 8"):
        yield wrong, 1
    for wrong in ("", "cap", "cap 0", "cap 10001", "cap 08", "cap 8 8", "cap x", "Cap 8", "fund 1 5", HOUSE):
        yield wrong, 2


def bad_scripts():
    """Texts that are no scripts, each with what is wrong."""
    good = purchase(0) + TO_THE_END
    lines = good.splitlines()
    for wrong, number in first_lines():
        yield f"line {number}", "\n".join([*lines[: number - 1], wrong, *lines[number:]]) + "\n"
    for wrong in bad_lines():
        yield f"{wrong!r} behind the parties", "\n".join([*lines[:6], wrong, *lines[6:]]) + "\n"
    for place in range(len(lines) + 1):
        yield f"a bad line at {place + 1}", "\n".join([*lines[:place], "serve x", *lines[place:]]) + "\n"
        yield f"{place} lines alone", "".join(line + "\n" for line in lines[:place])
        yield f"no end behind {place} lines", "".join(line + "\n" for line in lines[:place]) + "clock 5"
    for line in lines[2:6]:
        yield f"{line} behind what happens", good + line + "\n"
    yield "a full list", good.replace("cap 8", "cap 2")
    yield "too many goods", purchase(0).replace("shelf 2 7 300 0", "\n".join(f"shelf 2 {number} 1 2000000" for number in range(7, 142)))
    yield "10,000 lines", good + "clock 1000\n" * (10_000 - len(lines))
    yield "10,001 lines", good + "clock 1000\n" * (10_001 - len(lines))


def main():
    if not PROGRAM.is_file():
        fail(f"there is no {PROGRAM}: ./netbill builds it")
    seed = int(sys.argv[1]) if len(sys.argv) > 1 else random.randrange(10**6)
    begun = time.monotonic()
    for name, (text, wanted) in WORKED.items():
        holds(name, text.encode(), wanted.encode())
    stored = [(TOP / "crates/netbill" / name).read_text() for name in ("stdin", "stdout")]
    if stored != list(WORKED["purchase"]):
        fail("the stored run of the program is not the purchase")
    for number in range(DRAWN):
        text = scripts.drawn(seed * DRAWN + number)
        holds(f"script {number} of seed {seed}", text, scripts.play(text))
    bad = 0
    for name, text in bad_scripts():
        wanted = scripts.play(text.encode())
        holds(name, text.encode(), wanted)
        bad += isinstance(wanted, int)
    holds("nothing", b"", 1)
    holds("no text", b"\xff\xfe\0\n", 1)
    holds("no text behind a purchase", (purchase(0) + TO_THE_END).encode() + b"\xff\n", 21)
    # Up to the limit the first bad line is told, and behind it the limit.
    holds("the longest script", purchase(0).encode().ljust(LONGEST, b"x"), 15)
    holds("one byte more", purchase(0).encode().ljust(LONGEST + 1, b"x"), LONGEST)
    with open("/dev/full", "wb") as full:
        if played(purchase(0).encode(), stdout=full)[:2] != (4, 0):
            fail("an output that is full does not end it with 4")
    folder = os.open(TOP, os.O_RDONLY)
    run = subprocess.run([PROGRAM, "play"], stdin=folder, stdout=subprocess.PIPE, stderr=subprocess.PIPE, timeout=LONGEST_RUN)
    if (run.returncode, run.stdout) != (3, b""):
        fail("an input that cannot be read does not end it with 3")
    took = time.monotonic() - begun
    if took > SECONDS:
        fail(f"it took {took:.0f} seconds")
    print(f"tests/play: {len(WORKED)} worked scripts, {DRAWN} that were drawn with seed {seed}, {bad} bad ones, in {took:.0f} seconds")


main()
