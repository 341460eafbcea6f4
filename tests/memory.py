"""Refuses each growth of memory of the house's program once, one in a run: of a batch of a first purchase, of making and moving a journal, of a
statement, of a script that is played, and of a server that one link asks for the same purchase. A library that is put before the C library does it (failing.c). The program is
held to this:

- It ends with 6, or with the status of a run that is left alone where it did without; it is not ended by a signal. A server may end so too whose
  session had no memory to begin: then its link is closed without a reply.
- Each reply that was handed out whole is the one that entries of the journal give which stand in it behind the run, and none says that there was no
  memory: a turn takes none.
- The journal is opened again behind each run, and is given the same requests: all are answered, and the entries are what they ask for, each once.

How many growths there were of each is told.
"""

import pathlib
import signal
import socket
import subprocess
import sys
import tempfile
import time

import failing
from failing import CAP, CONSUMER, HEAD, MERCHANT, PROGRAM, RATE, fail, formats, run

ENOMEM, SECONDS = 12, 600


def refusing(count):
    """Each growth of so many, refused, in words."""
    return [f"memory {number} {ENOMEM}" for number in range(1, count + 1)]


def growths(folder, words, text):
    """How often a run that is left alone asks for memory."""
    count = failing.counted(folder, words, text)["memory"]
    return count or fail(f"{words[0]} asks for no memory through the C library")


def batches(folder, asked):
    """A batch of a first purchase. How many growths it has."""
    journal, empty = folder / "house.journal", formats.journal(HEAD, CAP, [])
    text = b"".join(frame for frame, _ in asked)
    journal.write_bytes(empty)
    count = growths(folder, ["batch", journal], text)
    for words in refusing(count):
        journal.write_bytes(empty)
        status, sent, line = run(["batch", journal], text, words)
        whole = len(failing.frames_of(sent)) == len(asked)
        if failing.see_replies(words, [it for _, it in asked], journal, sent) or status not in (0, 6) or (status == 0) != whole or sent and status == 6:
            fail(f"{words}: a batch ended with status {status}, {line!r}, and {len(failing.frames_of(sent))} replies")
        failing.see_all(words, asked, journal)
    return count


def makings(folder):
    """Making a journal, and moving one. How many growths they have."""
    old, counts = formats.journal(HEAD, CAP, [CONSUMER.entry(), MERCHANT.entry()]), []
    for words, text in (["init", str(CAP)], HEAD), (["migrate", str(RATE)], old):
        journal = folder / f"{words[0]}.journal"
        words = [words[0], journal, words[1]]
        journal.unlink(missing_ok=True)
        counts.append(growths(folder, words, text))
        whole = journal.read_bytes()
        for told in refusing(counts[-1]):
            journal.unlink(missing_ok=True)
            status, sent, line = run(words, text, told)
            left = journal.read_bytes() if journal.exists() else b""
            if sent or status not in (0, 6) or left != (whole if status == 0 else b""):
                fail(f"{told}: {words[0]} ended with status {status}, {line!r}, and left {left.hex()}")
            if run(words, text)[0] != (9 if status == 0 else 0) or journal.read_bytes() != whole:
                fail(f"{told}: {words[0]} did not end well when it was done again")
    return counts


def statements(folder):
    """A statement. How many growths it has."""
    entries, journal = [CONSUMER.entry(), *(formats.Fund(1, amount, amount).entry() for amount in range(1, 61))], folder / "told.journal"
    image, text = formats.journal(HEAD, CAP, entries), "".join(formats.statement(entries, 1)).encode()
    journal.write_bytes(image)
    words = ["statement", journal, "1"]
    count = growths(folder, words, b"")
    for told in refusing(count):
        status, sent, line = run(words, b"", told)
        if status not in (0, 6) or sent != (text if status == 0 else b"") or journal.read_bytes() != image:
            fail(f"{told}: a statement ended with status {status}, {line!r}, and {len(sent)} bytes")
    return count


def free_port():
    """A port that nobody listens on."""
    with socket.socket() as tried:
        tried.bind(("127.0.0.1", 0))
        return tried.getsockname()[1]


def dial(process, port):
    """A link to a server, once it listens; nothing where it ended before."""
    while process.poll() is None:
        try:
            return socket.create_connection(("127.0.0.1", port), timeout=20)
        except ConnectionError:
            time.sleep(0.002)
    return None


def asks(link, text):
    """What comes back over a link for these frames, up to its end."""
    told = b""
    try:
        link.sendall(text)
        link.shutdown(socket.SHUT_WR)
        while piece := link.recv(65536):
            told += piece
    except OSError:
        pass
    link.close()
    return told


def serve(journal, text, more):
    """A server of one worker and one link, which asks for these frames: the status, and what was told."""
    port = free_port()
    words, env = ["serve", journal, f"127.0.0.1:{port}", "1", "1"], {**more, "LD_PRELOAD": failing.library}
    process = subprocess.Popen([PROGRAM, *words], stderr=subprocess.DEVNULL, env=env)
    link = dial(process, port)
    told = asks(link, text) if link else b""
    try:
        status = process.wait(timeout=20)
    except subprocess.TimeoutExpired:
        process.kill()
        fail(f"{more}: a server did not end behind its one link")
    if status < 0:
        fail(f"{more}: a server was ended by signal {-status}")
    return status, told


def sessions(folder, asked):
    """A session of a server. How many growths it has, with those of the server."""
    journal, empty, calls = folder / "served.journal", formats.journal(HEAD, CAP, []), folder / "calls"
    text = b"".join(frame for frame, _ in asked)
    journal.write_bytes(empty)
    calls.unlink(missing_ok=True)
    status, told = serve(journal, text, {"NETBILL_CALLS": str(calls)})
    if status != 0 or len(failing.frames_of(told)) != len(asked):
        fail(f"a server that is left alone ended with status {status} and {len(failing.frames_of(told))} replies")
    count = calls.read_text().split().count("memory")
    for words in refusing(count):
        journal.write_bytes(empty)
        status, told = serve(journal, text, {"NETBILL_FAILS": words})
        answered = len(failing.frames_of(told))
        if failing.see_replies(words, [it for _, it in asked], journal, told) or status not in (0, 6) or answered not in (0, len(asked)):
            fail(f"{words}: a server ended with status {status}, and {answered} replies")
        failing.see_all(words, asked, journal)
    return count


def plays(folder):
    """Playing the script of a purchase. How many growths it has."""
    stored = PROGRAM.parent.parent
    text, report = (stored / "stdin").read_bytes(), (stored / "stdout").read_bytes()
    count = growths(folder, ["play"], text)
    for words in refusing(count):
        status, sent, line = run(["play"], text, words)
        if (status, sent) not in ((0, report), (6, b"")):
            fail(f"{words}: playing ended with status {status}, {line!r}, and {sent!r}")
    return count


def late(number, frame):
    """Ends a test that takes too long."""
    fail(f"not done after {SECONDS} seconds")


def test(folder):
    """The test."""
    why = failing.builds(folder)
    if why:
        print(f"{failing.TEST}: passed over: {why}")
        return
    asked = list(failing.requests(int(time.time()), 1))
    made, moved = makings(folder)
    print(f"{failing.TEST}: {made} growths of making a journal were refused, {moved} of moving one, {statements(folder)} of a statement, {plays(folder)} of a script", flush=True)
    print(f"{failing.TEST}: {batches(folder, asked)} of a batch of {len(asked)} requests", flush=True)
    print(f"{failing.TEST}: {sessions(folder, asked)} of a server with a session of as many")


if __name__ == "__main__":
    if not PROGRAM.exists():
        fail("the program is not built: 'rt run' in crates/netbill builds it")
    signal.signal(signal.SIGALRM, late)
    signal.alarm(SECONDS)
    with tempfile.TemporaryDirectory() as name:
        test(pathlib.Path(name))
