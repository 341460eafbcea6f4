"""A client of a house that serves, with Python's standard library alone: it sends a frame and takes its reply, over whichever of the house's ports
takes a connection."""

import contextlib
import errno
import os
import re
import socket

import formats

# How many ports a house may listen on, one a worker, and how long a connection and a reply are waited for, in seconds.
PORTS, LONGEST_DIAL, LONGEST_REPLY = 64, 10, 60

# The most bytes of a reply's body that are taken: far more than any has.
MOST_BODY = 4096

# A frame is tried over so many connections one after another.
TRIES = 3


class Unanswered(Exception):
    """Why there is no reply."""


def address(word):
    """The host and the port that a word names, as 127.0.0.1:7000 or [::1]:7000."""
    found = re.fullmatch(r"\[([0-9A-Fa-f:.]+)\]:([0-9]{1,5})|([0-9.]+):([0-9]{1,5})", word)
    if not found:
        raise ValueError(word)
    host, port = (found[1], int(found[2])) if found[1] else (found[3], int(found[4]))
    socket.getaddrinfo(host, port, flags=socket.AI_NUMERICHOST)
    if not 1 <= port <= 65535:
        raise ValueError(word)
    return host, port


def dialled(host, port):
    """A connection to a port. Where nobody listens at a port from which the system takes those of connections, it may join a socket to itself: that is no
    connection."""
    link = socket.create_connection((host, port), timeout=LONGEST_DIAL)
    if link.getsockname() == link.getpeername():
        link.close()
        raise ConnectionRefusedError(errno.ECONNREFUSED, os.strerror(errno.ECONNREFUSED))
    return link


class House:
    """A house at an address, and the connection to it, if there is one."""

    def __init__(self, host, port):
        self.host, self.port, self.link = host, port, None

    def connect(self):
        """Connects to the first port that takes a connection, from the one that was named on."""
        for port in range(self.port, min(self.port + PORTS, 65536)):
            with contextlib.suppress(OSError):
                self.link = dialled(self.host, port)
                self.link.settimeout(LONGEST_REPLY)
                return
        raise Unanswered(f"nobody takes a connection at port {self.port} of {self.host}, or at one of the {PORTS - 1} behind it")

    def close(self):
        """Ends the connection."""
        if self.link:
            self.link.close()
        self.link = None

    def take(self, size):
        """So many bytes of the connection; fewer where it ends."""
        bytes_read = b""
        while len(bytes_read) < size:
            piece = self.link.recv(size - len(bytes_read))
            if not piece:
                break
            bytes_read += piece
        return bytes_read

    def reply(self):
        """The next reply, whole; None where the connection ends before it begins or within it."""
        head = self.take(8)
        if not (b"NB\x01" + head[3:])[: len(head)] == head or (len(head) > 3 and head[3] not in formats.KINDS):
            raise Unanswered("what answers is no house: its reply is no frame")
        size = formats.number(head[4:8])
        if len(head) == 8 and size > MOST_BODY:
            raise Unanswered(f"what answers is no house: its reply would have {size} bytes")
        body = self.take(size) if len(head) == 8 else b""
        return head + body if len(head) == 8 and len(body) == size else None

    def ask(self, frame):
        """The reply to a frame. Where the connection ends before it, the frame is sent again over a new one: a house tells again what it recorded."""
        why = None
        for _ in range(TRIES):
            try:
                if self.link is None:
                    self.connect()
                self.link.sendall(frame)
                reply = self.reply()
                if reply is not None:
                    return reply
                why = "each connection ended before the reply"
            except TimeoutError:
                why = f"no reply came within {LONGEST_REPLY} seconds"
            except OSError as fault:
                why = fault.strerror or str(fault)
            self.close()
        raise Unanswered(why)


def code(reply):
    """The code of a refusal; None of another reply."""
    return reply[8] if reply[3] == formats.REFUSAL and len(reply) == 57 else None
