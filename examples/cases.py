"""Requests to a house of four parties and two funds, with what each comes to: tables that were worked out by hand, from the layouts and the order
of the tests. Keys are one byte repeated. Accounts have other numbers than their parties, so that none is taken for the other."""

import hashlib
import struct

import formats

HOUSE, OPERATOR = bytes([0x11]) * 32, bytes([0x22]) * 32

# The greatest number of 64 bits, the most money that a house takes in, and the highest price.
LAST, MOST, TOP = 2**64 - 1, 10**18, 10**9

# The entries that the house may have.
CAP = 8


def enrol(id, role, account, nonce, key):
    """The party that an enrolment names."""
    return formats.Party(id, role, account, nonce, bytes([key]) * 32)


def fund(account, amount, reference):
    """Money for an account; the reference is 16 times a byte."""
    return formats.Fund(account, amount, formats.number(bytes([reference]) * 16))


# Consumers 1 and 3, merchants 2 and 4, and money for both consumers.
HELD = (
    enrol(1, 1, 11, 7, 0x44),
    enrol(2, 2, 12, 0, 0x55),
    enrol(3, 1, 13, 0, 0x88),
    enrol(4, 2, 14, 9, 0x99),
    fund(11, 500, 0),
    fund(13, 40, 1),
)

# The keys of the merchants, by their numbers.
MERCHANT_KEYS = {2: bytes([0x55]) * 32, 4: bytes([0x99]) * 32}

# Parts of a request, each within the next: the hidden part and its seal, the order with its tag, the endorsement and its seal, and the body.
HIDDEN, HIDDEN_SEAL, SIGNED, ENDORSEMENT, SEAL, BODY = "hidden part", "hidden seal", "signed order", "endorsement", "endorsement's seal", "body"

# What may be changed of an order: the moment of the request; who hands it in, and the byte of that key; who pays, who is paid, the merchant, the
# moment and the serial number of the identifier, and the price; what is hidden, and the byte of the key that it is sealed under; the account that
# is to be paid, and the byte of the goods' key. Besides, `cut` has parts with how many bytes they are cut to, or made as long by zeros, and
# `turn` parts with the place of a byte whose last bit is turned.
PLAIN = dict(
    at=1000,
    endorser=(2, 0x55),
    consumer=1,
    merchant=2,
    named=2,
    given=1000,
    serial=1,
    costs=500,
    account=11,
    nonce=7,
    hidden_key=0x44,
    credited=12,
    goods=0x77,
    cut=(),
    turn=(),
)


# What a request is called by its word.
CALLED = {"pay": "an order", "enrol": "an enrolment of", "fund": "a fund of", "status": "a status query of", "ticket": "a ticket request of"}


class Asked:
    """A request: its frame, its moment, and of an order what a house may record and show of it."""

    def __init__(self, ask, changes):
        self.ask, self.changes = ask, PLAIN | changes
        self.moment = self.changes["at"]
        kind, body = self.endorsed() if ask == PAY else self.tagged()
        self.kind, self.body = kind, self.changed(BODY, body)

    def name(self):
        """What is asked, and what is changed of it."""
        word, *rest = self.ask
        changes = [f"{what} {value}" for what, value in self.changes.items() if value != PLAIN[what] and what not in ("cut", "turn")]
        changes += [f"{part} of {size} bytes" for part, size in self.changes["cut"]]
        changes += [f"{part} turned at {place}" for part, place in self.changes["turn"]]
        return ", ".join([" ".join([CALLED[word], *map(str, rest)]), *changes])

    def frame(self):
        """Its frame."""
        return formats.frame(self.kind, self.body)

    def changed(self, part, made):
        """The bytes of a part, with what is changed of them."""
        for of, size in self.changes["cut"]:
            if of == part:
                made = made[:size].ljust(size, b"\0")
        for of, place in self.changes["turn"]:
            if of == part and place < len(made):
                made = made[:place] + bytes([made[place] ^ 1]) + made[place + 1 :]
        return made

    def tagged(self):
        """The kind and the body of a request that has a tag of its own."""
        word, *rest = self.ask
        if word in ("enrol", "fund"):
            frame = (enrol if word == "enrol" else fund)(*rest).frame(OPERATOR)
        elif word == "status":
            asker, key, merchant, serial, least = rest
            self.epoid = formats.epoid(merchant, 1000, serial)
            frame = formats.status(asker, bytes([key]) * 32, self.epoid, least)
        else:
            consumer, key, merchant, nonce = rest
            frame = formats.ticket(consumer, bytes([key]) * 32, merchant, nonce)
        return frame[3], frame[8:]

    def endorsed(self):
        """The kind and the body of an order that is handed in."""
        it = self.changes
        text = self.changed(HIDDEN, struct.pack(">IQI", it["account"], it["nonce"], 0))
        self.hidden_seal = self.changed(HIDDEN_SEAL, formats.seal(bytes([it["hidden_key"]]) * 32, b"hide", text))
        self.terms = struct.pack(">IIIQ", it["consumer"], it["merchant"], 7, it["costs"])
        self.epoid = formats.epoid(it["named"], it["given"], it["serial"])
        order = self.terms + self.epoid + bytes(96) + formats.sized(self.hidden_seal)
        order = self.changed(SIGNED, order + formats.code(bytes([0x44]) * 32, b"ordr" + order))
        self.tag = order[-32:]
        self.goods_key = bytes([it["goods"]]) * 32
        text = formats.sized(order) + struct.pack(">II", it["credited"], 0) + self.goods_key
        text = self.changed(ENDORSEMENT, text)
        self.digest = hashlib.sha256(text).digest()
        endorser, key = it["endorser"]
        seal = self.changed(SEAL, formats.seal(bytes([key]) * 32, b"endo", text))
        return formats.ENDORSED, struct.pack(">I", endorser) + formats.sized(seal)

    def paid(self):
        """The entry that pays it."""
        accounts = struct.pack(">IIQ", self.changes["account"], self.changes["credited"], self.moment)
        return bytes([formats.PAID]) + self.digest + self.epoid + self.terms + accounts + self.goods_key

    def refused(self, code, a, b):
        """The entry that refuses it."""
        return bytes([formats.REFUSED]) + self.digest + self.epoid + self.terms + struct.pack(">BQQQ", code, a, b, self.moment)

    def receipt(self, place, code, shown):
        """What a party is told of it where its entry stands at a place, and the party is shown these two numbers or none."""
        key = b"\x01" + self.goods_key if code == 0 else bytes(33)
        numbers = b"\x01" + struct.pack(">QQ", *shown) if shown else bytes(17)
        text = bytes([code]) + self.terms + self.epoid + struct.pack(">QQ", place, self.moment) + key + numbers
        return text + formats.code(HOUSE, b"rcpt" + text)


PAY = ("pay",)


# What comes of a request, by the request, how many entries are held, and the requests before it with what they came to.


class Told:
    """A reply, the entry that is recorded, if any, and the receipts of the merchant and of the consumer, if any."""

    def __init__(self, reply, entry=None, receipts=None):
        self.reply, self.entry, self.receipts = reply, entry, receipts


def done(account, place, balance):
    """An entry of this account stands at a place, and this is its balance."""
    return formats.frame(formats.DONE, struct.pack(">IQQ", account, place, balance))


def recorded(account, place, balance):
    """The entry is recorded."""
    return lambda asked, held, before: Told(done(account, place, balance), named(asked).entry())


def named(asked):
    """The party or the fund that a request names."""
    return (enrol if asked.ask[0] == "enrol" else fund)(*asked.ask[1:])


def kept(account, place, balance):
    """The entry is held already."""
    return lambda asked, held, before: Told(done(account, place, balance))


def decided(code, a, b, merchant, consumer):
    """The order is paid or refused, which is recorded, and each party has its receipt: the merchant the first one, the consumer the second."""

    def comes(asked, held, before):
        receipts = asked.receipt(held, code, merchant), asked.receipt(held, code, consumer)
        seals = (formats.seal(bytes([key]) * 32, b"rcpt", text) for key, text in zip((0x55, 0x44), receipts))
        entry = asked.refused(code, a, b) if code else asked.paid()
        return Told(formats.frame(formats.RESULT, b"".join(map(formats.sized, seals))), entry, receipts)

    return comes


PAID = decided(0, 0, 0, None, None)


def to_consumer(code, a, b):
    """The order is refused, and the consumer is shown the numbers."""
    return decided(code, a, b, None, (a, b))


def to_merchant(code, a, b):
    """The order is refused, and the merchant is shown the numbers."""
    return decided(code, a, b, (a, b), None)


def to_both(code, a, b):
    """The order is refused, and both are shown the numbers."""
    return decided(code, a, b, (a, b), (a, b))


def again(row):
    """What the order in that row was told."""
    return lambda asked, held, before: Told(before[row][1].reply)


def told(code, a, b):
    """A refusal with two numbers, of which nothing is recorded."""
    return lambda asked, held, before: Told(formats.refusal(code, a, b, bytes(32)))


def front(made):
    """The first 32 bytes, with zeros where there are fewer."""
    return made[:32].ljust(32, b"\0")


def bad_seal(asked, held, before):
    """The first bytes of the seal are shown."""
    return Told(formats.refusal(12, 0, 0, front(asked.body[8:])))


def bad_hidden(asked, held, before):
    """The first bytes of the hidden seal are shown."""
    return Told(formats.refusal(12, 0, 0, front(asked.hidden_seal)))


def bad_tag(asked, held, before):
    """The tag is shown."""
    return Told(formats.refusal(14, 0, 0, asked.tag if asked.ask == PAY else asked.body[-32:]))


def used_up(row):
    """The digest of the order in that row is shown."""
    return lambda asked, held, before: Told(formats.refusal(15, 0, 0, before[row][0].digest))


def sees(row=None):
    """The status over the entries that are held, with the receipt of the order in that row, or without one."""

    def comes(asked, held, before):
        asker, key = asked.ask[1:3]
        receipt = b"\0" if row is None else b"\x01" + before[row][1].receipts[asker == 1]
        text = struct.pack(">Q", held) + asked.epoid + receipt
        return Told(formats.frame(formats.TOLD, formats.seal(bytes([key]) * 32, b"stat", text)))

    return comes


SEES_NONE = sees()


def granted(until):
    """A ticket up to this moment."""

    def comes(asked, held, before):
        consumer, key, merchant, nonce = asked.ask[1:]
        parties = struct.pack(">II", consumer, merchant)
        session = formats.code(HOUSE, b"session" + parties + struct.pack(">QQ", nonce, asked.moment))
        ticket = formats.seal(MERCHANT_KEYS[merchant], b"tick", parties + struct.pack(">Q", until) + session)
        text = struct.pack(">IQQ", merchant, nonce, until) + session + formats.sized(ticket)
        return Told(formats.frame(formats.GRANT, formats.seal(bytes([key]) * 32, b"gran", text)))

    return comes


def asked(*ask, **changes):
    """A request with what is changed of it."""
    return Asked(ask, changes)


# Requests that are each the next one after what is held.
ALONE = (
    (asked("pay"), PAID),
    (asked("pay", cut=[(SEAL, 421)]), told(10, 4, 0)),
    (asked("pay", endorser=(9, 0x55)), told(11, 9, 0)),
    (asked("pay", endorser=(1, 0x44)), told(11, 1, 0)),
    (asked("pay", endorser=(2, 0x88), consumer=9), bad_seal),
    (asked("pay", turn=[(SEAL, 0)]), bad_seal),
    (asked("pay", turn=[(SEAL, 32)]), bad_seal),
    (asked("pay", turn=[(SEAL, 291)]), bad_seal),
    (asked("pay", cut=[(SEAL, 31)]), bad_seal),
    (asked("pay", cut=[(SIGNED, 281)]), told(10, 0, 1)),
    (asked("pay", consumer=9, merchant=4), told(11, 9, 0)),
    (asked("pay", consumer=2), told(11, 2, 0)),
    (asked("pay", merchant=4, named=9), told(13, 2, 4)),
    (asked("pay", named=9, turn=[(SIGNED, 215)]), told(13, 2, 9)),
    (asked("pay", endorser=(4, 0x99)), told(13, 4, 2)),
    (asked("pay", endorser=(4, 0x99), merchant=4), told(13, 4, 2)),
    (asked("pay", hidden_key=0x55, turn=[(SIGNED, 215)]), bad_tag),
    (asked("pay", hidden_key=0x55, costs=0), bad_hidden),
    (asked("pay", turn=[(HIDDEN_SEAL, 0)]), bad_hidden),
    (asked("pay", cut=[(HIDDEN_SEAL, 31)]), bad_hidden),
    # two tests fail, and the first is told
    (asked("pay", account=1, nonce=8), to_consumer(31, 1, 11)),
    (asked("pay", nonce=8, credited=2), to_consumer(37, 8, 7)),
    (asked("pay", credited=2, costs=0), to_merchant(32, 2, 12)),
    (asked("pay", costs=TOP + 1, at=2000), to_both(33, TOP + 1, TOP)),
    (asked("pay", costs=501, at=2000), to_both(34, 2000, 1000)),
    (asked("pay", costs=501, given=2000), to_both(35, 2000, 1000)),
    (asked("pay", costs=501), to_consumer(36, 500, 501)),
    (asked("pay", costs=TOP), to_consumer(36, 500, TOP)),
    (asked("pay", costs=0), to_both(33, 0, TOP)),
    (asked("pay", costs=1, goods=0x78), PAID),
    # the edges of time
    (asked("pay", at=1900), PAID),
    (asked("pay", at=1901), to_both(34, 1901, 1000)),
    (asked("pay", given=2300, at=2000), PAID),
    (asked("pay", given=2301, at=2000), to_both(35, 2301, 2000)),
    (asked("pay", given=0, at=LAST), to_both(34, LAST, 0)),
    (asked("pay", given=LAST), to_both(35, LAST, 1000)),
    (asked("pay", given=LAST, at=LAST), PAID),
    (asked("pay", given=LAST, at=LAST - 300), PAID),
    (asked("pay", given=LAST - 900, at=LAST), PAID),
    # the number of an enrolment is held, its account, or both by two parties, or there is a 0
    (asked("enrol", 5, 1, 15, LAST, 6), recorded(15, 6, 0)),
    (asked("enrol", 1, 1, 11, 7, 0x44), kept(11, 0, 500)),
    (asked("enrol", 4, 2, 15, 9, 0x99), told(16, 4, 14)),
    (asked("enrol", 4, 1, 14, 9, 0x99), told(16, 4, 14)),
    (asked("enrol", 4, 2, 14, 8, 0x99), told(16, 4, 14)),
    (asked("enrol", 4, 2, 14, 9, 0x98), told(16, 4, 14)),
    (asked("enrol", 5, 2, 14, 9, 0x99), told(16, 4, 14)),
    (asked("enrol", 3, 2, 14, 9, 0x99), told(16, 3, 13)),
    (asked("enrol", 0, 2, 14, 9, 0x99), told(16, 4, 14)),
    (asked("enrol", 0, 1, 15, 0, 6), told(16, 0, 0)),
    (asked("enrol", 5, 1, 0, 0, 6), told(16, 0, 0)),
    (asked("enrol", 5, 3, 15, 0, 6), told(10, 4, 0)),
    (asked("enrol", 4, 2, 15, 9, 0x99, turn=[(BODY, 80)]), bad_tag),
    (asked("fund", 11, 7, 2), recorded(11, 6, 507)),
    (asked("fund", 11, MOST - 540, 2), recorded(11, 6, MOST - 40)),
    (asked("fund", 13, 40, 1), kept(13, 5, 40)),
    (asked("fund", 11, 501, 0), told(17, 11, 500)),
    (asked("fund", 9, MOST, 1), told(17, 13, 40)),
    (asked("fund", 1, MOST, 2), told(18, 1, 0)),
    (asked("fund", 14, MOST - 539, 2), told(19, 540, MOST - 539)),
    (asked("fund", 11, 0, 2), told(10, 4, 0)),
    (asked("fund", 11, MOST + 1, 2), told(10, 4, 0)),
    (asked("fund", 9, 500, 0, turn=[(BODY, 59)]), bad_tag),
    (asked("status", 9, 0x44, 2, 1, 99), told(11, 9, 0)),
    (asked("status", 1, 0x55, 2, 1, 99), bad_tag),
    (asked("status", 1, 0x44, 2, 1, 6), SEES_NONE),
    (asked("status", 1, 0x44, 2, 1, 7), told(40, 6, 7)),
    (asked("status", 1, 0x44, 2, 1, LAST), told(40, 6, LAST)),
    (asked("ticket", 3, 0x88, 4, LAST, at=0), granted(3600)),
    # the last second is 3600 behind the moment, or the last that there is
    (asked("ticket", 1, 0x44, 2, 9, at=LAST - 3601), granted(LAST - 1)),
    (asked("ticket", 1, 0x44, 2, 9, at=LAST - 3600), granted(LAST)),
    (asked("ticket", 1, 0x44, 2, 9, at=LAST - 3599), granted(LAST)),
    (asked("ticket", 1, 0x44, 2, 0, at=LAST), granted(LAST)),
    # who asks is told before the tag, and who is asked for behind it
    (asked("ticket", 9, 0x44, 2, 9), told(11, 9, 0)),
    (asked("ticket", 0, 0x44, 2, 9), told(11, 0, 0)),
    (asked("ticket", 2, 0x55, 4, 9), told(11, 2, 0)),
    (asked("ticket", 4, 0x44, 9, 9), told(11, 4, 0)),
    (asked("ticket", 1, 0x88, 2, 9), bad_tag),
    (asked("ticket", 1, 0x44, 2, 9, turn=[(BODY, 15)]), bad_tag),
    (asked("ticket", 1, 0x44, 2, 9, turn=[(BODY, 16)]), bad_tag),
    (asked("ticket", 1, 0x55, 9, 9), bad_tag),
    (asked("ticket", 1, 0x44, 3, 9, turn=[(BODY, 47)]), bad_tag),
    (asked("ticket", 1, 0x44, 9, 9), told(11, 9, 0)),
    (asked("ticket", 1, 0x44, 3, 9), told(11, 3, 0)),
    (asked("ticket", 1, 0x44, 1, 9), told(11, 1, 0)),
)

# Requests that come one behind the other. A row that speaks of an earlier one counts from 0.
TOGETHER = (
    # an order that is refused uses up its identifier
    (asked("pay", costs=501), to_consumer(36, 500, 501)),
    (asked("pay"), used_up(0)),
    (asked("pay", costs=501, at=5000), again(0)),
    (asked("pay", serial=2), PAID),
    # from here on the journal is full
    (asked("pay", serial=2, at=5000), again(3)),
    (asked("pay", serial=2, goods=0x78), used_up(3)),
    (asked("pay", costs=501), again(0)),
    (asked("pay", serial=3, account=9), told(20, 8, 0)),
    (asked("pay", given=1001), told(20, 8, 0)),
    (asked("enrol", 5, 1, 15, 0, 6), told(20, 8, 0)),
    (asked("enrol", 5, 2, 14, 9, 0x99), told(16, 4, 14)),
    (asked("enrol", 1, 1, 11, 7, 0x44), kept(11, 0, 0)),
    (asked("fund", 11, 7, 2), told(20, 8, 0)),
    (asked("fund", 11, MOST, 2), told(19, 540, MOST)),
    (asked("fund", 11, 500, 0), kept(11, 4, 0)),
    # consumer and merchant of an order see their receipts, and others none
    (asked("status", 1, 0x44, 2, 1, 8), sees(0)),
    (asked("status", 2, 0x55, 2, 1, 0), sees(0)),
    (asked("status", 1, 0x44, 2, 2, 0), sees(3)),
    (asked("status", 2, 0x55, 2, 2, 8), sees(3)),
    (asked("status", 3, 0x88, 2, 2, 0), SEES_NONE),
    (asked("status", 4, 0x99, 2, 1, 0), SEES_NONE),
    (asked("status", 1, 0x44, 2, 3, 0), SEES_NONE),
    (asked("status", 1, 0x44, 4, 2, 0), SEES_NONE),
    (asked("status", 1, 0x44, 2, 2, 9), told(40, 8, 9)),
    # a ticket needs no room, and is made anew each time
    (asked("ticket", 1, 0x44, 2, 9), granted(4600)),
    (asked("ticket", 1, 0x44, 2, 9, at=1001), granted(4601)),
)

# A part of a request, the number that a refusal shows for it, where its fields behind the first begin, and its end.
FIELDS = (
    (("enrol", 5, 1, 15, 0, 6), BODY, 0, (4, 5, 9, 17, 49, 81)),
    (("fund", 11, 7, 2), BODY, 0, (4, 12, 28, 60)),
    (("status", 1, 0x44, 2, 1, 0), BODY, 0, (4, 20, 28, 60)),
    (("ticket", 1, 0x44, 2, 9), BODY, 0, (4, 8, 16, 48)),
    (PAY, BODY, 0, (4, 300)),
    (PAY, ENDORSEMENT, 1, (220, 224, 228, 260)),
    (PAY, SIGNED, 2, (4, 8, 12, 20, 36, 68, 100, 132, 184, 216)),
    (PAY, HIDDEN, 3, (4, 12, 16)),
)


def cuts(part, fields):
    """A part that is cut, or has a byte more, is told by the place of the last field that begins within it: each length with that place."""
    for size in range(fields[-1] + 2):
        if size != fields[-1]:
            yield size, max(place for place in (0, *fields) if place <= size)


# Consumer 1 asks for a ticket to merchant 2 under number 9, and it is granted at moment 1000: frames that another program made.
ASKED_TICKET = bytes.fromhex(
    "4e42010b000000300000000100000002000000000000000958f650d511f7c38f3deaebed0f8cd7150deebe3f4340fb81f30aaf881fff8850"
)
GRANTED_TICKET = bytes.fromhex(
    "4e42010c000000a86b466073bd2414a7dadcfd0596715106035d1b89f8baebb62ca08193d822cdc1956b30ae87b8c421d2f3ae246994bd2fb95307b44bdc3b97884a1c6beb006a49c76420f7f7918fb94d79943b3a638868867b15840bbada1a3bf459363aebe7cfa630685df83805ec97c2331d1180bb0890957938a5dfc3a6dae8688164d957ff2aec7e7a2386ab3a7daf474c4597f5d83b895f5105f3ff7be6beabcb40b5bb3df5919e0cd6e82c56"
)
