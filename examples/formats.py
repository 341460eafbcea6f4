"""The layouts of docs/FORMATS.md, with Python's standard library alone: the frames that a house is sent, the entries that it
records, its journal, and the replies that its entries give. A key is its bytes; so is an entry."""

import hashlib
import hmac
import struct
import typing

ENDORSED, RESULT, STATUS, TOLD, TICKET, GRANT, ENROL, FUND, DONE, REFUSAL = 0x06, 0x07, 0x09, 0x0A, 0x0B, 0x0C, 0x0D, 0x0E, 0x0F, 0x10
CONSUMER, MERCHANT = 1, 2
ENROLLED, FUNDED, PAID, REFUSED, CHARGED = 1, 2, 3, 4, 5
ENTRY_BYTES = {ENROLLED: 50, FUNDED: 29, PAID: 117, REFUSED: 94, CHARGED: 125}
# The kinds of frames between a primary and its standby, which are none of a session's.
SHIPPED, ACKNOWLEDGED = 0x01, 0x02
# The account of a house itself, as its four bytes.
HOUSE_ACCOUNT = bytes(4)

# The kinds of frames, by their names.
KINDS = {
    0x01: "price request",
    0x02: "quote",
    0x03: "goods request",
    0x04: "goods",
    0x05: "order for its merchant",
    0x06: "endorsed order",
    0x07: "result",
    0x08: "result, passed on",
    0x09: "status query",
    0x0A: "status",
    0x0B: "ticket request",
    0x0C: "grant",
    0x0D: "enrol",
    0x0E: "fund",
    0x0F: "done",
    0x10: "refused",
}

# Refusals and receipts, by their codes: what each says, and what its two numbers are.
CODES = {
    0: ("paid", "", ""),
    10: ("not spelled as it should be", "at byte", "of part"),
    11: ("not enrolled in the role that is asked for", "party", ""),
    12: ("no seal under the party's key", "", ""),
    13: ("another merchant than the one that endorses", "endorser", "other"),
    14: ("wrong tag", "", ""),
    15: ("identifier used up by another endorsement", "", ""),
    16: ("number or account is held", "held by", "its account"),
    17: ("reference is held", "account", "amount"),
    18: ("nobody holds the account", "account", ""),
    19: ("all funds would be too much", "so far", "amount"),
    20: ("journal is full", "cap", ""),
    31: ("the account is not the consumer's", "named", "consumer's"),
    32: ("the account is not the merchant's", "named", "merchant's"),
    33: ("price out of range", "price", "most"),
    34: ("too old", "moment", "identifier's"),
    35: ("too early", "identifier's", "moment"),
    36: ("too little in the account", "balance", "price"),
    37: ("not the consumer's nonce", "named", "consumer's"),
    40: ("fewer entries than asked for", "held", "asked for"),
    50: ("the disk failed, and what was asked is in doubt", "faults before", "after"),
    51: ("the disk failed too often, and nothing was done", "faults", ""),
    52: ("no memory", "", ""),
    53: ("this kind is not served", "kind", ""),
}

# How the program ends, by its status: what it means, what P is, and what to do.
STATUSES = {
    0: ("all requests were answered, or the journal was made", "", "look into the replies: codes 50 and 51 say that the disk failed"),
    1: ("the program was not built", "", "do what the line of the launcher says; where it shows the end of netbill.log, read that"),
    2: ("the words are none of the program's", "", "compare them with docs/netbill.1"),
    3: ("the input failed", "", "send it again: what was answered is recorded, and is told again"),
    4: ("the output failed", "", "send the input again: what was recorded is told again"),
    5: ("the input ended within a frame, or holds what is no frame, or is not what the command reads: a head, a journal without a rate, a case, a script, a shelf, offers, a key or a request", "where the input is bad, which each command counts in a way of its own: the words of the command behind this say how", "mend the input from there on; the frames before it were answered"),
    6: ("there was no memory", "", "give the process more: docs/OPERATING.md says how much a journal takes"),
    7: ("the journal's disk failed as it was opened or made, or as a wallet or a stall kept an item", "", "look at the disk and its free room, then start again"),
    8: ("the file is no journal, has a bad entry, or is damaged, or, of sell, the shelf has not what the stall sold", "place of the damage in the file, and else 0", "see first that the right file is named and, of sell, that the shelf has each product that the stall sold, with its goods; only else move the file aside, see what it holds with examples/show, and only then take the last copy, of a stall none: docs/OPERATING.md says what that forgets"),
    9: ("no journal is made: there is one, or the cap is out of its range", "", "take another file, or a cap from 1 to 1,000,000"),
    10: ("a purchase is over and no goods were had: the house refused it, or it was paid and the key of its receipt does not open the goods", "", "examples/show wallet says which; for a dispute examples/case writes the evidence"),
    11: ("as many frames were answered as one run answers", "", "start again with the rest of the input"),
    12: ("a purchase is not over, and nothing more came of the house or the seller", "", "run it again: it goes on from the wallet; where it ends so at once each time, see the product, the merchant's number, and the number and key of the wallet; where the price is above the limit, buy under another number, since a purchase keeps its limit"),
    13: ("a port failed, with connections left, or, of sell, the connection to the house did", "", "start again; of sell, see that the house listens: it goes on from the stall"),
    14: ("the wallet or the stall holds as many items as its cap says", "", "of a wallet, begin another one under the same head for further purchases, with numbers that no purchase had; of a stall, begin one for another merchant's number, and let the old one answer who bought there: under the same number its sales would have the keys of the old ones again"),
    15: ("nobody holds the account, and it is not the house's", "", "look for its number: examples/show journal has all accounts, and 0 is the house's"),
    16: ("the place from which records were asked for is above the number of entries", "how many entries stand", "ship from one below the number that the standby's last acknowledgement told; where that is above this, the standby is ahead: this is no primary of it"),
    17: ("a file or a port could not be opened, or another process holds the journal, or nobody listens at an address that is dialled", "", "see who holds it, its mode, whether the port is free, and whether the other side runs"),
}

OPEN, CLOSED = b"\xa5", b"\x00"

# As many zeros are written behind an item that reaches a multiple of this place, where it has at most so many bytes.
AHEAD, MAX_AHEAD_ITEM = 131_072, 32_768
WORD = 0xFFFFFFFF

# How long a ticket holds, in seconds, and the last moment that there is.
TICKET_LIFE, LAST_MOMENT = 3600, 0xFFFFFFFFFFFFFFFF

# The words of a block that are mixed with each other: columns, then diagonals.
QUARTERS = (
    (0, 4, 8, 12),
    (1, 5, 9, 13),
    (2, 6, 10, 14),
    (3, 7, 11, 15),
    (0, 5, 10, 15),
    (1, 6, 11, 12),
    (2, 7, 8, 13),
    (3, 4, 9, 14),
)

# Who is shown the numbers behind a refusal that is recorded.
SHOWN = {
    31: (CONSUMER,),
    32: (MERCHANT,),
    33: (CONSUMER, MERCHANT),
    34: (CONSUMER, MERCHANT),
    35: (CONSUMER, MERCHANT),
    36: (CONSUMER,),
    37: (CONSUMER,),
}


def code(key, text):
    """HMAC-SHA-256."""
    return hmac.digest(key, text, "sha256")


def block(key, place):
    """The block of the ChaCha20 keystream at this place: RFC 8439, with a counter of 64 bits and a nonce of 8 zeros."""
    start = struct.unpack("<16I", b"expand 32-byte k" + key + struct.pack("<QQ", place, 0))
    words = list(start)
    for _ in range(10):
        for a, b, c, d in QUARTERS:
            for x, y, z, turn in (a, b, d, 16), (c, d, b, 12), (a, b, d, 8), (c, d, b, 7):
                words[x] = words[x] + words[y] & WORD
                mixed = words[z] ^ words[x]
                words[z] = (mixed << turn | mixed >> 32 - turn) & WORD
    return struct.pack("<16I", *(a + b & WORD for a, b in zip(start, words)))


def seal(key, label, text):
    """The seal of a text."""
    iv = code(key, label + text)
    stream_key = code(key, b"enc" + iv)
    stream = b"".join(block(stream_key, place) for place in range(len(text) // 64 + 1))
    return iv + bytes(a ^ b for a, b in zip(text, stream))


def sized(text):
    """A text behind its length."""
    return struct.pack(">I", len(text)) + text


def frame(kind, body):
    """A frame."""
    return b"NB\x01" + struct.pack(">B", kind) + sized(body)


def signed(kind, label, key, text):
    """A frame whose body ends with its tag."""
    return frame(kind, text + code(key, label + text))


def epoid(merchant, moment, serial):
    """The identifier of an order."""
    return struct.pack(">IQI", merchant, moment, serial)


class Party(typing.NamedTuple):
    """A party as it is enrolled."""

    id: int
    role: int
    account: int
    nonce: int
    key: bytes

    def entry(self):
        """The entry that enrols it."""
        return struct.pack(">BIBIQ", ENROLLED, self.id, self.role, self.account, self.nonce) + self.key

    def frame(self, operator):
        """The frame that enrols it."""
        return signed(ENROL, b"enro", operator, self.entry()[1:])


class Fund(typing.NamedTuple):
    """Money for an account."""

    account: int
    amount: int
    reference: int

    def entry(self):
        """The entry that puts it in."""
        return struct.pack(">BIQ", FUNDED, self.account, self.amount) + self.reference.to_bytes(16, "big")

    def frame(self, operator):
        """The frame that puts it in."""
        return signed(FUND, b"fund", operator, self.entry()[1:])


class Order(typing.NamedTuple):
    """An order, and the merchant's endorsement. Its three digests, at which no house looks, are zeros where nothing else is said."""

    consumer: Party
    merchant: Party
    product: int
    price: int
    moment: int
    serial: int
    key: bytes
    memo: bytes = b""
    merchant_memo: bytes = b""
    digests: bytes = bytes(96)

    def epoid(self):
        """Its identifier."""
        return epoid(self.merchant.id, self.moment, self.serial)

    def terms(self):
        """Who buys what from whom, and the price."""
        return struct.pack(">IIIQ", self.consumer.id, self.merchant.id, self.product, self.price)

    def bytes(self):
        """The order's own bytes."""
        hidden = struct.pack(">IQ", self.consumer.account, self.consumer.nonce) + sized(self.memo)
        order = self.terms() + self.epoid() + self.digests + sized(seal(self.consumer.key, b"hide", hidden))
        return order + code(self.consumer.key, b"ordr" + order)

    def endorsement(self):
        """The endorsement before it is sealed."""
        return sized(self.bytes()) + struct.pack(">I", self.merchant.account) + sized(self.merchant_memo) + self.key

    def frame(self):
        """The frame that presents it."""
        endorsed = seal(self.merchant.key, b"endo", self.endorsement())
        return frame(ENDORSED, struct.pack(">I", self.merchant.id) + sized(endorsed))

    def front(self, kind):
        """What the two entries that may be recorded of it begin with."""
        return bytes([kind]) + hashlib.sha256(self.endorsement()).digest() + self.epoid() + self.terms()

    def paid(self, moment):
        """The entry that pays it."""
        accounts = struct.pack(">IIQ", self.consumer.account, self.merchant.account, moment)
        return self.front(PAID) + accounts + self.key

    def charged(self, rate, moment):
        """The entry that pays it where the house keeps so many thousandths of the price."""
        accounts = struct.pack(">QIIQ", self.price * rate // 1000, self.consumer.account, self.merchant.account, moment)
        return self.front(CHARGED) + accounts + self.key

    def refused(self, why, a, b, moment):
        """The entry that refuses it."""
        return self.front(REFUSED) + struct.pack(">BQQQ", why, a, b, moment)


def status(asker, key, epoid, least):
    """The frame by which a party asks what became of an order."""
    return signed(STATUS, b"stat", key, struct.pack(">I", asker) + epoid + struct.pack(">Q", least))


def ticket(consumer, key, merchant, nonce):
    """The frame by which a consumer asks for a ticket to a merchant."""
    return signed(TICKET, b"tick", key, struct.pack(">IIQ", consumer, merchant, nonce))


def head(house, operator, index):
    """A house's head."""
    return house + operator + index


def wallet_head(id, account, nonce, key):
    """The head of a wallet's journal."""
    return struct.pack(">IIQ", id, account, nonce) + key + bytes(32)


def stall_head(id, account, key, master):
    """The head of a stall's journal."""
    return struct.pack(">IIQ", id, account, 0) + key + master


def membership(consumer, until, groups):
    """What a credential says, before it is sealed."""
    return struct.pack(">IQ", consumer, until) + sized(struct.pack(f">{len(groups)}I", *groups))


def credential(keeper, consumer, until, groups):
    """A credential of a consumer, under the key of a keeper of groups."""
    return seal(keeper, b"cred", membership(consumer, until, groups))


def offers(keeper, rows):
    """The offers of a merchant: for a product and a group a price."""
    return b"".join([b"keeper ", keeper.hex().encode(), b"\n"] + [b"%d;%d;%d\n" % row for row in rows])


def journal(head, cap, entries, rate=None):
    """A journal of these entries, or of other items, one in an item. With a rate it is of the version with fees."""
    items = b"".join(OPEN + sized(entry) for entry in entries)
    magic = b"NBJRNL01" if rate is None else b"NBJRNL02"
    return magic + struct.pack(">I", cap) + head + struct.pack(">HH", rate or 0, 0) + items + CLOSED


def ahead(gate, size):
    """How many zeros are written behind an item of so many bytes, whose gate stands there."""
    reaches = gate // AHEAD < (gate + 5 + size) // AHEAD
    return AHEAD if reaches and size <= MAX_AHEAD_ITEM else 0


def shipped(house, place, entry):
    """The record of the entry at a place of a primary's list, as it is sent to a standby."""
    signed = struct.pack(">Q", place) + entry
    return signed + code(house, b"ship" + signed)


def acknowledged(house, told, count):
    """The frame by which a standby tells a code, and how many entries stand."""
    signed = struct.pack(">BQ", told, count)
    return frame(ACKNOWLEDGED, signed + code(house, b"ackn" + signed))


def number(field):
    """The number that a field spells."""
    return int.from_bytes(field, "big")


def items(image, gate):
    """The items of a journal from its first gate on, each with the place of its gate, the place of the gate behind them, and why it goes no
    further; None where that gate is not open."""
    found = []
    while True:
        if gate >= len(image):
            return found, gate, "the file ends where a gate should stand"
        if image[gate : gate + 1] != OPEN:
            return found, gate, None
        size = number(image[gate + 1 : gate + 5])
        item, behind = image[gate + 5 : gate + 5 + size], gate + 5 + size
        if behind > len(image):
            return found, gate, "the item behind this gate is cut"
        found.append((gate, item))
        gate = behind


def walk(image, gate):
    """The entries of a journal from its first gate on, the place of the gate behind them, and why it goes no further; None where that gate is not
    open."""
    entries = []
    found, behind, fault = items(image, gate)
    for place, item in found:
        spelled = split(item)
        if spelled is None:
            return entries, place, "the item behind this gate holds what is no entry"
        entries += spelled
    return entries, behind, fault


def split(item):
    """The entries of an item; None where it holds what is none."""
    entries, place = [], 0
    while place < len(item):
        size = ENTRY_BYTES.get(item[place], 0)
        if not 0 < size <= len(item) - place:
            return None
        entries.append(item[place : place + size])
        place += size
    return entries


def read_journal(image, front):
    """The entries of a journal that begins with this front, and the place of the gate behind them; None where it is no such journal."""
    if not image.startswith(front):
        return None
    entries, gate, fault = walk(image, len(front))
    return None if fault else (entries, gate)


def unsealed(key, label, sealed):
    """The text that these bytes are the seal of, or None."""
    stream_key = code(key, b"enc" + sealed[:32])
    stream = b"".join(block(stream_key, place) for place in range(len(sealed) // 64 + 1))
    text = bytes(a ^ b for a, b in zip(sealed[32:], stream))
    return text if code(key, label + text) == sealed[:32] else None


class Case(typing.NamedTuple):
    """The evidence of a dispute."""

    house: bytes
    consumer: bytes
    order: bytes
    receipt: bytes
    sealed: bytes

    def evidence(self):
        """Its bytes before the sealed goods."""
        return self.house + self.consumer + sized(self.order) + sized(self.receipt)

    def bytes(self):
        """Its bytes."""
        return self.evidence() + sized(self.sealed)

    def ruling(self, opens):
        """What is ruled of it, in words, and what that shows. 'opens' says whether bytes are sealed goods under a key."""
        if code(self.consumer, b"ordr" + self.order[:-32]) != self.order[-32:]:
            return "no order", self.order[-32:].hex()
        text = unsealed(self.consumer, b"rcpt", self.receipt)
        if text is None or len(text) != 135 or code(self.house, b"rcpt" + text[:-32]) != text[-32:]:
            return "no receipt", self.receipt[:32].ljust(32, bytes(1)).hex()
        pairs = (text[21:37], self.order[20:36]), (text[1:5], self.order[:4]), (text[5:9], self.order[4:8]), (text[9:13], self.order[8:12]), (text[13:21], self.order[12:20])
        for field, (told, ordered) in enumerate(pairs, 1):
            if told != ordered:
                return f"other order {field}", ""
        if text[0]:
            return f"not paid {text[0]}", ""
        given = hashlib.sha256(self.sealed).digest()
        if given != self.order[36:68]:
            return "wrong goods", f"{self.order[36:68].hex()} {given.hex()}"
        if not opens(text[54:86], self.sealed):
            return "wrong key", self.sealed[:32].ljust(32, bytes(1)).hex()
        return f"key opens {len(self.sealed) - 32}", ""


def opens(key, sealed):
    """Whether bytes are sealed goods under a key."""
    return len(sealed) >= 32 and unsealed(key, b"good", sealed) is not None


def moves(entry):
    """What an entry brings into accounts and takes from them: an account's four bytes, and how much more is in it."""
    if entry[0] == FUNDED:
        return [(entry[1:5], number(entry[5:13]))]
    price = number(entry[61:69])
    if entry[0] == PAID:
        return [(entry[69:73], -price), (entry[73:77], price)]
    if entry[0] == CHARGED:
        fee = number(entry[69:77])
        return [(entry[77:81], -price), (entry[81:85], price - fee), (HOUSE_ACCOUNT, fee)]
    return []


def balance(entries, account):
    """What is in an account, which is given as its four bytes."""
    return sum(amount for entry in entries for moved, amount in moves(entry) if moved == account)


def statement(entries, account):
    """The statement of an account over these entries, line by line. The account is given as its number."""
    lines, behind = [f"account {account}"], 0
    for entry in entries:
        for moved, amount in moves(entry):
            if number(moved) == account:
                behind += amount
                if entry[0] == FUNDED:
                    word, name = "fund", entry[13:29]
                else:
                    word, name = "out" if amount < 0 else "in" if account else "fee", entry[33:49]
                lines.append(f"{len(lines):>8} {word:<4} {name.hex()} {abs(amount):>20} {behind:>20}")
    return [line + "\n" for line in [*lines, f"closing {behind}"]]


def balances(entries, accounts):
    """What is in each of these accounts, and in the house's where it kept fees, in one walk over the entries."""
    held = dict.fromkeys(accounts, 0)
    for entry in entries:
        if entry[0] == CHARGED:
            held.setdefault(HOUSE_ACCOUNT, 0)
        for account, amount in moves(entry):
            held[account] += amount
    return held.items()


def key_of(entries, id):
    """The key of a party, which is given as the four bytes of its id."""
    return next(entry[18:50] for entry in entries if entry[0] == ENROLLED and entry[1:5] == id)


def receipt(house, entry, place, role):
    """The receipt that a party of an order gets where the order's entry stands at a place."""
    key, shown = bytes(33), bytes(17)
    if entry[0] == PAID:
        why, moment, key = 0, entry[77:85], b"\x01" + entry[85:117]
    elif entry[0] == CHARGED:
        why, moment, key = 0, entry[85:93], b"\x01" + entry[93:125]
    else:
        why, moment = entry[69], entry[86:94]
        if role in SHOWN[why]:
            shown = b"\x01" + entry[70:86]
    text = bytes([why]) + entry[49:69] + entry[33:49] + struct.pack(">Q", place) + moment + key + shown
    return text + code(house, b"rcpt" + text)


def reply(house, entries, place):
    """The reply of a house with these entries to the request whose entry stands at a place."""
    entry = entries[place]
    if entry[0] in (ENROLLED, FUNDED):
        account = entry[6:10] if entry[0] == ENROLLED else entry[1:5]
        return frame(DONE, account + struct.pack(">QQ", place, balance(entries, account)))
    parts = (entry[53:57], MERCHANT), (entry[49:53], CONSUMER)
    sealed = (seal(key_of(entries, id), b"rcpt", receipt(house, entry, place, role)) for id, role in parts)
    return frame(RESULT, b"".join(map(sized, sealed)))


def told(house, entries, asker, epoid):
    """The reply of a house with these entries to a status query. The one who asks is given as the four bytes of its id."""
    found = b"\x00"
    for place, entry in enumerate(entries):
        if entry[0] in (PAID, CHARGED, REFUSED) and entry[33:49] == epoid and asker in (entry[49:53], entry[53:57]):
            role = CONSUMER if asker == entry[49:53] else MERCHANT
            found = b"\x01" + receipt(house, entry, place, role)
            break
    text = struct.pack(">Q", len(entries)) + epoid + found
    return frame(TOLD, seal(key_of(entries, asker), b"stat", text))


def grant(house, consumer, merchant, nonce, moment):
    """The reply of a house that grants a consumer a ticket to a merchant, at a moment. The two are parties."""
    until = min(moment + TICKET_LIFE, LAST_MOMENT)
    parties = struct.pack(">II", consumer.id, merchant.id)
    session = code(house, b"session" + parties + struct.pack(">QQ", nonce, moment))
    shown = seal(merchant.key, b"tick", parties + struct.pack(">Q", until) + session)
    text = struct.pack(">IQQ", merchant.id, nonce, until) + session + sized(shown)
    return frame(GRANT, seal(consumer.key, b"gran", text))


def refusal(why, a, b, x):
    """The reply that refuses a request and records nothing."""
    return frame(REFUSAL, struct.pack(">BQQ", why, a, b) + x)


class Field(typing.NamedTuple):
    """A field of a layout: so many bytes, or a text of at most so many behind its length. The values are the ones that a test takes,
    and next to them ones that are not allowed."""

    width: int
    text: bool = False
    value: int = None
    bad: tuple = ()


def text(most):
    """A text of at most so many bytes."""
    return Field(most, text=True)


NUMBER, LONG, EPOID, WIDE = Field(4), Field(8), Field(16), Field(32)
ROLE = Field(1, value=2, bad=(0, 3))
AMOUNT = Field(8, value=10**18, bad=(0, 10**18 + 1))

# The bodies, by their kind. Those of 0A and 0C are sealed as a whole, and have at most so many bytes.
BODIES = {
    0x01: (text(80), text(112)),
    0x02: (LONG, text(52)),
    0x03: (text(80), text(48)),
    0x04: (LONG, text(104), text(1_000_000)),
    0x05: (text(80), text(324)),
    0x06: (NUMBER, text(420)),
    0x07: (text(167), text(167)),
    0x08: (LONG, text(167)),
    0x09: (NUMBER, EPOID, LONG, WIDE),
    0x0B: (NUMBER, NUMBER, LONG, WIDE),
    0x0D: (NUMBER, ROLE, NUMBER, LONG, WIDE, WIDE),
    0x0E: (NUMBER, AMOUNT, EPOID, WIDE),
    0x0F: (NUMBER, LONG, LONG),
    0x10: (Field(1), LONG, LONG, WIDE),
}
WHOLE_BODIES = {0x0A: 192, 0x0C: 168}

# What is sealed in messages, and an endorsed order, a status query, an enrolment and a fund.
RECORDS = {
    "endorsed order": BODIES[0x06],
    "status query": BODIES[0x09],
    "enrolment": BODIES[0x0D],
    "funding": BODIES[0x0E],
    "price request": (LONG, NUMBER, text(64)),
    "quote": (LONG, NUMBER, LONG),
    "goods request": (LONG, LONG),
    "goods head": (LONG, EPOID, LONG, LONG, WIDE),
    "payment request": (LONG, text(280)),
}

# What a wallet keeps behind the kind of an item, and a stall. The first fields of each name the purchase: the consumer's number of it, behind the
# consumer in a stall.
WALLET_ITEMS = {
    1: (LONG, NUMBER, NUMBER, LONG, text(64), text(64)),
    2: (LONG, WIDE, text(80)),
    3: (LONG, LONG),
    4: (LONG, text(280), text(1_000_000)),
    5: (LONG, Field(135)),
    6: (LONG, EPOID, LONG, WIDE, LONG, text(1_000_000)),
    8: (LONG,),
}
STALL_ITEMS = {
    1: (NUMBER, LONG, NUMBER, LONG, WIDE),
    2: (NUMBER, LONG, EPOID, WIDE),
    3: (NUMBER, LONG, text(280)),
    4: (NUMBER, LONG, text(167)),
}


def parted(fields, made):
    """The fields that bytes are of, and nothing else; None where they are not of this layout."""
    found, place = [], 0
    for field in fields:
        width = field.width
        if field.text:
            width, place = number(made[place : place + 4]), place + 4
            if width > field.width:
                return None
        found.append(made[place : place + width])
        place += width
    return found if place == len(made) else None


def spelled(fields):
    """Bytes of a layout, and the places of its fields. The bytes of each field are its number, from 1 on; a text has three."""
    made, places = b"", []
    for number, field in enumerate(fields, 1):
        places.append(len(made))
        if field.text:
            made += sized(bytes([number] * 3))
        elif field.value is None:
            made += bytes([number] * field.width)
        else:
            made += field.value.to_bytes(field.width, "big")
    return made, places


def cuts(fields):
    """How many bytes of a layout are left, and the place that is then bad: at each field's front, within a text's length and behind it,
    and one byte before the field's end."""
    made, places = spelled(fields)
    for field, place, end in zip(fields, places, places[1:] + [len(made)]):
        for cut in sorted({place, end - 1} | ({place + 2, place + 4} if field.text else set())):
            yield cut, place


def faults(fields):
    """Bytes that break one field of a layout, and its place: the length of a text above its limit, a value that is not allowed, with
    what follows it and with nothing behind it; and the place of the first byte behind the layout."""
    made, places = spelled(fields)
    for field, place in zip(fields, places):
        for bad in field.bad:
            front = made[:place] + bad.to_bytes(field.width, "big")
            yield front + made[place + field.width :], place
            yield front, place
        if field.text:
            yield made[:place] + struct.pack(">I", field.width + 1) + made[place + 4 :], place
    yield made + b"\0", len(made)
