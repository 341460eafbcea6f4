"""What the programs share that write trials of purchases: the keys of a consumer and of a merchant, one purchase of theirs, and the messages that each of them
hears and sends in it. What is kept and sent of the consumer's came from another program, and what is of the merchant's is made here from the layouts."""

import hashlib
import struct

import formats

# The keys of the consumer and the merchant, what the keys of its goods are made from, the key of the ticket, and another.
STALL, MASTER = b"\x55" * 32, b"\x66" * 32
WALLET, SESSION, OTHER = b"\x44" * 32, bytes.fromhex("444268dd69f4fb4c4fa7c8d9535ec798603f1af0af74a31704d122bf69624a3b"), b"\x45" * 32

# What is kept of the purchase: started, granted, wanted, ordered, ended.
ITEMS = (
    "010000000000000001000000020000000700000000000001900000000000000000",
    "020000000000000001444268dd69f4fb4c4fa7c8d9535ec798603f1af0af74a31704d122bf69624a3b000000502e076bba014ab591b72fc5b5246651d46e275cfd1da4550916d5d6e5184d2d41ba5ff9dd47ab7c2f9d087740280fed39005af38834881f75649e3ff56fdd8bebffb700de65005c7247b30d7012030d84",
    "030000000000000001000000000000012c",
    "040000000000000001000000d8000000010000000200000007000000000000012c0000000200000000000003e8000000019908532e295bfc3eed43db5ba6d94eb0ee60c4425dbb4b587d7d5fd577401eec6c3b21507c84376c2afdcbc4d32c0d1cc6fcbcbbb89856fce0fc3bd0967012541dd80d7fe0dc850adf5e3fdfdf4ec3b4ed923908aa306f2d8bdcdf8519fd217100000030e59a35fbd516f4f2cccd02f1ff0cf55e491322387efff0deda17c23a6b6b6c23bced5152ccfcaf904e7d353b36b5703777ebf95f6446b2a297a701a76f0e75619dc7e9be7ff3ab876bb9e8db8f3eb149000000205f362320eb51a208a33657a59fdddcd9520168fe6f7ef3528a34f122250429ae",
    "05000000000000000100000000010000000200000007000000000000012c0000000200000000000003e800000001000000000000000300000000000003e801b40673f14661747fc9df428fd8ad1b46fa49553fbda017a7351aa56d24e2d73e0000000000000000000000000000000000b4e2e02a5f463cb8d9479480460b208103b360d48704701e1d016f15df6cec37",
)

# What is sent in it: the requests for a ticket, a price and goods, the order, the status query.
SENT = (
    "0000000100000002000000000000000114af6eef16f1874284a625b81abd550fd5d8bb4f0b0e7c40d99c8b3615179f8f",
    "000000502e076bba014ab591b72fc5b5246651d46e275cfd1da4550916d5d6e5184d2d41ba5ff9dd47ab7c2f9d087740280fed39005af38834881f75649e3ff56fdd8bebffb700de65005c7247b30d7012030d8400000030a4749c2328ddb022a190117bb55e97b34bc61c8865a2f47de19d7c42e6eb1803b5fcec9fdb4ca07aa78bc61bfd16157c",
    "000000502e076bba014ab591b72fc5b5246651d46e275cfd1da4550916d5d6e5184d2d41ba5ff9dd47ab7c2f9d087740280fed39005af38834881f75649e3ff56fdd8bebffb700de65005c7247b30d7012030d8400000030ff173509ffdca102fbf4c33e43c2f15051ef53dfc065e949ba5f39f84723664e803e710279a234325a35eb2f349ac57f",
    "000000502e076bba014ab591b72fc5b5246651d46e275cfd1da4550916d5d6e5184d2d41ba5ff9dd47ab7c2f9d087740280fed39005af38834881f75649e3ff56fdd8bebffb700de65005c7247b30d7012030d84000001041072a6766dd44d965258875b0ae64ee773480ae69ee7b338b2962b2ccd5280a4a9666b4620838bf958dc426995245b8ad222efae2fbf2fa4c80813ec763cc949eeb4386fad7a372eec0fffcfed5ee8b75e47f22e0db748d064703a2dea063c11ed2a508a4bb75cf2748e8e13231740f858264fea37c2bf6c083b6375abd8ce2ed1d3474af4f398ed03a50d7296edc0c2a42c9207a86651302a9d4e2f69693696c723aa8851294cc0fe394791c2400470d68ee07b25e7c989e77e6ff8314df563d579f6d9c860fa20e67e4526e324db9295f3c0c8fcc60b81ab571234c20e34da524e9dac2c7be6512c6b1287d3b2cacade80474a502f2e0dfc63b249f1d1816601d9bca6",
    "000000010000000200000000000003e800000001000000000000000055893c9849e974742e6bb0f1e9160d214edfe538d9909286e8770aa18266bf11",
)

# What is sealed in the messages that come: the grant, the quote, what is said of the goods, the receipt, the status; and the sealed goods.
GRANT = "00000002000000000000000100000000000011f8444268dd69f4fb4c4fa7c8d9535ec798603f1af0af74a31704d122bf69624a3b000000502e076bba014ab591b72fc5b5246651d46e275cfd1da4550916d5d6e5184d2d41ba5ff9dd47ab7c2f9d087740280fed39005af38834881f75649e3ff56fdd8bebffb700de65005c7247b30d7012030d84"
QUOTE = "000000000000000100000007000000000000012c"
HEAD = "00000000000000010000000200000000000003e800000001000000000000002000000000000000009908532e295bfc3eed43db5ba6d94eb0ee60c4425dbb4b587d7d5fd577401eec"
RECEIPT = "00000000010000000200000007000000000000012c0000000200000000000003e800000001000000000000000300000000000003e801b40673f14661747fc9df428fd8ad1b46fa49553fbda017a7351aa56d24e2d73e0000000000000000000000000000000000b4e2e02a5f463cb8d9479480460b208103b360d48704701e1d016f15df6cec37"
STATUS = "00000000000000040000000200000000000003e8000000010100000000010000000200000007000000000000012c0000000200000000000003e800000001000000000000000300000000000003e801b40673f14661747fc9df428fd8ad1b46fa49553fbda017a7351aa56d24e2d73e0000000000000000000000000000000000b4e2e02a5f463cb8d9479480460b208103b360d48704701e1d016f15df6cec37"
GOODS = "5f362320eb51a208a33657a59fdddcd9520168fe6f7ef3528a34f122250429ae"

# What is kept of a purchase whose receipt has another key, up to its end.
FOUL_ITEMS = (
    "010000000000000001000000020000000700000000000001f40000000000000000",
    "020000000000000001444268dd69f4fb4c4fa7c8d9535ec798603f1af0af74a31704d122bf69624a3b000000502e076bba014ab591b72fc5b5246651d46e275cfd1da4550916d5d6e5184d2d41ba5ff9dd47ab7c2f9d087740280fed39005af38834881f75649e3ff56fdd8bebffb700de65005c7247b30d7012030d84",
    "03000000000000000100000000000001f4",
    "040000000000000001000000d800000001000000020000000700000000000001f40000000200000000000003e8000000013c1df17b2c55357f284ed947803baec0eef085072c8d1226b18eb364eb9eb0826c3b21507c84376c2afdcbc4d32c0d1cc6fcbcbbb89856fce0fc3bd0967012541dd80d7fe0dc850adf5e3fdfdf4ec3b4ed923908aa306f2d8bdcdf8519fd217100000030e59a35fbd516f4f2cccd02f1ff0cf55e491322387efff0deda17c23a6b6b6c23bced5152ccfcaf904e7d353b36b57037d87e7255016d5708875b15a9ff08c0854b08a2f30396dc9762119d038324f2d9000000224bbea1794b8005ff6309f8f7c520185a8b240c0bcaa821fd15497e1d3197a4d7a9f2",
    "0500000000000000010000000001000000020000000700000000000001f40000000200000000000003e800000001000000000000000300000000000003e80177777777777777777777777777777777777777777777777777777777777777770000000000000000000000000000000000151084845cb2a97f2488aedd273b23a9e561ecfb5d64e85244dfb24605e7e44b",
)

# A receipt with code 36, for a balance of 1, of the order of the purchase.
REFUSED = "24000000010000000200000007000000000000012c0000000200000000000003e800000001000000000000000300000000000003e80000000000000000000000000000000000000000000000000000000000000000000100000000000000010000000000000002abababababababababababababababababababababababababababababababab"

# Messages of kinds that a consumer takes none of, and a refusal.
OTHERS = (
    (0x06, "0000000200000000"),
    (0x07, "0000000000000000"),
    (0x0D, "000000030100000000000000000000000000000000000000000000000000000000000000000000000000000000000000000000000000000000000000000000000000000000000000000000000000000000"),
    (0x0E, "000000010000000000000001000000000000000000000000000000000000000000000000000000000000000000000000000000000000000000000000"),
    (0x0F, "0000000000000000000000000000000000000000"),
    (0x10, "24000000000000000000000000000000000000000000000000000000000000000000000000000000000000000000000000"),
)

# Kinds of messages: the label under which what they have is sealed, and what it is.
KINDS = {0x0C: (b"gran", GRANT), 0x02: (b"m002", QUOTE), 0x04: (b"m004", HEAD), 0x08: (b"rcpt", RECEIPT), 0x0A: (b"stat", STATUS)}
SENT_KINDS = (0x0B, 0x01, 0x03, 0x05, 0x09)


def turned(text, at):
    """Bytes with the last bit of one turned."""
    return text[:at] + bytes([text[at] ^ 1]) + text[at + 1 :]


def body(kind, sealed, number=1, part=GOODS):
    """The body of a message: the purchase's number, the sealed text, the part, each where its kind has it."""
    if kind in (0x0A, 0x0C):
        return sealed
    return struct.pack(">Q", number) + formats.sized(sealed) + (formats.sized(bytes.fromhex(part)) if kind == 0x04 else b"")


def sealed_in(kind, plain, key=None):
    """What a message of this kind has sealed."""
    return formats.seal(key or (SESSION if kind in (0x02, 0x04) else WALLET), KINDS[kind][0], plain)


def sent_at(place):
    """A frame that is sent in the purchase."""
    return formats.frame(SENT_KINDS[place], bytes.fromhex(SENT[place])).hex()


def sealed_goods(goods, serial=1):
    """Goods that the merchant sealed under a serial number."""
    return formats.seal(key_of(serial), b"good", goods)


def key_of(serial):
    """The key of the goods of a serial number."""
    return formats.code(MASTER, b"goods" + struct.pack(">II", 2, serial))


# ---- a merchant, which sells the goods "hi" as product 7 to consumer 1, at 300 in purchase 1

# The shelf, the goods, and the purchase's number.
SHELF, GOODS_SOLD, ONE = "7;300;;2 hi", b"hi", struct.pack(">Q", 1)

# The order of the consumer's purchase above, without its tag: one at another price or for other goods is the same in all else.
ORDER_OF_NOTHING = bytes.fromhex(ITEMS[3])[13:197]
REQUEST = ORDER_OF_NOTHING[68:100]


def signed(order):
    """An order with its consumer's tag."""
    return order + formats.code(WALLET, b"ordr" + order)


class Sale:
    """A purchase at a price, whose goods are sealed under a serial number: what is kept of it, what is sealed in the messages that the merchant
    hears, with the label and the key, and the bodies of those that it sends."""

    def __init__(self, price=300, serial=1, consumer=1, goods=None, request=b""):
        sealed = sealed_goods(GOODS_SOLD if goods is None else goods, serial)
        checksum, name = hashlib.sha256(sealed).digest(), formats.epoid(2, 1000, serial)
        order = struct.pack(">I", consumer) + ORDER_OF_NOTHING[4:12] + struct.pack(">Q", price) + name + checksum + ORDER_OF_NOTHING[68:]
        order, receipt = formats.sized(signed(order)), bytes.fromhex(RECEIPT)
        endorsement = order + struct.pack(">I", 2) + formats.sized(b"") + key_of(serial)
        head = ONE + name + struct.pack(">QQ", len(sealed), 0) + checksum
        self.passed = formats.sized(formats.seal(WALLET, b"rcpt", receipt))
        front = struct.pack(">I", consumer) + ONE
        self.items = (
            b"\x01" + front + struct.pack(">IQ", 7, price) + (hashlib.sha256(ONE + struct.pack(">I", 7) + formats.sized(request)).digest() if request else REQUEST),
            b"\x02" + front + name + checksum,
            b"\x03" + front + order,
            b"\x04" + front + self.passed,
        )
        self.heard = {
            0x01: (b"m001", SESSION, ONE + struct.pack(">I", 7) + formats.sized(request)),
            0x03: (b"m003", SESSION, ONE + struct.pack(">Q", 0)),
            0x05: (b"m005", SESSION, ONE + order),
            0x07: (b"rcpt", STALL, receipt),
        }
        self.sent = {
            0x02: ONE + formats.sized(formats.seal(SESSION, b"m002", ONE + struct.pack(">IQ", 7, price))),
            0x04: ONE + formats.sized(formats.seal(SESSION, b"m004", head)) + formats.sized(sealed),
            0x06: struct.pack(">I", 2) + formats.sized(formats.seal(STALL, b"endo", endorsement)),
            0x08: ONE + self.passed,
        }


SALE = Sale()


def ticket(consumer=1, merchant=2, until=4600, key=STALL):
    """A ticket of a consumer to a merchant, which holds until a moment, under the merchant's key."""
    return formats.seal(key, b"tick", struct.pack(">IIQ", consumer, merchant, until) + SESSION)


def changed(kind, plain, change):
    """What is sealed in a message, with a byte turned, a byte set, or its last one cut off. An order is signed anew."""
    if isinstance(change, int):
        plain = turned(plain, change)
    if isinstance(change, tuple):
        plain = plain[: change[0]] + bytes([change[1]]) + plain[change[0] + 1 :]
    if change == "shorter":
        return plain[:-1]
    return plain[:12] + signed(plain[12:196]) if kind == 0x05 else plain


def said(kind, change=None, shown=None, sale=SALE):
    """The body of a message of a purchase that a merchant hears, with a change, and this ticket."""
    label, key, plain = sale.heard[kind]
    plain = changed(kind, plain, change)
    sealed = formats.seal(OTHER if change == "other key" else key, b"good" if change == "other label" else label, plain)
    if change == "bent":
        sealed = turned(sealed, 20)
    return formats.sized(sealed) + sale.passed if kind == 0x07 else formats.sized(shown or ticket()) + formats.sized(sealed)


# The key of a keeper of groups, and offers to groups 5 and 9: 200 and 150 for product 7, whose shelf has it at 300.
KEEPER = bytes([0x99]) * 32
TWO_OFFERS = ((7, 5, 200), (7, 9, 150))


def stall_of(items, cap=10):
    """The content of a stall's disk."""
    return formats.journal(formats.stall_head(2, 2, STALL, MASTER), cap, items)


def asks(*kinds, sale=SALE, shown=None):
    """Frames of a consumer: of a purchase, under a ticket."""
    return b"".join(formats.frame(kind, said(kind, sale=sale, shown=shown)) for kind in kinds)


def tells(*kinds, sale=SALE):
    """Frames that the merchant sends in a purchase."""
    return b"".join(formats.frame(kind, sale.sent[kind]) for kind in kinds)


RESULT = asks(0x07)


def stall_torn(call, items, item):
    """The content where this call of an append failed: the first writes the item behind its closed gate, the third opens that, and the others sync."""
    return stall_of(items) if call == 1 else stall_of([*items, item]) if call == 4 else stall_of(items) + formats.sized(item) + formats.CLOSED
