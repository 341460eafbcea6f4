"""Requests for orders that are refused for a seal, a layout or a tag, which several programs try."""

import struct
import typing

import formats


class Refused(typing.NamedTuple):
    """A request, and the reply that refuses it."""

    asks: bytes
    reply: bytes

    def frame(self):
        """The frame that asks."""
        return self.asks


def presented(merchant, text, key):
    """The frame of an endorsement with this text, sealed under this key in the merchant's name, and the seal."""
    sealed = formats.seal(key, b"endo", text)
    return formats.frame(formats.ENDORSED, struct.pack(">I", merchant.id) + formats.sized(sealed)), sealed


def endorsed(merchant, made):
    """The text of an endorsement of an order that has these bytes."""
    return formats.sized(made) + struct.pack(">I", merchant.account) + formats.sized(b"") + bytes([0x77]) * 32


def refused_orders(made, other):
    """Requests for an order, made wrongly, each by the name of what is wrong. The other party has a key that is neither the merchant's nor the
    consumer's."""
    merchant, consumer = made.merchant, made.consumer
    whole, tag = made.bytes()[:-32], made.bytes()[-32:]
    frame, sealed = presented(merchant, made.endorsement(), merchant.key)
    cut, bad_tag = bytes([frame[-1] ^ 1]), bytes([tag[0] ^ 1]) + tag[1:]
    foreign, other_seal = presented(merchant, made.endorsement(), other.key)
    malformed, _ = presented(merchant, bytes(6), merchant.key)
    hidden = formats.seal(other.key, b"hide", struct.pack(">IQ", consumer.account, consumer.nonce) + formats.sized(b""))
    veiled = made.terms() + made.epoid() + made.digests + formats.sized(hidden)
    veiled += formats.code(consumer.key, b"ordr" + veiled)
    return {
        "cut": Refused(frame[:-1] + cut, formats.refusal(12, 0, 0, sealed[:32])),
        "foreign": Refused(foreign, formats.refusal(12, 0, 0, other_seal[:32])),
        "malformed": Refused(malformed, formats.refusal(10, 4, 1, bytes(32))),
        "untagged": Refused(presented(merchant, endorsed(merchant, whole + bad_tag), merchant.key)[0], formats.refusal(14, 0, 0, bad_tag)),
        "veiled": Refused(presented(merchant, endorsed(merchant, veiled), merchant.key)[0], formats.refusal(12, 0, 0, hidden[:32])),
    }
