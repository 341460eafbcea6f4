"""Scripts of worlds, as docs/FORMATS.md has them: what one sets up, its first bad line, and the report of what happens. It has no keys, seals or bytes of
messages: a packet is a kind and what it is about. What somebody injects is about nothing, unless its maker says so."""

import random
import re

# The kinds of messages.
ASK_PRICE, QUOTE, ASK_GOODS, GOODS, PAY, ENDORSED, RESULT, PASSED = range(1, 9)
ASK_STATUS, STATUS, ASK_TICKET, GRANT, ENROL, FUND, DONE, REFUSAL = range(9, 17)

LINES, CAP, LENGTH, ALL_GOODS, DIGITS, PRICE, MONEY = 10_000, 10_000, 2_000_000, 268_435_456, 2000, 10**9, 10**18

# The bytes of a part of sealed goods, and those that seal them.
PART, SEAL = 1_000_000, 32


class Bad(Exception):
    """A line is bad."""


def number(word, most, least=0):
    """The number that a word is, within its limits."""
    if not re.fullmatch(rb"0|[1-9][0-9]*", word) or not least <= int(word) <= most:
        raise Bad
    return int(word)


def word4(word):
    """A number of 4 bytes."""
    return number(word, 2**32 - 1)


def word8(word):
    """A number of 8 bytes."""
    return number(word, 2**64 - 1)


def digits(word, count):
    """So many bytes in hexadecimal."""
    if not re.fullmatch(rb"[0-9a-fA-F]*", word) or len(word) != 2 * count:
        raise Bad
    return bytes.fromhex(word.decode())


def body(word):
    """The bytes of what is injected."""
    if word == b"-":
        return b""
    if not re.fullmatch(rb"([0-9a-fA-F]{2})+", word) or len(word) > DIGITS:
        raise Bad
    return bytes.fromhex(word.decode())


# The words of each line: the first ones, which name it, and what reads each of the others.
FORMS = {
    b"consumer": (word4, word4, word8, lambda word: digits(word, 32)),
    b"merchant": (word4, word4, lambda word: digits(word, 32), lambda word: digits(word, 32)),
    b"fund": (word4, lambda word: number(word, MONEY, 1)),
    b"shelf": (word4, word4, lambda word: number(word, PRICE, 1), lambda word: number(word, LENGTH)),
    b"clock": (word8,),
    b"buy": (word4, word8, word4, word4, word8),
    b"deliver": (word4,),
    b"turn": (word4,),
    b"write": (word4,),
    b"open": (word4,),
    b"answer": (word4,),
    b"serve": (word4,),
    b"quiet consumer": (word4, word8),
    b"quiet merchant": (word4, word4, word8),
    b"stop with": (),
    b"stop without": (),
    b"restart consumer": (word4,),
    b"restart merchant": (word4,),
    b"inject server": (lambda word: number(word, 16, 1), body),
    b"inject consumer": (word4, lambda word: number(word, 16, 1), body),
    b"inject merchant": (word4, lambda word: number(word, 16, 1), body),
}


def split(line):
    """A line's name, and what its other words say."""
    words = line.split(b" ")
    for named in (1, 2):
        name = b" ".join(words[:named])
        if name in FORMS:
            forms, rest = FORMS[name], words[named:]
            if len(forms) != len(rest):
                raise Bad
            return name.decode(), [form(word) for form, word in zip(forms, rest)]
    raise Bad


def in_words(name, said):
    """A line in words: bytes in hexadecimal."""
    return " ".join([name, *((word.hex() or "nothing") if isinstance(word, bytes) else str(word) for word in said)])


class Setting:
    """What the lines so far set up."""

    def __init__(self, head, cap):
        self.head, self.cap = head, cap
        self.entries, self.consumers, self.merchants = [], {}, {}
        self.shelves, self.acts, self.begun = {}, [], False
        self.lines, self.number = {"entry": [], "consumer": [], "merchant": [], "shelf": []}, 2

    def enter(self, entry):
        """One entry more, where there is room."""
        if self.begun or len(self.entries) >= self.cap:
            raise Bad
        self.entries.append(entry)

    def enrol(self, id, account):
        """A party more, where the house would enrol it."""
        held = [entry[1:3] for entry in self.entries if entry[0] == "enrol"]
        if 0 in (id, account) or id in [x[0] for x in held] or account in [x[1] for x in held]:
            raise Bad
        self.enter(("enrol", id, account))

    def party(self, role, id):
        """There is such a party in this role."""
        if id not in (self.consumers if role == "consumer" else self.merchants):
            raise Bad

    def take(self, name, said):
        """A line more."""
        self.number += 1
        if name in ("consumer", "merchant"):
            self.enrol(said[0], said[1])
            (self.consumers if name == "consumer" else self.merchants)[said[0]] = said[1]
            role, nonce, key = (1, said[2], said[3]) if name == "consumer" else (2, 0, said[2])
            self.lines["entry"].append(in_words("enrol", [said[0], role, said[1], nonce, key]))
        elif name == "fund":
            if said[0] not in [entry[2] for entry in self.entries if entry[0] == "enrol"]:
                raise Bad
            if sum(entry[2] for entry in self.entries if entry[0] == "fund") + said[1] > MONEY:
                raise Bad
            self.enter(("fund", *said))
            self.lines["entry"].append(in_words("fund", [*said, self.number.to_bytes(16, "big")]))
        elif name == "shelf":
            self.party("merchant", said[0])
            if self.begun or tuple(said[:2]) in self.shelves or sum(x[1] for x in self.shelves.values()) + said[3] > ALL_GOODS:
                raise Bad
            self.shelves[tuple(said[:2])] = said[2:]
        else:
            self.happens(name, said)
        if name in self.lines:
            self.lines[name].append(in_words(name, said))

    def in_words(self):
        """What is set up and what happens, a line for each piece."""
        first = f"house {self.head.hex()} cap {self.cap}"
        acts = [in_words(name, said) for name, said in self.acts]
        return "\n".join([first, *(line for part in self.lines.values() for line in part), *acts])

    def happens(self, name, said):
        """A line that lets something happen."""
        role = {"quiet": name[6:], "resta": name[8:], "injec": name[7:]}.get(name[:5])
        if role in ("consumer", "merchant"):
            self.party(role, said[0])
        if name == "quiet merchant":
            self.party("consumer", said[1])
        if name == "buy":
            self.party("consumer", said[0])
            self.party("merchant", said[2])
        self.begun = self.begun or name != "clock"
        self.acts.append((name, said))


def read(text):
    """What a script sets up, or the number of its first bad line."""
    lines = text.split(b"\n")
    last = lines.pop()
    setting = None
    for at, line in enumerate(lines, 1):
        try:
            words = line.split(b" ")
            if at > LINES:
                raise Bad
            if at <= 2:
                if len(words) != 2 or words[0] != (b"house", b"cap")[at - 1]:
                    raise Bad
                if at == 1:
                    head = digits(words[1], 80)
                else:
                    setting = Setting(head, number(words[1], CAP, 1))
            else:
                setting.take(*split(line))
        except Bad:
            return at
    return setting if setting and not last else len(lines) + 1


class World:
    """The world of a setting."""

    def __init__(self, setting, about):
        self.cap, self.shelves, self.about = setting.cap, setting.shelves, about
        self.consumers, self.merchants = setting.consumers, setting.merchants
        self.entries, self.balances, self.orders = 0, {}, {}
        for entry in setting.entries:
            self.record(entry)
        self.packets, self.calls, self.turn, self.moment = [], [], None, 0
        self.buys, self.sells, self.serials = {}, {}, dict.fromkeys(self.merchants, 0)

    def send(self, maker, to, kind, *about):
        """A packet more."""
        self.packets.append((maker, to, kind, about))

    # ---- consumers

    def speak(self, buyer, tid):
        """What a consumer says, or says again, of a purchase."""
        bought = self.buys[buyer, tid]
        me, seller = ("consumer", buyer), ("merchant", bought["seller"])
        if bought["phase"] == "ticketing":
            self.send(me, ("server",), ASK_TICKET, buyer, tid, bought["seller"])
        elif bought["phase"] == "asked":
            self.send(me, seller, ASK_PRICE, buyer, tid, bought["until"], bought["product"])
        elif bought["phase"] == "wanted":
            self.send(me, seller, ASK_GOODS, buyer, tid, bought["until"], bought["held"])
        elif bought["phase"] == "ordered":
            self.send(me, ("server",), ASK_STATUS, buyer, bought["order"])

    def ends(self, buyer, order, outcome):
        """A receipt comes for an order."""
        for (owner, _), bought in self.buys.items():
            if owner == buyer and bought["phase"] == "ordered" and bought["order"] == order:
                bought["phase"] = f"paid {bought['held'] - SEAL}" if outcome == 0 else f"refused {outcome}"

    def consumer_hears(self, buyer, kind, about):
        """What a consumer does at a packet."""
        if not about or about[0] != buyer:
            return
        if kind == STATUS:
            _, order, outcome = about
            if outcome is not None:
                self.ends(buyer, order, outcome)
                return
            for (owner, tid), bought in self.buys.items():
                if owner == buyer and bought["phase"] == "ordered" and bought["order"] == order:
                    self.send(("consumer", buyer), ("merchant", bought["seller"]), PAY, buyer, tid, bought["until"], order)
            return
        bought = self.buys.get(about[:2])
        if not bought:
            return
        if kind == GRANT and bought["phase"] == "ticketing":
            bought["phase"], bought["until"] = "asked", about[2]
            self.speak(*about[:2])
        elif kind == QUOTE and bought["phase"] == "asked" and about[2] <= bought["limit"]:
            bought["phase"], bought["price"] = "wanted", about[2]
            self.speak(*about[:2])
        elif kind == GOODS and bought["phase"] == "wanted" and about[3] == bought["held"]:
            bought["held"] += min(PART, about[4] - bought["held"])
            if bought["held"] < about[4]:
                self.speak(*about[:2])
            else:
                bought["phase"], bought["order"] = "ordered", about[2]
                self.send(("consumer", buyer), ("merchant", bought["seller"]), PAY, *about[:2], bought["until"], bought["order"])
        elif kind == PASSED and bought["phase"] == "ordered" and bought["order"] == about[2]:
            self.ends(buyer, about[2], about[3])

    # ---- merchants

    def merchant_hears(self, seller, kind, about):
        """What a merchant does at a packet."""
        me = ("merchant", seller)
        if kind == RESULT and about:
            order, outcome = about
            sale = next((sale for sale in self.sells.values() if sale["stage"] == "endorsed" and sale["order"] == order), None)
            if sale and order[0] == seller:
                sale["stage"], sale["outcome"] = "settled", outcome
                self.send(me, ("consumer", sale["of"][0]), PASSED, *sale["of"], order, outcome)
            return
        if kind not in (ASK_PRICE, ASK_GOODS, PAY) or not about or about[2] < self.moment:
            return
        of = about[:2]
        sale = self.sells.get((seller, *of))
        if kind == ASK_PRICE:
            if not sale and (seller, about[3]) in self.shelves:
                price, size = self.shelves[seller, about[3]]
                sale = self.sells[seller, *of] = {"stage": "quoted", "of": of, "price": price, "total": size + SEAL}
            if sale:
                self.send(me, ("consumer", of[0]), QUOTE, *of, sale["price"])
        elif kind == ASK_GOODS and sale:
            if sale["stage"] == "quoted":
                if about[3] != 0:
                    return
                self.serials[seller] += 1
                sale["stage"], sale["order"] = "delivered", (seller, self.moment, self.serials[seller], *of)
                self.sells[sale["order"]] = sale
            if about[3] % PART == 0 and about[3] < sale["total"]:
                self.send(me, ("consumer", of[0]), GOODS, *of, sale["order"], about[3], sale["total"])
        elif kind == PAY and sale and sale["stage"] != "quoted" and about[3] == sale["order"]:
            if sale["stage"] == "delivered":
                sale["stage"] = "endorsed"
            self.again(seller, sale)

    def again(self, seller, sale):
        """What a merchant says again of a sale."""
        me = ("merchant", seller)
        if sale["stage"] == "endorsed":
            self.send(me, ("server",), ENDORSED, sale["order"], sale["price"])
        elif sale["stage"] == "settled":
            self.send(me, ("consumer", sale["of"][0]), PASSED, *sale["of"], sale["order"], sale["outcome"])

    # ---- the house

    def verdict(self, kind, about, moment):
        """The kind of the reply to a packet, what it is about, and what it records."""
        if not about:
            return REFUSAL, (), None
        if kind == ASK_TICKET:
            return GRANT, (*about[:2], min(moment + 3600, 2**64 - 1)), None
        if kind == ASK_STATUS:
            return STATUS, (*about, self.orders.get(about[1])), None
        if kind == ENDORSED:
            order, price = about
            if order in self.orders:
                return RESULT, (order, self.orders[order]), None
            if self.entries >= self.cap:
                return REFUSAL, (), None
            if moment > order[1] + 900:
                outcome = 34
            elif order[1] > moment + 300:
                outcome = 35
            else:
                outcome = 0 if self.balances[self.consumers[order[3]]] >= price else 36
            return RESULT, (order, outcome), ("order", order, outcome, price)
        if kind in (ENROL, FUND) and self.entries < self.cap and self.may(about):
            return DONE, (), about
        return REFUSAL, (), None

    def may(self, entry):
        """An entry that somebody injects, who knows the operator's key, is recorded: its party and its account are new, or its account is there."""
        if entry[0] == "enrol":
            return entry[2] not in self.balances
        return entry[1] in self.balances

    def record(self, entry):
        """An entry more."""
        self.entries += 1
        if entry[0] == "enrol":
            self.balances[entry[2]] = 0
        elif entry[0] == "fund":
            self.balances[entry[1]] += entry[2]
        else:
            _, order, outcome, price = entry
            self.orders[order] = outcome
            if outcome == 0:
                self.balances[self.consumers[order[3]]] -= price
                self.balances[self.merchants[order[0]]] += price

    def has_turn(self, call, *stages):
        """A call has the turn, which is at one of these stages."""
        return self.turn is not None and self.turn["call"] == call and self.turn["stage"] in stages

    def turn_of(self, call):
        """A call takes its turn."""
        if self.turn is None and call < len(self.calls) and self.calls[call]["phase"] == "waiting":
            called = self.calls[call]
            called["phase"] = "in turn"
            _, _, kind, about = self.packets[called["packet"]]
            self.turn = {"call": call, "stage": "decided", "verdict": self.verdict(kind, about, called["moment"])}

    def write(self, call):
        """The entry of a turn is written."""
        if self.has_turn(call, "decided") and self.turn["verdict"][2]:
            self.turn["stage"] = "written"

    def open(self, call):
        """The entry of a turn is opened."""
        if self.has_turn(call, "written"):
            self.turn["stage"] = "opened"
            self.record(self.turn["verdict"][2])

    def answer(self, call):
        """The reply of a turn is handed out: a packet, where a node asked."""
        if self.has_turn(call, "opened") or (self.has_turn(call, "decided") and not self.turn["verdict"][2]):
            kind, about, _ = self.turn["verdict"]
            maker = self.packets[self.calls[call]["packet"]][0]
            self.calls[call]["phase"], self.turn = "answered", None
            if maker[0] in ("consumer", "merchant"):
                self.send(("server",), maker, kind, *about)

    # ---- what lines say

    def deliver(self, packet):
        """A packet reaches whom it is for."""
        if packet >= len(self.packets):
            return
        _, to, kind, about = self.packets[packet]
        if to[0] == "server":
            self.calls.append({"packet": packet, "moment": self.moment, "phase": "waiting"})
        elif to[0] == "consumer":
            self.consumer_hears(to[1], kind, about)
        else:
            self.merchant_hears(to[1], kind, about)

    def buy(self, buyer, tid, seller, product, limit):
        """A consumer starts a purchase."""
        if (buyer, tid) not in self.buys:
            self.buys[buyer, tid] = {"phase": "ticketing", "held": 0, "seller": seller, "product": product, "limit": limit}
            self.speak(buyer, tid)

    def stop(self, keep):
        """The house stops and starts again."""
        if keep and self.turn and self.turn["stage"] == "written":
            self.record(self.turn["verdict"][2])
        self.turn = None
        for call in self.calls:
            if call["phase"] != "answered":
                call["phase"] = "gone"

    def act(self, name, said):
        """What a line lets happen."""
        if name == "serve":
            call = len(self.calls)
            self.deliver(*said)
            for step in self.turn_of, self.write, self.open, self.answer:
                step(call)
        elif name == "clock":
            self.moment = said[0]
        elif name in ("deliver", "write", "open", "answer", "buy"):
            getattr(self, name)(*said)
        elif name == "turn":
            self.turn_of(*said)
        elif name == "quiet consumer":
            if tuple(said) in self.buys:
                self.speak(*said)
        elif name == "quiet merchant":
            if tuple(said) in self.sells:
                self.again(said[0], self.sells[tuple(said)])
        elif name.startswith("stop"):
            self.stop(name == "stop with")
        elif name.startswith("inject"):
            *to, kind, bytes_of = said
            self.send(("network",), (name[7:], *to), kind, *self.about.get(bytes_of, ()))

    def report(self):
        """What is told of it."""
        lines = [f"packets {len(self.packets)}", f"commits {self.entries}"]
        lines += [f"acct {account} balance {self.balances[account]}" for account in sorted(self.balances)]
        lines += [f"purchase {buyer} {tid} {self.buys[buyer, tid]['phase']}" for buyer, tid in sorted(self.buys)]
        return "".join(line + "\n" for line in lines).encode()


def play(text, about=()):
    """The report of a script, or the number of its first bad line. What some bodies are about that are injected may be said."""
    setting = read(text)
    if isinstance(setting, int):
        return setting
    world = World(setting, dict(about))
    for name, said in setting.acts:
        world.act(name, said)
    return world.report()


# ---- scripts that are drawn


def first_lines(draw):
    """Lines that set a script up: one to three consumers, one or two merchants, funds and shelves."""
    buyers, sellers = [1, 3, 5][: draw.randint(1, 3)], [2, 4][: draw.randint(1, 2)]
    lines = [f"house {'11' * 32}{'22' * 32}{'33' * 16}", f"cap {draw.choice([8, 12, 40, 40])}"]
    lines += [f"consumer {id} {id * 10} {id + 6} {bytes([0x40 + id]).hex() * 32}" for id in buyers]
    lines += [f"merchant {id} {id * 10} {bytes([0x50 + id]).hex() * 32} {bytes([0x60 + id]).hex() * 32}" for id in sellers]
    lines += [f"fund {id * 10} {draw.choice([100, 300, 500, 1000])}" for id in buyers if draw.random() < 0.8]
    for id in sellers:
        lines += [f"shelf {id} {product} {draw.choice([100, 300, 400])} {draw.choice([0, 1, 5, 300])}" for product in (7, 8)[: draw.randint(1, 2)]]
    return buyers, sellers, [*lines, "clock 1000"]


def next_act(draw, world, fresh, buyers, sellers, tid):
    """What happens next: mostly a packet that was not delivered yet reaches whom it is for."""
    among, packets, calls = draw.random(), len(world.packets), len(world.calls)
    if among < 0.07 or not packets:
        return "buy", [draw.choice(buyers), tid + 1, draw.choice(sellers), draw.choice([7, 7, 7, 8]), draw.choice([100, 300, 400, 1000, 1000])]
    if among < 0.70 and fresh:
        number_of = fresh.pop(draw.choice([0, -1]))
        return "serve" if world.packets[number_of][1][0] == "server" and draw.random() < 0.9 else "deliver", [number_of]
    if among < 0.74:
        return "deliver", [draw.randrange(packets + 1)]
    if among < 0.80:
        return draw.choice(["turn", "write", "open", "answer"]), [max(0, calls - 1) if draw.random() < 0.7 else draw.randrange(calls + 1)]
    if among < 0.84:
        return "quiet consumer", [draw.choice(buyers), draw.randint(1, max(tid, 1))]
    if among < 0.88:
        return "quiet merchant", [draw.choice(sellers), draw.choice(buyers), draw.randint(1, max(tid, 1))]
    if among < 0.91:
        return draw.choice(["stop with", "stop without"]), []
    if among < 0.94:
        return draw.choice([("restart consumer", [draw.choice(buyers)]), ("restart merchant", [draw.choice(sellers)])])
    if among < 0.96:
        return "clock", [draw.choice([1000, 1001, 1300, 1900, 1901, 2500, 4600, 4601, 700, 699])]
    kind = draw.randint(1, 16)
    return draw.choice([("inject server", [kind, b""]), ("inject consumer", [draw.choice(buyers), kind, b"\0"]), ("inject merchant", [draw.choice(sellers), kind, b""])])


def drawn(seed):
    """A script that is drawn: it is good but where its cap is too small for what is set up."""
    draw = random.Random(seed)
    buyers, sellers, lines = first_lines(draw)
    setting = read("".join(line + "\n" for line in lines).encode())
    if isinstance(setting, Setting):
        world, fresh, tid = World(setting, {}), [], 0
        for _ in range(draw.randint(30, 120)):
            before = len(world.packets)
            name, said = next_act(draw, world, fresh, buyers, sellers, tid)
            tid += name == "buy"
            world.act(name, said)
            fresh += range(before, len(world.packets))
            lines.append(" ".join([name, *((word.hex() or "-") if isinstance(word, bytes) else str(word) for word in said)]))
    return "".join(line + "\n" for line in lines).encode()
