"""Random lists for gate: talks that a tag can follow, and lines that go wrong.

The maker is that of bench's lists, so it knows the session and the image that the
next line meets. What it would send as a frame it says in gate's words, as far as
these can say it; what the tag replies it hands to gate to read, as it came and
then spoilt. Between the talks it brings every command and every reply about
their limits, rooms to the byte, and lines that are none.
"""

import build
import depot
import generate
import model
import outcomes
from build import ENOUGH

WORD_FIELDS = ("number", "cover", "value", "half", "lock-mask", "lock-action")

# Numbers about the limits of most fields, and beyond every one.
EDGES = {"pointer": (0, 1, 127, 128, 129, 16383, 16384, 2097151), "length": (0, 1, 7, 8, 9, 15, 16, 254, 255),
         "count": (0, 1, 2, 254, 255), "range": (1, 2, 3, 254, 255)}
BEYOND = {"pointer": (2097152, 2097153, 4294967295), "length": (256, 257, 511, 4294967295),
          "count": (256, 257, 4294967295), "range": (0, 256, 257, 4294967295), "bank": (4, 5, 255, 4294967295),
          "updn": (1, 2, 4, 5, 7, 8, 4294967295), "session": (4, 5, 4294967295), "sel": (4, 4294967295),
          "m": (4, 4294967295), "dr": (2, 4294967295), "trext": (2, 4294967295), "q": (16, 17, 4294967295),
          "action": (8, 9, 4294967295), "lock-mask": (0x0400, 0x0401, 0xFFFF), "lock-action": (0x0400, 0x8000, 0xFFFF)}


# One part of a command's line.
def show_part(name, value):
    if name == "data":
        return build.show(value)
    return "%04x" % value if name in WORD_FIELDS else "%d" % value


# A command's line.
def text_of(command):
    name, *chosen = command.form.split(" ")
    parts = [show_part(field, command[field]) for field in depot.FORMS[command.form].split()]
    return " ".join([name, *parts[:1], *chosen, *parts[1:]])


# The command of a frame that a tag hears, in the depot's fields, with this cover number; None where no depot asks
# for it.
def asked_for(heard, bits, cover):
    name = model.NAMES[heard.code]
    if heard.rfu or heard.truncate:
        return None
    if name == "BlockPermalock":
        name += " lock" if heard.locks else " read"
    data = build.bytes_of_words(heard.words)
    if name == "Select":
        data = build.pack(heard.pattern)
    word = heard.words[0] if name == "Write" else 0
    fields = {"number": heard.number, "cover": cover, "pointer": heard.pointer, "count": heard.count,
              "range": heard.count, "value": word ^ cover, "half": (heard.half or 0) ^ cover, "lock-mask": heard.mask,
              "lock-action": heard.action, "bank": model.BANKS.index(heard.bank) if heard.bank else None,
              "data": data, "session": heard.session, "sel": heard.sel, "target": heard.target, "q": heard.q,
              "updn": heard.updn, "action": heard.action, "length": len(heard.pattern), "dr": int(bits[4:5] or "0", 2),
              "m": int(bits[5:7] or "0", 2), "trext": int(bits[7:8] or "0", 2)}
    return depot.Command(name, {field: fields[field] for field in depot.FORMS[name].split()})


class TalkMaker(generate.Maker):
    """Makes one list of about so many lines."""

    def __init__(self, chance, length, cases=()):
        super().__init__(chance, length, cases)
        self.gate = depot.Gate()
        self.brought = []               # for each line, what it came to
        self.edges = []                 # for each line, the edges that it met
        self.answers = []               # for each line, the form and the tag's answer where it was a frame made
        self.unread = []                # what refusals the tag's own replies came to: none

    # ---------------------------------------------------------------- the line

    # Writes a line, a frame in gate's words as a rule, and has the reply to it read.
    def put(self, line):
        line = line if isinstance(line, bytes) else line.encode("ascii")
        said = self.said(line) if line.startswith(b"frame ") and self.now_and_then(94) else None
        self.write(said or line)
        answer = self.bench.answer
        if said and answer is not None and answer.reply:
            self.hear(said, answer.reply)

    # Writes a line as it is: gate reads it, and bench what gate writes.
    def write(self, line, own=False):
        line = line if isinstance(line, bytes) else line.encode("ascii")
        written = self.gate.line(line)
        brought = self.gate.brought
        self.lines.append(line)
        self.written.append(written)
        self.brought.append(brought)
        edges = set(outcomes.edges_met(line, brought, self.gate.room))
        if own:
            edges.add("%s, the tag's own reply: %s" % brought[1:3])
            self.unread += [brought] if brought[2].startswith("refused") else []
        self.edges.append(edges & set(outcomes.EDGES))
        self.bench.line(written)
        made = brought[0] == "make" and self.bench.answer is not None
        self.answers.append((brought[1], self.bench.answer.number) if made else None)

    # A frame's line in gate's words, or None where they have none for it.
    def said(self, line):
        try:
            _, (count, data, *_) = self.bench.take_apart(line)
            heard = model.read_frame(count, data)
        except (model.BadLine, model.Refused):
            return None
        cover = self.any_word() if self.session.cover is None else self.session.cover
        command = asked_for(heard, model.bits_of_bytes(data), cover)
        if command is None:
            return None
        return b" ".join([text_of(command).encode(), *line.split(b" ")[3:]])

    # ----------------------------------------------------------------- replies

    # The command of a line, without its three parts now and then.
    def bare(self, said):
        return b" ".join(said.split(b" ")[:-3]) if self.now_and_then(80) else said

    # Hands the tag's reply to gate, as it came, and now and then spoilt.
    def hear(self, said, reply):
        if len(reply) > 4000 and self.now_and_then(70):
            return
        if self.now_and_then(60):
            self.write_reply(reply, self.bare(said), own=True)
        if self.now_and_then(12):
            command, _ = depot.take_command(said.split(b" "))
            self.write_spoilt(command, reply, self.bare(said))

    # A reply line; what is past the bits is anything.
    def write_reply(self, bits, said, own=False):
        data = build.pack(bits, self.chance.choice("01"))
        if self.now_and_then(40):
            data += self.chance.choice([b"\xaa", b"\xff", b"\0", b"\xaa\xaa\xaa", b"\x01\0"])
        self.write(b"reply %d %s %s" % (len(bits), build.show(data).encode(), said), own)

    # A reply to this command that is none, or one of another kind.
    def write_spoilt(self, command, bits, said):
        chance = self.chance
        body = bits[:-16]
        place = chance.randrange(len(bits))
        some = "".join(chance.choice("01") for _ in range(chance.choice([1, 1, 7, 8, 16, 16, 32])))
        turned = bits[:place] + "10"[int(bits[place])] + bits[place + 1:]
        kind = chance.randrange(12)
        if kind == 0:
            bits = turned
        elif kind in (1, 2):
            bits = self.other_handle(body)
        elif kind in (3, 4) and body:
            bits = build.sealed("10"[int(body[0])] + body[1:])
        elif kind == 5:
            bits = build.sealed(chance.choice([some + body, body + some, body[:1] + some + body[1:]]))
        elif kind == 6:
            bits = build.sealed(chance.choice([body[:-len(some)], body[len(some):], body[1:], body[:1]]))
        elif kind == 7:
            bits = chance.choice([bits + some, bits[:-1], bits[:-8], bits[:-16]]).ljust(16, "0")
        elif kind == 8:
            self.write_count(bits, chance.choice([0, 1, 8, 15, 15, chance.randrange(16)]), said)
            return
        elif kind == 9:
            self.write_past(bits, said)
            return
        elif kind == 10:
            bits = chance.choice([16 * "0", 16 * "0", 16 * "1", build.field_bits(self.any_word(), 16)])
        else:
            bits = self.any_reply(command.fields.get("number", self.any_word()))
        self.write_reply(bits, said)

    # A reply whose last word before the CRC-16 is another, by one bit as a rule; its CRC-16 is right.
    def other_handle(self, body):
        last = int(body[-16:] or "0", 2)
        other = self.chance.choice([last ^ 1, last ^ 0x8000, last ^ 1 << self.chance.randrange(16), self.any_word()])
        return build.sealed(body[:-16] + build.field_bits(other, 16))

    # The same bytes with another bit count.
    def write_count(self, bits, count, said):
        self.write(b"reply %d %s %s" % (count, build.show(build.pack(bits)).encode(), said))

    # A bit count past the bytes, be it by one.
    def write_past(self, bits, said):
        data = build.pack(bits)
        data = self.chance.choice([data, data, data[:-1], data[:-2], b""])
        count = max(16, self.chance.choice([len(bits), 8 * len(data) + 1, 8 * len(data) + 8, 1000000]))
        self.write(b"reply %d %s %s" % (count, build.show(data).encode(), said))

    # A reply with this handle to whatever command.
    def any_reply(self, handle):
        chance, some = self.chance, [self.any_word() for _ in range(self.chance.randrange(4))]
        return chance.choice([build.number_reply(handle), build.number_reply(self.any_word()),
                              build.success_reply(handle), build.success_reply(handle, some),
                              build.error_reply(chance.choice([0, 3, 4, 11, 15, 255]), handle),
                              build.pc_reply([len(some) << 11 | 5] + some), build.field_bits(handle, 16)])

    # ----------------------------------------------------- commands as they come

    # A value of a field within its limits, about them as a rule.
    def within(self, form, field):
        chance = self.chance
        allowed = depot.LIMITS.get(form, {}).get(field)
        if allowed is None:
            return self.any_word()
        edges = [value for value in EDGES.get(field, ()) if value in allowed]
        return chance.choice([allowed[0], allowed[-1], chance.choice(allowed), chance.choice(edges or allowed)])

    # So many random bytes.
    def some_bytes(self, size):
        return bytes(self.chance.randrange(256) for _ in range(size))

    # The bytes of a command, within its limits or beyond.
    def data_for(self, form, length, beyond):
        chance = self.chance
        if form != "Select":
            size = chance.choice([0, 0, 1, 3, 509, 511, 512, 512, 513, 514]) if beyond else \
                chance.choice([2, 2, 4, 6, 32, 508, 510, 2 * chance.randrange(1, 256)])
            return self.some_bytes(size)
        size = -(-min(length, 300) // 8)
        data = self.some_bytes(size)
        if length % 8 and self.now_and_then(60):
            data = build.pack(model.bits_of_bytes(data)[:length])
        if beyond:
            data = chance.choice([data + b"\0", data[:-1] if data else b"\xff", data + self.some_bytes(2)])
        return data

    # A command of this form, or of any, with one field beyond its limits in so many of a hundred cases.
    def any_command(self, form=None, beyond_percent=35):
        chance = self.chance
        form = form or chance.choice(outcomes.FORMS)
        fields = {field: self.within(form, field) for field in depot.FORMS[form].split() if field != "data"}
        beyond = outcomes.BEYOND[form].split()
        wrong = chance.choice(beyond) if beyond and self.now_and_then(beyond_percent) else None
        if wrong == "count" and form == "BlockErase":
            fields["count"] = chance.choice([0, 0, 256, 257])
        elif wrong == "bank" and form == "Select":
            fields["bank"] = chance.choice([0, 0, 4])
        elif wrong == "target":
            fields["target"] = chance.choice([5, 6, 7, 8] if form == "Select" else [2, 3])
        elif wrong and wrong != "data":
            fields[wrong] = chance.choice(BEYOND[wrong])
        if "data" in depot.FORMS[form].split():
            fields["data"] = self.data_for(form, fields.get("length", 0), wrong == "data")
        if "number" in fields and self.session.number is not None and self.now_and_then(50):
            fields["number"] = self.session.number
        return depot.Command(form, fields)

    # The three parts, as bench takes them.
    def three(self):
        chance = self.chance
        return " %04x %d %d" % (self.any_word(), chance.choice([0, 4, 64, 64, 600, 9604]),
                                chance.choice([0, 5, ENOUGH, ENOUGH]))

    # Commands about their limits, made for bench or not.
    def edge_commands(self):
        for _ in range(self.chance.randrange(1, 8)):
            command = self.any_command()
            self.write(text_of(command) + (self.three() if self.now_and_then(30) else ""))

    # A right reply to this command.
    def right_reply(self, command):
        chance, form = self.chance, command.form
        number = command.fields.get("number", 0)
        kinds = outcomes.SAYS[form]
        kind = chance.choice(kinds) if kinds else "done"
        if form in depot.BARE:
            return build.field_bits(self.any_word(), 16)
        if form == "ACK":
            length = chance.randrange(32)
            return build.pc_reply([length << 11 | chance.randrange(0x800)] + [self.any_word() for _ in range(length)])
        if kind == "number":
            return build.number_reply(self.any_word() if form == "Req_RN" else number)
        if kind == "error":
            return build.error_reply(chance.choice([0, 3, 4, 11, 15, 255, chance.randrange(256)]), number)
        words = 0
        if form == "Read":
            words = command["count"] or self.one_of((1, 6), (2, 2), (16, 2), (255, 1), (4096, 0.5))
        if form == "BlockPermalock read":
            words = command["range"]
        return build.success_reply(number, [self.any_word() for _ in range(words)])

    # Replies to a command about its limits, right ones and spoilt ones.
    def edge_replies(self):
        for _ in range(self.chance.randrange(1, 8)):
            command = self.any_command(beyond_percent=0)
            said = (text_of(command) + (self.three() if self.now_and_then(20) else "")).encode()
            bits = self.right_reply(command)
            if self.now_and_then(35):
                self.write_reply(bits, said)
            else:
                self.write_spoilt(command, bits, said)
            if self.now_and_then(35):
                self.beyond_reply()

    # A reply, right or of too few bits, to a command beyond its limits as a rule.
    def beyond_reply(self):
        command = self.any_command(beyond_percent=90)
        bits = self.any_reply(command.fields.get("number", 0))
        self.write_count(bits, self.chance.choice([0, 15, len(bits), len(bits)]), text_of(command).encode())

    # The words of a long Read about its edges: with count 0 as many as it can have, one more or none.
    def edge_words(self):
        count, words = self.chance.choice([(0, 0), (0, 0), (0, 1), (0, 255), (0, 4096), (0, 4097), (255, 255),
                                           (255, 254), (1, 2), (1, 0)])
        command = depot.Command("Read", {"number": self.any_word(), "bank": 3, "pointer": 0, "count": count})
        data = [self.chance.randrange(0x10000) for _ in range(words)]
        self.write_reply(build.success_reply(command["number"], data), text_of(command).encode())

    # Rooms to the byte, and back to a large one.
    def edge_rooms(self):
        for _ in range(self.chance.randrange(1, 4)):
            command = self.any_command(beyond_percent=0)
            size = -(-len(depot.frame_bits(command)) // 8)
            for room in self.chance.sample([size, size - 1, size + 1, 0], 3):
                self.write("room %d" % room)
                self.write(text_of(command) + (self.three() if self.now_and_then(20) else ""))
        if self.now_and_then(40):
            self.write("room 0")
            for _ in range(4):
                self.write(text_of(self.any_command(beyond_percent=80)))
        self.write("room %d" % self.chance.choice([521, 521, 521, 522, 600, 9604]))

    # ------------------------------------------------------------------ lines

    # A good line of gate's own.
    def good_line(self):
        said = text_of(self.any_command(beyond_percent=10))
        if self.now_and_then(50):
            said += self.three()
        if self.now_and_then(30):
            command = depot.take_command(said.encode().split(b" "))[0]
            number = command.fields.get("number", 0)
            said = build.reply_line(self.any_reply(number), said)
        elif self.now_and_then(10):
            said = "room 521"
        return said.encode()

    # A line of gate that is none, or just about one.
    def gate_odd_line(self):
        chance = self.chance
        good = self.good_line()
        parts = good.split(b" ")
        spoil = chance.randrange(12)
        place = chance.randrange(len(parts))
        if spoil == 0:
            line = good + chance.choice([b" ", b" 0", b"\r", b"\t", b"\0", b" -", b"\xc3\xa9", b"  "])
        elif spoil == 1:
            line = chance.choice([b" ", b"\t", b"\xff", b"-", b"\0"]) + good
        elif spoil == 2:
            line = b" ".join(parts[:place] + parts[place + 1:])
        elif spoil == 3:
            line = b" ".join(parts[:place + 1] + [chance.choice([b"0", b"", b"0000", b"-"])] + parts[place + 1:])
        elif spoil == 4:
            line = chance.choice([good.upper(), good.lower(), good[:-1], good.replace(b" ", b"\t", 1)])
        elif spoil == 5:
            line = chance.choice([
                b"room", b"room ", b"room 00", b"room -", b"room 9605", b"room 521 1", b"room x", b"Room 521",
                b"room 4294967296", b"reply", b"reply 16 0000", b"reply 16 0000 ", b"reply 16 0000 room 521",
                b"reply 16 0000 reply 16 0000 NAK", b"reply 16 0000 frame 8 c0", b"reply 16 0000 nak",
                b"reply 1000001 - NAK", b"reply 16 0000 NAK 0000 0", b"BlockPermalock", b"BlockPermalock abcd",
                b"BlockPermalock abcd write 3 0 1", b"BlockPermalock abcd Read 3 0 1", b"BlockPermalock read 3 0 1",
                b"BlockPermalock abcd read 3 0 0001", b"BlockPermalock abcd lock 3 0 1", b"admit 1234", b"admit",
                b"refused 9", b"bad line 1", b"number 1234", b"done", b"Nak", b"ReqRN 1234", b"reply 0 - NAK",
                b"reply 1000000 - NAK", b"image\t00", b"images", b"frames 8 c0", b"QueryRep 00", b"ACK 12345",
                b"NAK\r"])
        elif spoil == 6:
            line = b" ".join([text_of(self.any_command(beyond_percent=0)).encode(), *self.odd_three()])
        elif spoil in (7, 8, 9):
            parts[place] = self.odd_part(parts[place])
            line = b" ".join(parts)
        elif spoil == 10:
            line = self.odd_field()
        else:
            line = good[:chance.randrange(len(good))]
        self.write(line)
        if self.gate.room < 521:
            self.write("room 521")

    # A command with one field that is none; each field has the same chance.
    def odd_field(self):
        field = self.chance.choice(sorted({field for names in depot.FORMS.values() for field in names.split()}))
        form = self.chance.choice([form for form in outcomes.FORMS if field in depot.FORMS[form].split()])
        parts = text_of(self.any_command(form, 0)).split(" ")
        place = 1 + depot.FORMS[form].split().index(field)
        place += form.startswith("BlockPermalock") and place > 1
        parts = [part.encode() for part in parts]
        parts[place] = self.odd_part(parts[place])
        return b" ".join(parts)

    # A part that is none, or passes every limit.
    def odd_part(self, part):
        return self.chance.choice([
            b"", b"-", b"00", b"01", b"x", b"+1", b"-1", b"0x1", b"1e3", b"4294967295",
            *(8 * [b"4294967296"]), b"99999999999999999999999", b"1.", b"0A", b"ABCD", b"abc", b"abcde", b"\xe4",
            b"0\r", b"read", b"lock", part.upper(), part + b"0", b"0" + part, b"1000001", b"9605"])

    # Three parts of which one is none.
    def odd_three(self):
        parts = [b"abcd", b"64", b"9"]
        place, odd = self.chance.choice([
            (0, b"abc"), (0, b"ABCD"), (0, b"12345"), (0, b"-"), (1, b"9605"), (1, b"064"), (1, b"-1"), (1, b""),
            (1, b"4294967296"), (2, b"1000001"), (2, b"09"), (2, b"x"), (2, b""), (2, b"9\r")])
        parts[place] = odd
        return parts

    # A line of exactly so many bytes: a comment, a line of bench, a command or a reply. Hex has two digits for each
    # byte, so a number in the line takes one more digit where that is odd.
    def long_line(self):
        chance, size = self.chance, self.chance.choice([20000, 20001])
        head, tail = chance.choice([(b"# ", b""), (b"image ", b""), (b"BlockWrite abcd 3 1", b""),
                                    (b"Select 0 0 1 0 25", b""), (b"reply 16", b" Req_RN abcd"),
                                    (b"reply 33", b" Read abcd 3 0 0 0000 6 1")])
        if head.endswith(b" "):
            self.write(head + chance.choice([b"0", b"\xff", b"x"]) * (size - len(head)))
            return
        head += b" " if (size - len(head + tail)) % 2 else b"0 "
        self.write(head + chance.choice([b"0", b"a"]) * (size - len(head + tail)) + tail)

    # A comment or an empty line, or what only begins like one of bench's.
    def through_line(self):
        self.write(self.chance.choice([b"", b"#", b"# a note", b"#\xff\r\t\0", b"# room 4", b"check\xff", b"dump ",
                                       b"dump  x", b"frame 8 c0", b"read", b"write \xe4", b"ask\t", b"power x",
                                       b"frame", b"image 0", b"register 1"]))

    # -------------------------------------------------------------- whole lists

    # What a talk has no need of.
    def edge(self):
        self.one_of((self.edge_commands, 6), (self.edge_replies, 9), (self.edge_rooms, 2), (self.gate_odd_line, 9),
                    (self.edge_words, 0.3), (self.long_line, 0.4), (self.through_line, 1))()

    # The next few lines of a talk, or an edge.
    def step(self):
        if self.now_and_then(60):
            self.edge()
        else:
            super().step()
