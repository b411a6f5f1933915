#!/usr/bin/env python3
"""Reference model of the depot: it makes a command's frame, reads the reply to it, and is the program gate.

Written from the papers, as docs/GATE.md restates them, in their order and terms,
and from no line of the Rattle text, so that the two can be compared. It shares
with the model of the tag the two CRCs, bits and bytes, and the parts of a line;
of frames and replies it has its own tables. At the end the program: it reads
gate's lines on standard input and writes gate's lines on standard output.
"""

import sys
from dataclasses import dataclass
from typing import NamedTuple

import model
from model import BadLine, bits_of, bits_of_bytes, bytes_of_bits, crc5, crc16, lines_of, rounded_up, show_hex


class Refused(Exception):
    """A refusal, 9, 4, 8 or 15, and its reason, which nothing writes: lists are counted by it."""

    def __init__(self, number, reason):
        super().__init__(number)
        self.number = number
        self.reason = reason


# Refuses with this number when the condition holds.
def refuse(condition, number, reason):
    if condition:
        raise Refused(number, reason)


# --------------------------------------------------------------------------
# Commands and their limits
# --------------------------------------------------------------------------

@dataclass(frozen=True)
class Command:
    """A command as a gate asks for it: its form, and its fields by their names."""

    form: str
    fields: dict

    def __getitem__(self, name):
        return self.fields[name]


# The forms of the fifteen commands, BlockPermalock has two, and the fields that a line has of each, in their order.
# "number" is the number that a command carries: the handle, or that of an ACK or a first Req_RN. "value" and "half"
# are uncovered. "data" is bytes: BlockWrite's words, BlockPermalock's masks or Select's mask.
FORMS = {
    "QueryRep": "session",
    "ACK": "number",
    "Query": "dr m trext sel session target q",
    "QueryAdjust": "session updn",
    "Select": "target action bank pointer length data",
    "NAK": "",
    "Req_RN": "number",
    "Read": "number bank pointer count",
    "Write": "number cover bank pointer value",
    "Kill": "number cover half",
    "Lock": "number lock-mask lock-action",
    "Access": "number cover half",
    "BlockWrite": "number bank pointer data",
    "BlockErase": "number bank pointer count",
    "BlockPermalock read": "number bank pointer range",
    "BlockPermalock lock": "number bank pointer data"}

BANK, POINTER, BLOCK = range(4), range(1 << 21), range(2, 512, 2)

# The values that a field may have, where it could have others; of data, the numbers of bytes.
LIMITS = {
    "QueryRep": {"session": range(4)},
    "Query": {"dr": range(2), "m": range(4), "trext": range(2), "sel": range(4), "session": range(4),
              "target": range(2), "q": range(16)},
    "QueryAdjust": {"session": range(4), "updn": (0, 3, 6)},
    "Select": {"target": range(5), "action": range(8), "bank": range(1, 4), "pointer": POINTER, "length": range(256)},
    "Read": {"bank": BANK, "pointer": POINTER, "count": range(256)},
    "Write": {"bank": BANK, "pointer": POINTER},
    "Lock": {"lock-mask": range(1 << 10), "lock-action": range(1 << 10)},
    "BlockWrite": {"bank": BANK, "pointer": POINTER, "data": BLOCK},
    "BlockErase": {"bank": BANK, "pointer": POINTER, "count": range(1, 256)},
    "BlockPermalock read": {"bank": BANK, "pointer": POINTER, "range": range(1, 256)},
    "BlockPermalock lock": {"bank": BANK, "pointer": POINTER, "data": BLOCK}}


# The first field that is beyond its limits, or None.
def field_beyond(command):
    for name, allowed in LIMITS.get(command.form, {}).items():
        value = len(command[name]) if name == "data" else command[name]
        if value not in allowed:
            return name
    if command.form == "Select" and len(command["data"]) != rounded_up(command["length"], 8):
        return "data"
    return None


# Answer 9: a command beyond the limits.
def refuse_beyond(command):
    beyond = field_beyond(command)
    refuse(beyond is not None, 9, beyond)


# --------------------------------------------------------------------------
# Making a frame
# --------------------------------------------------------------------------

# A frame's parts in their order: a code as the papers write it, bits as they are, a field with its width; "pointer"
# is an EBV, "words" how many words the data has, "mask" as many bits of the data as the length says, ^ covered.
# RFU and Kill's three bits are 0 bits, and so is Select's truncate.
LAYOUTS = {
    "QueryRep": "00 session:2",
    "ACK": "01 number:16",
    "Query": "1000 dr:1 m:2 trext:1 sel:2 session:2 target:1 q:4 CRC-5",
    "QueryAdjust": "1001 session:2 updn:3",
    "Select": "1010 target:3 action:3 bank:2 pointer length:8 mask 0 CRC-16",
    "NAK": "C0h",
    "Req_RN": "C1h number:16 CRC-16",
    "Read": "C2h bank:2 pointer count:8 number:16 CRC-16",
    "Write": "C3h bank:2 pointer value^ number:16 CRC-16",
    "Kill": "C4h half^ 000 number:16 CRC-16",
    "Lock": "C5h lock-mask:10 lock-action:10 number:16 CRC-16",
    "Access": "C6h half^ number:16 CRC-16",
    "BlockWrite": "C7h bank:2 pointer words data number:16 CRC-16",
    "BlockErase": "C8h bank:2 pointer count:8 number:16 CRC-16",
    "BlockPermalock read": "C9h 00000000 0 bank:2 pointer range:8 number:16 CRC-16",
    "BlockPermalock lock": "C9h 00000000 1 bank:2 pointer words data number:16 CRC-16"}


# A pointer as EBV-8 in its shortest form: groups of seven bits, each but the last with a 1 before it.
def ebv(pointer):
    last = "0" + bits_of(pointer & 0x7F, 7)
    groups, rest = [last], pointer >> 7
    while rest:
        groups.insert(0, "1" + bits_of(rest & 0x7F, 7))
        rest >>= 7
    return "".join(groups)


# A word covered by the cover number.
def covered(word, cover):
    return word ^ cover


# The bits of one part of a frame, seeing the bits before it.
def part_bits(command, part, before):
    if part == "CRC-16":
        return bits_of(crc16(before), 16)
    if part == "CRC-5":
        return bits_of(crc5(before), 5)
    if part == "pointer":
        return ebv(command["pointer"])
    if part == "words":
        return bits_of(len(command["data"]) // 2, 8)
    if part == "data":
        return bits_of_bytes(command["data"])
    if part == "mask":
        return bits_of_bytes(command["data"])[:command["length"]]
    if part.endswith("^"):
        return bits_of(covered(command[part[:-1]], command["cover"]), 16)
    if part.endswith("h"):
        return bits_of(int(part[:-1], 16), 8)
    if ":" in part:
        name, width = part.split(":")
        return bits_of(command[name], int(width))
    return part


# A frame's bits.
def frame_bits(command):
    bits = ""
    for part in LAYOUTS[command.form].split():
        bits += part_bits(command, part, bits)
    return bits


# Answer 4: a room of fewer bytes than the frame.
def refuse_room(bits, room):
    refuse(rounded_up(len(bits), 8) > room, 4, "room")


# Making: the frame's bits; 9, then 4.
def make(command, room):
    refuse_beyond(command)
    bits = frame_bits(command)
    refuse_room(bits, room)
    return bits


# --------------------------------------------------------------------------
# Reading a reply
# --------------------------------------------------------------------------

class Said(NamedTuple):
    """What a reply says: error and its code, words and their bits, number and the number, or done."""

    kind: str
    value: object = None


CRC_BITS = 16
MOST_WORDS = 4096                       # of a Read with count 0


# The reply to Query, QueryAdjust or QueryRep: 16 bits without a CRC.
def read_bare(command, bits):
    refuse(len(bits) != 16, 15, "length")
    return Said("number", int(bits, 2))


# Answer 8: a wrong CRC-16. What is before it is the reply's body.
def body_of(bits):
    body, crc = bits[:-CRC_BITS], bits[-CRC_BITS:]
    refuse(bits_of(crc16(body), CRC_BITS) != crc, 8, "CRC")
    return body


# Answer 15 for another tag's handle.
def refuse_handle(command, bits):
    refuse(int(bits, 2) != command["number"], 15, "handle")


# ACK: the PC and as many words as its top five bits say.
def read_pc(command, body):
    refuse(len(body) < 16, 15, "length")
    refuse(len(body) != 16 * (1 + int(body[:5], 2)), 15, "length")
    return Said("words", body)


# Req_RN: the new number, whatever it is.
def read_new_number(command, body):
    refuse(len(body) != 16, 15, "length")
    return Said("number", int(body, 2))


# Access and the first Kill: the handle.
def read_handle(command, body):
    refuse(len(body) != 16, 15, "length")
    refuse_handle(command, body)
    return Said("number", command["number"])


# An error reply: 1, the code, whatever it is, and the handle.
def read_error(command, body):
    refuse(body[0] != "1", 15, "kind")
    refuse_handle(command, body[9:])
    return Said("error", int(body[1:9], 2))


# A success: 0, so many words as are allowed, and the handle.
def read_success(command, body, allowed):
    words, odd = divmod(len(body) - 17, 16)
    refuse(odd != 0 or words not in allowed, 15, "length")
    refuse(body[0] != "0", 15, "kind")
    refuse_handle(command, body[-16:])
    return Said("words", body[1:-16]) if words else Said("done")


# A success, or an error reply, which is known by its length.
def read_either(command, body, allowed):
    if len(body) == 25:
        return read_error(command, body)
    return read_success(command, body, allowed)


# How many words the reply to a Read may bring.
def words_allowed(count):
    return range(1, MOST_WORDS + 1) if count == 0 else (count,)


def read_words(command, body):
    return read_either(command, body, words_allowed(command["count"]))


def read_permalocks(command, body):
    return read_either(command, body, (command["range"],))


# The commands that store.
def read_done(command, body):
    return read_either(command, body, (0,))


# Kill: the handle after the first half, a success after the second.
def read_kill(command, body):
    return read_handle(command, body) if len(body) == 16 else read_done(command, body)


# NAK and Select: no reply is one to them.
def read_none(command, body):
    raise Refused(15, "none")


# The commands whose replies have no CRC-16.
BARE = ("Query", "QueryAdjust", "QueryRep")

# What reads the body of a reply to each of the others.
BODIES = {"ACK": read_pc, "Select": read_none, "NAK": read_none, "Req_RN": read_new_number, "Read": read_words,
          "Write": read_done, "Kill": read_kill, "Lock": read_done, "Access": read_handle, "BlockWrite": read_done,
          "BlockErase": read_done, "BlockPermalock read": read_permalocks, "BlockPermalock lock": read_done}


# Answer 8 for under 16 bits, or for a bit count past the bytes lent.
def refuse_count(count, data):
    refuse(count < 16, 8, "short")
    refuse(count > 8 * len(data), 8, "past")


# Reading: what a reply of so many bits in these bytes says; 9, then 8, then 15.
def read(command, count, data):
    refuse_beyond(command)
    refuse_count(count, data)
    bits = bits_of_bytes(data)[:count]
    if command.form in BARE:
        return read_bare(command, bits)
    return BODIES[command.form](command, body_of(bits))


# --------------------------------------------------------------------------
# The program
# --------------------------------------------------------------------------

NUMBER_LIMIT = 0xFFFFFFFF
LONGEST_FRAME = 521                     # bytes

# The words that bench's lines begin with.
BENCH_WORDS = (b"image", b"check", b"power", b"frame", b"ask", b"release", b"register", b"read", b"write", b"dump")


# A number, of which every command has its own limits.
def read_number(part):
    return model.read_number(part, NUMBER_LIMIT)


# What reads a part by its name, where that is not a number: the fields' and those of other lines, with bench's limits.
READERS = {"number": model.read_word, "cover": model.read_word, "value": model.read_word, "half": model.read_word,
           "lock-mask": model.read_word, "lock-action": model.read_word, "data": model.read_hex,
           "BITS": model.read_number, "HEX": model.read_hex, "N": model.read_room,
           "WORD": model.read_word, "ROOM": model.read_room, "S": model.read_number}

# The three parts that may follow a command, for bench.
THREE = ("WORD", "ROOM", "S")


# The values of these parts by their names.
def read_parts(names, parts):
    if len(names) != len(parts):
        raise BadLine("number of parts")
    values = {}
    for name, part in zip(names, parts):
        try:
            values[name] = READERS.get(name, read_number)(part)
        except BadLine as bad:
            raise BadLine("%s: %s" % (name, bad)) from None
    return values


# A command's form, and its parts without the word that chooses between BlockPermalock's two.
def take_form(words):
    form, *parts = (word.decode("latin-1") for word in words)
    if form == "BlockPermalock":
        if len(parts) < 2:
            raise BadLine("number of parts")
        if parts[1] not in ("read", "lock"):
            raise BadLine("neither read nor lock")
        return form + " " + parts[1], words[1:2] + words[3:]
    if form not in FORMS:
        raise BadLine("unknown word")
    return form, words[1:]


# The command that these words are, and its three parts as they came, or none.
def take_command(words):
    form, parts = take_form(words)
    names = FORMS[form].split()
    three = parts[len(names):]
    if three:
        read_parts(THREE, three)
    return Command(form, read_parts(names, parts[:len(names)])), three


# What a reply says, as it is written.
def show_said(said):
    if said.kind == "error":
        return "error %02x" % said.value
    if said.kind == "words":
        return "words %d %s" % (len(said.value) // 16, show_hex(bytes_of_bits(said.value)))
    if said.kind == "number":
        return "number %04x" % said.value
    return "done"


class Gate:
    """The program line by line; all it holds is the room and the number of lines read."""

    def __init__(self):
        self.room = LONGEST_FRAME
        self.lines = 0
        self.brought = None             # what the last line came to, for counting

    # What one line writes.
    def line(self, text):
        self.lines += 1
        words = text.split(b" ")
        try:
            if len(text) > model.LINE_LIMIT:
                raise BadLine("line too long")
            if text == b"" or text.startswith(b"#") or words[0] in BENCH_WORDS:
                return self.through(text, words[0])
            if words[0] == b"room":
                return self.set_room(words[1:])
            if words[0] == b"reply":
                return self.read_reply(words[1:])
            return self.make_frame(words)
        except BadLine as bad:
            self.brought = "bad", str(bad)
            return b"bad line %d" % self.lines

    # A line for bench, an empty line or a comment goes through as it came.
    def through(self, text, word):
        self.brought = "through", word.decode() if word in BENCH_WORDS else "comment" if text else "empty"
        return text

    # How many bytes frames are made into from now on.
    def set_room(self, parts):
        self.room = read_parts(("N",), parts)["N"]
        self.brought = "room", "room"
        return b"# room %d" % self.room

    # A command: its frame, with the three parts behind it where it has them.
    def make_frame(self, words):
        command, three = take_command(words)
        try:
            bits = make(command, self.room)
        except Refused as refusal:
            return self.refused("make", command, refusal)
        self.brought = "make", command.form, "frame"
        return b" ".join([b"frame", b"%d" % len(bits), show_hex(bytes_of_bits(bits)).encode(), *three])

    # A reply to a command, with the three parts or not: what it says.
    def read_reply(self, parts):
        reply = read_parts(("BITS", "HEX"), parts[:2])
        if not parts[2:]:
            raise BadLine("number of parts")
        command, _ = take_command(parts[2:])
        try:
            said = read(command, reply["BITS"], reply["HEX"])
        except Refused as refusal:
            return self.refused("read", command, refusal)
        self.brought = "read", command.form, said.kind
        return show_said(said).encode()

    def refused(self, operation, command, refusal):
        self.brought = operation, command.form, "refused %d" % refusal.number, refusal.reason
        return b"refused %d" % refusal.number


# What all lines write: one line for each.
def run(text):
    gate = Gate()
    return b"".join(gate.line(line) + b"\n" for line in lines_of(text))


if __name__ == "__main__":
    sys.stdout.buffer.write(run(sys.stdin.buffer.read()))
