#!/usr/bin/env python3
"""Holds the model of the depot to the papers' cases, to the model of the tag, and to what gate's list says of itself.

The list has to notice each of the models with one thing wrong that stand at the end.
"""

import os
import random
from unittest.mock import patch

import build
import depot
import generate
import makegate
import model
import outcomes
import talks

NUMBER, HANDLE, COVER = 0x613A, 0xABCD, 0x0F1E


# What one line of a fresh gate writes.
def written(text):
    return depot.Gate().line(text.encode()).decode()


# The command of a line.
def command_of(text):
    return depot.take_command(text.encode().split(b" "))[0]


# --------------------------------------------------------------------------
# The papers' cases
# --------------------------------------------------------------------------

def example_cases():
    assert written("Read abcd 3 234 5") == "frame 66 c2e05a816af351fc80"
    assert written("Write abcd ffff 1 2 edcb") == "frame 66 c340848d2af34ccc80"
    assert written("reply 41 825f77f6a880 Read beef 3 0 0") == "error 04"
    assert written("Query 0 0 0 0 0 0 2 2c91 4 0") == "frame 22 800108 2c91 4 0"
    assert written("QueryRep 0 613a 4 0") == "frame 4 00 613a 4 0"
    assert written("ACK 613a 0000 8 0") == "frame 18 584e80 0000 8 0"
    assert written("reply 64 1000303402579297 ACK 613a") == "words 3 100030340257"


# A pointer's EBV: the worked ones, and that the tag reads each as that pointer in as few bytes as go.
def pointer_cases():
    assert depot.ebv(127) == "01111111" and depot.ebv(234) == "1000000101101010"
    chance = random.Random(4)
    limits = [1 << 7 * e for e in (1, 2, 3)]
    for pointer in [0, 127, 128, 16383, 16384, 2097151] + [chance.randrange(1 << 21) for _ in range(3000)]:
        value, e = model.Reader(depot.ebv(pointer)).take_ebv()
        assert value == pointer and e == next(k for k, limit in enumerate(limits, 1) if pointer < limit)


# The longest frame has 521 bytes, in bits what document 01 says.
def length_cases():
    bits = {form: len(depot.frame_bits(command_of(text))) for form, (text, _) in makegate.COMMANDS.items()}
    assert bits == {"QueryRep": 4, "ACK": 18, "Query": 22, "QueryAdjust": 9, "Select": 37 + 8 + 12, "NAK": 8,
                    "Req_RN": 40, "Read": 58, "Write": 66, "Kill": 59, "Lock": 60, "Access": 56,
                    "BlockWrite": 58 + 32, "BlockErase": 58, "BlockPermalock read": 67, "BlockPermalock lock": 67 + 16}
    longest = command_of("BlockPermalock abcd lock 3 2097151 " + 510 * "ff")
    assert len(depot.frame_bits(longest)) == 59 + 24 + 16 * 255 and -(-4163 // 8) == depot.LONGEST_FRAME


# Every Query, as the sender's side has it.
def query_cases():
    for number in range(1 << 13):
        dr, m, trext, sel, session, target, q = (number >> shift & mask for shift, mask in (
            (12, 1), (10, 3), (9, 1), (7, 3), (5, 3), (4, 1), (0, 15)))
        text = "Query %d %d %d %d %d %d %d" % (dr, m, trext, sel, session, target, q)
        assert depot.frame_bits(command_of(text)) == build.query(q, session, target, sel, number >> 9)


def line_cases():
    assert depot.run(b"") == b""
    assert depot.run(b"\n\n# x\n") == b"\n\n# x\n"
    assert depot.run(b"NAK") == depot.run(b"NAK\n") == b"frame 8 c0\n"
    assert depot.run(b"dump") == b"dump\n"
    assert depot.run(b"\n#\nNAK \nNAK") == b"\n#\nbad line 3\nframe 8 c0\n"
    assert depot.run(b"#\xff\0\r\nread \xff\0\r\nread\xff\r\n") == b"#\xff\0\r\nread \xff\0\r\nbad line 3\n"
    for line in (b"#", b"image ", b"BlockWrite abcd 3 0 ", b"reply 16 ", b"x"):
        assert depot.run(line.ljust(20001, b"0")) == b"bad line 1\n"
    assert depot.run(b"#" + 19999 * b"x") == b"#" + 19999 * b"x" + b"\n"
    assert depot.run(b"BlockWrite abcd 3 0 ".ljust(20000, b"0")) == b"refused 9\n"
    assert depot.run(b"room 1\nNAK\nroom 0\nNAK\nroom 9605\nNAK\nroom 2\nNAK") == \
        b"# room 1\nframe 8 c0\n# room 0\nrefused 4\nbad line 5\nrefused 4\n# room 2\nframe 8 c0\n"


# The blocks of lines in the example of docs/GATE.md, with the image of the example's talk in full.
def example_blocks():
    with open(os.path.join(makegate.HERE, "..", "examples", "talk.txt"), "rb") as source:
        image = next(line for line in model.lines_of(source.read()) if line.startswith(b"image "))
    with open(os.path.join(makegate.HERE, "..", "docs", "GATE.md"), "rb") as source:
        example = source.read().split(b"## An example\n")[1]
    blocks = [b"\n".join(line[4:] for line in block.split(b"\n")) for block in example.split(b"\n\n")
              if block.startswith(b"    ")]
    return [block.strip(b"\n").replace(b"image 00070004...", image) + b"\n" for block in blocks]


# The example of docs/GATE.md is what the models write.
def document_cases():
    talk, frames, answers, replies, said = example_blocks()
    assert depot.run(talk) == frames and model.run(frames) == answers and depot.run(replies) == said


# --------------------------------------------------------------------------
# The depot and the tag
# --------------------------------------------------------------------------

# Whether the tag hears this frame as this command with these fields, uncovered by its cover number; spare bits of a
# Select's mask are none of it.
def heard_as(command, bits):
    heard = model.read_frame(len(bits), build.pack(bits))
    fields = dict(command.fields)
    if command.form == "Select":
        fields["data"] = build.pack(model.bits_of_bytes(fields["data"])[:fields["length"]])
    return talks.asked_for(heard, bits, fields.get("cover", 0)) == depot.Command(command.form, fields)


# The one reply that says this to a command, as a tag sends it.
def reply_saying(command, said):
    number = command.fields.get("number")
    if said.kind == "error":
        return build.error_reply(said.value, number)
    if said.kind == "done":
        return build.success_reply(number)
    if said.kind == "words":
        words = [int(said.value[k:k + 16], 2) for k in range(0, len(said.value), 16)]
        return build.pc_reply(words) if command.form == "ACK" else build.success_reply(number, words)
    return build.field_bits(said.value, 16) if command.form in depot.BARE else build.number_reply(said.value)


# What these bits say to a command, or None where they are refused; what is said is said by no other bits.
def read_bits(command, bits):
    try:
        said = depot.read(command, len(bits), build.pack(bits, "1"))
    except depot.Refused:
        return None
    assert said.kind in outcomes.SAYS[command.form] and reply_saying(command, said) == bits
    return said


# Over random lists: each frame made is heard as its command, each reply of the tag is read, each reading is that of
# one reply only, and a line that gate refuses is bench's bad line of the same number.
def talk_cases():
    frames = replies = own = 0
    for number in range(1, 9):
        maker = talks.TalkMaker(random.Random("depottest/%d" % number), 500, generate.cases_for(5, number)[:12])
        lines = maker.make()
        assert not maker.unread
        own += sum("own reply" in edge for met in maker.edges for edge in met)
        for line, brought in zip(lines, maker.brought):
            words = line.split(b" ")
            if brought[0] == "make" and brought[2] == "frame":
                command, _ = depot.take_command(words)
                assert heard_as(command, depot.frame_bits(command)), line
                frames += 1
            elif brought[0] == "read":
                command, _ = depot.take_command(words[3:])
                bits = model.bits_of_bytes(model.read_hex(words[2]))[:int(words[1])]
                if not brought[2].startswith("refused"):
                    assert read_bits(command, bits) is not None
                    replies += 1
        numbers_hold(lines)
    return frames, replies, own


# Whether the line numbers hold through the pipe.
def numbers_hold(lines):
    made = depot.run(b"".join(line + b"\n" for line in lines))
    bench = model.Bench()
    assert len(model.lines_of(made)) == len(lines)
    for number, (line, passed) in enumerate(zip(lines, model.lines_of(made)), 1):
        answer = bench.line(passed)
        if passed.startswith((b"refused", b"bad line", b"number", b"words", b"error", b"done")):
            assert answer == "bad line %d" % number, (line, answer)
        elif line.startswith(b"room ") or line == b"" or line.startswith(b"#"):
            assert answer is None


# Bits of every length up to 120, and of some lengths beyond, with a right CRC-16 or without, with the handle or
# without: what is read of them is said by no other bits. A reply with one bit turned over is refused.
def other_bits_cases():
    chance, handle = random.Random(8), build.field_bits(HANDLE, 16)
    read = 0
    for text, _ in makegate.COMMANDS.values():
        command = command_of(text)
        for length in 8 * [*range(105)] + [17 + 16 * 255, 17 + 16 * 4096]:
            some = "".join(chance.choice("01") for _ in range(length))
            for bits in (some + 16 * "0", build.sealed(some), build.sealed((some + handle)[-length:] if length else ""),
                         build.sealed(("0" + some[1:-16] + handle)[-length:] if length else "")):
                read += read_bits(command, bits) is not None
        for kind in outcomes.SAYS[command.form]:
            bits = reply_of_kind(command, kind)
            assert read_bits(command, bits).kind == kind
            for place in range(len(bits)) if command.form not in depot.BARE else ():
                assert read_bits(command, bits[:place] + "10"[int(bits[place])] + bits[place + 1:]) is None
    return read


# A right reply of this kind.
def reply_of_kind(command, kind):
    if kind == "words":
        count = command.fields.get("count", command.fields.get("range", 3))
        value = "00010" + "".join(build.field_bits(k + 7, 16) for k in range(count))[5:]
    else:
        value = {"error": 4, "number": HANDLE, "done": None}[kind]
    return reply_saying(command, depot.Said(kind, value))


# --------------------------------------------------------------------------
# The list of gate
# --------------------------------------------------------------------------

# Holds the model to what the list says of each line: how many lines, and the outcomes seen.
def walk_list(content):
    gate, expected, held, seen = depot.Gate(), None, 0, set()
    for number, text in enumerate(model.lines_of(content), 1):
        line = gate.line(text)
        if text.startswith(b"#> "):
            expected = text[3:]
            continue
        if expected is None:
            assert line == text and gate.brought[0] == "through", number
            continue
        if expected == b"as it came":
            expected = text
        right = line.startswith(expected[:-3]) if expected.endswith(b"...") else line == expected
        assert right, (number, text[:100], expected[:100], line[:100])
        seen.add(gate.brought)
        expected, held = None, held + 1
    return held, seen


def list_cases():
    with open(makegate.LIST, "rb") as source:
        content = source.read()
    assert content == makegate.whole_list().encode("utf-8"), "crates/gate/stdin is not as makegate.py writes it"
    assert not content.endswith(b"\n")
    held, seen = walk_list(content)
    assert seen == set(outcomes.OUTCOMES), seen ^ set(outcomes.OUTCOMES)
    numbers_hold(model.lines_of(content))
    return held


# --------------------------------------------------------------------------
# That the list can fail
# --------------------------------------------------------------------------

# One part of a form's layout changed, its limits of one field, what reads its replies.
def layout(form, old, new):
    assert depot.LAYOUTS[form].count(old) == 1
    return patch.dict(depot.LAYOUTS, {form: depot.LAYOUTS[form].replace(old, new)})


def limit(form, field, allowed):
    assert field in depot.LIMITS[form]
    return patch.dict(depot.LIMITS, {form: {**depot.LIMITS[form], field: allowed}})


def body(form, reader):
    return patch.dict(depot.BODIES, {form: reader})


# Another function, value or class of this name.
def instead(name, wrong):
    return patch.object(depot, name, wrong)


# A pointer in another form: so many groups from these pointers on.
def pointer_with(groups_of):
    def wrong(pointer):
        groups = [pointer >> 7 * k & 0x7F for k in reversed(range(groups_of(pointer)))]
        return "".join("1" + build.field_bits(group, 7) for group in groups[:-1]) + build.field_bits(groups[-1], 8)
    return instead("ebv", wrong)


# Making with 4 before 9.
def room_first(command, room):
    depot.refuse_room(depot.frame_bits(command), room)
    return right_make(command, room)


# Reading in other orders: 9 after 8, and 15 before a wrong CRC-16.
def nine_late(command, count, data):
    depot.refuse_count(count, data)
    return right_read(command, count, data)


def fifteen_first(command, count, data):
    depot.refuse_beyond(command)
    depot.refuse_count(count, data)
    if command.form not in depot.BARE:
        depot.BODIES[command.form](command, model.bits_of_bytes(data)[:count - 16])
    return right_read(command, count, data)


# A CRC-16 asked of every reply.
def crc_of_all(command, count, data):
    said = right_read(command, count, data)
    depot.body_of(model.bits_of_bytes(data)[:count])
    return said


# Errors and successes read with a part left out.
def error_of_any_tag(command, reply):
    depot.refuse(reply[0] != "1", 15, "kind")
    return depot.Said("error", int(reply[1:9], 2))


def error_by_length(command, reply):
    depot.refuse_handle(command, reply[9:])
    return depot.Said("error", int(reply[1:9], 2))


def known_error(command, reply):
    said = right_error(command, reply)
    depot.refuse(said.value not in (0, 3, 4), 15, "code")
    return said


def success_by_length(command, reply, allowed):
    return right_success(command, "0" + reply[1:], allowed)


def success_of_any_tag(command, reply, allowed):
    return right_success(command, reply[:-16] + build.field_bits(command["number"], 16), allowed)


# A success of 33 bits as the words, none, of a Read.
def no_words(command, reply):
    if len(reply) == 17 and reply[0] == "0":
        depot.refuse_handle(command, reply[1:])
        return depot.Said("words", "")
    return right_words(command, reply)


# The reply to an ACK, whatever its PC says.
def any_pc(command, reply):
    depot.refuse(len(reply) < 16 or len(reply) % 16 != 0, 15, "length")
    return depot.Said("words", reply)


def pc_by_low_bits(command, reply):
    depot.refuse(len(reply) < 16 or len(reply) != 16 * (1 + int(reply[11:16], 2)), 15, "length")
    return depot.Said("words", reply)


# A bit count held to the bytes alone, or to the bits alone.
def count_short_only(count, data):
    depot.refuse(count < 16, 8, "short")


def count_past_only(count, data):
    depot.refuse(count > 8 * len(data), 8, "past")


def count_over_sixteen(count, data):
    depot.refuse(count <= 16, 8, "short")
    depot.refuse(count > 8 * len(data), 8, "past")


# A gate that has one thing wrong.
class DropsThree(depot.Gate):
    def make_frame(self, words):
        return b" ".join(super().make_frame(words).split(b" ")[:3])


class KeepsThree(depot.Gate):
    def refused(self, operation, command, refusal):
        return super().refused(operation, command, refusal) + b" 0000 0 0" * (operation == "make")


class LongComments(depot.Gate):
    def line(self, text):
        return super().line(text) if not text.startswith(b"#") else self.through(text, b"#")


class CountsNoComments(depot.Gate):
    def through(self, text, word):
        self.lines -= word not in depot.BENCH_WORDS
        return super().through(text, word)


class RoomForBadLines(depot.Gate):
    def set_room(self, parts):
        self.room = 521
        return super().set_room(parts)


class ReadsIntoRoom(depot.Gate):
    def read_reply(self, parts):
        return super().read_reply(parts) if self.room else b"refused 4"


right_make, right_read, right_error, right_success, right_words, right_crc16, right_crc5 = (
    depot.make, depot.read, depot.read_error, depot.read_success, depot.read_words, depot.crc16, depot.crc5)

# Models with one thing wrong, by what it is.
WRONG = {
    "a Write sent uncovered": layout("Write", "value^", "value:16"),
    "an Access sent uncovered": layout("Access", "half^", "half:16"),
    "a Kill sent uncovered": layout("Kill", "half^", "half:16"),
    "the count of a BlockWrite behind its words": layout("BlockWrite", "words data", "data words"),
    "a pointer of 127 in two bytes": pointer_with(lambda p: 1 + (p >= 127) + (p >= 16384)),
    "a pointer of 128 in one byte": pointer_with(lambda p: 1 + (p > 128) + (p >= 16384)),
    "a pointer of 16383 in three bytes": pointer_with(lambda p: 1 + (p >= 128) + (p >= 16383)),
    "pointers in three bytes": pointer_with(lambda p: 3),
    "a CRC-16 begun a bit late": instead("crc16", lambda bits: right_crc16(bits[1:])),
    "a CRC-16 that ends a bit early": instead("crc16", lambda bits: right_crc16(bits[:-1])),
    "a CRC-16 not complemented": instead("crc16", lambda bits: right_crc16(bits) ^ 0xFFFF),
    "a reply's CRC-16 begun a bit late": instead("body_of", lambda bits: (
        depot.refuse(bits[-16:] != build.field_bits(right_crc16(bits[1:-16]), 16), 8, "CRC"), bits[:-16])[1]),
    "a reply's CRC-16 not asked": instead("body_of", lambda bits: bits[:-16]),
    "CRC-5 left out": layout("Query", " CRC-5", ""),
    "CRC-5 all 0": layout("Query", "CRC-5", "00000"),
    "CRC-5 begun a bit late": instead("crc5", lambda bits: right_crc5(bits[1:])),
    "truncate sent as 1": layout("Select", " 0 ", " 1 "),
    "Select's spare bits copied into the frame": layout("Select", "mask", "data"),
    "Kill's three bits sent as 1": layout("Kill", "000", "111"),
    "RFU sent as 1": layout("BlockPermalock read", "00000000", "00000001"),
    "RFU sent as 1 in locking": layout("BlockPermalock lock", "00000000", "00000001"),
    "locking sent as reading": layout("BlockPermalock lock", " 1 ", " 0 "),
    "BlockErase's code for BlockWrite": layout("BlockWrite", "C7h", "C8h"),
    "4 before 9": instead("make", room_first),
    "4 where the room is the frame's": instead("refuse_room", lambda bits, room: depot.refuse(
        -(-len(bits) // 8) >= room, 4, "room")),
    "4 by whole bytes": instead("refuse_room", lambda bits, room: depot.refuse(len(bits) // 8 > room, 4, "room")),
    "9 after 8": instead("read", nine_late),
    "15 before 8": instead("read", fifteen_first),
    "a CRC-16 asked of a Query's reply": instead("read", crc_of_all),
    "the handle not compared": instead("refuse_handle", lambda command, bits: None),
    "an error with another tag's handle": instead("read_error", error_of_any_tag),
    "a success with another tag's handle": instead("read_success", success_of_any_tag),
    "41 bits read as an error, whatever the first": instead("read_error", error_by_length),
    "33 bits read as done, whatever the first": instead("read_success", success_by_length),
    "only the codes that the tag has": instead("read_error", known_error),
    "33 bits read as the words of a Read": body("Read", no_words),
    "4,097 words read": instead("MOST_WORDS", 4097),
    "4,095 words the most": instead("MOST_WORDS", 4095),
    "any number of words for any count": instead("words_allowed", lambda count: range(1, 4097)),
    "any PERMA words for any range": body("BlockPermalock read", lambda command, reply: depot.read_either(
        command, reply, range(1, 256))),
    "an ACK's words whatever L is": body("ACK", any_pc),
    "L of the low bits": body("ACK", pc_by_low_bits),
    "a Write's 32 bits read as a number": body("Write", depot.read_kill),
    "a first Kill refused": body("Kill", depot.read_done),
    "a second Access done": body("Access", depot.read_kill),
    "the handle asked of a Req_RN's reply": body("Req_RN", depot.read_handle),
    "any number as the handle of an Access": body("Access", depot.read_new_number),
    "a NAK done": body("NAK", lambda command, reply: depot.Said("done")),
    "a Select's reply read": body("Select", depot.read_new_number),
    "32 bits read as a Query's number": instead("read_bare", lambda command, bits: depot.Said(
        "number", int(bits[:16], 2))),
    "a bit count past the bytes": instead("refuse_count", count_short_only),
    "under 16 bits not asked": instead("refuse_count", count_past_only),
    "16 bits too few": instead("refuse_count", count_over_sixteen),
    "any UpDn": limit("QueryAdjust", "updn", range(8)),
    "UpDn 0 refused": limit("QueryAdjust", "updn", (3, 6)),
    "target 5": limit("Select", "target", range(6)),
    "Select of RESERVED": limit("Select", "bank", range(4)),
    "Select of 256 bits": limit("Select", "length", range(257)),
    "a Select's bytes not counted": instead("field_beyond", lambda command: next(
        (name for name, allowed in depot.LIMITS.get(command.form, {}).items()
         if (len(command[name]) if name == "data" else command[name]) not in allowed), None)),
    "pointers below 2^20": limit("Read", "pointer", range(1 << 20)),
    "pointers to 2^21": limit("BlockErase", "pointer", range((1 << 21) + 1)),
    "a BlockErase of 0 words": limit("BlockErase", "count", range(256)),
    "a Read with count 0 refused": limit("Read", "count", range(1, 256)),
    "a BlockPermalock of range 0": limit("BlockPermalock read", "range", range(256)),
    "an odd number of bytes": limit("BlockWrite", "data", range(1, 511)),
    "254 masks the most": limit("BlockPermalock lock", "data", range(2, 510, 2)),
    "BlockPermalock of EPC refused": limit("BlockPermalock read", "bank", (3,)),
    "eleven bits of Lock": limit("Lock", "lock-mask", range(1 << 11)),
    "numbers to 1,000,000": instead("NUMBER_LIMIT", 1000000),
    "numbers to any length": instead("NUMBER_LIMIT", 1 << 80),
    "a room of 520 bytes at first": instead("LONGEST_FRAME", 520),
    "admit one of bench's": instead("BENCH_WORDS", depot.BENCH_WORDS + (b"admit",)),
    "dump none of bench's": instead("BENCH_WORDS", depot.BENCH_WORDS[:-1]),
    "the three parts left out": instead("Gate", DropsThree),
    "three parts behind a refusal": instead("Gate", KeepsThree),
    "comments of any length": instead("Gate", LongComments),
    "comments not counted": instead("Gate", CountsNoComments),
    "a bad room back to 521": instead("Gate", RoomForBadLines),
    "no room for a reading": instead("Gate", ReadsIntoRoom)}


# Whether the list notices a model with this wrong.
def noticed(wrong, content):
    with wrong:
        try:
            walk_list(content)
        except AssertionError:
            return True
    return False


def able_to_fail():
    content = makegate.whole_list().encode("utf-8")
    for name, wrong in WRONG.items():
        assert noticed(wrong, content), name


if __name__ == "__main__":
    for case in (example_cases, pointer_cases, length_cases, query_cases, line_cases, document_cases):
        case()
        print("good:", case.__name__)
    print("good: in random talks %d frames heard as their commands, %d replies read, %d of them the tag's own"
          % talk_cases())
    print("good: of bits of every length %d read, each as what no other bits say" % other_bits_cases())
    print("good: the list of gate, %d lines held to what they must write, %d outcomes" % (
        list_cases(), len(outcomes.OUTCOMES)))
    able_to_fail()
    print("good: the list of gate notices each of %d wrong depots" % len(WRONG))
