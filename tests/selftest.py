#!/usr/bin/env python3
"""Holds the model to the worked cases of the rules and to what bench's list says of itself."""

import random
from typing import NamedTuple

import build
import makelist
import model
import possible
from build import BANK_EPC, BANK_USER, Image

ENOUGH = build.ENOUGH
NUMBER = 0x1234
HANDLE = 0xA5C3
COVER = 0x0F1E


# --------------------------------------------------------------------------
# The worked cases
# --------------------------------------------------------------------------

# A bench on this image, in Secured with a handle and a cover number.
def secured_bench(image):
    bench = model.Bench()
    for text in (build.image_line(image.bytes()), "power 9",
                 build.frame_line(build.query(0), fresh=NUMBER), build.frame_line(build.ack(NUMBER)),
                 build.frame_line(build.req_rn(NUMBER), fresh=HANDLE),
                 build.frame_line(build.req_rn(HANDLE), fresh=COVER)):
        bench.line(text.encode())
    assert bench.session == model.Session("secured", HANDLE, COVER, round=model.Round(0, 0),
                                          flags=model.Flags())
    return bench


# The answer to one frame.
def send(bench, bits, **parts):
    bench.line(build.frame_line(bits, **parts).encode())
    return bench.answer


# The code of an error reply.
def code_of(answer):
    assert answer.number == 10 and answer.reply[0] == "1" and len(answer.reply) == 41
    return int(answer.reply[1:9], 2)


def crc_cases():
    assert model.crc16("") == 0x0000                                    # P1
    assert model.crc16(16 * "0") == 0xE2F0                              # P2
    assert model.crc16(16 * "1") == 0xFFFF                              # P3
    chance = random.Random(5)
    for _ in range(300):
        bits = "".join(chance.choice("01") for _ in range(chance.randrange(200)))
        assert model.crc16(bits) == build.crc(bits)
        assert model.crc16(model.with_crc(bits)) == 0x1D0F ^ 0xFFFF     # the residue


# CRC-5 of every Query, against the long division of build.py and one by hand: 1000 0000 0000 0001 0
# with the preset laid on leaves 00010b.
def crc5_cases():
    assert model.crc5("10000000000000010") == build.crc5("10000000000000010") == 0b00010
    for number in range(1 << 13):
        bits = "1000" + build.field_bits(number, 13)
        assert model.crc5(bits) == build.crc5(bits)
        assert model.crc5(bits + build.field_bits(build.crc5(bits), 5)) == 0    # the residue


def ebv_cases():
    def value(*groups):
        bits = "".join(model.bits_of(group, 8) for group in groups)
        return model.Reader(bits).take_ebv()
    assert value(0x7F) == (127, 1)                                      # P4
    assert value(0x81, 0x6A) == (234, 2)                                # P5
    assert value(0x80, 0x05) == (5, 2)                                  # P6
    assert value(0x80, 0x80, 0x05) == (5, 3)
    assert value(0xFF, 0xFF, 0x7F) == (0x1FFFFF, 3)
    for groups in ((), (0x80,), (0x80, 0x80, 0x80), (0x80, 0x80, 0x80, 0x05)):
        try:
            value(*groups)
        except model.Refused as refusal:
            assert refusal.number == 7
        else:
            raise AssertionError(groups)


def small_image_cases():
    words = Image().words()
    assert words[:16] == [7, 4, 16, 2, 18, 4, 22, 4, 26, 2, 28, 16, 44, 1, 45, 33]
    layout = model.check_image(Image().bytes())
    assert len(words) == 78 and layout.blocks == 4 and layout.pairs == 16
    assert [layout.offset[name] for name in model.SECTIONS] == [16, 18, 22, 26, 28, 44, 45]
    largest = Image(block_size=16, reserved=64 * [0], epc=33 * [0], tid=64 * [0],
                    user=4096 * [0], perma=16 * [0], pairs=255)
    assert len(largest.words()) == 4802 and model.check_image(largest.bytes())


def write_cases():
    bits = build.write(BANK_USER, 3, 0xABCD, COVER, HANDLE)
    bench = secured_bench(Image())
    answer = send(bench, bits)
    assert answer.number == 0                                           # P7
    assert answer.made == [(46, 31), (47, 0xABCD), (45, 1), (31, 0xABCD), (45, 0)]
    assert answer.reply == build.sealed("0" + build.field_bits(HANDLE, 16))
    for cut, after in ((2, 10), (3, 0xABCD)):                           # P8, P9
        bench = secured_bench(Image())
        answer = send(bench, bits, s=cut)
        assert answer.number == 11 and len(answer.made) == cut
        assert bench.session == model.OFF_SESSION
        bench.line(b"power 9")
        assert bench.answer.number == 0 and model.word(bench.image, 31) == after


def lock_cases():
    bench = secured_bench(Image(lock=0x003))
    answer = send(bench, build.lock(0x021, 0x021, HANDLE))
    assert answer.number == 0 and model.word(bench.image, 16) == 0x023  # P10
    bench = secured_bench(Image(lock=0x003))
    answer = send(bench, build.lock(0x001, 0x000, HANDLE))
    assert code_of(answer) == 0x04 and answer.made == []                # P11
    assert model.word(bench.image, 16) == 0x003


def spi_case():
    bench = model.Bench()
    for text in (build.image_line(Image(perma=[0x8000]).bytes()), "power 9", "ask"):
        bench.line(text.encode())
    bench.line(b"write 2 aaaabbbbccccdddd 8")                           # P12
    assert bench.answer.number == 0 and bench.session.register == 2
    assert bench.answer.made == [(46, 32), (47, 0xCCCC), (48, 33), (49, 0xDDDD), (45, 2),
                                 (32, 0xCCCC), (33, 0xDDDD), (45, 0)]
    assert [model.word(bench.image, n) for n in range(30, 34)] == [6, 10, 0xCCCC, 0xDDDD]


# A tag is found: slot 3 of four, counted down, and the ACK's reply.
def inventory_case():
    bench = model.Bench()
    for text in (build.image_line(Image().bytes()), "power 1"):
        bench.line(text.encode())
    assert send(bench, build.query(2), fresh=0x7AD7).session.slot == 3
    for slot in (2, 1):
        assert send(bench, build.query_rep(0)).session.slot == slot
    answer = send(bench, build.query_rep(0), fresh=0x613A)
    assert answer.session.state == "reply" and int(answer.reply, 2) == answer.session.number == 0x613A
    answer = send(bench, build.ack(0x613A))
    assert answer.session.state == "acknowledged" and "%x" % int(answer.reply, 2) == "1000303402579297"
    answer = send(bench, build.query_rep(0))
    assert answer.session == model.Session("ready", flags=model.Flags(("B", "A", "A", "A")))


def limit_cases():
    bench = secured_bench(Image())
    assert send(bench, build.write(BANK_USER, 15, 1, COVER, HANDLE)).number == 0
    bench = secured_bench(Image())
    assert code_of(send(bench, build.write(BANK_USER, 16, 1, COVER, HANDLE))) == 0x03
    bench = secured_bench(Image())
    assert send(bench, build.block_write(BANK_USER, 0, 16 * [1], HANDLE)).number == 0
    assert code_of(send(bench, build.block_write(BANK_USER, 0, 17 * [1], HANDLE))) == 0x03
    bench = secured_bench(Image())
    assert send(bench, build.write(BANK_EPC, 1, 2 << 11, COVER, HANDLE)).number == 0
    bench = secured_bench(Image())
    assert code_of(send(bench, build.write(BANK_EPC, 1, 3 << 11, COVER, HANDLE))) == 0x03


# Which of the two it was, in Secured: 12 where the second half came and does not make the password, 14 where
# another command to this tag came. Either way Arbitrate, no reply and the image as it was.
def password_cases():
    lost = model.Session("arbitrate", slot=0, round=model.Round(0, 0), flags=model.Flags())
    for second, other, upper, lower in ((build.access, build.kill, 0, 0), (build.kill, build.access, 0x4B49, 0x4C4C)):
        for in_upper, in_lower, number in ((0, 0, 0), (1, 0, 12), (0, 0x8000, 12), (1, 1, 12)):
            bench, _ = halfway_bench(second(upper ^ in_upper, COVER, HANDLE))
            assert send(bench, second(lower ^ in_lower, COVER, HANDLE)).number == number
            assert number == 0 or bench.session == lost
        for bits in (other(lower, COVER, HANDLE), build.ack(HANDLE), build.read(BANK_USER, 0, 1, HANDLE),
                     build.read(BANK_USER, 16, 1, HANDLE), build.write(BANK_USER, 0, 1, COVER, HANDLE),
                     build.lock(0x200, 0x200, HANDLE), build.block_write(BANK_USER, 0, [1], HANDLE),
                     build.block_erase(BANK_USER, 0, 1, HANDLE),
                     build.block_permalock(BANK_USER, 0, HANDLE, masks=[0x8000])):
            bench, image = halfway_bench(second(upper, COVER, HANDLE))
            answer = send(bench, bits, room=0, s=0)
            assert (answer.number, answer.reply, answer.made) == (14, "", [])
            assert bench.session == lost and bytes(bench.image) == image


# A bench in Secured between two halves, with a cover number; and its image.
def halfway_bench(first):
    bench = secured_bench(Image())
    assert send(bench, first).number == 0
    assert send(bench, build.req_rn(HANDLE), fresh=COVER).session.half is not None
    return bench, bytes(bench.image)


# Where a Read of EPC with WordCount 0 ends, for each L and each pointer of banks short and long.
def long_read_cases():
    for count in (2, 3, 4, 8, 32):
        for length in range(count - 1):
            bench = secured_bench(Image(epc=[0, length << 11 | 0x2A5] + [0xE000 + k for k in range(2, count)]))
            words = [model.word(bench.image, 22 + k) for k in range(count)]
            for pointer in range(count):
                end = length + 2 if pointer < length + 2 else count
                answer = send(bench, build.read(BANK_EPC, pointer, 0, HANDLE), room=5 + 2 * (end - pointer))
                bits = "".join(build.field_bits(word, 16) for word in words[pointer:end])
                assert answer.number == 0 and answer.reply[1:-32] == bits
                assert send(bench, build.read(BANK_EPC, pointer, 0, HANDLE), room=4 + 2 * (end - pointer)).number == 4
            for pointer in (count, count + 1):
                assert code_of(send(bench, build.read(BANK_EPC, pointer, 0, HANDLE))) == 0x03


# --------------------------------------------------------------------------
# The lines' own limits
# --------------------------------------------------------------------------

def line_cases():
    assert model.run(b"") == b""
    assert model.run(b"\n\n# x\n") == b""
    assert model.run(b"dump") == b"image -\n"
    assert model.run(b"\n#\ndump \ndump") == b"bad line 3\nimage -\n"
    assert model.run(b"#" + 19999 * b"x" + b"\n") == b""
    assert model.run(b"#" + 20000 * b"x" + b"\n") == b"bad line 1\n"
    assert model.run(b"image " + 9604 * b"00") == b"image 9604\n"
    assert model.run(b"image " + 9605 * b"00") == b"bad line 1\n"
    assert model.run(b"admit\nadmit 1234\nadmit 1234 0") == b"bad line 1\nbad line 2\nbad line 3\n"


# --------------------------------------------------------------------------
# The list of bench
# --------------------------------------------------------------------------

# The parts of a line that the model wrote, by the keys of '#>'.
def parts_of(written, text):
    words = written.split(" ")
    if words[0] == "bad":
        return {"bad": "1"}
    if words[0] == "image":
        if text == b"dump":
            return {"bytes": str(len(model.read_hex(words[1].encode()))), "image": words[1]}
        return {"bytes": words[1]}
    parts = {"answer": words[1]}
    if len(words) == 2:
        return parts
    parts.update(stores=words[3], reply=words[5])
    if words[7] == "value":
        parts["value"] = words[8]
    keys = ("state", "number", "cover", "half", "port", "register", "slot", "q", "round", "flags")
    parts.update(zip(keys, words[-len(keys):]))
    bits = model.bits_of_bytes(model.read_hex(words[6].encode()))[:int(words[5])]
    if words[1] == "10":
        parts["code"] = "%02x" % int(bits[1:9], 2)
    data = bits if text.startswith(b"read") else bits[1:-32]
    parts["data"] = words_of(data)
    if len(bits) % 16 == 0:
        parts["whole"] = words_of(bits)
    return parts


# Bits as words, parted by commas.
def words_of(bits):
    return ",".join("%04x" % int(bits[k:k + 16], 2) for k in range(0, len(bits) - 15, 16))


# Whether the parts are as a '#>' line says.
def check_expected(expected, parts, where):
    pairs = expected.split(" ")
    for key, value in zip(pairs[0::2], pairs[1::2]):
        if key == "word":
            offset, wanted = value.split(":")
            found = parts["image"][4 * int(offset):4 * int(offset) + 4]
            assert found == wanted, (where, value, found)
        else:
            assert parts.get(key) == value, (where, key, value, parts)


# The code of a frame line's command, where it has one.
def command_of(text):
    count, data = text.split(b" ")[1:3]
    return model.code_of(model.bits_of_bytes(model.read_hex(data))[:int(count)])


# The error codes that each command can give.
POSSIBLE_CODES = {
    (model.READ, "03"), (model.READ, "04"), (model.WRITE, "03"), (model.WRITE, "04"),
    (model.KILL, "00"), (model.LOCK, "04"), (model.BLOCK_WRITE, "00"),
    (model.BLOCK_WRITE, "03"), (model.BLOCK_WRITE, "04"), (model.BLOCK_ERASE, "00"),
    (model.BLOCK_ERASE, "03"), (model.BLOCK_ERASE, "04"), (model.BLOCK_PERMALOCK, "03"),
    (model.BLOCK_PERMALOCK, "04")}


# Holds the model to what the list says of each line: how many lines, and the answers, error codes, cases and Reads
# of EPC seen.
def walk_list(content):
    bench, expected, held = model.Bench(), None, 0
    answers, codes, seen, epc_reads = set(), set(), set(), set()
    for number, text in enumerate(model.lines_of(content), 1):
        situation = possible.situation_of(bench.session)
        written = bench.line(text)
        if text.startswith(b"#> "):
            expected = text[3:].decode()
        if written is None:
            continue
        parts = parts_of(written, text)
        assert expected is not None, number
        check_expected(expected, parts, number)
        expected, held = None, held + 1
        answers.add(parts.get("answer"))
        if "code" in parts:
            codes.add((command_of(text), parts["code"]))
        if text.startswith(b"frame") and "answer" in parts:
            seen.add((situation, model.NAMES.get(command_of(text), "unknown code"), int(parts["answer"])))
            epc_reads.add(possible.epc_read_case(possible.parts_of(situation)[0], bench.image, text,
                                                 int(parts["answer"])))
    return held, answers, codes, seen, epc_reads - {None}


def list_cases():
    with open(makelist.LIST, "rb") as source:
        content = source.read()
    assert content == makelist.whole_list().encode("utf-8"), "crates/bench/stdin is not as makelist.py writes it"
    held, answers, codes, seen, epc_reads = walk_list(content)
    assert {str(n) for n in range(15)} <= answers
    assert codes == POSSIBLE_CODES, codes ^ POSSIBLE_CODES
    assert seen <= set(possible.POSSIBLE), seen - set(possible.POSSIBLE)
    wanted = {case for case in possible.POSSIBLE if case[1] in possible.INVENTORY}
    assert coarse(wanted) <= coarse(seen), coarse(wanted) - coarse(seen)
    failing = {case for case in possible.POSSIBLE if case[2] in (12, 14)}
    assert failing <= seen, failing - seen
    assert epc_reads == set(possible.EPC_READ_CASES), epc_reads ^ set(possible.EPC_READ_CASES)
    return held


# Situations by their states, and whether a half waits.
def coarse(cases):
    return {(situation.split(" ")[0], "access" in situation or "kill" in situation, kind, answer)
            for situation, kind, answer in cases}


# --------------------------------------------------------------------------
# That the list can fail
# --------------------------------------------------------------------------

# Wrong rules for a password that fails: what they answer, seeing the right answer, the session, the command and
# the password.
WRONG_RULES = {
    "12 for both": lambda right, session, command, password: 12,
    "14 for both": lambda right, session, command, password: 14,
    "the two exchanged": lambda right, session, command, password: 26 - right,
    "broken halves go through": lambda right, session, command, password: None if right == 14 else right,
    "an ACK breaks nothing": lambda right, session, command, password:
        None if command.code == model.ACK else right,
    "12 in Open": lambda right, session, command, password: 12 if session.state == "open" else right,
    "12 in Secured": lambda right, session, command, password: 12 if session.state == "secured" else right,
    "12 without a cover number": lambda right, session, command, password: 12 if session.cover is None else right,
    "12 for any half": lambda right, session, command, password: right if command.half is None else 12,
    "12 after a wrong upper half": lambda right, session, command, password:
        right if session.half[1] == password[0] else 12,
    "14 after a right upper half": lambda right, session, command, password:
        14 if session.half[1] == password[0] else right}


# The model's rule for a password that fails, made wrong.
def wrong_password(rule):
    right_rule = model.password_failed

    def wrong_rule(image, layout, session, command):
        right = right_rule(image, layout, session, command)
        if right is None:
            return None
        password = model.access_password if session.half[0] == model.ACCESS else model.kill_password
        return rule(right, session, command, password(image, layout))

    return wrong_rule


class Reading(NamedTuple):
    """A Read as a wrong rule sees it: how many words are right, where it begins, L + 2 and the bank's count."""

    call: model.Call
    right: int
    pointer: int
    code_end: int
    bank_end: int

    # Whether it is one of this bank with WordCount 0.
    def goes_on(self, bank):
        return self.call.command.bank == bank and self.call.command.count == 0

    # How many words there are to the bank's end.
    @property
    def rest(self):
        return self.bank_end - self.pointer

    # How many words there are where the code ends elsewhere.
    def ended(self, code_end):
        return min(code_end, self.bank_end) - self.pointer if self.pointer < code_end else self.rest

    # An EPC word of the image.
    def epc_word(self, n):
        return model.section_word(self.call.image, self.call.layout, "EPC", n)


class FirstLength:
    """L as a tag has it that keeps the one it found first in an image."""

    def __init__(self):
        self.image, self.code_end = None, 0

    def __call__(self, read):
        if self.image is not read.call.image:
            self.image, self.code_end = read.call.image, read.code_end
        return read.ended(self.code_end)


# An error reply with code 03h.
def past_end(read):
    raise model.ErrorReply(0x03)


# Wrong ends for a Read of EPC with WordCount 0: how many words it shows.
WRONG_ENDS = {
    "with the bank, always": lambda read: read.rest,
    "after word L where the pointer is below L + 2": lambda read:
        read.right - 1 if read.pointer < read.code_end else read.right,
    "after word L where it is below L + 1": lambda read: read.ended(read.code_end - 1),
    "after word L + 2 where it is below L + 3": lambda read: read.ended(read.code_end + 1),
    "after word L + 2 where it is below L + 2": lambda read:
        min(read.right + 1, read.rest) if read.pointer < read.code_end else read.right,
    "after L + 2 words": lambda read: min(read.code_end, read.rest) if read.pointer < read.code_end else read.right,
    "after L words": lambda read: min(read.code_end - 2, read.rest) if read.pointer < read.code_end else read.right,
    "with the bank from L + 1 on": lambda read: read.rest if read.pointer == read.code_end - 1 else read.right,
    "at once from L + 2": lambda read: 0 if read.pointer == read.code_end else read.right,
    "after one word from L + 2": lambda read: 1 if read.pointer == read.code_end else read.right,
    "at once from L + 2 on": lambda read: 0 if read.pointer >= read.code_end else read.right,
    "at once beyond L + 2": lambda read: 0 if read.pointer > read.code_end else read.right,
    "03h from L + 2": lambda read: past_end(read) if read.pointer == read.code_end else read.right,
    "03h from L + 2 on": lambda read: past_end(read) if read.pointer >= read.code_end else read.right,
    "03h beyond L + 2": lambda read: past_end(read) if read.pointer > read.code_end else read.right,
    "with the code from word 0 alone": lambda read: read.right if read.pointer == 0 else read.rest,
    "with the bank where L is 0": lambda read: read.rest if read.code_end == 2 else read.right,
    "with the code in Open alone": lambda read: read.right if read.call.session.state == "open" else read.rest,
    "with the code in Secured alone": lambda read: read.right if read.call.session.state == "secured" else read.rest,
    "by L of word 0": lambda read: read.ended(model.pc_length(read.epc_word(0)) + 2),
    "by L of four bits": lambda read: read.ended((read.epc_word(1) >> 11 & 0xF) + 2),
    "by L of the top four bits": lambda read: read.ended((read.epc_word(1) >> 12) + 2),
    "by L of the top six bits": lambda read: read.ended((read.epc_word(1) >> 10) + 2),
    "by L as it stood first": FirstLength()}

# Wrong ends for other Reads.
WRONG_READS = {
    "the code's end in RESERVED": lambda read: read.ended(read.code_end) if read.goes_on("RESERVED") else read.right,
    "the code's end in TID": lambda read: read.ended(read.code_end) if read.goes_on("TID") else read.right,
    "the code's end in USER": lambda read: read.ended(read.code_end) if read.goes_on("USER") else read.right,
    "the code's end for a count too": lambda read:
        min(read.right, read.ended(read.code_end)) if read.call.command.bank == "EPC" else read.right}


# The model's rule for the words of a Read, made wrong where it is one of these.
def wrong_end(rule, meant):
    right_rule = model.words_read

    def wrong_rule(call):
        length = model.pc_length(model.section_word(call.image, call.layout, "EPC", 1))
        read = Reading(call, right_rule(call), call.command.pointer, length + 2, call.bank_count)
        return rule(read) if meant(read) else read.right

    return wrong_rule


# Whether the list notices a model with this function in place of its own.
def noticed(name, wrong, content):
    right = getattr(model, name)
    setattr(model, name, wrong)
    try:
        walk_list(content)
    except AssertionError:
        return True
    finally:
        setattr(model, name, right)
    return False


def able_to_fail():
    content = makelist.whole_list().encode("utf-8")
    for name, rule in WRONG_RULES.items():
        assert noticed("password_failed", wrong_password(rule), content), name
    for name, rule in WRONG_ENDS.items():
        assert noticed("words_read", wrong_end(rule, lambda read: read.goes_on("EPC")), content), name
    for name, rule in WRONG_READS.items():
        assert noticed("words_read", wrong_end(rule, lambda read: True), content), name


if __name__ == "__main__":
    for case in (crc_cases, crc5_cases, ebv_cases, small_image_cases, write_cases, lock_cases, spi_case,
                 inventory_case, limit_cases, password_cases, long_read_cases, line_cases):
        case()
        print("good:", case.__name__)
    print("good: the list of bench, %d lines held to what they must bring" % list_cases())
    able_to_fail()
    print("good: the list of bench notices each of %d wrong rules of 12 and 14, and of %d wrong ends of a Read"
          % (len(WRONG_RULES), len(WRONG_ENDS) + len(WRONG_READS)))
