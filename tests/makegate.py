#!/usr/bin/env python3
"""Writes crates/gate/stdin: the lines that walk through what gate makes, reads and refuses.

A line that begins with '#>' says what the line after it must write, word for word;
it is a comment to gate, and depottest.py holds the model to it. It ends with '...'
where the rest is left out, and is 'as it came' for a line that goes through. Frames
and replies are those of build.py, which knows nothing of the depot's model; those
of the papers stand here as they are given.
"""

import os

import build
from build import Image, error_reply, number_reply, pack, pc_reply, sealed, show, success_reply

HERE = os.path.dirname(os.path.abspath(__file__))
LIST = os.path.join(HERE, "..", "crates", "gate", "stdin")

HANDLE, OTHER, COVER = 0xABCD, 0xABCC, 0x0F1E
THREE = "613a 64 1000000"               # the three parts of a line for bench
POINTERS = (0, 127, 128, 16383, 16384, 2097151)
BEYOND = (2097152, 4294967295)


class Book:
    """The list's lines as they are gathered."""

    def __init__(self):
        self.lines = []

    # A heading.
    def title(self, text):
        self.lines += ["", "# ---- " + text + " ----"]

    # A remark.
    def note(self, text):
        self.lines.append("# " + text)

    # A line, and what it must write.
    def line(self, text, expected):
        self.lines += ["#> " + expected, text]

    # A line that is none; its number is that of the line after the note.
    def bad(self, text):
        self.line(text, "bad line %d" % (len(self.lines) + 2))

    # A line that goes through.
    def through(self, text):
        self.line(text, "as it came")

    # A command and the frame that it must make.
    def made(self, text, bits, three=""):
        frame = "frame %d %s" % (len(bits), show(pack(bits)))
        self.line(text + (" " + three if three else ""), frame + (" " + three if three else ""))

    # The room from now on.
    def room(self, size):
        self.line("room %d" % size, "# room %d" % size)

    # A reply to a command, and what it must be read as; bytes and bit count may be given apart.
    def reply(self, bits, command, expected, **apart):
        self.line(build.reply_line(bits, command, **apart), expected)


# Words as a line writes them.
def hex_of(words):
    return show(build.bytes_of_words(words))


# So many words that differ.
def some_words(count):
    return [(0x1234 + 0x0357 * k) & 0xFFFF for k in range(count)]


# A command of each form, and its frame.
COMMANDS = {
    "QueryRep": ("QueryRep 2", build.query_rep(2)),
    "ACK": ("ACK abcd", build.ack(HANDLE)),
    "Query": ("Query 1 2 0 3 1 0 9", build.query(9, session=1, target=0, sel=3, link=0b1100)),
    "QueryAdjust": ("QueryAdjust 3 6", build.query_adjust(3, build.UP)),
    "Select": ("Select 4 2 1 16 12 abc0", build.select(4, 2, 1, 16, "101010111100")),
    "NAK": ("NAK", build.nak()),
    "Req_RN": ("Req_RN abcd", build.req_rn(HANDLE)),
    "Read": ("Read abcd 3 5 2", build.read(3, 5, 2, HANDLE)),
    "Write": ("Write abcd 0f1e 3 5 1234", build.write(3, 5, 0x1234, COVER, HANDLE)),
    "Kill": ("Kill abcd 0f1e 4b49", build.kill(0x4B49, COVER, HANDLE)),
    "Lock": ("Lock abcd 0203 0201", build.lock(0x203, 0x201, HANDLE)),
    "Access": ("Access abcd 0f1e acce", build.access(0xACCE, COVER, HANDLE)),
    "BlockWrite": ("BlockWrite abcd 3 5 00010002", build.block_write(3, 5, [1, 2], HANDLE)),
    "BlockErase": ("BlockErase abcd 3 5 2", build.block_erase(3, 5, 2, HANDLE)),
    "BlockPermalock read": ("BlockPermalock abcd read 3 0 1", build.block_permalock(3, 0, HANDLE, count=1)),
    "BlockPermalock lock": ("BlockPermalock abcd lock 3 0 8000", build.block_permalock(3, 0, HANDLE, masks=[0x8000]))}

BARE = ("QueryRep", "Query", "QueryAdjust")
STORING = ("Write", "Lock", "BlockWrite", "BlockErase", "BlockPermalock lock")


# The papers' own examples, as they are given there.
def examples(book):
    book.title("the papers' examples")
    book.line("Read abcd 3 234 5", "frame 66 c2e05a816af351fc80")
    book.line("Write abcd ffff 1 2 edcb", "frame 66 c340848d2af34ccc80")
    book.line("reply 41 825f77f6a880 Read beef 3 0 0", "error 04")


def making(book):
    book.title("each command made, and made for bench")
    for text, bits in COMMANDS.values():
        book.made(text, bits)
        book.made(text, bits, THREE)
    book.note("every field at its least and at its most")
    for link in (0, 0b1000, 0b0110, 0b0001):
        book.made("Query %d %d %d 0 0 0 0" % (link >> 3, link >> 1 & 3, link & 1), build.query(0, link=link))
    book.made("Query 1 3 1 3 3 1 15", build.query(15, session=3, target=1, sel=3, link=0b1111))
    for session in range(4):
        book.made("QueryRep %d" % session, build.query_rep(session))
        for updn in (0, 3, 6):
            book.made("QueryAdjust %d %d" % (session, updn), build.query_adjust(session, updn))
    for number in (0, 0xFFFF):
        book.made("ACK %04x" % number, build.ack(number))
        book.made("Req_RN %04x" % number, build.req_rn(number))
    for count in (0, 1, 255):
        book.made("Read abcd 0 0 %d" % count, build.read(0, 0, count, HANDLE))
    for count in (1, 255):
        book.made("BlockErase abcd 2 0 %d" % count, build.block_erase(2, 0, count, HANDLE))
        book.made("BlockPermalock abcd read 3 0 %d" % count, build.block_permalock(3, 0, HANDLE, count=count))
    for mask, action in ((0, 0x3FF), (0x3FF, 0)):
        book.made("Lock abcd %04x %04x" % (mask, action), build.lock(mask, action, HANDLE))
    book.note("what the tag answers with an error reply is within the limits")
    book.made("BlockPermalock abcd read 1 0 1", build.block_permalock(1, 0, HANDLE, count=1))
    book.made("BlockPermalock abcd lock 0 0 ffff", build.block_permalock(0, 0, HANDLE, masks=[0xFFFF]))
    book.note("a cover of 0 leaves the word as it is, its own value leaves 0")
    for cover, value in ((0, 0x1234), (0x1234, 0x1234), (0xFFFF, 0)):
        book.made("Write abcd %04x 3 0 %04x" % (cover, value), build.write(3, 0, value, cover, HANDLE))
        book.made("Kill abcd %04x %04x" % (cover, value), build.kill(value, cover, HANDLE))
        book.made("Access abcd %04x %04x" % (cover, value), build.access(value, cover, HANDLE))


# The commands with a pointer: what makes the line and the frame of each from it.
POINTED = {
    "Select": (lambda p: "Select 0 0 1 %d 8 5a" % p, lambda p: build.select(0, 0, 1, p, "01011010")),
    "Read": (lambda p: "Read abcd 3 %d 1" % p, lambda p: build.read(3, p, 1, HANDLE)),
    "Write": (lambda p: "Write abcd 0f1e 3 %d 1234" % p, lambda p: build.write(3, p, 0x1234, COVER, HANDLE)),
    "BlockWrite": (lambda p: "BlockWrite abcd 3 %d 1234" % p, lambda p: build.block_write(3, p, [0x1234], HANDLE)),
    "BlockErase": (lambda p: "BlockErase abcd 3 %d 1" % p, lambda p: build.block_erase(3, p, 1, HANDLE)),
    "BlockPermalock read": (lambda p: "BlockPermalock abcd read 3 %d 1" % p,
                            lambda p: build.block_permalock(3, p, HANDLE, count=1)),
    "BlockPermalock lock": (lambda p: "BlockPermalock abcd lock 3 %d 8000" % p,
                            lambda p: build.block_permalock(3, p, HANDLE, masks=[0x8000]))}


def pointers(book):
    book.title("pointers in their shortest form: one byte to 127, two to 16383, three to 2097151; no more")
    for text, bits in POINTED.values():
        for pointer in POINTERS:
            book.made(text(pointer), bits(pointer))
        for pointer in BEYOND:
            book.line(text(pointer), "refused 9")
        book.bad(text(4294967296))


def blocks(book):
    book.title("words and masks: 1 to 255, in an even number of bytes; 521 bytes is the longest frame")
    for head, frame in (("BlockWrite abcd 3 16384 ", lambda words: build.block_write(3, 16384, words, HANDLE)),
                        ("BlockPermalock abcd lock 3 16384 ",
                         lambda words: build.block_permalock(3, 16384, HANDLE, masks=words))):
        for count in (1, 2, 255):
            book.made(head + hex_of(some_words(count)), frame(some_words(count)))
        for size in (0, 1, 3, 511, 512):
            book.line(head + show(bytes(size)), "refused 9")


def masks(book):
    book.title("Select: the length in bits and exactly its bytes, of which the spare bits are ignored")
    ones = bytes(k * 37 + 0x91 & 0xFF for k in range(33))
    for length in (0, 1, 7, 8, 9, 15, 16, 255):
        size = -(-length // 8)
        bits = "".join(build.field_bits(byte, 8) for byte in ones[:size])[:length]
        frame = build.select(4, 7, 3, 100, bits)
        book.made("Select 4 7 3 100 %d %s" % (length, show(ones[:size])), frame)
        for fill in "01":
            book.made("Select 4 7 3 100 %d %s" % (length, show(pack(bits, fill))), frame)
        book.line("Select 4 7 3 100 %d %s" % (length, show(ones[:size + 1])), "refused 9")
        if size:
            book.line("Select 4 7 3 100 %d %s" % (length, show(ones[:size - 1])), "refused 9")
    for size in (32, 33):
        book.line("Select 4 7 3 100 256 %s" % show(ones[:size]), "refused 9")


# Commands with one field beyond its limits.
BEYOND_LIMITS = (
    "QueryRep 4", "QueryRep 4294967295", "Query 2 0 0 0 0 0 0", "Query 0 4 0 0 0 0 0", "Query 0 0 2 0 0 0 0",
    "Query 0 0 0 4 0 0 0", "Query 0 0 0 0 4 0 0", "Query 0 0 0 0 0 2 0", "Query 0 0 0 0 0 0 16",
    "Query 0 0 0 0 0 0 4294967295", "QueryAdjust 4 0", "QueryAdjust 0 1", "QueryAdjust 0 2", "QueryAdjust 0 4",
    "QueryAdjust 0 5", "QueryAdjust 0 7", "QueryAdjust 0 8", "QueryAdjust 0 4294967295", "Select 5 0 1 0 0 -",
    "Select 7 0 1 0 0 -", "Select 0 8 1 0 0 -", "Select 0 0 0 0 0 -", "Select 0 0 4 0 0 -", "Select 0 0 1 2097152 0 -",
    "Select 0 0 1 0 0 00", "Select 0 0 1 0 256 -", "Read abcd 4 0 1", "Read abcd 4294967295 0 1",
    "Read abcd 3 2097152 1", "Read abcd 3 0 256", "Write abcd 0f1e 4 0 1234", "Write abcd 0f1e 3 2097152 1234",
    "Lock abcd 0400 0000", "Lock abcd 0000 0400", "Lock abcd ffff 03ff", "BlockWrite abcd 4 0 1234",
    "BlockWrite abcd 3 2097152 1234", "BlockWrite abcd 3 0 -", "BlockErase abcd 4 0 1", "BlockErase abcd 3 2097152 1",
    "BlockErase abcd 3 0 0", "BlockErase abcd 3 0 256", "BlockPermalock abcd read 4 0 1",
    "BlockPermalock abcd read 3 2097152 1", "BlockPermalock abcd read 3 0 0", "BlockPermalock abcd read 3 0 256",
    "BlockPermalock abcd lock 4 0 8000", "BlockPermalock abcd lock 3 2097152 8000", "BlockPermalock abcd lock 3 0 80")


def limits(book):
    book.title("9, a command beyond the limits: making, making for bench, and reading")
    for text in BEYOND_LIMITS:
        book.line(text, "refused 9")
        book.line(text + " " + THREE, "refused 9")
        book.reply(success_reply(HANDLE), text, "refused 9")
    book.note("9 stands before 4, and before 8")
    book.room(0)
    for text in BEYOND_LIMITS[::5]:
        book.line(text, "refused 9")
        book.line("reply 0 - " + text, "refused 9")
        book.line("reply 33 - " + text, "refused 9")
    book.room(521)


def rooms(book):
    book.title("4, a room of fewer bytes than the frame; it bears on making alone")
    for text, bits in COMMANDS.values():
        size = -(-len(bits) // 8)
        book.room(size)
        book.made(text, bits)
        book.room(size - 1)
        book.line(text, "refused 4")
        book.line(text + " " + THREE, "refused 4")
    book.room(0)
    book.line("NAK", "refused 4")
    book.reply(build.field_bits(0x613A, 16), "QueryRep 0", "number 613a")
    book.note("a bad line leaves the room as it is")
    for text in ("room", "room 9605", "room 01", "room -", "room 521 0", "room abcd", "room 4294967295"):
        book.bad(text)
        book.line("NAK", "refused 4")
    book.room(9604)
    longest = "BlockPermalock abcd lock 3 2097151 " + hex_of(some_words(255))
    book.made(longest, build.block_permalock(3, 2097151, HANDLE, masks=some_words(255)))
    book.room(521)
    book.line(longest, "frame 4163 c900...")
    book.room(520)
    book.line(longest, "refused 4")
    book.room(521)


# What the replies without a CRC-16 and those with a number are read as.
def reading_numbers(book):
    book.title("a number: 16 bits, no CRC, for Query, QueryAdjust, QueryRep; 32 for Req_RN, Access, the first Kill")
    for form in BARE:
        text = COMMANDS[form][0]
        for number in (0x613A, 0, 0xFFFF):
            book.reply(build.field_bits(number, 16), text, "number %04x" % number)
        for length in (17, 32, 33):
            book.reply(sealed((length - 16) * "0"), text, "refused 15")
    for number in (0x613A, 0, HANDLE, OTHER):
        book.reply(number_reply(number), "Req_RN abcd", "number %04x" % number)
    book.reply(number_reply(OTHER), "Req_RN abcd " + THREE, "number abcc")
    for form in ("Access", "Kill"):
        text = COMMANDS[form][0]
        book.reply(number_reply(HANDLE), text, "number abcd")
        for other in (OTHER, HANDLE ^ 0x8000, COVER):
            book.reply(number_reply(other), text, "refused 15")
    for text in ("Req_RN abcd", COMMANDS["Access"][0]):
        for body in ("", "0", "1010101111001101" + "0", "0" + "1010101111001101", "1010101111001101"[1:]):
            book.reply(sealed(body), text, "refused 15")
        book.reply(success_reply(HANDLE), text, "refused 15")
        book.reply(error_reply(3, HANDLE), text, "refused 15")


def reading_pcs(book):
    book.title("ACK: the PC and the L words after it")
    for length in (0, 1, 2, 30, 31):
        words = [length << 11 | 0x2A5] + some_words(length)
        book.reply(pc_reply(words), "ACK abcd", "words %d %s" % (length + 1, hex_of(words)))
        book.reply(pc_reply(words + [0]), "ACK abcd", "refused 15")
        if length:
            book.reply(pc_reply(words[:-1]), "ACK abcd", "refused 15")
    book.line("reply 64 1000303402579297 ACK 613a", "words 3 100030340257")
    for bits in (1, 5, 15, 17):
        book.reply(sealed(bits * "0"), "ACK abcd", "refused 15")


def reading_successes(book):
    book.title("done, or an error with its code, whatever it is")
    for form in STORING + ("Kill",):
        text = COMMANDS[form][0]
        book.reply(success_reply(HANDLE), text, "done")
        for code in (0x00, 0x03, 0x04, 0x0B, 0xFF):
            book.reply(error_reply(code, HANDLE), text, "error %02x" % code)
        for bits in (success_reply(OTHER), error_reply(3, OTHER), success_reply(HANDLE ^ 0x8000)):
            book.reply(bits, text, "refused 15")
        others(book, text, 1)
        if form != "Kill":
            book.reply(number_reply(HANDLE), text, "refused 15")


# Successes and errors of another length or kind; so many words are another number.
def others(book, text, words):
    handle = build.field_bits(HANDLE, 16)
    book.reply(success_reply(HANDLE, some_words(words)), text, "refused 15")
    for body in ("1" + handle, "1" + "0" * 16 * words + handle, "0" + "00000011" + handle, "0" + handle[1:],
                 "00" + handle, "1" + "0000011" + handle, "1" + "000000011" + handle, "0"):
        book.reply(sealed(body), text, "refused 15")


def reading_words(book):
    book.title("words: as many as were asked for; with count 0 from 1 to 4,096")
    for count in (1, 2, 7, 255):
        words = some_words(count)
        for text in ("Read abcd 3 0 %d" % count, "BlockPermalock abcd read 3 0 %d" % count, "Read abcd 3 9 0"):
            book.reply(success_reply(HANDLE, words), text, "words %d %s" % (count, hex_of(words)))
    for text in ("Read abcd 3 0 2", "BlockPermalock abcd read 3 0 2"):
        book.reply(error_reply(4, HANDLE), text, "error 04")
        for bits in (success_reply(OTHER, [1, 2]), error_reply(4, OTHER), success_reply(HANDLE), number_reply(HANDLE),
                     success_reply(HANDLE, [1, 2, 3])):
            book.reply(bits, text, "refused 15")
        others(book, text, 1)
        book.reply(sealed("1" + 32 * "0" + build.field_bits(HANDLE, 16)), text, "refused 15")
    book.note("a success without words is no Read's, though its count be 0")
    book.reply(success_reply(HANDLE), "Read abcd 3 0 0", "refused 15")
    book.reply(error_reply(3, HANDLE), "Read abcd 3 16 0", "error 03")
    book.reply(success_reply(OTHER, [1]), "Read abcd 3 0 0", "refused 15")
    book.reply(sealed("1" + 16 * "0" + build.field_bits(HANDLE, 16)), "Read abcd 3 0 0", "refused 15")


# The replies that have a right CRC-16 and that no tag sends to this command, and those with a wrong one.
def refusals(book):
    book.title("8: under 16 bits, a bit count past the bytes, a wrong CRC-16; then 15")
    bits = success_reply(HANDLE)
    for form, (text, _) in COMMANDS.items():
        for count in (0, 1, 15):
            book.reply(bits, text, "refused 8", count=count)
        for count, data in ((41, pack(bits)), (16, b"\0"), (33, b""), (1000000, pack(bits))):
            book.reply(bits, text, "refused 8", count=count, data=data)
        if form in BARE:
            continue
        book.reply(16 * "0", text, "refused 15")
        for word in (0x0001, 0x8000, 0xFFFF, HANDLE):
            book.reply(build.field_bits(word, 16), text, "refused 8")
        book.note("a wrong CRC-16 is 8, whatever else is wrong: another length, kind or handle")
        for right in (bits, error_reply(3, HANDLE), number_reply(HANDLE), success_reply(OTHER)):
            for place in (0, len(right) - 17, len(right) - 1):
                turned = right[:place] + "10"[int(right[place])] + right[place + 1:]
                book.reply(turned, text, "refused 8")
            book.reply(right[:-1], text, "refused 8")
    book.note("nothing is a reply to NAK or to Select")
    for text in (COMMANDS["NAK"][0], COMMANDS["Select"][0]):
        for right in (bits, error_reply(3, HANDLE), number_reply(HANDLE), pc_reply([0]), success_reply(HANDLE, [1])):
            book.reply(right, text, "refused 15")


def past_the_count(book):
    book.title("bits and bytes past the count mean nothing")
    for form, bits, said in (
            ("QueryRep", build.field_bits(0x613A, 16), "number 613a"),
            ("ACK", pc_reply([0x800, 7]), "words 2 08000007"),
            ("Access", number_reply(HANDLE), "number abcd"), ("Write", success_reply(HANDLE), "done"),
            ("Read", success_reply(HANDLE, [1, 2]), "words 2 00010002"), ("Read", error_reply(3, HANDLE), "error 03")):
        text = COMMANDS[form][0]
        for data in (pack(bits, "1"), pack(bits) + b"\xaa\xaa", pack(bits, "1") + b"\xff"):
            book.reply(bits, text, said, count=len(bits), data=data)


# The parts of each command's line by what they have to be: w a word, n a number, h hex.
KINDS = {"QueryRep 0": "n", "ACK abcd": "w", "Query 0 0 0 0 0 0 0": "nnnnnnn", "QueryAdjust 0 0": "nn",
         "Select 0 0 1 0 0 -": "nnnnnh", "Req_RN abcd": "w", "Read abcd 3 0 1": "wnnn",
         "Write abcd 0f1e 3 0 1234": "wwnnw", "Kill abcd 0f1e 4b49": "www", "Lock abcd 0000 0000": "www",
         "Access abcd 0f1e acce": "www", "BlockWrite abcd 3 0 1234": "wnnh", "BlockErase abcd 3 0 1": "wnnn",
         "BlockPermalock abcd read 3 0 1": "wknnn", "BlockPermalock abcd lock 3 0 8000": "wknnh"}
NONE = {"w": ("abc", "ABCD", ""), "n": ("01", "-1", "4294967296", ""), "h": ("0", "AB", ""), "k": ("Read", "")}


def bad_lines(book):
    book.title("bad lines: a part that is none")
    for text, kinds in KINDS.items():
        words = text.split(" ")
        for place, kind in enumerate(kinds, 1):
            for none in NONE[kind]:
                book.bad(" ".join(words[:place] + [none] + words[place + 1:]))
    book.note("nor one of these")
    for none in ("00", "+1", "1.", "1e3", "0x1", "x", "-", "99999999999999999999", "0\r", "0\t", "\u00e9"):
        book.bad("QueryRep " + none)
    for none in ("12345", "0x12", "-", "123g", "abcd\r"):
        book.bad("ACK " + none)
    for none in ("abc", "0g", "--", "12 34", "12\t"):
        book.bad("BlockWrite abcd 3 0 " + none)
    book.title("bad lines: too few parts, too many, other spaces")
    for text, kinds in KINDS.items():
        for more in (" 0", " 0000 0", " 0000 0 0 0", " "):
            book.bad(text + more)
        book.bad(text.rsplit(" ", 1)[0])
        book.bad(text.replace(" ", "  ", 1))
    for text in ("NAK ", " NAK", "NAK 0", "NAK\r", "NAK\t", "NAK 0000 0", "NAK 0000 0 0 ", "NAK  0000 0 0", "ACK",
                 "Read", "BlockPermalock", "BlockPermalock abcd", "BlockPermalock abcd read",
                 "BlockPermalock abcd lock 3 0", "BlockPermalock read abcd 3 0 1", "BlockPermalock abcd erase 3 0 1"):
        book.bad(text)
    book.title("bad lines: the three parts, beyond bench's limits too")
    for three in ("abc 0 0", "ABCD 0 0", "- 0 0", "0000 9605 0", "0000 01 0", "0000 x 0", "0000 0 1000001", "0000 0 00",
                  "0000 0 x", "0000 4294967296 0", "0000 0 4294967296", "0000 0 ", "0000  0"):
        book.bad("NAK " + three)
        book.bad("reply 16 0000 NAK " + three)
    book.made("NAK", build.nak(), "ffff 9604 1000000")
    book.made("NAK", build.nak(), "0000 0 0")
    book.title("bad lines: reply")
    for text in ("reply", "reply 16", "reply 16 0000", "reply 16 0000 ", "reply 16 0000 nak", "reply 16 0000 room 521",
                 "reply 16 0000 reply 16 0000 NAK", "reply 16 0000 frame 8 c0", "reply 16 0000 # NAK",
                 "reply 016 0000 NAK", "reply x 0000 NAK", "reply 1000001 0000 NAK", "reply 4294967296 0000 NAK",
                 "reply 16 000 NAK",
                 "reply 16 00AB NAK", "reply 16  NAK", "reply  16 0000 NAK", "reply -1 0000 NAK", "Reply 16 0000 NAK"):
        book.bad(text)
    book.line("reply 1000000 - NAK", "refused 8")
    book.title("bad lines: words that are none of these")
    for text in ("nak", "Nak", "NACK", "Req_rn abcd", "ReqRN abcd", "queryrep 0", "Blockwrite abcd 3 0 1234", "admit",
                 "admit 1234", "refused 9", "number 613a", "done", "bad line 1", "answer 0", "images 00", "imag",
                 "dumps", "frame\t8", "Room 4", "NAK#", "-", "\r", "\t", " ", "  ", " # no comment", "\u00e9"):
        book.bad(text)


def going_through(book):
    book.title("what goes through as it came")
    book.through("")
    for text in ("#", "# a comment may hold any byte: \t \u00e9 \r", "#NAK", "# room 4", "check", "check 1", "dump",
                 "dump ", "power", "power 1", "power 01", "power x", "image", "image 0", "image 00", "image -",
                 "image  00", "frame", "frame 8 c0", "frame 8 c0 0000 4 9", "frame 8 C0", "ask", "ask now", "release",
                 "register", "read 0 1 2", "read abcd 3 0 1", "read \u00e9\t", "write 0 1234 5", "write"):
        book.through(text)


def talk(book):
    book.title("a talk: the tag is found, its access password given, a word written and read")
    image = Image(reserved=[0x4B49, 0x4C4C, 0xACCE, 0x55ED])
    book.through(build.image_line(image.bytes()))
    book.through("power 1")
    book.made("Query 0 0 0 0 0 0 0", build.query(0), "613a 2 0")
    book.reply(build.field_bits(0x613A, 16), "Query 0 0 0 0 0 0 0", "number 613a")
    book.made("ACK 613a", build.ack(0x613A), "0000 8 0")
    book.reply(pc_reply([0x1000, 0x3034, 0x0257]), "ACK 613a", "words 3 100030340257")
    book.made("Req_RN 613a", build.req_rn(0x613A), "a5c3 4 0")
    for cover, half in ((0x0F1E, 0xACCE), (0x7B2D, 0x55ED)):
        book.made("Req_RN a5c3", build.req_rn(0xA5C3), "%04x 4 0" % cover)
        book.made("Access a5c3 %04x %04x" % (cover, half), build.access(half, cover, 0xA5C3), "0000 4 0")
        book.reply(number_reply(0xA5C3), "Access a5c3 %04x %04x" % (cover, half), "number a5c3")
    book.made("Req_RN a5c3", build.req_rn(0xA5C3), "2c91 4 0")
    book.made("Write a5c3 2c91 3 0 beef", build.write(3, 0, 0xBEEF, 0x2C91, 0xA5C3), "0000 5 5")
    book.reply(success_reply(0xA5C3), "Write a5c3 2c91 3 0 beef 0000 5 5", "done")
    book.made("Read a5c3 3 0 1", build.read(3, 0, 1, 0xA5C3), "0000 7 0")
    book.reply(success_reply(0xA5C3, [0xBEEF]), "Read a5c3 3 0 1", "words 1 beef")


# Lines of exactly 20,000 bytes and of one more; the words of the longest replies stand in them too.
def long_lines(book):
    book.title("4,096 words, the most of a Read with count 0, in a line of 20,000 bytes; and one more word")
    words, text = some_words(4096), "Read abcd 3 0 0 0000 64 0"
    bits = success_reply(HANDLE, words)
    spare = 20000 - len(build.reply_line(bits, text))
    assert spare % 2 == 0
    book.reply(bits, text, "words 4096 %s..." % hex_of(words[:8]), data=pack(bits, "1") + spare // 2 * b"\xff")
    book.reply(success_reply(HANDLE, some_words(4097)), "Read abcd 3 0 0", "refused 15")
    book.title("20,000 bytes, and one more: a bad line whatever it begins with")
    book.bad("BlockWrite abcd 3 10 " + 19980 * "0")
    book.bad("#" + 20000 * "x")
    book.bad("dump " + 19996 * "x")
    book.note("the last line may lack its newline; it is written with one")
    book.line("Read abcd 3 234 5", "frame 66 c2e05a816af351fc80")


def whole_list():
    book = Book()
    book.note("What gate makes, reads and refuses; most on the handle abcd.")
    book.note("A line '#>' says what the next line must write; makegate.py tells how.")
    for part in (examples, making, pointers, blocks, masks, limits, rooms, reading_numbers, reading_pcs,
                 reading_successes, reading_words, refusals, past_the_count, bad_lines, going_through, talk,
                 long_lines):
        part(book)
    return "\n".join(book.lines)


if __name__ == "__main__":
    with open(LIST, "wb") as out:
        out.write(whole_list().encode("utf-8"))
