#!/usr/bin/env python3
"""Writes crates/bench/stdin: the command list that walks through the rules.

A line that begins with '#>' says what the line after it must bring; it is a
comment to the bench, and selftest.py holds the model to it. Its parts are
pairs of a key and a value:
  answer, stores, reply, value   as the line writes them
  code       the error reply's code, two hex digits
  data       the words of a Read's or a permalock reading's reply, or an SPI
             read's, parted by commas
  whole      all words of a reply that has no odd bits: ACK's, or a random word
  state, number, cover, half, port, register, slot, q, round, flags   the
             session's parts
  bytes      how many bytes the image has now
  word       OFFSET:VALUE in the image that a dump shows
  bad        the line is a bad line
"""

import os

from build import *

HERE = os.path.dirname(os.path.abspath(__file__))
LIST = os.path.join(HERE, "..", "crates", "bench", "stdin")

NUMBER = 0x1234
HANDLE = 0xA5C3
WRONG = 0xA5C2
COVER = 0x0F1E
COVER2 = 0x7B2D
KILL_UPPER, KILL_LOWER = 0x4B49, 0x4C4C
ACCESS_UPPER, ACCESS_LOWER = 0xACCE, 0x55ED


class Book:
    """The list's lines as they are gathered."""

    def __init__(self):
        self.lines = []

    # A heading.
    def title(self, text):
        self.lines += ["", "# ---- " + text + " ----"]

    # A remark.
    def note(self, text):
        self.lines.append("# " + text)

    # A line, and what it must bring.
    def line(self, text, expected):
        self.lines += ["#> " + expected, text]

    # A frame line.
    def frame(self, bits, expected, **parts):
        self.line(frame_line(bits, **parts), expected)

    # A new image.
    def image(self, image):
        data = image.bytes() if isinstance(image, Image) else image
        self.line(image_line(data), "bytes %d" % len(data))

    # An image and its check.
    def check(self, image, answer, remark=None):
        if remark:
            self.note(remark)
        self.image(image)
        self.line("check", "answer %d" % answer)

    # A dump and the words it must show.
    def dump(self, **words):
        shown = " ".join("word %s:%04x" % (at[1:], value) for at, value in words.items())
        self.line("dump", shown or "bytes 156")

    # An image brought up to the state that its access password leads to.
    def begin(self, image):
        self.image(image)
        self.line("power %d" % ENOUGH, "answer 0 state ready")
        self.resume(image)

    # The tag found, by Query with Q = 0 and ACK: from Ready or Arbitrate to Acknowledged.
    def find(self):
        self.frame(query(0), "answer 0 whole %04x state reply number %04x" % (NUMBER, NUMBER),
                   fresh=NUMBER, room=2)
        self.frame(ack(NUMBER), "answer 0 state acknowledged number %04x" % NUMBER)

    # From Ready or Arbitrate to Open or Secured.
    def resume(self, image):
        state = "open" if image.reserved[2] or image.reserved[3] else "secured"
        self.find()
        self.frame(req_rn(NUMBER), "answer 0 reply 32 state %s number %04x cover -"
                   % (state, HANDLE), fresh=HANDLE)

    # A new tag brought to this state, as STANDING tells it.
    def bring(self, state):
        image = STARTS[state]
        self.image(image)
        self.line("power 1", "answer 0 flags AAAA-")
        if state == "arbitrate":
            self.frame(query(4), "answer 0 reply 0", fresh=0x1235, room=0)
        elif state == "reply":
            self.frame(query(0), "answer 0 reply 16", fresh=NUMBER, room=2)
        elif state == "acknowledged":
            self.find()
        elif state in ("open", "secured"):
            self.resume(image)

    # A cover number.
    def cover(self, cover=COVER, half="-"):
        self.frame(req_rn(HANDLE), "answer 0 reply 32 cover %04x half %s" % (cover, half),
                   fresh=cover)

    # A Write with its Req_RN.
    def write(self, bank, pointer, value, expected, **parts):
        self.cover()
        self.frame(write(bank, pointer, value, COVER, HANDLE), expected, **parts)

    # Both halves of an Access, right.
    def access(self):
        self.cover()
        self.frame(access(ACCESS_UPPER, COVER, HANDLE),
                   "answer 0 reply 32 cover - half access:%04x" % ACCESS_UPPER)
        self.cover(COVER2, "access:%04x" % ACCESS_UPPER)
        self.frame(access(ACCESS_LOWER, COVER2, HANDLE),
                   "answer 0 reply 32 state secured number %04x cover - half -" % HANDLE)

    # From Ready or Arbitrate to a waiting half, then a cover number COVER2, or none.
    def halfway(self, image, kind, upper, covered=True):
        half = "%s:%04x" % (kind, upper)
        self.resume(image)
        self.cover()
        self.frame(SENDERS[kind](upper, COVER, HANDLE), "answer 0 reply 32 cover - half " + half)
        if covered:
            self.cover(COVER2, half)


# The commands that bring a password in two halves.
SENDERS = {"access": access, "kill": kill}

# What 12 and 14 leave of a round of S0 with Q = 0: Arbitrate with slot 0.
LOST = "state arbitrate number - cover - half - slot 0 q 0 round s0 flags AAAA-"


# The small image with changes.
def small(**changes):
    return Image(**changes)


# The small image with a nonzero access password: sessions begin in Open.
def guarded(**changes):
    return small(reserved=[KILL_UPPER, KILL_LOWER, ACCESS_UPPER, ACCESS_LOWER], **changes)


# A USER bank of more words than W, so that 00h can be met.
def wide(**changes):
    return small(user=list(range(40)), **changes)


# The states that a tag under power may be in, the image that leads to each, and
# how the session stands when Book.bring has brought it there.
STARTS = {"ready": small(), "arbitrate": small(), "reply": small(), "acknowledged": small(),
          "open": guarded(), "secured": small(), "killed": small(killed=1)}
STANDING = {
    "ready": "state ready number - cover - half - slot - q - round - flags AAAA-",
    "arbitrate": "state arbitrate number - cover - half - slot 5 q 4 round s0 flags AAAA-",
    "reply": "state reply number 1234 cover - half - slot - q 0 round s0 flags AAAA-",
    "acknowledged": "state acknowledged number 1234 cover - half - slot - q 0 round s0 flags AAAA-",
    "open": "state open number a5c3 cover - half - slot - q 0 round s0 flags AAAA-",
    "secured": "state secured number a5c3 cover - half - slot - q 0 round s0 flags AAAA-",
    "killed": "state killed number - cover - half - slot - q - round - flags AAAA-"}
FOUND = ("acknowledged", "open", "secured")
IN_ROUND = ("arbitrate", "reply") + FOUND


# The number that a tag in this state goes by.
def number_in(state):
    return HANDLE if state in ("open", "secured") else NUMBER


# A well-formed frame of each command of the inventory, for this number; the
# round's session is S0.
def inventory(number):
    return [("Query", query(0)), ("QueryAdjust", query_adjust(0, STAY)), ("QueryRep", query_rep(0)),
            ("ACK", ack(number)), ("Select", select(0, 0, BANK_EPC, 16, "0001"))]


# A well-formed frame of each command, for this handle, cover COVER.
def one_of_each(handle):
    return [("Req_RN", req_rn(handle)),
            ("Read", read(BANK_USER, 0, 1, handle)),
            ("Write", write(BANK_USER, 0, 1, COVER, handle)),
            ("Kill", kill(KILL_UPPER, COVER, handle)),
            ("Lock", lock(0, 0, handle)),
            ("Access", access(0, COVER, handle)),
            ("BlockWrite", block_write(BANK_USER, 0, [1, 2], handle)),
            ("BlockErase", block_erase(BANK_USER, 0, 2, handle)),
            ("BlockPermalock reading", block_permalock(BANK_USER, 0, handle, count=1)),
            ("BlockPermalock locking", block_permalock(BANK_USER, 0, handle, masks=[0]))]


# A bit of a frame turned over.
def flipped(bits, place):
    place %= len(bits)
    return bits[:place] + ("1" if bits[place] == "0" else "0") + bits[place + 1:]


def before_any_image(book):
    book.title("before any image: 1 and 5")
    book.line("check", "answer 1")
    book.line("dump", "bytes 0")
    book.line("power 5", "answer 1 stores 0 state off port free register 0")
    book.frame(nak(), "answer 1 stores 0 reply 0 state off flags -", room=3)
    for name, bits in inventory(NUMBER):
        book.frame(bits, "answer 1 reply 0 state off slot - q - round - flags -", room=2)
    for call in ("ask", "release", "register"):
        book.line(call, "answer 5 state off port free register 0")
    book.line("read 0 1 4", "answer 1 reply 0")
    book.line("write 0 0000 9", "answer 1 stores 0")


def bad_lines(book):
    book.title("bad lines; image and session stay")
    for text in ("imagine 00", "image", "image 0", "image 0A", "image 00 00", "image  00",
                 "image ", "check ", " check", "Check", "check 1", "dump -", "power",
                 "power 01", "power -1", "power +1", "power 1000001", "power 1 ", "power a",
                 "power 99999999999999999999", "admit", "admit 1234", "admit abcd", "admit -",
                 "admit 1234 5", "admit ", "frame 8 c0 0000 9605 0", "frame 8 c0 0000 0 1000001",
                 "frame 1000001 c0 0000 0 0", "frame 08 c0 0000 0 0", "frame 8 c 0000 0 0",
                 "frame 8 c0 000 0 0", "frame 8 c0 0000 0", "frame 8 c0 0000 0 0 0",
                 "ask now", "release port", "register 0", "read 0 1", "read 0 1 9605",
                 "read 1000001 1 2", "read 0 1000001 2", "write 0 0", "write 0 -",
                 "write 00 - 0", " # no comment", "check\t", "check\r", "\r", "ch\u00e9ck"):
        book.line(text, "bad 1")
    book.note("a comment may hold any byte: \t \u00e9 \r")
    book.note("the limits themselves are good lines")
    book.line("power 1000000", "answer 1")
    book.line("frame 1000000 - ffff 9604 1000000", "answer 1 reply 0")
    book.line("read 1000000 1000000 9604", "answer 1")
    book.line("write 1000000 - 1000000", "answer 1")
    book.line("image -", "bytes 0")


def image_check_header(book):
    book.title("image check: 1 and the header's 2")
    good = small().bytes()
    book.check(good[:31], 1, "31 bytes, then 32")
    book.check(good[:32], 2)
    book.check(good, 0, "the small image")
    for size in (155, 154):
        book.check(good[:size], 2, "length not the image's")
    for more in (b"\0", b"\0\0"):
        book.check(good + more, 2)
    for place, value, remark in (
            (0, 6, "six sections"), (0, 8, "eight sections"), (1, 0, "B = 0"),
            (1, 4097, "B = 4097")):
        words = small().words()
        words[place] = value
        book.check(bytes_of_words(words), 2, remark)
    book.check(small(block_size=1), 0, "B = 1: sixteen blocks")
    book.check(small(block_size=4096), 0, "B = 4096: one block")
    for section in range(7):
        for place in (2 + 2 * section, 3 + 2 * section):
            words = small().words()
            words[place] += 1
            book.check(bytes_of_words(words), 2, "header word %d is one more" % place)
    for image, answer, remark in (
            (small(reserved=3 * [0]), 2, "RESERVED 3"), (small(reserved=65 * [0]), 2, "RESERVED 65"),
            (small(reserved=64 * [0]), 0, "RESERVED 64"), (small(epc=[0]), 2, "EPC 1"),
            (small(epc=[0, 0]), 0, "EPC 2"), (small(epc=34 * [0]), 2, "EPC 34"),
            (small(epc=33 * [0]), 0, "EPC 33"), (small(tid=[]), 0, "TID 0"),
            (small(tid=64 * [0]), 0, "TID 64"), (small(tid=65 * [0]), 2, "TID 65"),
            (small(user=[], perma=[]), 0, "USER 0, PERMA 0"), (small(user=[]), 2, "USER 0, PERMA 1"),
            (small(perma=[]), 2, "PERMA 0"), (small(perma=[0, 0]), 2, "PERMA 2"),
            (small(block_size=1, user=256 * [0], perma=16 * [0]), 0, "256 blocks"),
            (small(block_size=1, user=257 * [0], perma=17 * [0]), 2, "257 blocks"),
            (small(pairs=15), 2, "W = 15"), (small(pairs=255), 0, "W = 255"),
            (small(pairs=256), 2, "W = 256")):
        book.check(image, answer, remark)
    words = small().words()
    words[15] = 34
    book.check(bytes_of_words(words + [0]), 2, "WORK 34: no pair for its last word")
    words = small().words()
    words[3] = 3
    for place in range(4, 16, 2):
        words[place] += 1
    book.check(bytes_of_words(words + [0]), 2, "STATUS 3")


def image_check_content(book):
    book.title("image check: the content rules' 3")
    for image, answer, remark in (
            (small(lock=0x03FF), 0, "lock word 3ffh"), (small(lock=0x0400), 3, "lock word 400h"),
            (small(lock=0x8000), 3, "lock word 8000h"),
            (small(killed=1), 0, "killed 1"), (small(killed=2), 3, "killed 2"),
            (small(epc=[0, 0x17FF, 0, 0]), 0, "L = 2"), (small(epc=[0, 0x1800, 0, 0]), 3, "L = 3"),
            (small(perma=[0xF000]), 0, "all four blocks"), (small(perma=[0x0800]), 3, "block 4"),
            (small(perma=[0x0001]), 3, "block 15"),
            (small(pending=16, work=16 * [(28, 1)]), 0, "c = W"),
            (small(pending=17, work=16 * [(28, 1)]), 3, "c = W + 1"),
            (small(pending=0, work=[(0, 1), (17, 9)]), 0, "leftover pairs mean nothing")):
        book.check(image, answer, remark)
    for offset, answer in ((0, 3), (15, 3), (16, 0), (17, 0), (18, 0), (21, 0), (22, 0), (25, 0),
                           (26, 3), (27, 3), (28, 0), (43, 0), (44, 0), (45, 3), (77, 3), (78, 3),
                           (65535, 3)):
        book.check(small(pending=1, work=[(offset, 0)]), answer, "pending offset %d" % offset)
    for pairs, answer, remark in (
            ([(16, 0x0400)], 3, "a lock word too high"), ([(17, 2)], 3, "killed 2"),
            ([(17, 2), (17, 1)], 3, "killed 2 for a while"), ([(23, 0x1800)], 3, "L = 3"),
            ([(23, 0x1000)], 0, "L = 2"), ([(44, 0x0800)], 3, "block 4 permalocked"),
            ([(28, 1), (44, 0xF000), (16, 0x03FF)], 0, "three good ones"),
            ([(28, 1), (44, 0xF000), (16, 0x07FF)], 3, "the third bad")):
        book.check(small(pending=len(pairs), work=pairs), answer, "pending: " + remark)


def power_up(book):
    book.title("power-up")
    stale = small(epc=[0, 0x1000, 0x3034, 0x0257])
    book.image(stale)
    book.line("power 0", "answer 11 stores 0 state off")
    book.dump(_22=0)
    book.line("power 1", "answer 0 stores 1 reply 0 state ready number - cover - half - port free register 0 "
              "slot - q - round - flags AAAA-")
    book.dump(_22=0x9297)
    book.note("pending: words first, then the count, then the CRC of the new PC")
    pairs = [(18, 0x1111), (23, 0x0800), (31, 0xABCD)]
    torn = small(epc=[0, 0x1000, 0x3034, 0x0257], pending=3, work=pairs)
    crc_after = crc(field_bits(0x08003034, 32))
    for s in range(5):
        book.image(torn)
        book.line("power %d" % s, "answer 11 stores %d state off" % s)
        book.dump(_18=0x1111 if s > 0 else KILL_UPPER, _23=0x0800 if s > 1 else 0x1000,
                  _31=0xABCD if s > 2 else 10, _45=0 if s > 3 else 3, _22=0)
        book.note("cut again, then whole")
        book.line("power 2", "answer 11 stores 2 state off" if s < 4 else "answer 0 stores 1")
        book.line("power 5", "answer 0 stores 5 state ready" if s < 4
                  else "answer 0 stores 1 state ready")
        book.dump(_18=0x1111, _23=0x0800, _31=0xABCD, _45=0, _22=crc_after)
    book.note("a pending killed word kills; a pending EPC word 0 gives way to the CRC")
    book.image(small(pending=2, work=[(17, 1), (22, 0x5555)]))
    book.line("power 4", "answer 0 stores 4 state killed slot - q - round - flags AAAA-")
    book.dump(_17=1, _22=0x9297)
    book.note("c > 0 outside power-up: 5, though the session is not Off")
    book.image(small())
    book.line("power 1", "answer 0")
    book.image(small(pending=1, work=[(28, 1)]))
    book.frame(nak(), "answer 5 state ready")
    book.line("ask", "answer 0 port held")
    book.line("read 0 1 2", "answer 5 port held reply 0")
    book.line("write 0 0001 9", "answer 5 port held stores 0")
    book.line("release", "answer 0 port free")
    book.note("a refused power-up leaves Off")
    for image, answer in ((small().bytes()[:30], 1), (small().bytes()[:60], 2), (small(killed=2), 3)):
        book.image(small())
        book.line("power 1", "answer 0 state ready")
        book.line("ask", "answer 0 port held")
        book.image(image)
        book.frame(nak(), "answer %d state ready port held" % answer)
        book.line("read 0 1 2", "answer %d state ready port held" % answer)
        book.line("write 0 0000 9", "answer %d state ready port held" % answer)
        book.line("power 9", "answer %d stores 0 state off port free flags -" % answer)


def session_and_nak(book):
    book.title("Req_RN and NAK in every state")
    image = small()
    book.image(image)
    book.frame(nak(), "answer 5 state off")
    book.line("power 1", "answer 0 state ready")
    book.note("Ready: NAK and every other command of the ten is 9")
    book.frame(nak(), "answer 9 " + STANDING["ready"], room=2)
    for name, bits in one_of_each(NUMBER):
        book.note(name)
        book.frame(bits, "answer 9 reply 0 " + STANDING["ready"], room=6)
    book.note("Arbitrate: NAK leaves the slot, every other is 9")
    book.bring("arbitrate")
    book.frame(nak(), "answer 0 stores 0 reply 0 " + STANDING["arbitrate"], room=2)
    for name, bits in one_of_each(NUMBER):
        book.note(name)
        book.frame(bits, "answer 9 reply 0 " + STANDING["arbitrate"], room=6)
    book.note("Reply: every other is 9, Req_RN with the number too; NAK leads to Arbitrate with slot 0")
    book.bring("reply")
    for name, bits in one_of_each(NUMBER):
        book.note(name)
        book.frame(bits, "answer 9 reply 0 " + STANDING["reply"], room=6)
    book.frame(nak(), "answer 0 reply 0 state arbitrate number - slot 0 q 0 round s0 flags AAAA-", room=0)
    book.find()
    book.note("Acknowledged: every other command but Req_RN is 9")
    for name, bits in one_of_each(NUMBER)[1:]:
        book.note(name)
        book.frame(bits, "answer 9 state acknowledged number 1234")
    book.frame(req_rn(0x1235), "answer 9 state acknowledged number 1234", fresh=HANDLE)
    book.note("a room of 3 bytes is too small for the new number and its CRC")
    book.frame(req_rn(NUMBER), "answer 4 state acknowledged number 1234 reply 0",
               fresh=HANDLE, room=3)
    book.frame(nak(), "answer 0 state arbitrate number - slot 0 q 0 round s0 flags AAAA-")
    book.resume(image)
    book.frame(req_rn(NUMBER), "answer 9 state secured number a5c3 cover -", fresh=COVER)
    book.cover()
    book.cover(COVER2)
    book.frame(req_rn(HANDLE), "answer 4 cover 7b2d", fresh=COVER, room=3)
    book.frame(req_rn(HANDLE), "answer 0 cover 0000 slot - q 0 round s0 flags AAAA-", fresh=0, room=4, s=0)
    book.frame(nak(), "answer 0 state arbitrate number - cover - half - slot 0 q 0 round s0 flags AAAA-", room=0, s=0)
    book.note("Open, when one word of the access password is not zero")
    for reserved in ([0, 0, 1, 0], [0, 0, 0, 1]):
        book.begin(small(reserved=reserved))
        book.cover()
        book.frame(nak(), "answer 0 state arbitrate number - cover - slot 0 q 0 round s0")


def malformed(book):
    book.title("frames: 7 and 8")
    book.begin(small())
    book.cover()
    stays = "state secured number a5c3 cover 0f1e half -"
    book.note("no bits; too few for a code; a bit count beyond the bytes")
    book.frame("", "answer 7 " + stays)
    for bits in range(1, 8):
        book.frame(nak()[:bits], "answer 7 " + stays)
    book.frame(nak(), "answer 7 " + stays, data=b"")
    book.frame(nak() + "0", "answer 7 " + stays)
    book.frame(nak(), "answer 7 " + stays, count=9)
    book.frame(nak(), "answer 7 " + stays, count=1000000)
    book.frame(req_rn(HANDLE), "answer 7 " + stays, data=pack(req_rn(HANDLE))[:4])
    book.note("codes next to the known ones")
    for code in (0x00, 0xBF, 0xCA, 0xE0, 0xFF):
        book.frame(sealed(field_bits(code, 8) + field_bits(HANDLE, 16)), "answer 7 " + stays)
    for name, bits in one_of_each(HANDLE):
        book.note(name + ": a bit short, a bit long, a byte long, then CRC wrong in four places")
        for wrong in (bits[:-1], bits + "0", bits + "00000000"):
            book.frame(wrong, "answer 7 " + stays)
        for place in (-1, -16, -17, 8):
            book.frame(flipped(bits, place), "answer 8 " + stays)
    book.note("pointers: leading zero groups, a fourth byte, an end inside the pointer")
    for e in (1, 2, 3):
        book.frame(read(BANK_USER, 5, 1, HANDLE, e), "answer 0 reply 49 data 0039 cover -")
    book.cover()
    book.frame(read(BANK_USER, 5, 1, HANDLE, 4), "answer 7 " + stays)
    for bits in (write(BANK_USER, 5, 1, COVER, HANDLE, 4), block_erase(BANK_USER, 5, 1, HANDLE, 4),
                 block_write(BANK_USER, 5, [1], HANDLE, 4),
                 block_permalock(BANK_USER, 0, HANDLE, count=1, e=4)):
        book.frame(bits, "answer 7 " + stays)
    for bits in (10, 17, 18, 25, 57):
        book.frame(read(BANK_USER, 5, 1, HANDLE)[:bits], "answer 7 " + stays)
    book.note("two pointer bytes where the length is for one")
    book.frame(sealed(field_bits(0xC2, 8) + "11" + "10000001" + "00000001" + field_bits(HANDLE, 16)),
               "answer 7 " + stays)
    book.note("WordCount and BlockRange other than the words that follow")
    short = sealed(field_bits(0xC7, 8) + "11" + ebv(0) + field_bits(3, 8) + 32 * "0"
                   + field_bits(HANDLE, 16))
    book.frame(short, "answer 7 " + stays)
    short = sealed(field_bits(0xC9, 8) + 8 * "0" + "1" + "11" + ebv(0) + field_bits(1, 8)
                   + field_bits(HANDLE, 16))
    book.frame(short, "answer 7 " + stays)
    longer = sealed(field_bits(0xC9, 8) + 8 * "0" + "0" + "11" + ebv(0) + field_bits(1, 8)
                    + 16 * "0" + field_bits(HANDLE, 16))
    book.frame(longer, "answer 7 " + stays)
    book.note("7 stands before 8, and both before 9")
    book.frame(flipped(req_rn(WRONG), -1) + "0", "answer 7 " + stays)
    book.frame(flipped(req_rn(WRONG), -1), "answer 8 " + stays)
    book.note("bytes and bits past the bit count mean nothing")
    bits = read(BANK_USER, 5, 1, HANDLE)
    book.frame(bits, "answer 0 data 0039", data=pack(bits, "1") + b"\xff\xff\xff")


def out_of_place(book):
    book.title("9: wrong number, state, missing cover, zero range, RFU")
    book.begin(small())
    book.cover()
    for name, bits in one_of_each(WRONG):
        book.note(name + " with another handle")
        book.frame(bits, "answer 9 state secured cover 0f1e half -")
    for name, bits in (("BlockWrite of 0 words", block_write(BANK_USER, 0, [], HANDLE)),
                       ("BlockErase of 0 words", block_erase(BANK_USER, 0, 0, HANDLE)),
                       ("the same past the end", block_erase(BANK_USER, 99, 0, HANDLE)),
                       ("permalock reading of range 0", block_permalock(BANK_USER, 0, HANDLE, count=0)),
                       ("locking of range 0", block_permalock(BANK_USER, 0, HANDLE, masks=[])),
                       ("RFU 01h", block_permalock(BANK_USER, 0, HANDLE, count=1, rfu=1)),
                       ("RFU 80h", block_permalock(BANK_USER, 0, HANDLE, masks=[0], rfu=0x80)),
                       ("RFU and a bank other than USER",
                        block_permalock(BANK_EPC, 0, HANDLE, count=1, rfu=1))):
        book.note(name)
        book.frame(bits, "answer 9 state secured cover 0f1e", room=0)
    book.note("a Read uses up the cover; then Write, Access and Kill lack it")
    book.frame(read(BANK_TID, 0, 2, HANDLE), "answer 0 reply 65 data e200,6001 cover -")
    book.frame(write(BANK_USER, 0, 1, COVER, HANDLE), "answer 9")
    book.frame(access(0, COVER, HANDLE), "answer 9")
    book.frame(kill(KILL_UPPER, COVER, HANDLE), "answer 9")
    book.note("missing cover stands before 03h")
    book.frame(write(BANK_USER, 99, 1, COVER, HANDLE), "answer 9")
    book.note("Lock and BlockPermalock in Open")
    book.begin(guarded())
    book.cover()
    book.frame(lock(0, 0, HANDLE), "answer 9 state open cover 0f1e")
    book.frame(block_permalock(BANK_USER, 0, HANDLE, count=1), "answer 9 state open cover 0f1e")
    book.frame(block_permalock(BANK_USER, 0, HANDLE, masks=[0]), "answer 9 state open cover 0f1e")
    book.frame(block_permalock(BANK_TID, 9, HANDLE, count=1), "answer 9 state open cover 0f1e")


def inventory_refused(book):
    book.title("the inventory's five commands: 1, 2, 3, 5, 6, 7, 8 and 9 in every state, and nothing changes")
    for state, standing in STANDING.items():
        book.note(state)
        book.bring(state)
        refused_for_image(book, state, standing)
        book.image(STARTS[state])
        refused_for_frame(book, state, standing)
        if state not in ("open", "secured"):
            book.line("ask", "answer 0 port held " + standing)
            for name, bits in inventory(number_in(state)):
                book.frame(bits, "answer 6 reply 0 port held " + standing, room=8)
            book.line("release", "answer 0 port free " + standing)
    book.note("off: 5, on a good image")
    book.image(small())
    off = "state off number - slot - q - round - flags -"
    book.line("power 0", "answer 11 " + off)
    for name, bits in inventory(NUMBER):
        book.frame(bits, "answer 5 reply 0 " + off, room=8)
    refused_for_image(book, "off", off)


# The five on images that are none, and on one with a word pending.
def refused_for_image(book, state, standing):
    for image, answer in ((b"", 1), (bytes(32), 2), (small(lock=0x400), 3),
                          (small(pending=1, work=[(28, 1)]), 5)):
        book.image(image)
        for name, bits in inventory(number_in(state)):
            book.frame(bits, "answer %d reply 0 %s" % (answer, standing), room=8)


# The five a bit short and a bit long, with a wrong CRC, and where they are ignored.
def refused_for_frame(book, state, standing):
    for name, bits in inventory(number_in(state)):
        for wrong in (bits[:-1], bits + "0"):
            book.frame(wrong, "answer 7 reply 0 " + standing, room=8)
    for bits in (query(0), select(0, 0, BANK_EPC, 16, "0001")):
        for place in (-1, -5, -6, 9):
            book.frame(flipped(bits, place), "answer 8 reply 0 " + standing, room=8)
    for bits in ignored_in(state):
        book.frame(bits, "answer 9 reply 0 " + standing, room=8)


# Frames of the inventory that a tag ignores in this state, the round's session S0.
def ignored_in(state):
    number = number_in(state)
    if state == "killed":
        return [bits for _, bits in inventory(number)] + [query(0, target=1), ack(0)]
    frames = [select(target, 0, BANK_EPC, 16, "0001") for target in (5, 6, 7)]
    frames += [select(0, 0, BANK_RESERVED, 0, ""), select(TARGET_SL, 0, BANK_EPC, 16, "0001", truncate=1),
               select(0, 0, BANK_EPC, 16, "", truncate=1)]
    if state in IN_ROUND:
        frames += [bits for session in (1, 2, 3) for bits in (query_adjust(session, STAY), query_rep(session))]
        frames += [query_adjust(0, updn) for updn in (0b001, 0b010, 0b100, 0b101, 0b111)]
    else:
        frames += [bits for session in range(4) for bits in (query_adjust(session, UP), query_rep(session))]
    if state in ("ready", "arbitrate"):
        frames += [ack(number), ack(0)]
    return frames


def inventory_malformed(book):
    book.title("frames from 0 to 9 bits, Query's CRC-5, Select cut anywhere: 7 and 8")
    book.bring("arbitrate")
    stays = STANDING["arbitrate"]
    book.note("0 to 3 bits, whatever they are")
    for bits in ("", "0", "1", "00", "01", "10", "11", "000", "001", "010", "011", "100", "101", "110", "111"):
        book.frame(bits, "answer 7 " + stays, room=2)
    book.note("4 bits that begin something else than QueryRep")
    for k in range(4, 16):
        book.frame(field_bits(k, 4), "answer 7 " + stays, room=2)
    book.note("5 to 9 bits: QueryRep too long, QueryAdjust too short and whole, what begins no code")
    for size in range(5, 10):
        book.frame(query_rep(0).ljust(size, "0"), "answer 7 " + stays, room=2)
        book.frame("01".ljust(size, "1"), "answer 7 " + stays, room=2)
        book.frame("1011".ljust(size, "0"), "answer 7 " + stays, room=2)
        book.frame("1110".ljust(size, "0"), "answer 7 " + stays, room=2)
    for size in range(4, 9):
        book.frame(query_adjust(0, STAY)[:size], "answer 7 " + stays, room=2)
    book.frame(query_adjust(0, STAY) + "0", "answer 7 " + stays, room=2)
    book.note("a bit count beyond the bytes lent")
    book.frame(query_rep(0), "answer 7 " + stays, room=2, data=b"")
    book.frame(query_rep(0), "answer 7 " + stays, room=2, count=9)
    book.frame(query_adjust(0, STAY), "answer 7 " + stays, room=2, data=b"\x90")
    book.frame(query(0), "answer 7 " + stays, room=2, data=pack(query(0))[:2])
    book.frame(ack(NUMBER), "answer 7 " + stays, room=2, count=25)
    book.note("ACK of 17 and 19 bits, Query of 21 and 23")
    for bits in (ack(NUMBER)[:17], ack(NUMBER) + "0", query(0)[:21], query(0) + "0"):
        book.frame(bits, "answer 7 " + stays, room=2)
    book.note("Query: every bit behind the code turned over is 8, one of the code is 7")
    for place in range(22):
        book.frame(flipped(query(5, 2, 1, 3), place), "answer %d %s" % (7 if place < 4 else 8, stays), room=2)
    book.note("a CRC-5 that is complemented, and one of another preset")
    right = query(0)
    book.frame(right[:17] + field_bits(crc5(right[:17]) ^ 31, 5), "answer 8 " + stays, room=2)
    book.frame(right[:17] + "00000", "answer 8 " + stays, room=2)
    book.note("Select: a pointer of 21 bits, Length 255, cut at every bit and one too long")
    longest = select(TARGET_SL, 0, BANK_USER, 0x1FFFFF, 255 * "1")
    for size in range(4, len(longest)):
        book.frame(longest[:size], "answer 7 " + stays, room=2)
    book.frame(longest + "0", "answer 7 " + stays, room=2)
    for place in (4, 10, 13, 36, 43, 44, 298, 299, 300, 315):
        book.frame(flipped(longest, place), "answer %d %s" % (7 if place in (36, 43) else 8, stays), room=2)
    book.note("a fourth pointer byte; a length that is not the mask's")
    book.frame(select(0, 0, BANK_EPC, 16, "0001", e=4), "answer 7 " + stays, room=2)
    book.frame(sealed("1010" + "000" + "000" + "01" + ebv(16) + field_bits(5, 8) + "0001" + "0"),
               "answer 7 " + stays, room=2)
    book.frame(sealed("1010" + "000" + "000" + "01" + ebv(16) + field_bits(3, 8) + "0001" + "0"),
               "answer 7 " + stays, room=2)
    book.note("7 stands before 8, 8 before 9")
    book.frame(flipped(query(0), -1) + "0", "answer 7 " + stays, room=2)
    book.frame(flipped(select(7, 0, BANK_RESERVED, 0, "", truncate=1), -1), "answer 8 " + stays, room=2)
    book.note("the bits of the last byte past the bit count mean nothing")
    for fill in "01":
        book.frame(query_adjust(0, 0b001), "answer 9 " + stays, room=2, data=pack(query_adjust(0, 0b001), fill))
    book.frame(query_rep(0), "answer 0 slot 4", room=2, data=b"\x0f")
    book.frame(query_rep(0), "answer 0 slot 3", room=2, data=b"\x00\xff")
    book.frame(query_adjust(0, STAY), "answer 0 slot 9 q 4", fresh=9, room=2, data=b"\x90\x7f")
    book.note("the whole Select: it reaches past USER's end and does not match")
    book.frame(longest, "answer 0 state ready flags AAAA-", room=0)


def querying(book):
    book.title("Query in every state")
    for state in ("ready", "arbitrate", "reply") + FOUND:
        found = state in FOUND
        book.note(state + ": another session than the round's, S1; no flag moves")
        book.bring(state)
        book.frame(query(0, 1), "answer 4 reply 0 " + STANDING[state], fresh=0xBEEF, room=1)
        book.frame(query(0, 1), "answer 0 whole beef state reply number beef cover - half - slot - q 0 round s1 "
                   "flags AAAA-", fresh=0xBEEF, room=2)
        book.bring(state)
        book.frame(query(3, 1), "answer 0 reply 0 state arbitrate number - cover - half - slot 7 q 3 round s1 "
                   "flags AAAA-", fresh=0xBEEF, room=0)
        book.bring(state)
        book.frame(query(3, 1, 1), "answer 0 reply 0 state ready number - cover - half - slot - q - round - "
                   "flags AAAA-", fresh=0xBEE8, room=0)
        book.note(state + ": the round's session, S0" + (", whose flag is inverted first" if found else ""))
        flags = "BAAA-" if found else "AAAA-"
        for target in (0, 1):
            book.bring(state)
            if (target == 1) == found:
                book.frame(query(0, 0, target), "answer 4 reply 0 " + STANDING[state], fresh=0xBEEF, room=1)
                book.frame(query(0, 0, target), "answer 0 whole beef state reply number beef cover - half - slot - "
                           "q 0 round s0 flags " + flags, fresh=0xBEEF, room=2)
            else:
                book.frame(query(0, 0, target), "answer 0 reply 0 state ready number - cover - half - slot - q - "
                           "round - flags " + flags, fresh=0xBEEF, room=0)
    book.note("the flag inverted and back: a tag of session S2 in B")
    book.bring("ready")
    book.frame(query(0, 2), "answer 0 state reply round s2 flags AAAA-", fresh=NUMBER, room=2)
    book.frame(ack(NUMBER), "answer 0 state acknowledged", room=8)
    book.frame(query(0, 2, 1), "answer 0 whole 4321 state reply number 4321 flags AABA-", fresh=0x4321, room=2)
    book.frame(ack(0x4321), "answer 0 state acknowledged flags AABA-", room=8)
    book.frame(query(15, 2, 1), "answer 0 state ready flags AAAA-", fresh=0x4321, room=2)
    book.note("every Q: the slot is the low Q bits of the fresh word")
    for q in range(16):
        book.frame(query(q, 3), "answer 0 reply 0 state arbitrate slot %d q %d round s3" % ((1 << q) - 1, q)
                   if q else "answer 0 whole ffff state reply number ffff q 0 round s3", fresh=0xFFFF, room=2)
        fresh = 0xFFFF << q & 0xFFFF
        book.frame(query(q, 3), "answer 0 whole %04x state reply number %04x slot - q %d round s3" % (fresh, fresh, q),
                   fresh=fresh, room=3)
        if q:
            book.frame(query(q, 3), "answer 0 reply 0 state arbitrate slot %d q %d" % (1 << q - 1, q),
                       fresh=1 << q - 1, room=2)
    book.frame(query(15, 3), "answer 0 whole 8000 state reply number 8000 q 15", fresh=0x8000, room=2)
    book.note("Sel, SL deasserted and then asserted: 00 and 01 all tags, 10 without SL, 11 with it")
    for flags, action, answering in (("AAAA-", 0b100, (0, 1, 2)), ("AAAAS", 0b000, (0, 1, 3))):
        book.frame(select(TARGET_SL, action, BANK_EPC, 0, ""), "answer 0 state ready flags " + flags, room=0)
        for sel in range(4):
            book.frame(query(0, 1, 0, sel), ("answer 0 whole 7777 state reply flags " if sel in answering
                                             else "answer 0 reply 0 state ready flags ") + flags, fresh=0x7777, room=2)
            book.frame(query(0, 1, 1, sel), "answer 0 reply 0 state ready flags " + flags, fresh=0x7777, room=2)
    book.note("DR, M and TRext mean nothing")
    for link in range(16):
        book.frame(query(1, 1, link=link), "answer 0 reply 0 state arbitrate slot 1 q 1 round s1", fresh=1, room=0)
    book.note("in Ready a Query that does not match leaves Ready")
    book.bring("ready")
    for session in range(4):
        book.frame(query(0, session, 1), "answer 0 reply 0 " + STANDING["ready"], fresh=NUMBER, room=0)
    book.frame(query(0, sel=3), "answer 0 reply 0 " + STANDING["ready"], fresh=NUMBER, room=0)
    book.note("a session is lost with power, the flags too")
    book.bring("secured")
    book.frame(query(4, 0, 1), "answer 0 state arbitrate slot 5 flags BAAA-", fresh=5, room=0)
    book.line("power 1", "answer 0 state ready slot - q - round - flags AAAA-")


def adjusting(book):
    book.title("QueryAdjust")
    for state in ("arbitrate", "reply"):
        start = 4 if state == "arbitrate" else 0
        for updn, q in ((UP, start + 1), (STAY, start), (DOWN, max(0, start - 1))):
            book.note("%s: UpDn %s" % (state, field_bits(updn, 3)))
            book.bring(state)
            fresh = 0xFFFF << q & 0xFFFF
            book.frame(query_adjust(0, updn), "answer 4 reply 0 " + STANDING[state], fresh=fresh, room=1)
            book.frame(query_adjust(0, updn), "answer 0 whole %04x state reply number %04x slot - q %d round s0 "
                       "flags AAAA-" % (fresh, fresh, q), fresh=fresh, room=2)
            book.bring(state)
            book.frame(query_adjust(0, updn), "answer 0 reply 0 state arbitrate number - slot %d q %d round s0 "
                       "flags AAAA-" % ((1 << q) - 1, q) if q else "answer 0 whole ffff state reply q 0",
                       fresh=0xFFFF, room=2)
    book.note("15 stays 15, 0 stays 0")
    book.bring("ready")
    book.frame(query(14, 1), "answer 0 slot 3 q 14 round s1", fresh=3, room=2)
    for slot in (0x7FFF, 0x7FFE):
        book.frame(query_adjust(1, UP), "answer 0 slot %d q 15 round s1" % slot, fresh=0x8000 | slot, room=2)
    book.frame(query_adjust(1, UP), "answer 0 whole 8000 state reply q 15", fresh=0x8000, room=2)
    book.frame(query(1, 1), "answer 0 slot 1 q 1", fresh=1, room=2)
    for _ in range(2):
        book.frame(query_adjust(1, DOWN), "answer 0 whole ffff state reply q 0", fresh=0xFFFF, room=2)
    book.frame(query_adjust(1, UP), "answer 0 reply 0 state arbitrate slot 1 q 1", fresh=0xFFFF, room=2)
    for state in FOUND:
        for updn in (UP, STAY, DOWN):
            book.note("%s: done with, whatever the fresh word; no room is asked for" % state)
            book.bring(state)
            book.frame(query_adjust(0, updn), "answer 0 reply 0 state ready number - cover - half - slot - q - "
                       "round - flags BAAA-", fresh=0, room=0)
    book.note("each session's flag, from A to B and back")
    for session in range(4):
        book.bring("ready")
        for flags in ("AAAA", "AAAA"[:session] + "B" + "AAA"[session:]):
            target = int(flags != "AAAA")
            after = "AAAA" if target else "AAAA"[:session] + "B" + "AAA"[session:]
            book.frame(query(0, session, target), "answer 0 state reply flags %s-" % flags, fresh=NUMBER, room=2)
            book.frame(ack(NUMBER), "answer 0 state acknowledged", room=8)
            book.frame(query_adjust(session, STAY), "answer 0 state ready flags %s-" % after, room=2)


def repeating(book):
    book.title("QueryRep")
    book.bring("arbitrate")
    for slot in (4, 3, 2, 1):
        book.frame(query_rep(0), "answer 0 reply 0 state arbitrate slot %d q 4 round s0 flags AAAA-" % slot,
                   fresh=0, room=0)
    book.note("the slot comes to 0: a reply, if it has room")
    book.frame(query_rep(0), "answer 4 reply 0 state arbitrate number - slot 1 q 4", fresh=0xBEEF, room=1)
    book.frame(query_rep(0), "answer 0 whole beef state reply number beef slot - q 4 round s0 flags AAAA-",
               fresh=0xBEEF, room=2)
    book.note("from Reply: slot 7fffh, which counts on")
    book.frame(query_rep(0), "answer 0 reply 0 state arbitrate number - slot 32767 q 4 round s0", fresh=0, room=0)
    book.frame(query_rep(0), "answer 0 reply 0 state arbitrate slot 32766", fresh=0, room=0)
    book.note("Arbitrate with slot 0, after a NAK, a wrong ACK, a wrong password and broken halves: 7fffh too")
    for way in ("NAK", "ACK", "Access", "Read"):
        book.begin(guarded())
        if way == "Access":
            book.cover()
            book.frame(access(0, COVER, HANDLE), "answer 0 half access:0000")
            book.cover(COVER2, "access:0000")
            book.frame(access(0, COVER2, HANDLE), "answer 12 state arbitrate slot 0 q 0 round s0 flags AAAA-")
        elif way == "Read":
            book.cover()
            book.frame(access(0, COVER, HANDLE), "answer 0 half access:0000")
            book.frame(read(BANK_USER, 0, 1, HANDLE), "answer 14 state arbitrate slot 0 q 0 round s0 flags AAAA-")
        else:
            book.frame(nak() if way == "NAK" else ack(WRONG),
                       "answer 0 reply 0 state arbitrate slot 0 q 0 round s0 flags AAAA-", room=0)
        book.frame(query_rep(0), "answer 0 reply 0 state arbitrate slot 32767 q 0 round s0 flags AAAA-",
                   fresh=0, room=0)
    book.note("NAK in Arbitrate leaves the slot")
    book.frame(nak(), "answer 0 reply 0 state arbitrate slot 32767 q 0 round s0", room=0)
    for state in FOUND:
        book.note("%s: done with" % state)
        book.bring(state)
        book.frame(query_rep(0), "answer 0 reply 0 state ready number - cover - half - slot - q - round - "
                   "flags BAAA-", fresh=0, room=0)
    book.note("a tag of S3 that was found hears the round's QueryRep alone, and no more of it afterwards")
    book.bring("ready")
    book.frame(query(0, 3), "answer 0 state reply round s3", fresh=NUMBER, room=2)
    book.frame(ack(NUMBER), "answer 0 state acknowledged", room=8)
    book.frame(query_rep(2), "answer 9 state acknowledged round s3 flags AAAA-", room=0)
    book.frame(query_rep(3), "answer 0 state ready flags AAAB-", room=0)
    book.frame(query_rep(3), "answer 9 state ready flags AAAB-", room=0)
    book.frame(query(0, 3), "answer 0 reply 0 state ready flags AAAB-", fresh=NUMBER, room=2)
    book.frame(query(0, 3, 1), "answer 0 reply 16 state reply flags AAAB-", fresh=NUMBER, room=2)


def acknowledging(book):
    book.title("ACK")
    whole = "whole 1000,3034,0257,9297"
    for state, after in (("reply", "acknowledged"),) + tuple((state, state) for state in FOUND):
        number = number_in(state)
        book.note(state + ": with its number, in a room too small and in one that fits; then with another")
        book.bring(state)
        book.frame(ack(number), "answer 4 reply 0 " + STANDING[state], room=7)
        for _ in range(2):
            book.frame(ack(number), "answer 0 stores 0 reply 64 %s %s" % (
                whole, STANDING[after]), fresh=0xBEEF, room=8, s=0)
        for wrong in (number ^ 1, number ^ 0x8000, 0):
            book.bring(state)
            book.frame(ack(wrong), "answer 0 stores 0 reply 0 state arbitrate number - cover - half - slot 0 q 0 "
                       "round s0 flags AAAA-", fresh=0xBEEF, room=0)
    book.note("the number replied is none any more where there is a handle")
    book.bring("secured")
    book.frame(ack(NUMBER), "answer 0 reply 0 state arbitrate number - slot 0", room=8)
    book.note("answered 0 with the handle it uses up the cover number, refused it does not")
    for state in ("open", "secured"):
        book.bring(state)
        book.cover()
        book.frame(ack(HANDLE), "answer 4 reply 0 cover 0f1e state " + state, room=7)
        book.frame(ack(HANDLE), "answer 0 %s cover - state %s number a5c3" % (whole, state), room=8)
        book.frame(write(BANK_USER, 0, 1, COVER, HANDLE), "answer 9 state " + state)
    book.note("L from 0 to the bank's size")
    words = [0x1111 * k & 0xFFFF for k in range(31)]
    for count, length in ((2, 0), (4, 0), (4, 1), (4, 2), (33, 0), (33, 17), (33, 30), (33, 31)):
        pc = length << 11 | 0x2A5
        sent = [pc] + words[:length]
        check = crc("".join(field_bits(w, 16) for w in sent))
        book.image(small(epc=[0, pc] + words[:count - 2]))
        book.line("power 1", "answer 0")
        book.frame(query(0), "answer 0 state reply", fresh=NUMBER, room=2)
        book.frame(ack(NUMBER), "answer 4 reply 0 state reply number 1234", room=2 * length + 3)
        book.frame(ack(NUMBER), "answer 0 reply %d whole %s state acknowledged" % (
            16 * (length + 2), ",".join("%04x" % w for w in sent + [check])), room=2 * length + 4)
    book.note("a new PC and a new EPC word: the CRC-16 is computed, while the stored one is stale")
    book.begin(small())
    book.write(BANK_EPC, 1, 0x0FFF, "answer 0 stores 5")
    book.frame(ack(HANDLE), "answer 0 whole 0fff,3034,%04x state secured" % crc(field_bits(0x0FFF3034, 32)), room=6)
    book.write(BANK_EPC, 2, 0xCAFE, "answer 0 stores 5")
    book.frame(ack(HANDLE), "answer 0 whole 0fff,cafe,%04x" % crc(field_bits(0x0FFFCAFE, 32)), room=6)
    book.write(BANK_EPC, 1, 0x0000, "answer 0 stores 5")
    book.frame(ack(HANDLE), "answer 0 whole 0000,e2f0", room=4)
    book.write(BANK_EPC, 1, 0x1000, "answer 0 stores 5")
    book.frame(ack(HANDLE), "answer 0 whole 1000,cafe,0257,%04x" % crc(field_bits(0x1000CAFE0257, 48)), room=8)
    book.dump(_22=0x9297, _23=0x1000, _24=0xCAFE)
    book.note("the EPC is read whatever its lock pair, by radio's ACK")
    book.bring("reply")
    book.image(small(lock=0x3FF))
    book.frame(ack(NUMBER), "answer 0 %s state acknowledged" % whole, room=8)


# The bits of some words.
def word_bits(words):
    return "".join(field_bits(w, 16) for w in words)


def selecting(book):
    book.title("Select: actions, masks and banks")
    image = small()
    epc, tid, user = (word_bits(words) for words in (image.epc, image.tid, image.user))
    match = select(TARGET_SL, 0, BANK_EPC, 16, epc[16:64])
    for state in ("ready", "arbitrate", "reply") + FOUND:
        book.note(state + ": Ready, whatever the room")
        book.bring(state)
        book.frame(match, "answer 0 stores 0 reply 0 state ready number - cover - half - slot - q - round - "
                   "flags AAAAS", fresh=0xBEEF, room=0, s=0)
    every_action(book)
    book.note("masks on the EPC bank: from its word 0 on, bit by bit")
    book.bring("ready")

    # A Select that asserts SL where the mask matches and deasserts it where not.
    def tried(bank, pointer, mask, matching, e=1):
        book.frame(select(TARGET_SL, 0, bank, pointer, mask, e=e),
                   "answer 0 reply 0 state ready flags AAAA" + ("S" if matching else "-"), room=0)

    tried(BANK_EPC, 0, epc, True)
    for place in (0, 15, 16, 33, 63):
        tried(BANK_EPC, 0, flipped(epc, place), False)
    for pointer, size in ((0, 1), (1, 7), (15, 2), (32, 32), (33, 31), (63, 1), (5, 50)):
        tried(BANK_EPC, pointer, epc[pointer:pointer + size], True)
        tried(BANK_EPC, pointer, flipped(epc[pointer:pointer + size], -1), False)
        tried(BANK_EPC, pointer, flipped(epc[pointer:pointer + size], 0), False)
    for bank, bits in ((BANK_EPC, epc), (BANK_TID, tid), (BANK_USER, user)):
        size = len(bits)
        book.note("bank %d, %d bits: at its end and past it, with the bits that follow and with zeros" % (bank, size))
        tried(bank, size - 8, bits[-8:], True)
        follow = word_bits(image.words())[16 * image.place(bank + 1):]
        for length in (9, 16):
            tried(bank, size - 8, follow[size - 8:size - 8 + length], False)
            tried(bank, size - 8, bits[-8:].ljust(length, "0"), False)
        tried(bank, size - 1, bits[-1:], True)
        tried(bank, size, follow[size:size + 1], False)
        tried(bank, size, "0", False)
        tried(bank, size + 1, "0", False)
        book.note("a mask of no bits below, at and beyond the end")
        for pointer in (0, 1, size - 1):
            tried(bank, pointer, "", True)
        for pointer in (size, size + 1, size + 16, 0x1FFFFF):
            tried(bank, pointer, "", False)
    book.note("pointers of one, two and three bytes")
    for e in (1, 2, 3):
        tried(BANK_EPC, 16, epc[16:20], True, e)
        tried(BANK_USER, 100, user[100:140], True, e)
        tried(BANK_USER, 100, flipped(user[100:140], 20), False, e)
    tried(BANK_USER, 0, user[:255], True)
    tried(BANK_USER, 1, user[1:256], True)
    tried(BANK_USER, 1, flipped(user[1:256], 254), False)
    tried(BANK_USER, 2, user[2:] + "0", False)
    book.note("banks of no words, and the RESERVED bank, which is 9")
    book.image(small(tid=[], user=[], perma=[]))
    for bank in (BANK_TID, BANK_USER):
        tried(bank, 0, "", False)
        tried(bank, 0, "0", False)
    book.frame(select(TARGET_SL, 0, BANK_RESERVED, 0, ""), "answer 9 state ready flags AAAA-", room=0)
    book.note("a USER bank of 4096 words: its last bits by a pointer of three bytes; locks do not matter")
    book.image(small(block_size=16, lock=0x3FF, user=4095 * [0] + [0x8001], perma=16 * [0xFFFF]))
    tried(BANK_USER, 65535, "1", True)
    tried(BANK_USER, 65520, "1000000000000001", True)
    tried(BANK_USER, 65520, "10000000000000010", False)
    tried(BANK_USER, 65535, "", True)
    tried(BANK_USER, 65536, "", False)
    tried(BANK_USER, 65281, 239 * "0" + "1000000000000001", True)
    tried(BANK_USER, 65281, 240 * "0" + "000000000000001", False)
    book.note("the stored CRC is a part of the EPC bank: what power-up stored, stale or not")
    book.begin(small())
    book.write(BANK_EPC, 1, 0x0800, "answer 0 stores 5")
    tried(BANK_EPC, 0, word_bits([0x9297, 0x0800]), True)
    book.line("power 1", "answer 0 state ready flags AAAA-")
    tried(BANK_EPC, 0, word_bits([0x9297, 0x0800]), False)
    tried(BANK_EPC, 0, word_bits([crc(field_bits(0x08003034, 32)), 0x0800]), True)


# All eight actions on each of the five flags, matching and not, the flag set and not before.
def every_action(book):
    book.note("the actions: assert SL or A, deassert SL or B, or turn it over; matching, then not")
    book.bring("ready")
    hit, miss = "0001", "0000"          # the PC's first bits
    flags = list("AAAA-")
    for target in range(5):
        is_set, is_clear = ("S", "-") if target == TARGET_SL else ("A", "B")
        other = {is_set: is_clear, is_clear: is_set}
        table = ((is_set, is_clear), (is_set, None), (None, is_clear), ("turn", None),
                 (is_clear, is_set), (is_clear, None), (None, is_set), (None, "turn"))
        for action, columns in enumerate(table):
            for mask, does in zip((hit, miss), columns):
                for before in (is_set, is_clear):
                    flags[target] = before
                    book.frame(select(target, 0 if before == is_set else 4, BANK_EPC, 16, hit),
                               "answer 0 flags " + "".join(flags), room=0)
                    flags[target] = {None: before, "turn": other[before]}.get(does, does)
                    book.frame(select(target, action, BANK_EPC, 16, mask),
                               "answer 0 state ready flags " + "".join(flags), room=0)
        flags[target] = is_clear
        book.frame(select(target, 4, BANK_EPC, 16, hit), "answer 0 flags " + "".join(flags), room=0)
    book.note("what else moves no flag: NAK, a wrong ACK, a Write, a Kill; power does")
    book.frame(query(0, 3, 1), "answer 0 state reply flags BBBB-", fresh=NUMBER, room=2)
    book.frame(ack(0), "answer 0 state arbitrate slot 0 q 0 round s3 flags BBBB-", room=8)
    book.frame(select(TARGET_SL, 0, BANK_EPC, 16, hit), "answer 0 state ready flags BBBBS", room=0)
    book.frame(query(0, 3, 1, 3), "answer 0 state reply flags BBBBS", fresh=NUMBER, room=2)
    book.frame(ack(NUMBER), "answer 0 state acknowledged flags BBBBS", room=8)
    book.frame(nak(), "answer 0 state arbitrate slot 0 q 0 round s3 flags BBBBS", room=8)
    book.frame(query(0, 3, 1, 3), "answer 0 state reply flags BBBBS", fresh=NUMBER, room=2)
    book.frame(ack(NUMBER), "answer 0 state acknowledged flags BBBBS", room=8)
    book.frame(req_rn(NUMBER), "answer 0 state secured round s3 flags BBBBS", fresh=HANDLE)
    book.write(BANK_USER, 3, 1, "answer 0 stores 5 state secured round s3 flags BBBBS")
    book.cover()
    book.frame(kill(KILL_UPPER, COVER, HANDLE), "answer 0 half kill:4b49 flags BBBBS")
    book.cover(COVER2, "kill:4b49")
    book.frame(kill(KILL_LOWER, COVER2, HANDLE), "answer 0 state killed slot - q - round - flags BBBBS")
    book.frame(select(0, 0, BANK_EPC, 16, hit), "answer 9 state killed flags BBBBS", room=0)
    book.line("power 1", "answer 0 state killed flags AAAA-")


def inventory_between_halves(book):
    book.title("the inventory between two halves")
    for state, image, code, upper in (("open", guarded(), access, ACCESS_UPPER), ("secured", small(), kill, KILL_UPPER),
                                      ("open", guarded(), kill, KILL_UPPER), ("secured", small(), access, 0)):
        kind = "access" if code is access else "kill"
        half = "half %s:%04x" % (kind, upper)
        for covered in (False, True):
            book.note("%s, half of a password by %s, %s cover number" % (state, kind, "with a" if covered else "no"))

            # A tag of this image between the halves.
            def halfway():
                book.begin(image)
                book.cover()
                book.frame(code(upper, COVER, HANDLE), "answer 0 " + half)
                if covered:
                    book.cover(COVER2, half[5:])

            waiting = "state %s number a5c3 cover %s %s q 0 round s0 flags AAAA-" % (
                state, "7b2d" if covered else "-", half)
            gone = "number - cover - half - "
            halfway()
            refused_for_image(book, state, waiting)
            book.image(image)
            refused_for_frame(book, state, waiting)
            book.frame(query(0, 1), "answer 4 reply 0 " + waiting, fresh=NUMBER, room=1)
            for bits, expected in (
                    (ack(HANDLE), "answer 14 reply 0 state arbitrate " + gone + "slot 0 q 0 round s0 flags AAAA-"),
                    (ack(WRONG), "answer 0 reply 0 state arbitrate " + gone + "slot 0 q 0 round s0 flags AAAA-"),
                    (query(0, 1), "answer 0 whole 1234 state reply number 1234 cover - half - slot - q 0 round s1 "
                     "flags AAAA-"),
                    (query(0, 0, 1), "answer 0 whole 1234 state reply number 1234 cover - half - slot - q 0 round s0 "
                     "flags BAAA-"),
                    (query(0), "answer 0 reply 0 state ready " + gone + "slot - q - round - flags BAAA-"),
                    (query(4, 2), "answer 0 reply 0 state arbitrate " + gone + "slot 4 q 4 round s2 flags AAAA-"),
                    (query_adjust(0, UP), "answer 0 reply 0 state ready " + gone + "slot - q - round - flags BAAA-"),
                    (query_rep(0), "answer 0 reply 0 state ready " + gone + "slot - q - round - flags BAAA-"),
                    (select(1, 4, BANK_EPC, 0, ""), "answer 0 reply 0 state ready " + gone
                     + "slot - q - round - flags ABAA-")):
                halfway()
                book.frame(bits, expected, fresh=NUMBER, room=2)


def reading(book):
    book.title("Read: 0, 03h, 04h, 4")
    image = small(reserved=[KILL_UPPER, KILL_LOWER, 0, 0])
    book.begin(image)
    book.frame(read(BANK_RESERVED, 0, 4, HANDLE), "answer 0 reply 97 data 4b49,4c4c,0000,0000")
    book.frame(read(BANK_EPC, 0, 0, HANDLE), "answer 0 data 9297,1000,3034,0257")
    book.frame(read(BANK_TID, 1, 0, HANDLE), "answer 0 data 6001")
    book.frame(read(BANK_USER, 15, 1, HANDLE), "answer 0 data 0000")
    book.frame(read(BANK_USER, 10, 0, HANDLE), "answer 0 reply 129", room=17)
    book.note("a room one byte too small, also for the error reply; the cover stays")
    book.cover()
    book.frame(read(BANK_USER, 10, 0, HANDLE), "answer 4 reply 0 cover 0f1e", room=16)
    book.frame(read(BANK_USER, 16, 1, HANDLE), "answer 4 reply 0 cover 0f1e", room=5)
    book.frame(read(BANK_USER, 16, 1, HANDLE), "answer 10 code 03 reply 41 cover -", room=6)
    book.note("past the end, and a pointer at or beyond it")
    for bank, size in ((BANK_RESERVED, 4), (BANK_EPC, 4), (BANK_TID, 2), (BANK_USER, 16)):
        book.frame(read(bank, size - 1, 1, HANDLE), "answer 0 reply 49")
        book.frame(read(bank, size - 1, 2, HANDLE), "answer 10 code 03")
        book.frame(read(bank, size, 0, HANDLE), "answer 10 code 03")
        book.frame(read(bank, size, 1, HANDLE), "answer 10 code 03")
        book.frame(read(bank, 0x1FFFFF, 255, HANDLE), "answer 10 code 03")
        book.frame(read(bank, size + 1, 0, HANDLE, 3), "answer 10 code 03")
    book.note("03h stands before 04h")
    book.begin(small(lock=0x3FF))
    book.frame(read(BANK_RESERVED, 0, 5, HANDLE), "answer 10 code 03")
    book.frame(read(BANK_RESERVED, 0, 4, HANDLE), "answer 10 code 04")
    book.note("rights by pair in Secured, then in Open; kill pair words 0 and 1, access pair the others;")
    book.note("the image changes under the session, which stays")
    five = [KILL_UPPER, KILL_LOWER, 0, 0, 0x5555]
    for pair in range(4):
        answer = "answer 10 code 04" if pair == 3 else "answer 0"
        book.image(small(reserved=five, lock=pair << 8))
        for n in range(5):
            book.frame(read(BANK_RESERVED, n, 1, HANDLE), answer if n < 2 else "answer 0")
        book.frame(read(BANK_RESERVED, 0, 0, HANDLE), answer)
        book.image(small(reserved=five, lock=pair << 6))
        for n in range(5):
            book.frame(read(BANK_RESERVED, n, 1, HANDLE), answer if n >= 2 else "answer 0")
        book.frame(read(BANK_RESERVED, 1, 2, HANDLE), answer)
    book.begin(guarded())
    for pair in range(4):
        answer = "answer 10 code 04" if pair >= 2 else "answer 0"
        book.image(guarded(lock=pair << 8))
        book.frame(read(BANK_RESERVED, 1, 1, HANDLE), answer)
        book.frame(read(BANK_RESERVED, 2, 2, HANDLE), "answer 0 data acce,55ed")
        book.image(guarded(lock=pair << 6))
        book.frame(read(BANK_RESERVED, 3, 1, HANDLE), answer)
        book.frame(read(BANK_RESERVED, 0, 2, HANDLE), "answer 0 data 4b49,4c4c")
    book.note("locks of EPC, TID and USER leave reading free")
    book.begin(guarded(lock=0x03F, perma=[0xF000]))
    for bank in (BANK_EPC, BANK_TID, BANK_USER):
        book.frame(read(bank, 0, 0, HANDLE), "answer 0")
    book.note("more than 255 words to the bank's end")
    book.begin(small(user=300 * [0x4242], perma=5 * [0]))
    book.frame(read(BANK_USER, 0, 0, HANDLE), "answer 0 reply 4833", room=605)
    book.frame(read(BANK_USER, 44, 0, HANDLE), "answer 0 reply 4129", room=517)
    book.frame(read(BANK_USER, 45, 255, HANDLE), "answer 0 reply 4113", room=515)
    book.note("banks of no words")
    book.begin(small(tid=[], user=[], perma=[]))
    for bank in (BANK_TID, BANK_USER):
        book.frame(read(bank, 0, 0, HANDLE), "answer 10 code 03")
        book.frame(read(bank, 0, 1, HANDLE), "answer 10 code 03")


# The words of a reply as '#>' writes them.
def shown(words):
    return ",".join("%04x" % word for word in words)


# Reads with WordCount 0: each a pointer and the words that it must show, None for 03h. The room is one byte too
# small, then just enough.
def read_on(book, bank, *reads):
    for pointer, data in reads:
        expected, room = "answer 10 code 03 reply 41", 6
        if data is not None:
            count = len(data.split(","))
            expected, room = "answer 0 reply %d data %s" % (33 + 16 * count, data), 5 + 2 * count
        book.frame(read(bank, pointer, 0, HANDLE), "answer 4 reply 0", room=room - 1)
        book.frame(read(bank, pointer, 0, HANDLE), expected, room=room)


# A code of two words in an EPC bank of eight: words 4 to 7 are left over from a longer one.
STALE = [0x9297, 0x1000, 0x3034, 0x0257, 0xAAA4, 0xAAA5, 0xAAA6, 0xAAA7]


def long_reading(book):
    book.title("Read of EPC with WordCount 0: below L + 2 it ends after word L + 1, from there on with the bank")
    for make in (guarded, small):
        name = "Open" if make is guarded else "Secured"
        book.note("in %s: L = 2, EPC of 4 words, none of them stale" % name)
        book.begin(make())
        read_on(book, BANK_EPC, (0, "9297,1000,3034,0257"), (1, "1000,3034,0257"), (2, "3034,0257"), (3, "0257"),
                (4, None), (5, None))
        stale_code(book, make)
        empty_code(book, make)
        longest_code(book, make)
        code_moved(book, make)
        code_moved_by_cut(book, make)
        other_banks(book, make)


# L = 2 in eight words.
def stale_code(book, make):
    book.note("L = 2, EPC of 8 words, 4 to 7 stale")
    book.begin(make(epc=STALE))
    read_on(book, BANK_EPC, (0, "9297,1000,3034,0257"), (1, "1000,3034,0257"), (2, "3034,0257"), (3, "0257"),
            (4, "aaa4,aaa5,aaa6,aaa7"), (5, "aaa5,aaa6,aaa7"), (6, "aaa6,aaa7"), (7, "aaa7"), (8, None), (9, None),
            (0x1FFFFF, None))
    for e in (2, 3):
        book.frame(read(BANK_EPC, 3, 0, HANDLE, e), "answer 0 reply 49 data 0257")
        book.frame(read(BANK_EPC, 4, 0, HANDLE, e), "answer 0 reply 97 data aaa4,aaa5,aaa6,aaa7")
    book.note("4 leaves the cover number, 0 uses it up; the room's other bytes stay")
    book.cover()
    book.frame(read(BANK_EPC, 1, 0, HANDLE), "answer 4 reply 0 cover 0f1e", room=10)
    book.frame(read(BANK_EPC, 1, 0, HANDLE), "answer 0 reply 81 cover -", room=21)
    book.note("a count shows stale words as before")
    for pointer, count in ((0, 8), (0, 5), (3, 2), (3, 5), (0, 4), (1, 1), (4, 1), (7, 1)):
        data = shown(STALE[pointer:pointer + count])
        book.frame(read(BANK_EPC, pointer, count, HANDLE), "answer 4 reply 0", room=4 + 2 * count)
        book.frame(read(BANK_EPC, pointer, count, HANDLE), "answer 0 data " + data, room=5 + 2 * count)
    for pointer, count in ((0, 9), (3, 6), (4, 5), (8, 1)):
        book.frame(read(BANK_EPC, pointer, count, HANDLE), "answer 10 code 03")


# L = 0, whatever the PC's other bits are.
def empty_code(book, make):
    book.note("L = 0, EPC of 2 words: the CRC-16 and the PC")
    book.begin(make(epc=[0, 0]))
    read_on(book, BANK_EPC, (0, "e2f0,0000"), (1, "0000"), (2, None), (3, None))
    book.note("L = 0, EPC of 5 words, 2 to 4 stale")
    crc_now = crc(field_bits(0x07FF, 16))
    book.begin(make(epc=[0, 0x07FF, 0xAAA2, 0xAAA3, 0xAAA4]))
    read_on(book, BANK_EPC, (0, "%04x,07ff" % crc_now), (1, "07ff"), (2, "aaa2,aaa3,aaa4"), (3, "aaa3,aaa4"),
            (4, "aaa4"), (5, None), (6, None))
    book.frame(read(BANK_EPC, 1, 4, HANDLE), "answer 4 reply 0", room=12)
    book.frame(read(BANK_EPC, 1, 4, HANDLE), "answer 0 data 07ff,aaa2,aaa3,aaa4", room=13)


# The largest L, and one less, in the largest bank, which comes under the session.
def longest_code(book, make):
    book.begin(make())
    code = [0xC0D0 + k for k in range(31)]
    for length, pc in ((31, 0xF800), (30, 0xF000)):
        words = [0x9297, pc] + code
        book.note("L = %d, EPC of 33 words" % length)
        book.image(make(epc=words))
        read_on(book, BANK_EPC, (0, shown(words[:length + 2])), (1, shown(words[1:length + 2])),
                (length + 1, shown(words[length + 1:length + 2])), (32, "c0ee"), (33, None))


# L is that of the PC as it stands in the image.
def code_moved(book, make):
    book.note("the PC written: L = 4, the whole bank, 1, and one too long, which is not stored")
    book.begin(make(epc=STALE))
    read_on(book, BANK_EPC, (3, "0257"), (4, "aaa4,aaa5,aaa6,aaa7"))
    book.write(BANK_EPC, 1, 0x2000, "answer 0 stores 5 reply 33")
    read_on(book, BANK_EPC, (0, "9297,2000,3034,0257,aaa4,aaa5"), (3, "0257,aaa4,aaa5"), (4, "aaa4,aaa5"),
            (5, "aaa5"), (6, "aaa6,aaa7"), (7, "aaa7"), (8, None))
    book.write(BANK_EPC, 1, 0x3000, "answer 0 stores 5")
    read_on(book, BANK_EPC, (0, "9297,3000,3034,0257,aaa4,aaa5,aaa6,aaa7"), (6, "aaa6,aaa7"), (8, None))
    book.write(BANK_EPC, 1, 0x0800, "answer 0 stores 5")
    read_on(book, BANK_EPC, (0, "9297,0800,3034"), (2, "3034"), (3, "0257,aaa4,aaa5,aaa6,aaa7"))
    book.write(BANK_EPC, 1, 0x3800, "answer 10 code 03 stores 0")
    read_on(book, BANK_EPC, (0, "9297,0800,3034"), (3, "0257,aaa4,aaa5,aaa6,aaa7"))
    book.note("PC and code by BlockWrite, L = 3; the PC erased, L = 0")
    book.frame(block_write(BANK_EPC, 1, [0x1800, 0x1111, 0x2222, 0x3333], HANDLE), "answer 0 stores 14")
    read_on(book, BANK_EPC, (0, "9297,1800,1111,2222,3333"), (4, "3333"), (5, "aaa5,aaa6,aaa7"))
    book.frame(block_erase(BANK_EPC, 1, 1, HANDLE), "answer 0 stores 5")
    read_on(book, BANK_EPC, (0, "9297,0000"), (1, "0000"), (2, "1111,2222,3333,aaa5,aaa6,aaa7"))
    book.note("another image under the session, L = 5")
    book.image(make(epc=[0x9297, 0x2800] + STALE[2:]))
    read_on(book, BANK_EPC, (0, "9297,2800,3034,0257,aaa4,aaa5,aaa6"), (6, "aaa6"), (7, "aaa7"))


# A PC that is written, and the power lost: old or new, as power-up leaves it.
def code_moved_by_cut(book, make):
    book.note("a Write of the PC cut before the count, and after it: L = 2, L = 4")
    crc_new = crc(field_bits(0x200030340257AAA4AAA5, 80))
    for s, stores, data in ((2, 1, "9297,1000,3034,0257"), (3, 3, "%04x,2000,3034,0257,aaa4,aaa5" % crc_new)):
        book.begin(make(epc=STALE))
        book.write(BANK_EPC, 1, 0x2000, "answer 11 stores %d state off" % s, s=s)
        book.line("power 9", "answer 0 stores %d state ready" % stores)
        book.resume(make())
        read_on(book, BANK_EPC, (0, data))


# RESERVED, TID and USER, longer than L + 2 and shorter.
def other_banks(book, make):
    book.note("other banks go to their ends, whatever L is: 0, 2, then 6, beyond the ends of two")
    for pc in (0x0000, 0x1000, 0x3000):
        image = make(epc=[0, pc] + STALE[2:], tid=[0xE200, 0x6001, 2, 3, 4, 5])
        image.reserved += [0x5555, 0x6666]
        book.begin(image)
        for bank, words in ((BANK_RESERVED, image.reserved), (BANK_TID, image.tid), (BANK_USER, image.user)):
            read_on(book, bank, *((n, shown(words[n:])) for n in (0, 1, 4)), (len(words), None))


def writing(book):
    book.title("Write: P7, P8, P9, 03h, 04h, limits")
    image = small()
    book.note("P7: five stores")
    book.begin(image)
    book.write(BANK_USER, 3, 0xABCD, "answer 0 stores 5 reply 33 state secured cover -", s=5)
    book.dump(_31=0xABCD, _45=0, _46=31, _47=0xABCD)
    book.note("every cut; 0 to 2 bring the old word, 3 and 4 the new (P8, P9)")
    for s in range(5):
        book.begin(image)
        book.write(BANK_USER, 3, 0xABCD, "answer 11 stores %d reply 0 state off number - cover - half -" % s, s=s)
        book.frame(nak(), "answer 5")
        book.dump(_31=0xABCD if s > 3 else 10, _45=1 if s > 2 else 0)
        book.line("power 9", "answer 0 stores %d state ready" % (3 if s > 2 else 1))
        book.dump(_31=0xABCD if s > 2 else 10, _45=0)
    book.note("room before power: 4 with no store")
    book.begin(image)
    book.write(BANK_USER, 3, 0xABCD, "answer 4 stores 0 reply 0 cover 0f1e state secured", s=0, room=4)
    book.frame(write(BANK_USER, 3, 0xABCD, COVER, HANDLE), "answer 0 stores 5 reply 33 cover -", room=5)
    book.note("USER 15 and 16")
    book.write(BANK_USER, 15, 0x1515, "answer 0 stores 5")
    book.write(BANK_USER, 16, 0x1616, "answer 10 code 03 stores 0 cover -")
    book.dump(_43=0x1515, _44=0)
    book.note("an equal value is stored all the same")
    book.write(BANK_USER, 15, 0x1515, "answer 0 stores 5")
    book.note("L = 2 and 3; the stored CRC waits for the next power-up")
    book.write(BANK_EPC, 1, 0x1400, "answer 0 stores 5")
    book.write(BANK_EPC, 1, 0x1800, "answer 10 code 03 stores 0")
    book.write(BANK_EPC, 1, 0xF800, "answer 10 code 03 stores 0")
    book.dump(_22=0x9297, _23=0x1400)
    book.note("EPC word 0 and TID are never writable; past the end comes first")
    book.write(BANK_EPC, 0, 0x9297, "answer 10 code 04")
    book.write(BANK_EPC, 3, 0x9297, "answer 0 stores 5")
    book.write(BANK_EPC, 4, 0x9297, "answer 10 code 03")
    book.write(BANK_TID, 0, 0, "answer 10 code 04")
    book.write(BANK_TID, 2, 0, "answer 10 code 03")
    book.write(BANK_RESERVED, 3, 0, "answer 0 stores 5")
    book.write(BANK_RESERVED, 4, 0, "answer 10 code 03")
    book.note("a locked PC: 04h before its L is looked at")
    book.begin(small(lock=0x030))
    book.write(BANK_EPC, 1, 0x1800, "answer 10 code 04")
    for state, make, least in (("Secured", small, 3), ("Open", guarded, 2)):
        book.note("each pair in %s: kill, access, EPC, USER" % state)
        book.begin(make())
        for pair in range(4):
            answer = "answer 0 stores 5" if pair < least else "answer 10 code 04 stores 0"
            for shift, bank, pointer in ((8, BANK_RESERVED, 1), (6, BANK_RESERVED, 2),
                                         (4, BANK_EPC, 2), (0, BANK_USER, 9)):
                book.image(make(lock=pair << shift))
                book.write(bank, pointer, 0x7777, answer)
    book.note("a permalocked block; the TID pair moves nothing")
    book.begin(small(perma=[0x4000], lock=0x004))
    for n, answer in ((3, "answer 0"), (4, "answer 10 code 04"), (7, "answer 10 code 04"), (8, "answer 0")):
        book.write(BANK_USER, n, 0x2222, answer)
    book.write(BANK_TID, 1, 0, "answer 10 code 04")


def accessing(book):
    book.title("Access")
    image = guarded()
    book.note("right, from Open to Secured, and again in Secured")
    book.begin(image)
    book.access()
    book.access()
    book.note("zero password in Secured")
    book.begin(small())
    book.cover()
    book.frame(access(0, COVER, HANDLE), "answer 0 half access:0000")
    book.cover(COVER2, "access:0000")
    book.frame(access(0, COVER2, HANDLE), "answer 0 state secured half -")
    book.note("wrong upper, wrong lower, both: 12 after the second alone, and no room is asked for")
    for upper, lower in ((ACCESS_UPPER ^ 1, ACCESS_LOWER), (ACCESS_UPPER, ACCESS_LOWER ^ 0x8000),
                         (ACCESS_LOWER, ACCESS_UPPER)):
        book.begin(image)
        book.cover()
        book.frame(access(upper, COVER, HANDLE), "answer 0 half access:%04x" % upper)
        book.cover(COVER2, "access:%04x" % upper)
        book.frame(access(lower, COVER2, HANDLE),
                   "answer 12 stores 0 reply 0 " + LOST, room=0)
    book.note("between the halves")
    book.begin(image)
    book.cover()
    book.frame(access(ACCESS_UPPER, COVER, HANDLE), "answer 4 cover 0f1e half -", room=3)
    book.frame(access(ACCESS_UPPER, COVER, HANDLE), "answer 0 half access:acce", room=4)
    waiting = "half access:acce cover - state open"
    book.note("no cover, another handle, a wrong state, a zero range, 7 and 8: the half waits on")
    book.frame(access(ACCESS_LOWER, COVER, HANDLE), "answer 9 " + waiting)
    book.frame(write(BANK_USER, 0, 0, COVER, HANDLE), "answer 9 " + waiting)
    book.frame(kill(KILL_UPPER, COVER, HANDLE), "answer 9 " + waiting)
    book.frame(read(BANK_USER, 0, 1, WRONG), "answer 9 " + waiting)
    book.frame(req_rn(WRONG), "answer 9 " + waiting)
    book.frame(lock(0, 0, HANDLE), "answer 9 " + waiting)
    book.frame(block_erase(BANK_USER, 0, 0, HANDLE), "answer 9 " + waiting)
    book.frame(block_permalock(BANK_USER, 0, HANDLE, count=1, rfu=1), "answer 9 " + waiting)
    book.frame(nak() + "1", "answer 7 " + waiting)
    book.frame(flipped(req_rn(HANDLE), -1), "answer 8 " + waiting)
    book.line("ask", "answer 6 " + waiting)
    book.cover(COVER, "access:acce")
    book.cover(COVER2, "access:acce")
    book.frame(access(ACCESS_LOWER, COVER2, HANDLE), "answer 4 half access:acce cover 7b2d state open", room=3)
    book.frame(access(ACCESS_LOWER, COVER2, HANDLE), "answer 0 state secured half -", room=4)
    for name, bits in (("Read", read(BANK_USER, 0, 1, HANDLE)), ("Read past the end", read(BANK_USER, 16, 1, HANDLE)),
                       ("Write", write(BANK_USER, 0, 1, COVER2, HANDLE)),
                       ("Kill", kill(KILL_UPPER, COVER2, HANDLE)),
                       ("BlockWrite", block_write(BANK_USER, 0, [1], HANDLE)),
                       ("BlockErase", block_erase(BANK_USER, 0, 1, HANDLE))):
        book.note(name + " between the halves: 14")
        book.begin(image)
        book.cover()
        book.frame(access(ACCESS_UPPER, COVER, HANDLE), "answer 0 half access:acce")
        book.cover(COVER2, "access:acce")
        book.frame(bits, "answer 14 stores 0 reply 0 state arbitrate number - cover - half -", s=0)
    for name, bits in (("Lock", lock(0, 0, HANDLE)),
                       ("BlockPermalock reading", block_permalock(BANK_USER, 0, HANDLE, count=1)),
                       ("BlockPermalock locking", block_permalock(BANK_USER, 0, HANDLE, masks=[0]))):
        book.note(name + " between the halves, in Secured: 14")
        book.begin(small())
        book.cover()
        book.frame(access(1, COVER, HANDLE), "answer 0 half access:0001")
        book.frame(bits, "answer 14 state arbitrate")
    book.note("NAK between the halves: Arbitrate, answer 0")
    book.begin(image)
    book.cover()
    book.frame(access(ACCESS_UPPER, COVER, HANDLE), "answer 0 half access:acce")
    book.frame(nak(), "answer 0 state arbitrate number - cover - half -")


def killing(book):
    book.title("Kill")
    image = small()
    book.note("zero kill password: 00h, once more after a 4")
    book.begin(small(reserved=[0, 0, 0, 0]))
    book.cover()
    book.frame(kill(0, COVER, HANDLE), "answer 4 cover 0f1e half -", room=5)
    book.frame(kill(0, COVER, HANDLE), "answer 10 code 00 reply 41 cover - half - state secured", room=6)
    book.note("one nonzero word is a password; its three bits are ignored")
    book.begin(small(reserved=[0, 1, 0, 0]))
    book.cover()
    book.frame(kill(0, COVER, HANDLE, spare=5), "answer 0 reply 32 half kill:0000")
    book.cover(COVER2, "kill:0000")
    book.frame(kill(1, COVER2, HANDLE, spare=2), "answer 0 stores 5 reply 33 state killed number - cover - half - "
               "slot - q - round - flags AAAA-")
    book.dump(_17=1)
    book.note("wrong upper, wrong lower, both")
    for upper, lower in ((KILL_UPPER ^ 0x10, KILL_LOWER), (KILL_UPPER, KILL_LOWER ^ 1), (KILL_LOWER, KILL_UPPER)):
        book.begin(image)
        book.cover()
        book.frame(kill(upper, COVER, HANDLE), "answer 0 reply 32 half kill:%04x" % upper)
        book.cover(COVER2, "kill:%04x" % upper)
        book.frame(kill(lower, COVER2, HANDLE), "answer 12 stores 0 reply 0 " + LOST, room=0)
        book.dump(_17=0)
    book.note("an Access between: 14; without a cover it is 9 first")
    book.begin(image)
    book.cover()
    book.frame(kill(KILL_UPPER, COVER, HANDLE), "answer 0 half kill:4b49")
    book.frame(access(0, COVER, HANDLE), "answer 9 half kill:4b49")
    book.cover(COVER2, "kill:4b49")
    book.frame(access(KILL_LOWER, COVER2, HANDLE), "answer 14 " + LOST)
    book.note("a Kill between the halves of an Access, zero password: 14, not 00h")
    book.begin(small(reserved=[0, 0, 0, 0]))
    book.cover()
    book.frame(access(0, COVER, HANDLE), "answer 0 half access:0000")
    book.cover(COVER2, "access:0000")
    book.frame(kill(0, COVER2, HANDLE), "answer 14 " + LOST)
    book.note("right from Open, at every cut; room before power")
    for s in range(6):
        book.begin(guarded())
        book.cover()
        book.frame(kill(KILL_UPPER, COVER, HANDLE), "answer 0 half kill:4b49", s=0)
        book.cover(COVER2, "kill:4b49")
        book.frame(kill(KILL_LOWER, COVER2, HANDLE), "answer 4 half kill:4b49 cover 7b2d stores 0", s=s, room=4)
        book.frame(kill(KILL_LOWER, COVER2, HANDLE),
                   "answer 11 stores %d state off" % s if s < 5 else "answer 0 stores 5 state killed", s=s, room=5)
        book.line("power 9", "answer 0 state " + ("killed" if s > 2 else "ready"))


# The words of the password that a command of this name brings.
def password_of(image, kind):
    return image.reserved[0:2] if kind == "kill" else image.reserved[2:4]


# Each state in which a half can wait, its image, and each command that waits.
HALFWAYS = [(state, STARTS[state], kind) for state in ("open", "secured") for kind in ("access", "kill")]


def wrong_passwords(book):
    book.title("12: the second half came, and the two do not make the password")
    for state, image, kind in HALFWAYS:
        upper, lower = password_of(image, kind)
        book.image(image)
        book.line("power 1", "answer 0 state ready")
        for name, in_upper, in_lower in (("upper", 1, 0), ("lower", 0, 1), ("both", 1, 1)):
            for bit, room, s, remark in ((1, 64, ENOUGH, ""), (0x8000, 0, 0, "; no room, no power")):
                book.note("%s, %s: %s wrong%s" % (state, kind, name, remark))
                book.halfway(image, kind, upper ^ in_upper * bit)
                book.frame(SENDERS[kind](lower ^ in_lower * bit, COVER2, HANDLE),
                           "answer 12 stores 0 reply 0 " + LOST, room=room, s=s)
        book.note("the lower half under the upper's cover number")
        book.halfway(image, kind, upper)
        book.frame(SENDERS[kind](lower, COVER, HANDLE), "answer 12 stores 0 reply 0 " + LOST)
        book.note("9 comes first: no cover number, another handle; then the wrong half")
        book.halfway(image, kind, upper, covered=False)
        waiting = "state %s number a5c3 cover %%s half %s:%04x" % (state, kind, upper)
        book.frame(SENDERS[kind](lower ^ 1, COVER2, HANDLE), "answer 9 reply 0 " + waiting % "-")
        book.cover(COVER2, "%s:%04x" % (kind, upper))
        book.frame(SENDERS[kind](lower ^ 1, COVER2, WRONG), "answer 9 reply 0 " + waiting % "7b2d")
        book.frame(SENDERS[kind](lower ^ 1, COVER2, HANDLE), "answer 12 stores 0 reply 0 " + LOST)
        book.dump(_17=0, _18=KILL_UPPER, _28=3, _45=0)
    book.note("in Secured after a right Access, the password not zero")
    image = guarded()
    for upper, lower in ((ACCESS_UPPER ^ 1, ACCESS_LOWER), (ACCESS_UPPER, ACCESS_LOWER ^ 1), (0, 0)):
        book.begin(image)
        book.access()
        book.cover()
        book.frame(access(upper, COVER, HANDLE), "answer 0 state secured half access:%04x" % upper)
        book.cover(COVER2, "access:%04x" % upper)
        book.frame(access(lower, COVER2, HANDLE), "answer 12 stores 0 reply 0 " + LOST)


# The commands to this tag that break a half waiting for this password: Write, and the other of Access and
# Kill, with the word that was waited for, both under COVER2; and those that need no cover number.
def breaking(state, image, kind):
    word = password_of(image, kind)[1]
    covered = [("Write", write(BANK_USER, 0, 1, COVER2, HANDLE)),
               ("Kill", kill(word, COVER2, HANDLE)) if kind == "access" else ("Access", access(word, COVER2, HANDLE))]
    plain = [("ACK", ack(HANDLE)), ("Read", read(BANK_USER, 0, 1, HANDLE)),
             ("BlockWrite", block_write(BANK_USER, 0, [1, 2], HANDLE)),
             ("BlockErase", block_erase(BANK_USER, 0, 2, HANDLE))]
    if state == "secured":
        plain += [("Lock", lock(0x200, 0x200, HANDLE)),
                  ("BlockPermalock reading", block_permalock(BANK_USER, 0, HANDLE, count=1)),
                  ("BlockPermalock locking", block_permalock(BANK_USER, 0, HANDLE, masks=[0x8000]))]
    return covered, plain


# Commands that would be answered 10 where no half waits, under COVER2 where they have one.
def erring(state):
    frames = [("Read past the end", read(BANK_USER, 16, 1, HANDLE)),
              ("Write past the end", write(BANK_USER, 16, 1, COVER2, HANDLE)),
              ("Write of TID", write(BANK_TID, 0, 1, COVER2, HANDLE)),
              ("BlockWrite past the end", block_write(BANK_USER, 15, [1, 2], HANDLE)),
              ("BlockErase of EPC word 0", block_erase(BANK_EPC, 0, 1, HANDLE))]
    if state == "secured":
        frames += [("BlockPermalock of another bank", block_permalock(BANK_EPC, 0, HANDLE, count=1)),
                   ("BlockPermalock past PERMA", block_permalock(BANK_USER, 1, HANDLE, masks=[0x8000]))]
    return frames


def broken_halves(book):
    book.title("14: another command to this tag came between the halves")
    broken = "answer 14 stores 0 reply 0 " + LOST
    for state, image, kind in HALFWAYS:
        upper = password_of(image, kind)[0]
        covered, plain = breaking(state, image, kind)
        book.image(image)
        book.line("power 1", "answer 0 state ready")
        for name, bits in covered + plain:
            book.note("%s, half of %s: %s" % (state, kind, name))
            book.halfway(image, kind, upper)
            book.frame(bits, broken)
        book.note("before 4 and 11: no room, no power; a wrong upper half; no cover number where none is needed")
        for name, bits in covered + plain:
            book.note("%s, half of %s: %s" % (state, kind, name))
            book.halfway(image, kind, upper ^ 1, covered=(name, bits) in covered)
            book.frame(bits, broken, room=0, s=0)
        book.note("before 10: what would be an error reply")
        for name, bits in erring(state):
            book.note("%s, half of %s: %s" % (state, kind, name))
            book.halfway(image, kind, upper)
            book.frame(bits, broken)
        book.dump(_16=0, _17=0, _18=KILL_UPPER, _22=0x9297, _28=3, _29=3, _44=0, _45=0)
    book.note("a Lock that would be 04h, a Kill that would be 00h, before 10")
    for image, bits in ((small(lock=0x001), lock(0x001, 0x000, HANDLE)),
                        (small(reserved=[0, 0, 0, 0]), kill(0, COVER2, HANDLE))):
        book.image(image)
        book.line("power 1", "answer 0 state ready")
        book.halfway(image, "access", 0)
        book.frame(bits, broken)
    book.note("both passwords alike: the other command's second half is none of this")
    for words in ([0xACCE, 0x55ED], [1, 0]):
        image = small(reserved=2 * words)
        book.image(image)
        book.line("power 1", "answer 0 state ready")
        for kind, other in (("access", kill), ("kill", access)):
            book.halfway(image, kind, words[0])
            book.frame(other(words[1], COVER2, HANDLE), broken)


def half_waits_on(book):
    book.title("between the halves: 7, 8, 9, Req_RN and 4 leave the half waiting, and the right one still comes")
    for state, image, kind in HALFWAYS:
        upper, lower = password_of(image, kind)
        half = "%s:%04x" % (kind, upper)
        second = SENDERS[kind](lower, COVER2, HANDLE)
        book.note("%s, half of %s, no cover number: Write, Access and Kill are 9" % (state, kind))
        book.image(image)
        book.line("power 1", "answer 0 state ready")
        book.halfway(image, kind, upper, covered=False)
        waiting = "state %s number a5c3 cover - half %s" % (state, half)
        for bits in (write(BANK_USER, 0, 1, COVER2, HANDLE), write(BANK_USER, 16, 1, COVER2, HANDLE),
                     access(lower, COVER2, HANDLE), kill(lower, COVER2, HANDLE)):
            book.frame(bits, "answer 9 stores 0 reply 0 " + waiting)
        out_of_place_halfway(book, state, waiting)
        book.frame(req_rn(HANDLE), "answer 4 reply 0 " + waiting, fresh=COVER2, room=3)
        book.note("a cover number, another, and the same with it")
        book.cover(COVER, half)
        book.cover(COVER2, half)
        waiting = "state %s number a5c3 cover 7b2d half %s" % (state, half)
        out_of_place_halfway(book, state, waiting)
        book.frame(req_rn(HANDLE), "answer 4 reply 0 " + waiting, fresh=COVER, room=3)
        book.note("the right half: 4 in a room too small, then 0")
        book.frame(second, "answer 4 stores 0 reply 0 " + waiting, room=3)
        book.frame(second, "answer 0 stores 0 reply 32 state secured number a5c3 cover - half -" if kind == "access"
                   else "answer 0 stores 5 reply 33 state killed number - cover - half -")
        book.note("NAK: Arbitrate, answer 0; an ACK with another number the same")
        for bits in (nak(), ack(WRONG)):
            for covered in (False, True):
                book.image(image)
                book.line("power 1", "answer 0 state ready")
                book.halfway(image, kind, upper, covered)
                book.frame(bits, "answer 0 stores 0 reply 0 " + LOST, room=0, s=0)


# Frames between the halves that are 7, 8 or 9 with a cover number or without.
def out_of_place_halfway(book, state, waiting):
    for name, bits in one_of_each(WRONG):
        book.frame(bits, "answer 9 stores 0 reply 0 " + waiting)
    frames = [block_write(BANK_USER, 0, [], HANDLE), block_erase(BANK_USER, 0, 0, HANDLE),
              block_erase(BANK_USER, 99, 0, HANDLE), block_permalock(BANK_USER, 0, HANDLE, count=0),
              block_permalock(BANK_USER, 0, HANDLE, masks=[]), block_permalock(BANK_USER, 0, HANDLE, count=1, rfu=1),
              block_permalock(BANK_USER, 0, HANDLE, masks=[0], rfu=0x80)]
    if state == "open":
        frames += [lock(0, 0, HANDLE), block_permalock(BANK_USER, 0, HANDLE, count=1),
                   block_permalock(BANK_USER, 0, HANDLE, masks=[0x8000]),
                   block_permalock(BANK_EPC, 9, HANDLE, count=1)]
    for bits in frames:
        book.frame(bits, "answer 9 stores 0 reply 0 " + waiting, room=0, s=0)
    for name, bits in one_of_each(HANDLE):
        book.frame(bits + "0", "answer 7 stores 0 reply 0 " + waiting)
        book.frame(flipped(bits, -1), "answer 8 stores 0 reply 0 " + waiting)


def lost_in_round(book):
    book.title("12 and 14: round, flags and the register stay")
    image = small(perma=[0x8000])
    book.image(image)
    book.line("power 1", "answer 0 state ready")
    book.line("ask", "answer 0 port held")
    book.line("write 0 ffff 9", "answer 0 stores 0 register 2")
    book.line("release", "answer 0 port free register 2")
    book.frame(select(TARGET_SL, 0, BANK_EPC, 0, ""), "answer 0 flags AAAAS", room=0)
    book.frame(select(1, 4, BANK_EPC, 0, ""), "answer 0 flags ABAAS", room=0)
    number = 0x1238
    lost = ("stores 0 reply 0 state arbitrate number - cover - half - port free register 2 slot 0 q 3 round s2 "
            "flags ABAAS")
    for kind, bits, answer in (("access", access(1, COVER2, HANDLE), 12), ("kill", kill(1, COVER2, HANDLE), 12),
                               ("access", kill(1, COVER2, HANDLE), 14), ("kill", access(1, COVER2, HANDLE), 14),
                               ("access", ack(HANDLE), 14), ("kill", ack(HANDLE), 14),
                               ("access", block_erase(BANK_USER, 4, 1, HANDLE), 14),
                               ("kill", lock(0x200, 0x200, HANDLE), 14)):
        upper = password_of(image, kind)[0]
        book.frame(query(3, 2, 0, 3), "answer 0 whole 1238 state reply q 3 round s2 flags ABAAS",
                   fresh=number, room=2)
        book.frame(ack(number), "answer 0 state acknowledged q 3 round s2 flags ABAAS")
        book.frame(req_rn(number), "answer 0 state secured number a5c3 register 2", fresh=HANDLE)
        book.cover()
        book.frame(SENDERS[kind](upper, COVER, HANDLE), "answer 0 half %s:%04x" % (kind, upper))
        book.cover(COVER2, "%s:%04x" % (kind, upper))
        book.frame(bits, "answer %d %s" % (answer, lost))
        book.frame(req_rn(HANDLE), "answer 9 " + lost, fresh=COVER)
    book.note("the slot counts on from 0")
    book.frame(query_rep(2), "answer 0 reply 0 state arbitrate slot 32767 q 3 round s2 flags ABAAS register 2",
               room=0)
    book.dump(_16=0, _17=0, _28=3, _32=0x18, _45=0)


def locking(book):
    book.title("Lock: P10, P11, 04h bit by bit")
    book.note("P10: lock word 003h, EPC pwd and USER permalock again: 023h")
    book.begin(small(lock=0x003))
    book.frame(lock(0x021, 0x021, HANDLE), "answer 0 stores 5 reply 33 state secured")
    book.dump(_16=0x023, _46=16, _47=0x023)
    book.note("P11: clearing USER permalock")
    book.begin(small(lock=0x003))
    book.frame(lock(0x001, 0x000, HANDLE), "answer 10 code 04 stores 0")
    book.frame(lock(0x021, 0x020, HANDLE), "answer 10 code 04 stores 0")
    book.dump(_16=0x003)
    book.note("an empty mask stores the old word; action bits outside the mask mean nothing")
    book.frame(lock(0, 0x3FF, HANDLE), "answer 0 stores 5")
    book.dump(_16=0x003)
    book.note("each pair: set pwd, clear it, set permalock, then nothing moves any more")
    book.begin(small())
    for shift in (8, 6, 4, 2, 0):
        pwd, perma = 2 << shift, 1 << shift
        book.frame(lock(pwd, pwd, HANDLE), "answer 0")
        book.frame(lock(pwd, 0, HANDLE), "answer 0")
        book.frame(lock(perma, perma, HANDLE), "answer 0")
        book.frame(lock(perma, perma, HANDLE), "answer 0")
        book.frame(lock(perma, 0, HANDLE), "answer 10 code 04")
        book.frame(lock(pwd, pwd, HANDLE), "answer 10 code 04")
        book.frame(lock(pwd | perma, perma, HANDLE), "answer 0")
        book.frame(lock(pwd | perma, pwd | perma, HANDLE), "answer 10 code 04")
        book.frame(lock(pwd, 0, HANDLE), "answer 0")
    book.dump(_16=0x155)
    book.note("pwd and permalock set in one command: 11 at once; the pwd bit then stays")
    book.begin(small())
    book.frame(lock(0x3FF, 0x3FF, HANDLE), "answer 0")
    book.dump(_16=0x3FF)
    book.frame(lock(0x3FF, 0x3FF, HANDLE), "answer 0")
    book.frame(lock(0x2AA, 0x2AA, HANDLE), "answer 0")
    book.frame(lock(0x2AA, 0x000, HANDLE), "answer 10 code 04")
    book.note("USER at 01 while a block is permalocked")
    book.begin(small(perma=[0x1000]))
    book.frame(lock(0x001, 0x001, HANDLE), "answer 10 code 04")
    book.frame(lock(0x003, 0x001, HANDLE), "answer 10 code 04")
    book.frame(lock(0x003, 0x002, HANDLE), "answer 0")
    book.frame(lock(0x002, 0x000, HANDLE), "answer 0")
    book.frame(lock(0x002, 0x002, HANDLE), "answer 0")
    book.frame(lock(0x001, 0x001, HANDLE), "answer 0")
    book.dump(_16=0x003)
    book.note("an image with USER at 01 and a block permalocked: only a USER mask bit matters")
    book.begin(small(lock=0x001, perma=[0x8000]))
    book.frame(lock(0x020, 0x020, HANDLE), "answer 0")
    book.frame(lock(0x001, 0x001, HANDLE), "answer 10 code 04")
    book.frame(lock(0x002, 0x000, HANDLE), "answer 10 code 04")
    book.note("every cut, and a room too small")
    book.begin(small())
    book.frame(lock(0x200, 0x200, HANDLE), "answer 4 stores 0", room=4, s=0)
    for s in range(5):
        book.begin(small())
        book.frame(lock(0x200, 0x200, HANDLE), "answer 11 stores %d state off" % s, s=s)
        book.line("power 9", "answer 0")
        book.dump(_16=0x200 if s > 2 else 0)
    book.note("a right Access first: Lock works in Secured")
    book.begin(guarded())
    book.access()
    book.frame(lock(0x2A2, 0x2A2, HANDLE), "answer 0 stores 5 state secured")
    book.frame(nak(), "answer 0")
    book.resume(guarded())
    book.note("pwd locks hold in Open and open in Secured")
    book.write(BANK_EPC, 2, 1, "answer 10 code 04")
    book.write(BANK_USER, 2, 1, "answer 10 code 04")
    book.frame(read(BANK_RESERVED, 0, 1, HANDLE), "answer 10 code 04")
    book.access()
    book.write(BANK_EPC, 2, 1, "answer 0 stores 5")
    book.write(BANK_USER, 2, 1, "answer 0 stores 5")
    book.frame(read(BANK_RESERVED, 0, 0, HANDLE), "answer 0 data 4b49,4c4c,acce,55ed")


def block_writing(book):
    book.title("BlockWrite: 16 and 17 words, 03h, 04h, 00h")
    book.begin(small())
    words = [0x1100 + k for k in range(17)]
    book.frame(block_write(BANK_USER, 0, words[:16], HANDLE), "answer 0 stores 50 reply 33", s=50)
    book.dump(_28=0x1100, _43=0x110F, _45=0, _46=28, _47=0x1100, _76=43, _77=0x110F)
    book.frame(block_write(BANK_USER, 0, words, HANDLE), "answer 10 code 03 stores 0")
    book.frame(block_write(BANK_USER, 15, words[:2], HANDLE), "answer 10 code 03")
    book.frame(block_write(BANK_USER, 16, words[:1], HANDLE), "answer 10 code 03")
    book.note("no cover number is needed, and one at hand is used up and not XORed")
    book.cover()
    book.frame(block_write(BANK_USER, 14, [0xAAAA, 0x5555], HANDLE, 3), "answer 0 stores 8 cover -")
    book.dump(_42=0xAAAA, _43=0x5555)
    book.note("the EPC: word 0 never, L = 2 and 3")
    book.frame(block_write(BANK_EPC, 0, [0x9297, 0x1000], HANDLE), "answer 10 code 04")
    book.frame(block_write(BANK_EPC, 1, [0x1000, 1, 2], HANDLE), "answer 0 stores 11")
    book.frame(block_write(BANK_EPC, 1, [0x1800, 1, 2], HANDLE), "answer 10 code 03")
    book.frame(block_write(BANK_EPC, 2, [0xF800, 2], HANDLE), "answer 0 stores 8")
    book.frame(block_write(BANK_EPC, 1, [0xF800, 1, 2, 3], HANDLE), "answer 10 code 03")
    book.note("TID: 04h inside, 03h past its end; RESERVED by its pairs")
    book.frame(block_write(BANK_TID, 0, [1, 2], HANDLE), "answer 10 code 04")
    book.frame(block_write(BANK_TID, 0, [1, 2, 3], HANDLE), "answer 10 code 03")
    book.frame(block_write(BANK_RESERVED, 0, [1, 2, 0, 0], HANDLE), "answer 0 stores 14")
    for lock_now, pointer, answer in ((0x300, 0, "answer 10 code 04"), (0x300, 1, "answer 10 code 04"),
                                      (0x300, 2, "answer 0"), (0x0C0, 1, "answer 10 code 04"),
                                      (0x0C0, 0, "answer 0")):
        book.begin(small(lock=lock_now))
        book.frame(block_write(BANK_RESERVED, pointer, [0, 0], HANDLE), answer)
    book.note("one word in a permalocked block: nothing is written")
    book.begin(small(perma=[0x4000]))
    book.frame(block_write(BANK_USER, 0, [9, 9, 9, 9, 9], HANDLE), "answer 10 code 04 stores 0")
    book.frame(block_write(BANK_USER, 7, [9, 9], HANDLE), "answer 10 code 04 stores 0")
    book.frame(block_write(BANK_USER, 0, [9, 9, 9, 9], HANDLE), "answer 0 stores 14")
    book.note("03h before 04h before 00h, on USER of 40 words with W = 16")
    book.begin(wide(perma=[0x0040]))
    many = list(range(0x100, 0x100 + 41))
    book.frame(block_write(BANK_USER, 0, many[:16], HANDLE), "answer 0 stores 50")
    book.frame(block_write(BANK_USER, 0, many[:17], HANDLE), "answer 10 code 00 stores 0")
    book.frame(block_write(BANK_USER, 0, many[:36], HANDLE), "answer 10 code 00")
    book.frame(block_write(BANK_USER, 0, many[:37], HANDLE), "answer 10 code 04")
    book.frame(block_write(BANK_USER, 0, many[:41], HANDLE), "answer 10 code 03")
    book.note("W = 17: 17 words go, 18 do not")
    book.begin(wide(pairs=17))
    book.frame(block_write(BANK_USER, 0, many[:17], HANDLE), "answer 0 stores 53")
    book.frame(block_write(BANK_USER, 0, many[:18], HANDLE), "answer 10 code 00")
    book.note("a PC too long before more than W words")
    book.begin(small(epc=[0, 0] + 18 * [0]))
    book.frame(block_write(BANK_EPC, 1, [0x9000] + 16 * [1], HANDLE), "answer 10 code 00")
    book.frame(block_write(BANK_EPC, 1, [0x9800] + 16 * [1], HANDLE), "answer 10 code 03")
    book.frame(block_write(BANK_EPC, 1, [0x9000] + 15 * [1], HANDLE), "answer 0 stores 50")
    book.note("pwd-locked USER in Open")
    book.begin(guarded(lock=0x002))
    book.frame(block_write(BANK_USER, 0, [1], HANDLE), "answer 10 code 04")
    book.note("every cut of two words: old or new, never a mixture after power-up")
    for s in range(9):
        book.begin(small())
        book.frame(block_write(BANK_USER, 1, [0x1111, 0x2222], HANDLE), "answer 11 stores %d state off" % s
                   if s < 8 else "answer 0 stores 8 state secured", s=s)
        book.line("power 9", "answer 0 stores %d" % (4 if 5 <= s < 8 else 1))
        new = s >= 5
        book.dump(_29=0x1111 if new else 3, _30=0x2222 if new else 6, _45=0)


def block_erasing(book):
    book.title("BlockErase: 03h, 04h, 00h")
    book.begin(small())
    book.frame(block_erase(BANK_USER, 0, 16, HANDLE), "answer 0 stores 50 reply 33")
    book.dump(_28=0, _33=0, _34=0)
    book.frame(block_erase(BANK_USER, 0, 17, HANDLE), "answer 10 code 03")
    book.frame(block_erase(BANK_USER, 0, 255, HANDLE), "answer 10 code 03")
    book.frame(block_erase(BANK_USER, 15, 1, HANDLE), "answer 0 stores 5")
    book.frame(block_erase(BANK_USER, 16, 1, HANDLE), "answer 10 code 03")
    book.frame(block_erase(BANK_EPC, 0, 1, HANDLE), "answer 10 code 04")
    book.frame(block_erase(BANK_EPC, 1, 3, HANDLE), "answer 0 stores 11")
    book.note("an erased PC has L = 0; the CRC at power-up covers it alone")
    book.line("power 1", "answer 0 state ready")
    book.dump(_22=crc(16 * "0"), _23=0)
    book.begin(small())
    book.frame(block_erase(BANK_TID, 0, 2, HANDLE), "answer 10 code 04")
    book.frame(block_erase(BANK_TID, 0, 3, HANDLE), "answer 10 code 03")
    book.frame(block_erase(BANK_RESERVED, 0, 2, HANDLE), "answer 0 stores 8")
    book.begin(small(perma=[0x1000]))
    book.frame(block_erase(BANK_USER, 8, 5, HANDLE), "answer 10 code 04")
    book.frame(block_erase(BANK_USER, 8, 4, HANDLE), "answer 0 stores 14")
    book.begin(wide())
    book.frame(block_erase(BANK_USER, 4, 17, HANDLE), "answer 10 code 00")
    book.frame(block_erase(BANK_USER, 4, 37, HANDLE), "answer 10 code 03")
    book.frame(block_erase(BANK_USER, 4, 16, HANDLE), "answer 0 stores 50")
    book.note("lacking power: the last store before the count, and the count")
    for s in (6, 7):
        book.begin(small())
        book.frame(block_erase(BANK_USER, 3, 2, HANDLE), "answer 11 stores %d state off" % s, s=s)
        book.dump(_31=0, _32=0 if s > 6 else 0x18, _45=2)


def block_permalocking(book):
    book.title("BlockPermalock: reading, locking, 03h, 04h")
    book.begin(small(perma=[0x2000]))
    book.frame(block_permalock(BANK_USER, 0, HANDLE, count=1), "answer 0 stores 0 reply 49 data 2000")
    book.frame(block_permalock(BANK_USER, 0, HANDLE, count=1), "answer 4 reply 0", room=6)
    book.frame(block_permalock(BANK_USER, 0, HANDLE, count=1, e=3), "answer 0 data 2000", room=7)
    book.note("03h: another bank, a range past PERMA, a block that does not exist")
    for bank in (BANK_RESERVED, BANK_EPC, BANK_TID):
        book.frame(block_permalock(bank, 0, HANDLE, count=1), "answer 10 code 03")
        book.frame(block_permalock(bank, 0, HANDLE, masks=[0x8000]), "answer 10 code 03")
    for pointer, count in ((0, 2), (1, 1), (0x1FFFFF, 255)):
        book.frame(block_permalock(BANK_USER, pointer, HANDLE, count=count), "answer 10 code 03")
        book.frame(block_permalock(BANK_USER, pointer, HANDLE, masks=count * [0]), "answer 10 code 03")
    book.frame(block_permalock(BANK_USER, 0, HANDLE, masks=[0x0800]), "answer 10 code 03")
    book.frame(block_permalock(BANK_USER, 0, HANDLE, masks=[0xF001]), "answer 10 code 03")
    book.note("masked bits are added, none removed; a mask of 0 stores the old word")
    book.frame(block_permalock(BANK_USER, 0, HANDLE, masks=[0]), "answer 0 stores 5")
    book.frame(block_permalock(BANK_USER, 0, HANDLE, masks=[0x8000]), "answer 0 stores 5 reply 33")
    book.frame(block_permalock(BANK_USER, 0, HANDLE, masks=[0x2000]), "answer 0 stores 5")
    book.dump(_44=0xA000)
    book.frame(block_permalock(BANK_USER, 0, HANDLE, count=1), "answer 0 data a000")
    book.write(BANK_USER, 3, 1, "answer 10 code 04")
    book.write(BANK_USER, 4, 1, "answer 0")
    book.note("USER at 01: 04h for locking, none for reading; 03h comes first")
    book.begin(small(lock=0x001))
    book.frame(block_permalock(BANK_USER, 0, HANDLE, masks=[0x8000]), "answer 10 code 04 stores 0")
    book.frame(block_permalock(BANK_USER, 0, HANDLE, masks=[0x0000]), "answer 10 code 04 stores 0")
    book.frame(block_permalock(BANK_USER, 0, HANDLE, masks=[0x0800]), "answer 10 code 03")
    book.frame(block_permalock(BANK_USER, 0, HANDLE, count=1), "answer 0 data 0000")
    book.note("USER at 00, 10 and 11: locking goes on")
    for pair in (0, 2, 3):
        book.begin(small(lock=pair))
        book.frame(block_permalock(BANK_USER, 0, HANDLE, masks=[0x1000]), "answer 0 stores 5")
    book.note("two PERMA words, the last block short")
    book.begin(small(block_size=2, user=37 * [0], perma=[0, 0]))
    book.frame(block_permalock(BANK_USER, 0, HANDLE, masks=[0x0001, 0xE000]), "answer 0 stores 8")
    book.frame(block_permalock(BANK_USER, 0, HANDLE, masks=[0x0000, 0x1000]), "answer 10 code 03")
    book.frame(block_permalock(BANK_USER, 1, HANDLE, masks=[0x2000]), "answer 0 stores 5")
    book.frame(block_permalock(BANK_USER, 0, HANDLE, count=2), "answer 0 reply 65 data 0001,e000")
    book.frame(block_permalock(BANK_USER, 1, HANDLE, count=1), "answer 0 reply 49 data e000")
    book.frame(block_permalock(BANK_USER, 1, HANDLE, count=2), "answer 10 code 03")
    book.write(BANK_USER, 29, 1, "answer 0")
    book.write(BANK_USER, 30, 1, "answer 10 code 04")
    book.write(BANK_USER, 36, 1, "answer 10 code 04")
    book.note("no blocks at all")
    book.begin(small(user=[], perma=[]))
    book.frame(block_permalock(BANK_USER, 0, HANDLE, count=1), "answer 10 code 03")
    book.note("every cut")
    for s in range(5):
        book.begin(small())
        book.frame(block_permalock(BANK_USER, 0, HANDLE, masks=[0x8000]), "answer 11 stores %d state off" % s, s=s)
        book.line("power 9", "answer 0")
        book.dump(_44=0x8000 if s > 2 else 0)


def spi_port(book):
    book.title("SPI port: 6, 13, 4, P12, the register")
    book.image(small())
    book.line("power 1", "answer 0")
    for call in ("release", "register", "read 0 1 2", "write 0 0000 9"):
        book.line(call, "answer 6 port free reply 0")
    book.line("read 0 0 0", "answer 6")
    book.line("ask", "answer 0 port held state ready register 0")
    book.line("ask", "answer 6 port held")
    book.frame(nak(), "answer 6 port held")
    book.frame("", "answer 6 port held")
    book.note("reads")
    book.line("read 0 2 4", "answer 0 reply 32 data 0003,0003")
    book.line("read 6 1 7", "answer 0 reply 16 data 1811")
    book.line("read 0 16 32", "answer 0 reply 256")
    book.line("read 0 16 31", "answer 4 reply 0")
    for read_line in ("read 0 0 9", "read 0 17 99", "read 15 2 9", "read 16 1 9", "read 16 0 9",
                      "read 0 256 999", "read 1000000 1 9", "read 0 17 0"):
        book.line(read_line, "answer 13 reply 0 port held")
    book.note("writes")
    book.line("write 0 - 9", "answer 13 stores 0")
    book.line("write 0 11 9", "answer 13 stores 0")
    book.line("write 0 111122 9", "answer 13 stores 0")
    book.line("write 15 11112222 9", "answer 13 stores 0")
    book.line("write 16 1111 9", "answer 13 stores 0")
    book.line("write 0 " + 17 * "1111" + " 99", "answer 13 stores 0")
    book.line("write 15 1111 5", "answer 0 stores 5 register 0")
    book.line("write 0 " + 16 * "2222" + " 50", "answer 0 stores 50 register 0")
    book.dump(_28=0x2222, _43=0x2222, _45=0)
    book.line("register", "answer 0 value 0 register 0")
    book.line("release", "answer 0 port free")
    book.line("release", "answer 6 port free")
    book.note("count over W on USER of 40 words")
    book.image(wide())
    book.line("power 1", "answer 0")
    book.line("ask", "answer 0")
    book.line("write 0 " + 17 * "1111" + " 99", "answer 13")
    book.line("write 24 " + 16 * "1111" + " 99", "answer 0 stores 50")
    book.line("read 0 40 80", "answer 0 reply 640")
    book.note("255 words and 256, where USER and W allow more")
    book.image(small(user=257 * [0], perma=5 * [0], pairs=255))
    book.line("power 1", "answer 0")
    book.line("ask", "answer 0")
    book.line("read 2 255 510", "answer 0 reply 4080")
    book.line("read 0 256 512", "answer 13 reply 0")
    book.line("write 2 " + 255 * "0101" + " 767", "answer 0 stores 767")
    book.line("write 0 " + 256 * "0101" + " 999", "answer 13 stores 0")
    book.note("P12: USER 2 to 5, block 0 permalocked")
    book.image(small(perma=[0x8000]))
    book.line("power 1", "answer 0")
    book.line("ask", "answer 0")
    book.line("write 2 aaaabbbbccccdddd 8", "answer 0 stores 8 register 2")
    book.dump(_30=6, _31=10, _32=0xCCCC, _33=0xDDDD, _45=0, _46=32, _47=0xCCCC, _48=33, _49=0xDDDD)
    book.note("the bit lasts over good transfers, release and radio, until it is read")
    book.line("write 4 0001 5", "answer 0 stores 5 register 2")
    book.line("release", "answer 0 port free register 2")
    book.line("register", "answer 6 register 2")
    book.find()
    book.line("ask", "answer 0 state acknowledged number 1234 port held register 2")
    book.frame(req_rn(NUMBER), "answer 6 state acknowledged number 1234", fresh=HANDLE)
    book.line("register", "answer 0 value 2 register 0 state acknowledged")
    book.line("register", "answer 0 value 0 register 0")
    book.line("write 0 0001 0", "answer 0 stores 0 register 2")
    book.line("release", "answer 0 state acknowledged number 1234 port free")
    book.frame(req_rn(NUMBER), "answer 0 state secured register 2", fresh=HANDLE)
    book.line("ask", "answer 6 state secured port free")
    book.frame(nak(), "answer 0 state arbitrate register 2")
    book.line("power 1", "answer 0 register 0")
    book.note("nothing writable: access password, USER pwd bit; permalock alone is open for good")
    for image, stores, register in (
            (small(reserved=[0, 0, 1, 0]), 0, 2), (small(reserved=[0, 0, 0, 1]), 0, 2),
            (small(lock=0x002), 0, 2), (small(lock=0x003), 0, 2), (small(lock=0x001), 8, 0),
            (small(lock=0x3FC), 8, 0), (small(perma=[0xF000]), 0, 2)):
        book.image(image)
        book.line("power 1", "answer 0")
        book.line("ask", "answer 0")
        book.line("write 0 11112222 99", "answer 0 stores %d register %d" % (stores, register))
        book.line("read 0 2 4", "answer 0 data %s register %d"
                  % ("1111,2222" if stores else "0003,0003", register))
    book.note("a cut takes the register along, at the port and by radio")
    book.image(small(perma=[0x8000]))
    book.line("power 1", "answer 0")
    book.line("ask", "answer 0")
    book.line("write 3 11112222 5", "answer 0 stores 5 register 2")
    book.line("write 3 11112222 4", "answer 11 stores 4 state off port free register 0")
    book.line("power 9", "answer 0 stores 3")
    book.line("ask", "answer 0")
    book.line("write 3 1111 0", "answer 0 stores 0 register 2")
    book.line("release", "answer 0 register 2")
    book.resume(small())
    book.frame(block_erase(BANK_USER, 4, 1, HANDLE), "answer 11 stores 4 state off port free register 0", s=4)
    book.note("Open gets no port")
    book.begin(guarded())
    book.line("ask", "answer 6 state open")
    book.note("every cut of P12: Off, port free, register 0")
    for s in range(8):
        book.image(small(perma=[0x8000]))
        book.line("power 1", "answer 0")
        book.line("ask", "answer 0")
        book.line("write 2 aaaabbbbccccdddd %d" % s, "answer 11 stores %d state off port free register 0" % s)
        book.line("power 9", "answer 0 port free register 0")
        new = s >= 5
        book.dump(_30=6, _31=10, _32=0xCCCC if new else 0x18, _33=0xDDDD if new else 0x39)


def killed_tag(book):
    book.title("a killed tag")
    book.image(small(killed=1))
    book.line("power 1", "answer 0 stores 1 state killed")
    book.frame(nak(), "answer 9 state killed")
    for name, bits in one_of_each(0):
        book.frame(bits, "answer 9 state killed")
    book.frame(nak() + "0", "answer 7 state killed")
    book.frame(flipped(req_rn(0), 30), "answer 8 state killed")
    book.line("ask", "answer 0 state killed port held")
    book.frame(nak(), "answer 6 state killed port held")
    book.line("read 0 7 16", "answer 0 reply 112 data 0000,0000,0000,0000,0000,0000,0000 register 1")
    book.line("register", "answer 0 value 1 register 0")
    book.line("write 0 ffffffff 99", "answer 0 stores 0 register 1")
    book.line("read 0 7 13", "answer 4 reply 0")
    book.line("read 0 17 99", "answer 13")
    book.line("write 0 ff 9", "answer 13")
    book.dump(_28=3)
    book.line("register", "answer 0 value 1")
    book.line("write 0 ffff 0", "answer 0 stores 0 register 1")
    book.line("release", "answer 0 port free register 1")
    book.line("ask", "answer 0 port held register 1")
    book.line("power 0", "answer 11 state off port free register 0")
    book.line("power 1", "answer 0 state killed register 0")
    book.note("bit 0 only, though the words are locked too")
    book.image(small(killed=1, lock=0x003, perma=[0xF000]))
    book.line("power 1", "answer 0 state killed")
    book.line("ask", "answer 0")
    book.line("write 0 ffff 9", "answer 0 stores 0 register 1")
    book.note("both bits: bit 1 from before the Kill")
    book.image(small(perma=[0x8000]))
    book.line("power 1", "answer 0")
    book.line("ask", "answer 0")
    book.line("write 0 ffff 9", "answer 0 stores 0 register 2")
    book.line("release", "answer 0")
    book.resume(small())
    book.cover()
    book.frame(kill(KILL_UPPER, COVER, HANDLE), "answer 0 half kill:4b49")
    book.cover(COVER2, "kill:4b49")
    book.frame(kill(KILL_LOWER, COVER2, HANDLE), "answer 0 stores 5 state killed register 2")
    book.line("ask", "answer 0 register 2")
    book.line("read 0 1 2", "answer 0 data 0000 register 3")
    book.line("register", "answer 0 value 3 register 0")


def image_changed(book):
    book.title("the image changes under the session")
    book.note("the session's state says whether the tag is killed")
    book.image(small(killed=1))
    book.line("power 1", "answer 0 state killed")
    book.image(small())
    book.frame(nak(), "answer 9 state killed")
    book.line("ask", "answer 0")
    book.line("read 0 1 2", "answer 0 data 0000 register 1")
    book.line("write 0 1234 9", "answer 0 stores 0 register 1")
    book.begin(small())
    book.image(small(killed=1))
    book.frame(read(BANK_USER, 0, 1, HANDLE), "answer 0 data 0003 state secured")
    book.frame(nak(), "answer 0 state arbitrate")
    book.line("ask", "answer 0")
    book.line("read 0 1 2", "answer 0 data 0003 register 0")
    book.line("write 0 1234 9", "answer 0 stores 5 register 0")
    book.note("the second Kill is compared, whatever the password is by then")
    for upper, answer in ((0, "answer 0 stores 5 state killed"), (1, "answer 12 state arbitrate")):
        book.begin(small())
        book.cover()
        book.frame(kill(upper, COVER, HANDLE), "answer 0 half kill:%04x" % upper)
        book.image(small(reserved=[0, 0, 0, 0]))
        book.cover(COVER2, "kill:%04x" % upper)
        book.frame(kill(0, COVER2, HANDLE), answer)
    book.note("so is the second Access")
    for upper, answer in ((0, "answer 0 stores 0 state secured half -"), (ACCESS_UPPER, "answer 12 state arbitrate")):
        book.begin(guarded())
        book.cover()
        book.frame(access(upper, COVER, HANDLE), "answer 0 half access:%04x" % upper)
        book.image(small())
        book.cover(COVER2, "access:%04x" % upper)
        book.frame(access(0, COVER2, HANDLE), answer)
    book.note("an access password that came later leaves Secured as it is")
    book.begin(small())
    book.image(guarded())
    book.frame(lock(0, 0, HANDLE), "answer 0 stores 5 state secured")
    book.note("a waiting half stands through 1, 2, 3 and 5")
    book.begin(small())
    book.cover()
    book.frame(access(0, COVER, HANDLE), "answer 0 half access:0000")
    for image, answer in ((b"", 1), (bytes(32), 2), (small(lock=0x400), 3),
                          (small(pending=1, work=[(28, 1)]), 5)):
        book.image(image)
        book.frame(req_rn(HANDLE), "answer %d half access:0000 state secured" % answer)
    book.image(small())
    book.cover(COVER2, "access:0000")
    book.frame(access(0, COVER2, HANDLE), "answer 0 half - state secured")


def whole_list():
    book = Book()
    book.note("A command list through the rules of the tag, on the worked image of 78 words.")
    book.note("A line '#>' says what the next line must bring; makelist.py tells its parts.")
    for part in (before_any_image, bad_lines, image_check_header, image_check_content, power_up,
                 session_and_nak, malformed, out_of_place, inventory_refused, inventory_malformed,
                 querying, adjusting, repeating, acknowledging, selecting, inventory_between_halves,
                 reading, long_reading, writing, accessing, killing,
                 wrong_passwords, broken_halves, half_waits_on, lost_in_round,
                 locking, block_writing, block_erasing, block_permalocking, spi_port, killed_tag,
                 image_changed):
        part(book)
    return "\n".join(book.lines) + "\n"


if __name__ == "__main__":
    with open(LIST, "wb") as out:
        out.write(whole_list().encode("utf-8"))
