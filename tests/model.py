#!/usr/bin/env python3
"""Reference model of the tag's command logic.

Written from the rules that docs/RULES.md restates, in their order and terms,
and from no line of the Rattle text, so that the two can be compared. The
bench at the end reads the command list on standard input and writes its lines
on standard output.
"""

import re
import sys
from dataclasses import dataclass, field, replace
from typing import Optional


# --------------------------------------------------------------------------
# Answers that end a call
# --------------------------------------------------------------------------

class Refused(Exception):
    """An answer that leaves everything: image, session and room as before."""

    def __init__(self, number):
        super().__init__(number)
        self.number = number


class ErrorReply(Exception):
    """Answer 10: an error reply with this code."""

    def __init__(self, code):
        super().__init__(code)
        self.code = code


class PowerLost(Exception):
    """Answer 11: a store was due and the power lasts no longer."""


# Refuses with this number of the answer table when the condition holds.
def refuse(condition, number):
    if condition:
        raise Refused(number)


# Gives an error reply with this code when the condition holds.
def error_if(condition, code):
    if condition:
        raise ErrorReply(code)


# --------------------------------------------------------------------------
# The image
# --------------------------------------------------------------------------

HEADER_WORDS = 16
SECTIONS = ("STATUS", "RESERVED", "EPC", "TID", "USER", "PERMA", "WORK")

# The sections a pending offset may lie in.
PENDING_SECTIONS = ("STATUS", "RESERVED", "EPC", "USER", "PERMA")


# One word of the image, most significant byte first.
def word(image, offset):
    return image[2 * offset] << 8 | image[2 * offset + 1]


# Puts one word into the image.
def put_word(image, offset, value):
    image[2 * offset] = value >> 8
    image[2 * offset + 1] = value & 0xFF


# A quotient rounded up.
def rounded_up(number, divisor):
    return -(-number // divisor)


@dataclass(frozen=True)
class Layout:
    """What the header says: where each section stands and how long it is."""

    block_size: int
    offset: dict
    count: dict

    # How many blocks USER has; the last may be short.
    @property
    def blocks(self):
        return rounded_up(self.count["USER"], self.block_size)

    # W, the most words one command stores.
    @property
    def pairs(self):
        return (self.count["WORK"] - 1) // 2

    # Whether a word offset lies in this section.
    def lies_in(self, section, offset):
        first = self.offset[section]
        return first <= offset < first + self.count[section]


# Whether each section has a count that the table of sections allows.
def counts_allowed(layout):
    count = layout.count
    return (1 <= layout.block_size <= 4096
            and count["STATUS"] == 2
            and 4 <= count["RESERVED"] <= 64
            and 2 <= count["EPC"] <= 33
            and 0 <= count["TID"] <= 64
            and 0 <= count["USER"] <= 4096
            and layout.blocks <= 256
            and count["PERMA"] == rounded_up(layout.blocks, 16)
            and count["WORK"] % 2 == 1
            and 16 <= layout.pairs <= 255)


# Whether the sections stand in order without gaps, the first at 16, and the
# image ends with the last.
def sections_stand(layout, length):
    place = HEADER_WORDS
    for section in SECTIONS:
        if layout.offset[section] != place:
            return False
        place += layout.count[section]
    return length == 2 * place


# The header's layout; answers 1 and 2.
def read_layout(image):
    refuse(len(image) < 2 * HEADER_WORDS, 1)
    refuse(word(image, 0) != len(SECTIONS), 2)
    layout = Layout(
        block_size=word(image, 1),
        offset={name: word(image, 2 + 2 * k) for k, name in enumerate(SECTIONS)},
        count={name: word(image, 3 + 2 * k) for k, name in enumerate(SECTIONS)})
    refuse(not counts_allowed(layout), 2)
    refuse(not sections_stand(layout, len(image)), 2)
    return layout


# The n-th word of a section.
def section_word(image, layout, section, n):
    return word(image, layout.offset[section] + n)


# The lock word, ten bits.
def lock_word(image, layout):
    return section_word(image, layout, "STATUS", 0)


# The length L in the top five bits of a PC.
def pc_length(pc):
    return pc >> 11


# The bits of a PERMA word that belong to blocks that exist: block i is bit
# 15 - (i mod 16) of PERMA word i/16.
def existing_bits(layout, perma_word):
    here = min(16, max(0, layout.blocks - 16 * perma_word))
    return 0xFFFF << (16 - here) & 0xFFFF


# The content rules that come before the pending pairs.
def plain_rules_hold(image, layout):
    if lock_word(image, layout) >> 10 != 0:
        return False
    if section_word(image, layout, "STATUS", 1) not in (0, 1):
        return False
    if pc_length(section_word(image, layout, "EPC", 1)) + 2 > layout.count["EPC"]:
        return False
    return all(section_word(image, layout, "PERMA", k) & ~existing_bits(layout, k) == 0
               for k in range(layout.count["PERMA"]))


# The pending count c.
def pending_count(image, layout):
    return section_word(image, layout, "WORK", 0)


# The c pending pairs (word offset, value).
def pending_pairs(image, layout):
    first = layout.offset["WORK"] + 1
    return [(word(image, first + 2 * k), word(image, first + 2 * k + 1))
            for k in range(pending_count(image, layout))]


# Whether every content rule holds, the pending pairs' too.
def content_holds(image, layout):
    if not plain_rules_hold(image, layout):
        return False
    if pending_count(image, layout) > layout.pairs:
        return False
    later = bytearray(image)
    for offset, value in pending_pairs(image, layout):
        if not any(layout.lies_in(name, offset) for name in PENDING_SECTIONS):
            return False
        put_word(later, offset, value)
        if not plain_rules_hold(later, layout):
            return False
    return True


# The image check; answers 1, 2 and 3.
def check_image(image):
    layout = read_layout(image)
    refuse(not content_holds(image, layout), 3)
    return layout


# The access or the kill password, as its upper and its lower word.
def access_password(image, layout):
    return tuple(section_word(image, layout, "RESERVED", n) for n in (2, 3))


def kill_password(image, layout):
    return tuple(section_word(image, layout, "RESERVED", n) for n in (0, 1))


# Whether the block that holds this USER word is permalocked.
def block_permalocked(image, layout, user_word):
    block = user_word // layout.block_size
    return section_word(image, layout, "PERMA", block // 16) >> (15 - block % 16) & 1 == 1


# Whether any block is permalocked.
def some_block_permalocked(image, layout):
    return any(section_word(image, layout, "PERMA", k) != 0
               for k in range(layout.count["PERMA"]))


# --------------------------------------------------------------------------
# Stores, cuts and power-up
# --------------------------------------------------------------------------

class Power:
    """The power of one call: it lasts s stores, and keeps the stores made."""

    def __init__(self, image, s):
        self.image = image
        self.s = s
        self.made = []

    # One word store, or the loss of power.
    def store(self, offset, value):
        if len(self.made) == self.s:
            raise PowerLost
        put_word(self.image, offset, value)
        self.made.append((offset, value))


# A command's 3n + 2 stores: the pairs, the count n, the words, the count 0.
# The words come as (word offset, value) in rising address order.
def store_words(power, layout, words):
    if not words:
        return
    count_at = layout.offset["WORK"]
    for k, (offset, value) in enumerate(words):
        power.store(count_at + 1 + 2 * k, offset)
        power.store(count_at + 2 + 2 * k, value)
    power.store(count_at, len(words))
    for offset, value in words:
        power.store(offset, value)
    power.store(count_at, 0)


# Power-up's first part: the pending words in order, then the count 0.
def finish_pending(power, layout):
    pairs = pending_pairs(power.image, layout)
    if not pairs:
        return
    for offset, value in pairs:
        power.store(offset, value)
    power.store(layout.offset["WORK"], 0)


# The bits of the PC and of the L words after it.
def pc_and_epc(image, layout):
    pc = section_word(image, layout, "EPC", 1)
    return "".join(bits_of(section_word(image, layout, "EPC", 1 + k), 16)
                   for k in range(1 + pc_length(pc)))


# Power-up's second part: the CRC-16 over the PC and the L words after it.
def store_epc_crc(power, layout):
    power.store(layout.offset["EPC"], crc16(pc_and_epc(power.image, layout)))


# Power-up with s stores; answers 0, 1, 2, 3 and 11.
def power_up(image, s):
    try:
        layout = check_image(image)
    except Refused as refusal:
        return Answer(refusal.number, OFF_SESSION)
    power = Power(image, s)
    try:
        finish_pending(power, layout)
        store_epc_crc(power, layout)
    except PowerLost:
        return Answer(11, OFF_SESSION, power.made)
    killed = section_word(image, layout, "STATUS", 1) == 1
    return Answer(0, Session("killed" if killed else "ready", flags=Flags()), power.made)


# A number as so many bits, the highest first.
def bits_of(number, width):
    return format(number, "0%db" % width) if width else ""


# Bytes as bits, first bit highest.
def bits_of_bytes(data):
    return bits_of(int.from_bytes(data, "big"), 8 * len(data))


# Bits as bytes, the last byte filled with 0 bits.
def bytes_of_bits(bits):
    size = rounded_up(len(bits), 8)
    return int(bits.ljust(8 * size, "0") or "0", 2).to_bytes(size, "big")


# One bit through the CRC-16 register, generator x^16 + x^12 + x^5 + 1.
def crc_step(register, bit):
    feedback = register >> 15 ^ bit
    return (register << 1 & 0xFFFF) ^ (0x1021 if feedback else 0)


# What a whole byte does to the register.
def crc_table_entry(byte):
    register = byte << 8
    for _ in range(8):
        register = crc_step(register, 0)
    return register


CRC_TABLE = [crc_table_entry(byte) for byte in range(256)]


# The CRC-16 of bits: preset FFFFh, complemented.
def crc16(bits):
    register = 0xFFFF
    whole = len(bits) - len(bits) % 8
    for byte in bytes_of_bits(bits[:whole]):
        register = (register << 8 & 0xFFFF) ^ CRC_TABLE[register >> 8 ^ byte]
    for bit in bits[whole:]:
        register = crc_step(register, int(bit))
    return register ^ 0xFFFF


# Bits with their CRC-16 after them.
def with_crc(bits):
    return bits + bits_of(crc16(bits), 16)


# The CRC-5 of bits: generator x^5 + x^3 + 1, preset 01001b, not complemented.
def crc5(bits):
    register = 0b01001
    for bit in bits:
        feedback = register >> 4 ^ int(bit)
        register = (register << 1 & 0b11111) ^ (0b01001 if feedback else 0)
    return register


# --------------------------------------------------------------------------
# Session and frames: the session
# --------------------------------------------------------------------------

@dataclass(frozen=True)
class Flags:
    """The inventoried flags of S0 to S3, A or B each, and SL."""

    inventoried: tuple = ("A", "A", "A", "A")
    sl: bool = False

    # With one inventoried flag set.
    def with_inventoried(self, number, value):
        return replace(self, inventoried=tuple(
            value if k == number else old for k, old in enumerate(self.inventoried)))

    # With one inventoried flag inverted: A to B and B to A.
    def inverted(self, number):
        return self.with_inventoried(number, "B" if self.inventoried[number] == "A" else "A")


@dataclass(frozen=True)
class Round:
    """The inventory round: its session number, S0 to S3, and Q."""

    session: int
    q: int


@dataclass(frozen=True)
class Session:
    """The session; what a state does not hold is None."""

    state: str
    number: Optional[int] = None        # the number replied, or the handle
    cover: Optional[int] = None
    half: Optional[tuple] = None        # (code of Access or Kill, upper word)
    held: bool = False
    register: int = 0
    slot: Optional[int] = None          # written down in Arbitrate alone
    round: Optional[Round] = None
    flags: Optional[Flags] = None

    # The slot counter of a tag in a round: 0 in Reply and in the states after it.
    @property
    def counter(self):
        return self.slot if self.state == "arbitrate" else 0


OFF_SESSION = Session("off")

# The states after Reply, in which the tag is known by its number or its handle.
FOUND = ("acknowledged", "open", "secured")


@dataclass(frozen=True)
class Answer:
    """What a call answers: number, session, stores made, reply bits, value."""

    number: int
    session: Session
    made: list = field(default_factory=list)
    reply: str = ""
    value: Optional[int] = None


# The session in another state: port, register and flags stay, and all else is
# what is given.
def moved(session, state, **holds):
    kept = {"held": session.held, "register": session.register, "flags": session.flags}
    return Session(state, **{**kept, **holds})


# The session back in Arbitrate: round and slot stay, number, cover and half go.
def to_arbitrate(session):
    return moved(session, "arbitrate", round=session.round, slot=session.counter)


# The session with its cover number used up.
def cover_used(session):
    return replace(session, cover=None)


# --------------------------------------------------------------------------
# Session and frames: the frame
# --------------------------------------------------------------------------

# The codes as bits; none begins with another.
QUERY_REP, ACK, QUERY, QUERY_ADJUST, SELECT = "00", "01", "1000", "1001", "1010"
NAK, REQ_RN, READ, WRITE, KILL, LOCK, ACCESS, BLOCK_WRITE, BLOCK_ERASE, BLOCK_PERMALOCK = \
    (bits_of(code, 8) for code in range(0xC0, 0xCA))

NAMES = {QUERY_REP: "QueryRep", ACK: "ACK", QUERY: "Query", QUERY_ADJUST: "QueryAdjust",
         SELECT: "Select", NAK: "NAK", REQ_RN: "Req_RN", READ: "Read", WRITE: "Write", KILL: "Kill",
         LOCK: "Lock", ACCESS: "Access", BLOCK_WRITE: "BlockWrite",
         BLOCK_ERASE: "BlockErase", BLOCK_PERMALOCK: "BlockPermalock"}

# The commands of the inventory.
INVENTORY = (QUERY_REP, ACK, QUERY, QUERY_ADJUST, SELECT)

# The commands that end with a number and a CRC-16.
NUMBERED = (REQ_RN, READ, WRITE, KILL, LOCK, ACCESS, BLOCK_WRITE, BLOCK_ERASE, BLOCK_PERMALOCK)


# The code that these bits begin with, or None.
def code_of(bits):
    return next((code for code in NAMES if bits.startswith(code)), None)


# The banks by their two bits.
BANKS = ("RESERVED", "EPC", "TID", "USER")


@dataclass
class Command:
    """A well-formed frame taken apart; a field that it lacks is None."""

    code: str
    number: Optional[int] = None        # the number replied, or the handle
    bank: Optional[str] = None
    pointer: Optional[int] = None       # a word's place; Select's, a bit's
    count: Optional[int] = None         # WordCount or BlockRange
    words: tuple = ()                   # the data of Write and BlockWrite, the masks
    half: Optional[int] = None          # the half of a password, as sent
    mask: Optional[int] = None          # Lock's ten mask bits
    action: Optional[int] = None        # Lock's ten action bits, Select's three
    rfu: int = 0
    locks: bool = False                 # BlockPermalock: 1 locks, 0 reads
    session: Optional[int] = None       # of the Query family: S0 to S3
    sel: Optional[int] = None           # of Query: which tags by their SL
    target: Optional[int] = None        # Query: 0 is A, 1 is B; Select: the flag
    q: Optional[int] = None
    updn: Optional[int] = None          # QueryAdjust: what becomes of Q
    pattern: str = ""                   # Select's mask
    truncate: bool = False


class Reader:
    """Takes fields from a frame's bits, one after the other."""

    def __init__(self, bits):
        self.bits = bits
        self.place = 0

    # The next field; a frame that ends before it has a wrong length.
    def take(self, width):
        refuse(self.place + width > len(self.bits), 7)
        self.place += width
        return int(self.bits[self.place - width:self.place], 2)

    # The next bits as they are.
    def take_bits(self, width):
        return bits_of(self.take(width), width) if width else ""

    # The code; bits that begin none are an unknown one.
    def take_code(self):
        code = code_of(self.bits[self.place:])
        refuse(code is None, 7)
        return self.take_bits(len(code))

    # So many words.
    def take_words(self, count):
        return tuple(self.take(16) for _ in range(count))

    # A pointer, EBV-8 of one to three bytes; returned with its e.
    def take_ebv(self):
        value = 0
        for e in (1, 2, 3):
            group = self.take(8)
            value = value << 7 | group & 0x7F
            if group < 0x80:
                return value, e
        raise Refused(7)


# The fields of a command of the inventory, and its length in bits.
def take_inventory_fields(reader, command):
    if command.code == QUERY_REP:
        command.session = reader.take(2)
        return command, 4
    if command.code == ACK:
        command.number = reader.take(16)
        return command, 18
    if command.code == QUERY_ADJUST:
        command.session = reader.take(2)
        command.updn = reader.take(3)
        return command, 9
    if command.code == QUERY:
        reader.take(4)                  # DR, M, TRext: read over, though the CRC-5 covers them
        command.sel = reader.take(2)
        command.session = reader.take(2)
        command.target = reader.take(1)
        command.q = reader.take(4)
        return command, 22
    command.target = reader.take(3)
    command.action = reader.take(3)
    command.bank = BANKS[reader.take(2)]
    command.pointer, e = reader.take_ebv()
    length = reader.take(8)
    command.pattern = reader.take_bits(length)
    command.truncate = reader.take(1) == 1
    return command, 37 + 8 * e + length


# The fields of a frame whose layout its code chooses, and its length in bits.
def take_fields(reader):
    command = Command(reader.take_code())
    if command.code in INVENTORY:
        return take_inventory_fields(reader, command)
    if command.code == NAK:
        return command, 8
    if command.code == REQ_RN:
        return command, 40
    if command.code == ACCESS:
        command.half = reader.take(16)
        return command, 56
    if command.code == KILL:
        command.half = reader.take(16)
        reader.take(3)                  # ignored, though the CRC covers them
        return command, 59
    if command.code == LOCK:
        command.mask = reader.take(10)
        command.action = reader.take(10)
        return command, 60
    if command.code == BLOCK_PERMALOCK:
        command.rfu = reader.take(8)
        command.locks = reader.take(1) == 1
    command.bank = BANKS[reader.take(2)]
    command.pointer, e = reader.take_ebv()
    if command.code == WRITE:
        command.words = reader.take_words(1)
        return command, 58 + 8 * e
    command.count = reader.take(8)
    if command.code in (READ, BLOCK_ERASE):
        return command, 50 + 8 * e
    if command.code == BLOCK_WRITE:
        command.words = reader.take_words(command.count)
        return command, 50 + 8 * e + 16 * command.count
    if command.locks:
        command.words = reader.take_words(command.count)
        return command, 59 + 8 * e + 16 * command.count
    return command, 59 + 8 * e


# Whether the CRC at a frame's end is right; NAK, QueryRep, QueryAdjust and ACK
# have none.
def crc_right(code, bits):
    if code == QUERY:
        return bits == bits[:-5] + bits_of(crc5(bits[:-5]), 5)
    if code == SELECT or code in NUMBERED:
        return bits == with_crc(bits[:-16])
    return True


# A frame of a bit count and bytes, taken apart; answers 7 and 8.
def read_frame(bit_count, data):
    refuse(bit_count > 8 * len(data), 7)
    bits = bits_of_bytes(data)[:bit_count]
    reader = Reader(bits)
    command, length = take_fields(reader)
    refuse(len(bits) != length, 7)
    if command.code in NUMBERED:
        command.number = reader.take(16)
    refuse(not crc_right(command.code, bits), 8)
    return command


# --------------------------------------------------------------------------
# Session and frames: wrong number, state, missing cover, zero range, RFU; what
# of the inventory is ignored
# --------------------------------------------------------------------------

# The states a command works in; in all others, Killed among them, it is ignored.
def working_states(code):
    if code in (QUERY, SELECT):
        return ("ready", "arbitrate", "reply", *FOUND)
    if code in (QUERY_ADJUST, QUERY_REP, NAK):
        return ("arbitrate", "reply", *FOUND)
    if code == ACK:
        return ("reply", *FOUND)
    if code == REQ_RN:
        return FOUND
    if code in (LOCK, BLOCK_PERMALOCK):
        return ("secured",)
    return ("open", "secured")


# What QueryAdjust's UpDn adds to Q.
UPDN = {0b110: 1, 0b000: 0, 0b011: -1}

# The flag that a Select goes to: an inventoried flag by its number, or SL.
SELECT_SL = 4


# Answer 9.
def refuse_out_of_place(session, command):
    code = command.code
    refuse(session.state not in working_states(code), 9)
    refuse(code in NUMBERED and command.number != session.number, 9)
    refuse(code in (WRITE, ACCESS, KILL) and session.cover is None, 9)
    refuse(code in (BLOCK_WRITE, BLOCK_ERASE, BLOCK_PERMALOCK) and command.count == 0, 9)
    refuse(command.rfu != 0, 9)
    refuse(code in (QUERY_ADJUST, QUERY_REP) and command.session != session.round.session, 9)
    refuse(code == QUERY_ADJUST and command.updn not in UPDN, 9)
    refuse(code == SELECT and command.target > SELECT_SL, 9)
    refuse(code == SELECT and command.bank == "RESERVED", 9)
    refuse(command.truncate, 9)


# Whether a command is one to this tag, known by its number or its handle; the
# others go to every tag, or to another.
def to_this_tag(session, command):
    return command.code in NUMBERED or (command.code == ACK and command.number == session.number)


# The two ways a password fails: its second half came and the two do not make it,
# or its halves are broken, since another command to this tag came between them.
PASSWORD_WRONG, HALVES_BROKEN = 12, 14


# Which of the two a command is while a half waits; None for Req_RN, for NAK and
# whatever else is not to this tag, and for the half that makes the password.
def password_failed(image, layout, session, command):
    if session.half is None or command.code == REQ_RN or not to_this_tag(session, command):
        return None
    waiting, upper = session.half
    if command.code != waiting:
        return HALVES_BROKEN
    password = access_password if waiting == ACCESS else kill_password
    made = (upper, command.half ^ session.cover) == password(image, layout)
    return None if made else PASSWORD_WRONG


# --------------------------------------------------------------------------
# Session and frames: the rights and the commands
# --------------------------------------------------------------------------

# The lock pairs from the top of the lock word.
PAIRS = ("kill", "access", "EPC", "TID", "USER")
PERMALOCK_BITS = 0b0101010101


# A pair of a lock word: (pwd bit, permalock bit).
def lock_pair(lock, name):
    shift = 8 - 2 * PAIRS.index(name)
    return lock >> (shift + 1) & 1, lock >> shift & 1


# The lock pair that rules a word of a bank.
def ruling_pair(bank, n):
    if bank != "RESERVED":
        return bank
    return "kill" if n in (0, 1) else "access"


# Whether a pair gives the right in this state: 00 and 01 Open or Secured, 10
# Secured, 11 never.
def pair_allows(pair, state):
    return pair[0] == 0 or (pair == (1, 0) and state == "secured")


@dataclass(frozen=True)
class Plan:
    """What a command does when reply and power suffice."""

    number: int                         # 0, or 10 with an error reply
    session: Session
    reply: str = ""                     # whole, with its CRC-16
    words: tuple = ()                   # (word offset, value) in rising order


class Call:
    """One frame call: image and layout, session, command and fresh word."""

    def __init__(self, image, layout, session, command, fresh):
        self.image = image
        self.layout = layout
        self.session = session
        self.command = command
        self.fresh = fresh
        self.lock = lock_word(image, layout)

    # The handle's bits.
    @property
    def handle(self):
        return bits_of(self.session.number, 16)

    # How many words the command's bank has.
    @property
    def bank_count(self):
        return self.layout.count[self.command.bank]

    # A done command: the reply's bits before its CRC-16, the words to store.
    def done(self, reply, words=(), session=None):
        return Plan(0, session or cover_used(self.session), with_crc(reply), tuple(words))

    # Whether the bank's n-th word may be read.
    def may_read(self, n):
        if self.command.bank != "RESERVED":
            return True
        return self.ruling_pair_allows(n)

    # Whether the bank's n-th word may be written.
    def may_write(self, n):
        bank = self.command.bank
        if bank == "TID" or (bank == "EPC" and n == 0):
            return False
        if bank == "USER" and block_permalocked(self.image, self.layout, n):
            return False
        return self.ruling_pair_allows(n)

    # Whether the pair that rules the bank's n-th word gives the right.
    def ruling_pair_allows(self, n):
        pair = lock_pair(self.lock, ruling_pair(self.command.bank, n))
        return pair_allows(pair, self.session.state)

    # 03h past the bank's end, or a pointer at or beyond it.
    def refuse_overrun(self, count):
        pointer = self.command.pointer
        error_if(pointer >= self.bank_count or pointer + count > self.bank_count, 0x03)


# A tag in a round with a new slot: Reply with the fresh word, which is its
# number, where the slot is 0; else Arbitrate and no reply.
def plan_slot(call, session, inventory_round, slot):
    if slot != 0:
        return Plan(0, moved(session, "arbitrate", round=inventory_round, slot=slot))
    return Plan(0, moved(session, "reply", round=inventory_round, number=call.fresh),
                bits_of(call.fresh, 16))


# A slot drawn: the low Q bits of the fresh word.
def drawn_slot(call, q):
    return call.fresh & (1 << q) - 1


# The session with the inventoried flag of this session number inverted.
def flag_inverted(session, number):
    return replace(session, flags=session.flags.inverted(number))


# The values of SL that a Query's Sel speaks to.
SEL = {0b00: (True, False), 0b01: (True, False), 0b10: (False,), 0b11: (True,)}


# Whether a Query speaks to a tag with these flags.
def query_matches(command, flags):
    return flags.sl in SEL[command.sel] and flags.inventoried[command.session] == "AB"[command.target]


# Query: ends the old round for a tag that was found in it, and begins a new one
# for a tag that matches.
def plan_query(call):
    command, session = call.command, call.session
    if session.state in FOUND and command.session == session.round.session:
        session = flag_inverted(session, command.session)
    if not query_matches(command, session.flags):
        return Plan(0, moved(session, "ready"))
    return plan_slot(call, session, Round(command.session, command.q), drawn_slot(call, command.q))


# QueryAdjust: Q one more, one less or as it is, and a new slot; a tag that was
# found is done with.
def plan_query_adjust(call):
    session = call.session
    if session.state in FOUND:
        return plan_done_with(session)
    q = min(15, max(0, session.round.q + UPDN[call.command.updn]))
    return plan_slot(call, session, Round(session.round.session, q), drawn_slot(call, q))


# QueryRep: the slot counts down, 0 to 7FFFh; a tag that was found is done with.
def plan_query_rep(call):
    session = call.session
    if session.state in FOUND:
        return plan_done_with(session)
    return plan_slot(call, session, session.round, session.counter - 1 & 0x7FFF)


# A tag that was found and is done with: its flag of the round's session is
# inverted, and it is Ready.
def plan_done_with(session):
    return Plan(0, moved(flag_inverted(session, session.round.session), "ready"))


# ACK: the PC, the L words after it and their CRC-16, which is computed and not
# the one stored; with another number, Arbitrate and no reply.
def plan_ack(call):
    session = call.session
    if call.command.number != session.number:
        return Plan(0, to_arbitrate(session))
    if session.state == "reply":
        session = replace(session, state="acknowledged")
    return call.done(pc_and_epc(call.image, call.layout), session=cover_used(session))


# Whether a Select's mask is the bank's bits from its pointer on.
def mask_matches(call):
    pointer, pattern = call.command.pointer, call.command.pattern
    first = call.layout.offset[call.command.bank]
    bank = bits_of_bytes(call.image[2 * first:2 * (first + call.bank_count)])
    if pointer >= len(bank) or pointer + len(pattern) > len(bank):
        return False
    return bank[pointer:pointer + len(pattern)] == pattern


# What Select does to its flag by its action: matching, not matching. "set" is to
# assert SL or to make A, "clear" to deassert SL or to make B, "turn" the other
# of the two, "-" nothing.
SELECT_ACTIONS = (("set", "clear"), ("set", "-"), ("-", "clear"), ("turn", "-"),
                  ("clear", "set"), ("clear", "-"), ("-", "set"), ("-", "turn"))


# The flags after a Select.
def selected_flags(command, flags, matching):
    target = command.target
    is_set = flags.sl if target == SELECT_SL else flags.inventoried[target] == "A"
    effect = SELECT_ACTIONS[command.action][0 if matching else 1]
    after = {"set": True, "clear": False, "turn": not is_set, "-": is_set}[effect]
    if target == SELECT_SL:
        return replace(flags, sl=after)
    return flags.with_inventoried(target, "A" if after else "B")


# Select: its flag by its action, then Ready.
def plan_select(call):
    flags = selected_flags(call.command, call.session.flags, mask_matches(call))
    return Plan(0, moved(call.session, "ready", flags=flags))


# NAK: Arbitrate, no reply.
def plan_nak(call):
    return Plan(0, to_arbitrate(call.session))


# Req_RN: the fresh word becomes the handle, or the cover number.
def plan_req_rn(call):
    session = call.session
    if session.state == "acknowledged":
        guarded = access_password(call.image, call.layout) != (0, 0)
        session = replace(session, number=call.fresh, state="open" if guarded else "secured")
    else:
        session = replace(session, cover=call.fresh)
    return call.done(bits_of(call.fresh, 16), session=session)


# How many words a Read shows: its WordCount, or where that is 0 the words to the
# bank's end; in EPC, with a pointer below L + 2, those to word L + 1.
def words_read(call):
    pointer, end = call.command.pointer, call.bank_count
    if call.command.count != 0:
        return call.command.count
    if call.command.bank == "EPC":
        code_end = pc_length(section_word(call.image, call.layout, "EPC", 1)) + 2
        end = code_end if pointer < code_end else end
    return end - pointer


# Read: the words after the 0.
def plan_read(call):
    pointer = call.command.pointer
    call.refuse_overrun(call.command.count)
    count = words_read(call)
    error_if(not all(call.may_read(n) for n in range(pointer, pointer + count)), 0x04)
    first = call.layout.offset[call.command.bank] + pointer
    words = "".join(bits_of(word(call.image, first + k), 16) for k in range(count))
    return call.done("0" + words + call.handle)


# What Write, BlockWrite and BlockErase share: the error codes, first that
# applies, and the stores.
def plan_storing(call, values):
    bank, pointer = call.command.bank, call.command.pointer
    call.refuse_overrun(len(values))
    error_if(not all(call.may_write(pointer + k) for k in range(len(values))), 0x04)
    for k, value in enumerate(values):
        is_pc = bank == "EPC" and pointer + k == 1
        error_if(is_pc and pc_length(value) + 2 > call.bank_count, 0x03)
    error_if(len(values) > call.layout.pairs, 0x00)
    first = call.layout.offset[bank] + pointer
    return call.done("0" + call.handle, [(first + k, value) for k, value in enumerate(values)])


# Write: one word, XORed with the cover number.
def plan_write(call):
    return plan_storing(call, [call.command.words[0] ^ call.session.cover])


# BlockWrite: its words as they are.
def plan_block_write(call):
    return plan_storing(call, call.command.words)


# BlockErase stores zeros.
def plan_block_erase(call):
    return plan_storing(call, [0] * call.command.count)


# The upper half of a password: it waits, uncovered, for the lower.
def plan_upper_half(call):
    upper = call.command.half ^ call.session.cover
    return call.done(call.handle, session=replace(
        call.session, cover=None, half=(call.command.code, upper)))


# Access: the upper half, or the right lower half, which makes Secured.
def plan_access(call):
    if call.session.half is None:
        return plan_upper_half(call)
    return call.done(call.handle, session=replace(
        call.session, state="secured", cover=None, half=None))


# Kill: the upper half, or the right lower half, which kills.
def plan_kill(call):
    if call.session.half is None:
        error_if(kill_password(call.image, call.layout) == (0, 0), 0x00)
        return plan_upper_half(call)
    killed_at = call.layout.offset["STATUS"] + 1
    return call.done("0" + call.handle, [(killed_at, 1)], session=moved(call.session, "killed"))


# Lock: 04h if it would clear a permalock bit, change the pwd bit of a
# permalocked pair, or leave USER at 01 while a block is permalocked.
def plan_lock(call):
    mask, action, old = call.command.mask, call.command.action, call.lock
    new = old & ~mask | action & mask
    error_if(old & ~new & PERMALOCK_BITS != 0, 0x04)
    for name in PAIRS:
        old_pwd, old_permalock = lock_pair(old, name)
        new_pwd, _ = lock_pair(new, name)
        error_if(old_permalock == 1 and new_pwd != old_pwd, 0x04)
    user_masked = lock_pair(mask, "USER") != (0, 0)
    error_if(user_masked and lock_pair(new, "USER") == (0, 1)
             and some_block_permalocked(call.image, call.layout), 0x04)
    return call.done("0" + call.handle, [(call.layout.offset["STATUS"], new)])


# BlockPermalock: reads PERMA words, or adds the masked bits to them.
def plan_block_permalock(call):
    command, layout = call.command, call.layout
    wanted = range(command.pointer, command.pointer + command.count)
    error_if(command.bank != "USER", 0x03)
    error_if(wanted.stop > layout.count["PERMA"], 0x03)
    error_if(any(mask & ~existing_bits(layout, k) for k, mask in zip(wanted, command.words)), 0x03)
    now = [section_word(call.image, layout, "PERMA", k) for k in wanted]
    if not command.locks:
        return call.done("0" + "".join(bits_of(w, 16) for w in now) + call.handle)
    error_if(lock_pair(call.lock, "USER") == (0, 1), 0x04)
    first = layout.offset["PERMA"]
    return call.done("0" + call.handle, [
        (first + k, old | mask) for k, old, mask in zip(wanted, now, command.words)])


PLANS = {QUERY_REP: plan_query_rep, ACK: plan_ack, QUERY: plan_query,
         QUERY_ADJUST: plan_query_adjust, SELECT: plan_select,
         NAK: plan_nak, REQ_RN: plan_req_rn, READ: plan_read, WRITE: plan_write,
         KILL: plan_kill, LOCK: plan_lock, ACCESS: plan_access,
         BLOCK_WRITE: plan_block_write, BLOCK_ERASE: plan_block_erase,
         BLOCK_PERMALOCK: plan_block_permalock}


# What the command does, an error reply included.
def make_plan(call):
    try:
        plan = PLANS[call.command.code](call)
    except ErrorReply as error:
        reply = with_crc("1" + bits_of(error.code, 8) + call.handle)
        return Plan(10, cover_used(call.session), reply)
    return plan


# A radio frame; order 1, 2, 3, 5, 6, 7, 8, 9, then 12 or 14, then 10, 4, 11.
def radio_frame(image, session, bit_count, data, fresh, room, s):
    layout = check_image(image)
    refuse(session.state == "off" or pending_count(image, layout) > 0, 5)
    refuse(session.held, 6)
    command = read_frame(bit_count, data)
    refuse_out_of_place(session, command)
    failed = password_failed(image, layout, session, command)
    if failed is not None:
        return Answer(failed, to_arbitrate(session))
    plan = make_plan(Call(image, layout, session, command, fresh))
    refuse(rounded_up(len(plan.reply), 8) > room, 4)
    power = Power(image, s)
    try:
        store_words(power, layout, plan.words)
    except PowerLost:
        return Answer(11, OFF_SESSION, power.made)
    return Answer(plan.number, plan.session, power.made, plan.reply)


# --------------------------------------------------------------------------
# SPI port
# --------------------------------------------------------------------------

REGISTER_NOT_WRITTEN = 0b10
REGISTER_KILLED = 0b01


# Asking for the port; answers 0, 5 and 6.
def ask(session):
    refuse(session.state == "off", 5)
    refuse(session.state in ("open", "secured") or session.held, 6)
    return Answer(0, replace(session, held=True))


# Releasing the port; answers 0, 5 and 6.
def release(session):
    refuse(session.state == "off", 5)
    refuse(not session.held, 6)
    return Answer(0, replace(session, held=False))


# Reading the error register, which clears it; answers 0, 5 and 6.
def read_register(session):
    refuse(session.state == "off", 5)
    refuse(not session.held, 6)
    return Answer(0, replace(session, register=0), value=session.register)


# What both transfers ask first; answers 1, 2, 3, 5 and 6.
def begin_transfer(image, session):
    layout = check_image(image)
    refuse(session.state == "off" or pending_count(image, layout) > 0, 5)
    refuse(not session.held, 6)
    return layout


# Answer 13 for a place and a count of USER words.
def refuse_transfer(layout, offset, count):
    refuse(count == 0 or count > 255, 13)
    refuse(offset + count > layout.count["USER"], 13)


# The session with this bit of the register set.
def with_register_bit(session, bit):
    return replace(session, register=session.register | bit)


# An SPI read; order 1, 2, 3, 5, 6, 13, 4.
def spi_read(image, session, offset, count, room):
    layout = begin_transfer(image, session)
    refuse_transfer(layout, offset, count)
    refuse(2 * count > room, 4)
    if session.state == "killed":
        return Answer(0, with_register_bit(session, REGISTER_KILLED), reply="0" * 16 * count)
    words = (section_word(image, layout, "USER", offset + k) for k in range(count))
    return Answer(0, session, reply="".join(bits_of(w, 16) for w in words))


# Whether the SPI port may write this USER word.
def spi_may_write(image, layout, n):
    if access_password(image, layout) != (0, 0):
        return False
    if lock_pair(lock_word(image, layout), "USER")[0] == 1:
        return False
    return not block_permalocked(image, layout, n)


# An SPI write; order 1, 2, 3, 5, 6, 13, 11.
def spi_write(image, session, offset, data, s):
    layout = begin_transfer(image, session)
    refuse(len(data) % 2 == 1, 13)
    count = len(data) // 2
    refuse_transfer(layout, offset, count)
    refuse(count > layout.pairs, 13)
    if session.state == "killed":
        return Answer(0, with_register_bit(session, REGISTER_KILLED))
    first = layout.offset["USER"]
    words = [(first + offset + k, word(data, k)) for k in range(count)
             if spi_may_write(image, layout, offset + k)]
    power = Power(image, s)
    try:
        store_words(power, layout, words)
    except PowerLost:
        return Answer(11, OFF_SESSION, power.made)
    if len(words) < count:
        session = with_register_bit(session, REGISTER_NOT_WRITTEN)
    return Answer(0, session, power.made)


# --------------------------------------------------------------------------
# The bench: the command list
# --------------------------------------------------------------------------

LINE_LIMIT = 20000
IMAGE_LIMIT = 9604
ROOM_LIMIT = 9604
NUMBER_LIMIT = 1000000
ROOM_FILL = 0xAA


class BadLine(Exception):
    """A line that the command list does not know, and why."""


# A decimal number without leading zeros, at most its limit.
def read_number(part, limit=NUMBER_LIMIT):
    if not re.fullmatch(rb"0|[1-9][0-9]*", part):
        raise BadLine("no number")
    if len(part) > len(str(limit)) or int(part) > limit:
        raise BadLine("above its limit")
    return int(part)


# The size of a reply room.
def read_room(part):
    return read_number(part, ROOM_LIMIT)


# Bytes as an even number of lowercase hex digits, or - for none.
def read_hex(part):
    if part == b"-":
        return b""
    if len(part) % 2 == 1 or not re.fullmatch(rb"[0-9a-f]+", part):
        raise BadLine("no hex")
    return bytes.fromhex(part.decode("ascii"))


# The bytes of an image.
def read_image(part):
    data = read_hex(part)
    if len(data) > IMAGE_LIMIT:
        raise BadLine("above its limit")
    return data


# A word as four lowercase hex digits.
def read_word(part):
    if not re.fullmatch(rb"[0-9a-f]{4}", part):
        raise BadLine("no word")
    return int(part, 16)


# Bytes as the lines write them.
def show_hex(data):
    return bytes(data).hex() or "-"


# A word that may be missing.
def show_word(value):
    return "-" if value is None else "%04x" % value


# The waiting half.
def show_half(half):
    if half is None:
        return "-"
    return "%s:%04x" % ("access" if half[0] == ACCESS else "kill", half[1])


# Slot, Q and session of the round.
def show_round(session):
    slot = "-" if session.slot is None else "%d" % session.slot
    if session.round is None:
        return slot + " - -"
    return "%s %d s%d" % (slot, session.round.q, session.round.session)


# The flags.
def show_flags(flags):
    if flags is None:
        return "-"
    return "".join(flags.inventoried) + ("S" if flags.sl else "-")


# The session at the end of a line.
def show_session(session):
    return "session %s %s %s %s %s %d %s %s" % (
        session.state, show_word(session.number), show_word(session.cover),
        show_half(session.half), "held" if session.held else "free", session.register,
        show_round(session), show_flags(session.flags))


# The room afterwards: the reply in front, the bytes beyond it as before.
def show_room(room, reply):
    filled = bytes_of_bits(reply)
    return show_hex(filled + bytes([ROOM_FILL]) * (room - len(filled)))


class Bench:
    """One image and one session, driven line by line."""

    # The parts that follow each word.
    PARTS = {
        b"image": (read_image,), b"check": (), b"power": (read_number,),
        b"frame": (read_number, read_hex, read_word, read_room, read_number),
        b"ask": (), b"release": (), b"register": (),
        b"read": (read_number, read_number, read_room),
        b"write": (read_number, read_hex, read_number), b"dump": ()}

    def __init__(self):
        self.image = bytearray()
        self.session = OFF_SESSION
        self.lines = 0
        self.answer = None              # the last call's answer

    # What one line writes, or None where it writes nothing.
    def line(self, text):
        self.lines += 1
        self.answer = None
        if len(text) > LINE_LIMIT:
            return "bad line %d" % self.lines
        if text == b"" or text.startswith(b"#"):
            return None
        try:
            name, values = self.take_apart(text)
        except BadLine:
            return "bad line %d" % self.lines
        return getattr(self, "do_" + name)(*values)

    # A line's word and the values of its parts.
    def take_apart(self, text):
        name, *parts = text.split(b" ")
        readers = self.PARTS.get(name)
        if readers is None or len(parts) != len(readers):
            raise BadLine("unknown word" if readers is None else "number of parts")
        return name.decode("ascii"), [read(part) for read, part in zip(readers, parts)]

    # Makes a call and writes its line; a refusal leaves everything.
    def call(self, room, operation, *values):
        try:
            answer = operation(*values)
        except Refused as refusal:
            answer = Answer(refusal.number, self.session)
        self.answer = answer
        self.session = answer.session
        value = "" if answer.value is None else "value %d " % answer.value
        return "answer %d stores %d reply %d %s %s%s" % (
            answer.number, len(answer.made), len(answer.reply),
            show_room(room, answer.reply), value, show_session(answer.session))

    def do_image(self, data):
        self.image = bytearray(data)
        return "image %d" % len(data)

    def do_check(self):
        try:
            check_image(self.image)
        except Refused as refusal:
            return "answer %d" % refusal.number
        return "answer 0"

    def do_dump(self):
        return "image " + show_hex(self.image)

    def do_power(self, s):
        return self.call(0, power_up, self.image, s)

    def do_frame(self, bit_count, data, fresh, room, s):
        return self.call(room, radio_frame, self.image, self.session,
                         bit_count, data, fresh, room, s)

    def do_ask(self):
        return self.call(0, ask, self.session)

    def do_release(self):
        return self.call(0, release, self.session)

    def do_register(self):
        return self.call(0, read_register, self.session)

    def do_read(self, offset, count, room):
        return self.call(room, spi_read, self.image, self.session, offset, count, room)

    def do_write(self, offset, data, s):
        return self.call(0, spi_write, self.image, self.session, offset, data, s)


# The lines of a command list; the last may lack its newline.
def lines_of(text):
    lines = text.split(b"\n")
    if lines[-1] == b"":
        lines.pop()
    return lines


# What a whole command list writes.
def run(text):
    bench = Bench()
    written = (bench.line(line) for line in lines_of(text))
    return "".join(line + "\n" for line in written if line is not None).encode("ascii")


if __name__ == "__main__":
    sys.stdout.buffer.write(run(sys.stdin.buffer.read()))
