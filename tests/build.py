"""Images, frames, replies and list lines, made for trying a tag or a depot: the other side's.

Nothing here asks the models; CRC-16 and CRC-5 are a second, plain writing of them.
"""

from dataclasses import dataclass, field


# --------------------------------------------------------------------------
# Images
# --------------------------------------------------------------------------

@dataclass
class Image:
    """An image by its contents; bytes() makes the header that fits them."""

    block_size: int = 4
    lock: int = 0
    killed: int = 0
    reserved: list = field(default_factory=lambda: [0x4B49, 0x4C4C, 0, 0])
    epc: list = field(default_factory=lambda: [0x9297, 0x1000, 0x3034, 0x0257])
    tid: list = field(default_factory=lambda: [0xE200, 0x6001])
    user: list = field(default_factory=lambda: [3, 3, 6, 10, 0x18, 0x39, 0x1811] + 9 * [0])
    perma: list = field(default_factory=lambda: [0])
    pairs: int = 16                     # W
    pending: int = 0                    # c
    work: list = field(default_factory=list)    # pairs (word offset, value)

    # The sections' words in their order.
    def sections(self):
        pairs = [w for pair in self.work for w in pair]
        room = 2 * self.pairs
        return [[self.lock, self.killed], self.reserved, self.epc, self.tid, self.user,
                self.perma, [self.pending] + (pairs + room * [0])[:room]]

    # The header and all sections as one list of words.
    def words(self):
        place, header, body = 16, [7, self.block_size], []
        for section in self.sections():
            header += [place, len(section)]
            body += section
            place += len(section)
        return header + body

    # The whole image.
    def bytes(self):
        return bytes_of_words(self.words())

    # Where a section stands: its number in the order of the sections.
    def place(self, number):
        return 16 + sum(len(section) for section in self.sections()[:number])


STATUS, RESERVED, EPC, TID, USER, PERMA, WORK = range(7)


# Words as bytes, most significant byte first.
def bytes_of_words(words):
    return b"".join((w & 0xFFFF).to_bytes(2, "big") for w in words)


# --------------------------------------------------------------------------
# Frames, as strings of 0 and 1
# --------------------------------------------------------------------------

# The banks' two bits.
BANK_RESERVED, BANK_EPC, BANK_TID, BANK_USER = range(4)


# A number as so many bits.
def field_bits(number, width):
    return format(number, "0%db" % width) if width else ""


# The CRC-16 of bits, bit by bit.
def crc(bits):
    register = 0xFFFF
    for bit in bits:
        carry = (register >> 15) != int(bit)
        register = register << 1 & 0xFFFF
        if carry:
            register ^= 0x1021
    return ~register & 0xFFFF


# Bits with their CRC-16.
def sealed(bits):
    return bits + field_bits(crc(bits), 16)


# The CRC-5 of bits by long division: the bits with five 0 bits after them, the
# preset laid on the first five, divided by x^5 + x^3 + 1; the remainder.
def crc5(bits):
    rest = int(bits + "00000", 2) ^ 0b01001 << len(bits)
    for place in reversed(range(len(bits))):
        if rest >> place + 5 & 1:
            rest ^= 0b101001 << place
    return rest


# A pointer as EBV-8, in at least e bytes (leading zero groups).
def ebv(value, e=1):
    groups = [value & 0x7F]
    value >>= 7
    while value or len(groups) < e:
        groups.insert(0, value & 0x7F | 0x80)
        value >>= 7
    return "".join(field_bits(group, 8) for group in groups)


# The flags that a Select may go to: S0 to S3 are 0 to 3.
TARGET_SL = 4

# QueryAdjust's UpDn.
UP, STAY, DOWN = 0b110, 0b000, 0b011


# Select's mask is bits; the pointer counts bits.
def select(target, action, bank, pointer, mask, truncate=0, e=1):
    return sealed("1010" + field_bits(target, 3) + field_bits(action, 3) + field_bits(bank, 2)
                  + ebv(pointer, e) + field_bits(len(mask), 8) + mask + field_bits(truncate, 1))


# Query; link is DR, M and TRext, which the tag reads over.
def query(q, session=0, target=0, sel=0, link=0):
    bits = ("1000" + field_bits(link, 4) + field_bits(sel, 2) + field_bits(session, 2)
            + field_bits(target, 1) + field_bits(q, 4))
    return bits + field_bits(crc5(bits), 5)


def query_adjust(session, updn):
    return "1001" + field_bits(session, 2) + field_bits(updn, 3)


def query_rep(session):
    return "00" + field_bits(session, 2)


def ack(number):
    return "01" + field_bits(number, 16)


def nak():
    return field_bits(0xC0, 8)


def req_rn(number):
    return sealed(field_bits(0xC1, 8) + field_bits(number, 16))


def read(bank, pointer, count, handle, e=1):
    return sealed(field_bits(0xC2, 8) + field_bits(bank, 2) + ebv(pointer, e)
                  + field_bits(count, 8) + field_bits(handle, 16))


# The value as it is to be stored; the cover is laid on here.
def write(bank, pointer, value, cover, handle, e=1):
    return sealed(field_bits(0xC3, 8) + field_bits(bank, 2) + ebv(pointer, e)
                  + field_bits(value ^ cover, 16) + field_bits(handle, 16))


def kill(half, cover, handle, spare=0):
    return sealed(field_bits(0xC4, 8) + field_bits(half ^ cover, 16)
                  + field_bits(spare, 3) + field_bits(handle, 16))


def lock(mask, action, handle):
    return sealed(field_bits(0xC5, 8) + field_bits(mask, 10) + field_bits(action, 10)
                  + field_bits(handle, 16))


def access(half, cover, handle):
    return sealed(field_bits(0xC6, 8) + field_bits(half ^ cover, 16) + field_bits(handle, 16))


def block_write(bank, pointer, words, handle, e=1):
    return sealed(field_bits(0xC7, 8) + field_bits(bank, 2) + ebv(pointer, e)
                  + field_bits(len(words), 8) + "".join(field_bits(w, 16) for w in words)
                  + field_bits(handle, 16))


def block_erase(bank, pointer, count, handle, e=1):
    return sealed(field_bits(0xC8, 8) + field_bits(bank, 2) + ebv(pointer, e)
                  + field_bits(count, 8) + field_bits(handle, 16))


# Reads where masks is None, else locks; count may be given for a reading.
def block_permalock(bank, pointer, handle, masks=None, count=None, rfu=0, e=1):
    locks = masks is not None
    count = len(masks) if locks else count
    return sealed(field_bits(0xC9, 8) + field_bits(rfu, 8) + ("1" if locks else "0")
                  + field_bits(bank, 2) + ebv(pointer, e) + field_bits(count, 8)
                  + "".join(field_bits(m, 16) for m in masks or ()) + field_bits(handle, 16))


# --------------------------------------------------------------------------
# Replies, as a tag sends them
# --------------------------------------------------------------------------

# To Req_RN, the new number; to Access and the first Kill, the handle.
def number_reply(number):
    return sealed(field_bits(number, 16))


# To ACK: the PC and words after it.
def pc_reply(words):
    return sealed("".join(field_bits(w, 16) for w in words))


# The success of a Read or a reading BlockPermalock; without words, that of a command that stores.
def success_reply(handle, words=()):
    return sealed("0" + "".join(field_bits(w, 16) for w in words) + field_bits(handle, 16))


def error_reply(code, handle):
    return sealed("1" + field_bits(code, 8) + field_bits(handle, 16))


# --------------------------------------------------------------------------
# List lines
# --------------------------------------------------------------------------

ENOUGH = 1000000


# Bits as bytes; the last byte is filled with 0 bits, or with 1 bits.
def pack(bits, fill="0"):
    size = -(-len(bits) // 8)
    return bytes(int(bits[8 * k:8 * k + 8].ljust(8, fill), 2) for k in range(size))


# Bytes as the lists write them.
def show(data):
    return bytes(data).hex() or "-"


def image_line(data):
    return "image " + show(data)


# A frame line for these bits; bytes and bit count may be given apart.
def frame_line(bits, fresh=0, room=64, s=ENOUGH, count=None, data=None):
    return "frame %d %s %04x %d %d" % (
        len(bits) if count is None else count,
        show(pack(bits) if data is None else data), fresh, room, s)


# A reply line of gate for these bits and this command; bytes and bit count may be given apart.
def reply_line(bits, command, count=None, data=None):
    return "reply %d %s %s" % (len(bits) if count is None else count,
                               show(pack(bits) if data is None else data), command)
