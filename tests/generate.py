"""Random command lists that go deep.

The maker drives a model bench with every line it writes, and so knows the
session and the image that the next line meets: it can find a tag, carry it to
Open and Secured, send the right number, lay on the right cover, meet a room or a
cut to the byte, and then go wrong on purpose. Beside what it does by chance it
is given cases to bring about: a situation, a command or call, and its answer.
"""

import random

import build
import model
import possible
from build import BANK_EPC, BANK_RESERVED, BANK_TID, BANK_USER, ENOUGH, TARGET_SL, Image

# How many cases a list is given.
CASES = 32

# Which halves are wrong where a password is: the upper, the lower.
WRONG_HALVES = {(True, False): "upper", (False, True): "lower", (True, True): "both", (False, False): "none"}

# What can move L in the image held, and how; zeros make no code longer.
MOVERS = ("Write", "BlockWrite", "BlockErase", "power")
MOVES = ("longer", "shorter")
NEVER = ("BlockErase", "longer")


# The cases of a list with this number: each list of a seed has the next ones of one long row.
def cases_for(seed, number):
    row = list(possible.POSSIBLE)
    random.Random("cases/%d" % seed).shuffle(row)
    return [row[k % len(row)] for k in range(CASES * (number - 1), CASES * number)]


class Maker:
    """Makes one list of about so many lines."""

    def __init__(self, chance, length, cases=()):
        self.chance = chance
        self.length = length
        self.cases = list(cases)
        self.lines = []
        self.written = []
        self.situations = []            # before each line
        self.wrong = []                 # for each line, which halves were wrong, or None
        self.epc_reads = []             # for each line, which Read of EPC it was, or None
        self.moved = None               # what moved L last in the image held, and how
        self.after_moves = []           # the same, for each Read of EPC that meets it
        self.bench = model.Bench()
        self.slips = 4                  # of a hundred numbers, so many are wrong
        self.size = chance.choice(["smallest", "small", "small", "middle", "middle", "edge", "largest"])

    # ---------------------------------------------------------------- chances

    # True in so many of a hundred cases.
    def now_and_then(self, percent):
        return self.chance.random() * 100 < percent

    # One of these, each given with its weight.
    def one_of(self, *weighted):
        values, weights = zip(*weighted)
        return self.chance.choices(values, weights)[0]

    # A random word, the plain ones more often.
    def any_word(self):
        return self.one_of((self.chance.randrange(0x10000), 8), (0, 1), (0xFFFF, 1), (1, 1))

    # --------------------------------------------------------------- the line

    # Writes a line and brings the bench forward.
    def put(self, line):
        line = line if isinstance(line, bytes) else line.encode("ascii")
        before, length = self.session, self.code_length()
        self.lines.append(line)
        self.situations.append(possible.situation_of(before))
        self.written.append(self.bench.line(line))
        self.wrong.append(self.wrong_half(before, line))
        self.note_move(line, length)
        self.note_epc_read(before, line)

    # Where the line just written was answered 12: the state, the half that waited, and which were wrong. It is
    # asked of the words sent and of the image, not of the model's rule.
    def wrong_half(self, before, line):
        if self.bench.answer is None or self.bench.answer.number != 12:
            return None
        _, half, _ = possible.parts_of(possible.situation_of(before))
        sent = model.read_frame(*self.frame_of(line)).half
        if half is None or before.cover is None or sent is None:
            return None
        first = 2 if half == "access" else 0
        wrong = tuple(word != self.section_word("RESERVED", first + k)
                      for k, word in enumerate((before.half[1], sent ^ before.cover)))
        return before.state, half, WRONG_HALVES[wrong]

    # Keeps what moved L, seeing L before the line just written; another image lets it go.
    def note_move(self, line, length):
        if line.startswith(b"image "):
            self.moved = None
        elif self.code_length() != length:
            mover = "power" if line.startswith(b"power ") else model.NAMES[model.read_frame(*self.frame_of(line)).code]
            self.moved = mover, "longer" if self.code_length() > length else "shorter"

    # Keeps which Read of EPC the line just written was; and where it ended after word L + 1, what had moved L.
    def note_epc_read(self, before, line):
        answer = self.bench.answer.number if self.bench.answer else None
        case = possible.epc_read_case(before.state, self.bench.image, line, answer)
        self.epc_reads.append(case)
        if self.moved and case and answer == 0 and case[2] in possible.IN_CODE:
            self.after_moves.append(self.moved)

    # The bit count and the bytes of a frame line.
    @staticmethod
    def frame_of(line):
        count, data = line.split(b" ")[1:3]
        return int(count), model.read_hex(data)

    @property
    def session(self):
        return self.bench.session

    @property
    def state(self):
        return self.bench.session.state

    # The layout of the image held, or of the small image where it is none.
    def layout(self):
        try:
            return model.read_layout(self.bench.image)
        except model.Refused:
            return model.read_layout(Image().bytes())

    # A word of a section, 0 where the image has none.
    def section_word(self, section, n):
        at = self.layout().offset[section] + n
        return model.word(self.bench.image, at) if 2 * at + 2 <= len(self.bench.image) else 0

    # L, as it stands in the image held.
    def code_length(self):
        return model.pc_length(self.section_word("EPC", 1))

    # ----------------------------------------------------------------- images

    # Sizes: RESERVED, EPC, TID, USER, B, W.
    def sizes(self):
        chance = self.chance
        if self.size == "smallest":
            return 4, 2, 0, 0, chance.choice([1, 7, 4096]), 16
        if self.size == "small":
            return (4, chance.choice([2, 4, 4, 8]), chance.choice([0, 2]), chance.choice([16, 16, 40]),
                    chance.choice([1, 4, 5, 16]), 16)
        if self.size == "largest":
            return 64, 33, 64, 4096, chance.choice([16, 17, 512, 4096]), chance.choice([255, 255, 16, 100])
        if self.size == "edge":
            user = chance.choice([0, 1, 15, 16, 17, 255, 256, 257])
            return (chance.choice([4, 64]), chance.choice([2, 3, 33]), chance.choice([0, 1, 64]), user,
                    chance.choice([2, user or 1, 4096, 3]), chance.choice([16, 17, 255]))
        user = chance.randrange(0, 300)
        return (chance.randrange(4, 20), chance.randrange(2, 34), chance.randrange(0, 10), user,
                chance.randrange(max(1, -(-user // 256)), 20), chance.choice([16, 17, 20, 40]))

    # A lock word: pairs set now and then.
    def lock_word(self):
        if self.now_and_then(40):
            return 0
        lock = 0
        for shift in (8, 6, 4, 2, 0):
            lock |= self.one_of((0, 5), (1, 3), (2, 3), (3, 2)) << shift
        return lock

    # A password of two words.
    def password(self, zero_percent):
        if self.now_and_then(zero_percent):
            return [0, 0]
        return self.chance.choice([[self.any_word(), self.any_word()], [0, 1], [0x8000, 0],
                                   [self.any_word() | 1, self.any_word()]])

    # PERMA words for so many blocks.
    def perma_words(self, blocks):
        percent = self.one_of((0, 5), (10, 3), (50, 2), (100, 1))
        words = [0] * (-(-blocks // 16))
        for block in range(blocks):
            if self.now_and_then(percent):
                words[block // 16] |= 0x8000 >> block % 16
        return words

    # A good image's contents.
    def good_image(self):
        reserved, epc, tid, user, block_size, pairs = self.sizes()
        word = self.any_word
        image = Image(
            block_size=block_size, lock=self.lock_word(), killed=1 if self.now_and_then(4) else 0,
            reserved=self.password(20) + self.password(55) + [word() for _ in range(reserved - 4)],
            epc=[word(), 0] + [word() for _ in range(epc - 2)],
            tid=[word() for _ in range(tid)], user=[word() for _ in range(user)],
            perma=self.perma_words(-(-user // block_size)), pairs=pairs)
        if image.perma and self.now_and_then(10):
            image.lock = image.lock & 0x3FC | 0b01
            image.perma[0] |= 0x8000
        image.epc[1] = self.pc(epc, good=True)
        image.work = [(word(), word()) for _ in range(pairs)]
        if self.now_and_then(18):
            self.add_pending(image)
        return image

    # A PC whose L fits this EPC count, or lies about the limit.
    def pc(self, epc_count, good=False):
        limit = min(31, epc_count - 2)
        length = self.chance.choice([0, limit, self.chance.randrange(limit + 1)])
        if not good and self.now_and_then(50):
            length = min(31, max(0, limit + self.chance.choice([0, 1, 1, 2, 31])))
        return length << 11 | self.chance.randrange(0x800)

    # Good pending pairs.
    def add_pending(self, image):
        image.pending = self.chance.choice([1, 2, 3, image.pairs, self.chance.randrange(1, image.pairs + 1)])
        for k in range(image.pending):
            image.work[k] = self.pending_pair(image)

    # One good pending pair.
    def pending_pair(self, image):
        chance = self.chance
        section = self.one_of((build.STATUS, 1), (build.RESERVED, 2), (build.EPC, 3), (build.USER, 5),
                              (build.PERMA, 1))
        words = image.sections()[section]
        if not words:
            section, words = build.RESERVED, image.reserved
        n = chance.randrange(len(words))
        value = self.any_word()
        if section == build.STATUS:
            value = self.lock_word() if n == 0 else int(self.now_and_then(20))
        elif section == build.EPC and n == 1:
            value = self.pc(len(image.epc), good=True)
        elif section == build.PERMA:
            value = self.perma_words(-(-len(image.user) // image.block_size))[n]
        return image.place(section) + n, value

    # A good image with one rule broken.
    def damaged_image(self):
        image = self.good_image()
        breakers = [self.break_length, self.break_header_word, self.break_count, self.break_count, self.break_status,
                    self.break_epc, self.break_perma, self.break_pending, self.break_pending]
        return self.chance.choice(breakers)(image)

    def break_length(self, image):
        data, chance = image.bytes(), self.chance
        return chance.choice([data[:chance.randrange(32)], data[:31], data[:32], data[:-1], data[:-2],
                              data[:chance.randrange(len(data))], (data + b"\0")[:9604],
                              (data + b"\0\0")[:9604], b""])

    def break_header_word(self, image):
        words = image.words()
        place = self.chance.randrange(16)
        words[place] = self.chance.choice([words[place] + 1, words[place] - 1, 0, 0xFFFF,
                                           self.any_word()]) & 0xFFFF
        return build.bytes_of_words(words)

    # A whole image, a section too short or too long.
    def break_count(self, image):
        chance = self.chance
        which = chance.randrange(10)
        if which == 0:
            image.reserved = chance.choice([0, 3, 65]) * [0]
        elif which == 1:
            image.epc = chance.choice([0, 1, 34]) * [0]
        elif which == 2:
            image.tid = 65 * [0]
        elif which == 3:
            image.block_size, image.user, image.perma = 17, 4097 * [0], 16 * [0]
            image.reserved, image.tid, image.epc, image.pairs, image.work = 4 * [0], [], [0, 0], 16, []
        elif which == 4:
            image.block_size, image.user, image.perma = 1, 257 * [0], 17 * [0]
        elif which == 5:
            image.perma = chance.choice([image.perma + [0], image.perma[:-1]])
        elif which == 6:
            image.pairs = chance.choice([0, 15, 256, 256])
            image.pending = 0
        elif which == 7:
            image.block_size = chance.choice([0, 4097])
        else:
            return self.one_more(image, build.WORK if which == 8 else build.STATUS)
        return image.bytes()

    # The image with a section one word longer, and the header that fits it.
    def one_more(self, image, section):
        words, end = image.words(), image.place(section) + len(image.sections()[section])
        words[3 + 2 * section] += 1
        for later in range(section + 1, 7):
            words[2 + 2 * later] += 1
        return build.bytes_of_words(words[:end] + [0] + words[end:])[:9604]

    def break_status(self, image):
        if self.now_and_then(50):
            image.lock |= 1 << self.chance.randrange(10, 16)
        else:
            image.killed = self.chance.choice([2, 3, 0x8000, 0xFFFF])
        return image.bytes()

    def break_epc(self, image):
        image.epc[1] = min(31, len(image.epc) - 1) << 11
        return image.bytes()

    def break_perma(self, image):
        blocks = -(-len(image.user) // image.block_size)
        if blocks % 16:
            image.perma[-1] |= self.chance.choice([1, 0x8000 >> blocks % 16])
        return image.bytes()

    def break_pending(self, image):
        chance = self.chance
        if self.now_and_then(10):
            image.pending = chance.choice([image.pairs + 1, 0xFFFF])
            return image.bytes()
        self.add_pending(image)
        if self.now_and_then(15):
            image.pending = image.pairs
            image.work = [self.pending_pair(image) for _ in range(image.pairs)]
        tid, work = image.place(build.TID), image.place(build.WORK)
        end = work + 1 + 2 * image.pairs
        perma = image.place(build.PERMA)
        image.work[chance.randrange(image.pending)] = chance.choice([
            (chance.randrange(16), 0), (15, 0), (tid, 0), (max(tid, image.place(build.USER) - 1), 0),
            (work, 0), (end - 1, 0), (end, 0), (0xFFFF, 0), (16, 0x0400), (16, 0xFFFF), (17, 2),
            (image.place(build.EPC) + 1, 0xFFFF if len(image.epc) < 33 else 0),
            (image.place(build.EPC) + 1, min(31, len(image.epc) - 1) << 11),
            (perma, 1), (perma + len(image.perma) - 1, 1)])
        return image.bytes()

    # A new good image, and a power-up as a rule.
    def new_image(self):
        self.put(build.image_line(self.good_image().bytes()))
        if self.now_and_then(15):
            self.put("check")
        if self.now_and_then(90):
            self.power()

    # A damaged image, and calls that meet it.
    def meet_damage(self):
        before = bytes(self.bench.image)
        for _ in range(self.chance.randrange(1, 6)):
            self.put(build.image_line(self.damaged_image()))
            self.put("check")
            for _ in range(self.chance.randrange(0, 3)):
                self.one_of((self.any_frame, 3), (self.spi_read, 1), (self.spi_write, 1), (self.power, 1),
                            (self.small_call, 1))()
        if self.now_and_then(40):
            self.put(build.image_line(before))
        else:
            self.new_image()

    # Another image under the session: one word changed, or another image.
    def change_image(self):
        if self.now_and_then(20):
            self.put(build.image_line(self.good_image().bytes()))
            return
        image, layout = bytearray(self.bench.image), self.layout()
        if len(image) < 2 * layout.offset["WORK"] + 2:
            return
        section, n, value = self.chance.choice([
            ("STATUS", 0, self.lock_word()), ("STATUS", 1, self.chance.choice([0, 1])),
            ("RESERVED", 0, 0), ("RESERVED", 1, 0), ("RESERVED", 2, 0), ("RESERVED", 3, 0),
            ("RESERVED", 2, self.any_word()), ("RESERVED", 0, self.any_word()),
            ("WORK", 0, self.chance.choice([0, 0, 1])), ("EPC", 1, self.pc(layout.count["EPC"]))])
        model.put_word(image, layout.offset[section] + n, value)
        self.put(build.image_line(image))

    # ------------------------------------------------------- power and calls

    # How many stores a call is told, seeing how many it needs.
    def stores(self, need, cut_percent=10):
        if need and self.now_and_then(cut_percent):
            return self.chance.choice([need - 1, self.chance.randrange(need), self.chance.randrange(need)])
        return self.one_of((need, 3), (ENOUGH, 4), (need + 1, 1))

    # A power-up, cut now and then, and tried again.
    def power(self):
        need = len(model.power_up(bytearray(self.bench.image), ENOUGH).made)
        for _ in range(3):
            self.put("power %d" % self.stores(need, 25))
            if self.state != "off" or self.now_and_then(20):
                return

    # A call without an image, at any time.
    def small_call(self):
        self.put(self.one_of(("ask", 2), ("release", 2), ("register", 2), ("check", 1)))

    # ----------------------------------------------------------------- frames

    # A frame's answer if room and power sufficed.
    def foreseen(self, bits, fresh):
        try:
            return model.radio_frame(bytearray(self.bench.image), self.session, len(bits),
                                     build.pack(bits), fresh, 9604, ENOUGH)
        except model.Refused as refusal:
            return model.Answer(refusal.number, self.session)

    # The reply room, seeing how many bytes it needs.
    def room(self, need, small_percent=4):
        if need and self.now_and_then(small_percent):
            return self.chance.choice([need - 1, need - 1, 0, self.chance.randrange(need)])
        return self.one_of((need, 4), (need + 1, 2), (max(need, 8), 3), (min(9604, need + 60), 1))

    # Sends a frame, now and then spoilt; its room is too small, its power lost, in so many of a hundred cases.
    def send(self, bits, fresh=None, small_percent=4, cut_percent=10):
        fresh = self.any_word() if fresh is None else fresh
        if self.now_and_then(6):
            self.send_spoilt(bits, fresh)
            return
        answer = self.foreseen(bits, fresh)
        data = build.pack(bits, self.chance.choice("0001"))
        if self.now_and_then(3):
            data += bytes(self.chance.randrange(256) for _ in range(self.chance.randrange(1, 4)))
        self.put(build.frame_line(bits, fresh, self.room(-(-len(answer.reply) // 8), small_percent),
                                  self.stores(len(answer.made), cut_percent), data=data))

    # Sends a frame with length, code, CRC or bit count wrong.
    def send_spoilt(self, bits, fresh):
        chance = self.chance
        if not bits:
            bits = "0"
        place = chance.randrange(len(bits))
        flipped = bits[:place] + "10"[int(bits[place])] + bits[place + 1:]
        body = bits[:-16] if len(bits) > 16 else bits
        count, data = None, None
        kind = chance.randrange(10)
        if kind in (0, 1, 2):
            bits = flipped
        elif kind == 3:
            bits = bits[:-chance.choice([1, 8, 16, chance.randrange(1, len(bits) + 1)])]
        elif kind == 4:
            bits = bits + chance.choice([1, 7, 8, 16, 32]) * chance.choice("01")
        elif kind == 5:
            data = build.pack(bits)
            count = 8 * len(data) + chance.choice([1, 8, 900000])
        elif kind == 6:
            data = build.pack(bits)[:-1]
        elif kind == 7:
            code = chance.choice([0xBF, 0xCA, 0xCB, 0x00, 0xFF, 0xC0, 0xB0, 0xA0, 0x90, 0x80, chance.randrange(256)])
            bits = build.sealed(build.field_bits(code, 8) + body[8:])
        elif kind == 8:
            bits = build.sealed(body + chance.choice([1, 8, 16]) * "0")
        else:
            bits = build.sealed(body[:-chance.choice([1, 8, 16])]) if len(body) > 24 else bits[:place]
        self.put(build.frame_line(bits, fresh, 64, ENOUGH, count, data))

    # The number that the session holds, or another in its place.
    def number(self, wrong_percent=None):
        right = self.session.number
        if right is None or self.now_and_then(self.slips if wrong_percent is None else wrong_percent):
            return self.chance.choice([(right or 0) ^ 1, self.any_word(), (right or 0) ^ 0x8000])
        return right

    # The cover at hand, or a guess where there is none.
    def cover(self):
        return self.any_word() if self.session.cover is None else self.session.cover

    # How many pointer bytes: as few as go, or leading zero groups, or too many.
    def groups(self):
        return self.one_of((1, 85), (2, 7), (3, 6), (4, 2))

    # A bank, and a pointer into it or about its end.
    def place(self):
        weights = {BANK_RESERVED: 3, BANK_EPC: 4, BANK_TID: 1.5, BANK_USER: 7}
        bank = self.one_of(*((bank, weight if self.bank_count(bank) else 0.5)
                             for bank, weight in weights.items()))
        return bank, self.pointer(self.bank_count(bank))

    def bank_count(self, bank):
        return self.layout().count[model.BANKS[bank]]

    def pointer(self, count):
        chance = self.chance
        inside = chance.randrange(count) if count else 0
        return self.one_of((inside, 50), (0, 10), (min(1, count), 12), (min(2, count), 8),
                           (max(0, count - 1), 8), (count, 4), (count + 1, 1), (127, 0.5), (128, 0.5),
                           (16384, 0.5), (0x1FFFFF, 0.5), (max(0, count - chance.randrange(1, 20)), 8))

    # A count of words from a pointer on.
    def span(self, pointer, count):
        chance = self.chance
        left = max(0, min(255, count - pointer))
        pairs = self.layout().pairs
        return self.one_of((1, 5), (min(left, chance.randrange(1, 5)), 10), (left, 4), (min(255, left + 1), 1.5),
                           (min(pairs, left), 4), (min(255, pairs), 0.5), (min(255, pairs + 1), 0.5),
                           (min(255, pairs + 1, left), 4), (chance.randrange(256), 0.5), (0, 0.7))

    def read_bits(self):
        bank, pointer = self.place()
        count = self.one_of((0, 2), (self.span(pointer, self.bank_count(bank)), 6))
        return build.read(bank, pointer, count, self.number(), self.groups())

    # A value to write at a place: about the limit of L where it is a PC.
    def value(self, bank, pointer):
        if bank == BANK_EPC and pointer == 1:
            return self.pc(self.bank_count(bank))
        return self.any_word()

    def write_bits(self):
        bank, pointer = self.place()
        return build.write(bank, pointer, self.value(bank, pointer), self.cover(), self.number(), self.groups())

    def block_write_bits(self):
        bank, pointer = self.place()
        count = self.span(pointer, self.bank_count(bank))
        words = [self.value(bank, pointer + k) for k in range(count)]
        return build.block_write(bank, pointer, words, self.number(), self.groups())

    def block_erase_bits(self):
        bank, pointer = self.place()
        return build.block_erase(bank, pointer, self.span(pointer, self.bank_count(bank)), self.number(),
                                 self.groups())

    def lock_bits(self):
        chance = self.chance
        bits = [1 << chance.randrange(10) for _ in range(4)]
        mask = self.one_of((bits[0], 4), (bits[0] | bits[1], 2), (chance.randrange(1024), 2),
                           (0b11 << 2 * chance.randrange(5), 3), (0, 1), (0x3FF, 1), (0b11, 2), (0b10, 1),
                           (0b01, 1))
        now = self.section_word("STATUS", 0) & 0x3FF
        action = self.one_of((chance.randrange(1024), 4), (mask, 2), (now, 2), (now ^ bits[2], 2), (0, 1),
                             (now | bits[2] | bits[3], 2), (mask & 0x2AA, 2), (mask & 0x155, 1))
        if now & 0b11 == 0b01 and self.now_and_then(25):
            mask, action = chance.choice([0b10, 0b01, 0b11]), now
        return build.lock(mask, action, self.number())

    def block_permalock_bits(self):
        chance, layout = self.chance, self.layout()
        count = layout.count["PERMA"]
        pointer = self.one_of((0, 6), (chance.randrange(count + 1), 3), (count, 1), (0x1FFFFF, 0.3))
        left = max(0, count - pointer)
        extent = self.one_of((1, 5), (left, 4), (min(255, left + 1), 1), (chance.randrange(256), 0.3), (0, 0.5))
        bank = self.one_of((BANK_USER, 20), (chance.randrange(3), 1))
        rfu = self.one_of((0, 25), (chance.choice([1, 0x80, 0xFF]), 1))
        masks = None
        if self.now_and_then(60):
            masks = [self.perma_mask(layout, pointer + k) for k in range(extent)]
        return build.block_permalock(bank, pointer, self.number(), masks, extent, rfu, self.groups())

    # A mask for a PERMA word: bits of blocks that exist, or one too many.
    def perma_mask(self, layout, n):
        existing = model.existing_bits(layout, n)
        mask = self.chance.choice([0, self.any_word(), 0x8000, 1 << self.chance.randrange(16)]) & existing
        if self.now_and_then(15):
            mask |= self.chance.choice([1, ~existing & 0xFFFF, ~existing & existing >> 1])
        return mask

    # A half of the password that stands at this RESERVED word: the right one, or any.
    def some_half(self, first):
        right = self.section_word("RESERVED", first + (self.session.half is not None))
        return self.one_of((right, 1), (self.any_word(), 1))

    def access_bits(self, half=None):
        return build.access(self.some_half(2) if half is None else half, self.cover(), self.number())

    def kill_bits(self, half=None):
        return build.kill(self.some_half(0) if half is None else half, self.cover(), self.number(),
                          self.chance.randrange(8))

    def req_rn_bits(self):
        return build.req_rn(self.number())

    # ---------------------------------------------------- the inventory's five

    # A session number: that of the round as a rule, or any.
    def session_number(self):
        if self.session.round is None or self.now_and_then(self.slips):
            return self.chance.randrange(4)
        return self.session.round.session

    # A fresh word whose low Q bits are 0 or few, or any.
    def slot_word(self, q):
        high = self.any_word() >> q << q
        return self.one_of((high, 5), (high | self.chance.randrange(4) & (1 << q) - 1, 5), (self.any_word(), 2))

    # The target that a tag with these flags has in a Query, as it stands then.
    def right_target(self, session):
        flags = self.session.flags or model.Flags()
        is_b = flags.inventoried[session] == "B"
        turned = self.state in model.FOUND and self.session.round.session == session
        return int(is_b != turned)

    # A Query, matching as a rule, and the fresh word for it.
    def query_bits(self, match_percent=75):
        chance = self.chance
        session = self.one_of((self.session_number(), 2), (chance.randrange(4), 2), (0, 1))
        target = self.right_target(session) ^ (not self.now_and_then(match_percent))
        sl = self.session.flags is not None and self.session.flags.sl
        sel = self.one_of((0, 3), (1, 2), (3 if sl else 2, 4), (2 if sl else 3, 0.6))
        q = self.one_of((0, 4), (1, 3), (2, 3), (3, 1), (15, 1), (14, 0.5), (chance.randrange(16), 4))
        return build.query(q, session, target, sel, chance.randrange(16)), self.slot_word(q)

    def query_adjust_bits(self):
        updn = self.one_of((build.UP, 3), (build.STAY, 2), (build.DOWN, 3), (self.chance.randrange(8), 3))
        q = self.session.round.q if self.session.round else self.chance.randrange(16)
        return build.query_adjust(self.session_number(), updn), self.slot_word(min(15, q + 1))

    def query_rep_bits(self):
        return build.query_rep(self.session_number()), self.any_word()

    def ack_bits(self):
        return build.ack(self.number()), self.any_word()

    # The bits of a bank of the image held, as many as the header says.
    def bank_bits(self, bank):
        layout, name = self.layout(), model.BANKS[bank]
        data = bytes(self.bench.image[2 * layout.offset[name]:2 * (layout.offset[name] + layout.count[name])])
        return model.bits_of_bytes(data).ljust(16 * layout.count[name], "0")

    # A mask and its pointer: right, nearly right, past the bank's end, of no bits, or any.
    def mask_at(self, bank):
        chance, bits = self.chance, self.bank_bits(bank)
        size = len(bits)
        pointer = chance.randrange(size) if size else 0
        pointer = self.one_of((pointer, 4), (pointer // 16 * 16, 3), (min(16, max(0, size - 1)), 2),
                              (max(0, size - chance.randrange(1, 40)), 3), (0, 1))
        length = chance.choice([chance.randrange(1, 20), chance.randrange(1, 20), 16, 32, chance.randrange(256), 255])
        mask = bits[pointer:pointer + length]
        kind = self.one_of(("right", 8), ("near", 4), ("past", 3), ("none", 3), ("any", 1))
        if kind == "near" and mask:
            place = chance.choice([0, len(mask) - 1, chance.randrange(len(mask))])
            mask = mask[:place] + "10"[int(mask[place])] + mask[place + 1:]
        elif kind == "past":
            pointer = max(0, size - chance.choice([0, 1, 8, 16, chance.randrange(200)]))
            mask = bits[pointer:] + chance.choice([1, 1, 8, 16]) * chance.choice("01")
        elif kind == "none":
            pointer = chance.choice([pointer, 0, max(0, size - 1), size, size, size + 1, size + 16, 0x1FFFFF])
            mask = ""
        elif kind == "any":
            pointer = chance.choice([pointer, 127, 128, 16383, 16384, chance.randrange(1 << 21)])
            mask = "".join(chance.choice("01") for _ in range(length))
        return pointer, mask[:255]

    def select_bits(self):
        chance = self.chance
        bank = self.one_of((BANK_EPC, 6), (BANK_TID, 2), (BANK_USER, 4), (BANK_RESERVED, 0.3))
        target = self.one_of((chance.randrange(4), 5), (TARGET_SL, 4), (chance.randrange(5, 8), 0.4))
        pointer, mask = self.mask_at(bank)
        return build.select(target, chance.randrange(8), bank, pointer, mask, int(self.now_and_then(3)),
                            self.one_of((1, 75), (2, 11), (3, 12), (4, 2))), self.any_word()

    # A frame of 0 to 9 bits, whatever they are.
    def short_frame(self):
        bits = "".join(self.chance.choice("01") for _ in range(self.chance.randrange(10)))
        data = build.pack(bits, self.chance.choice("01"))
        self.put(build.frame_line(bits, self.any_word(), self.chance.choice([0, 1, 2, 4]), ENOUGH, data=data))

    # Any of the five.
    def inventory_frame(self):
        make = self.one_of((self.query_bits, 4), (self.query_adjust_bits, 3), (self.query_rep_bits, 3),
                           (self.ack_bits, 2), (self.select_bits, 3))
        self.send(*make())

    # Some Selects in a row.
    def select_run(self):
        for _ in range(self.chance.randrange(1, 5)):
            self.send(*self.select_bits())

    # Some QueryAdjusts in a row.
    def adjust_run(self):
        for _ in range(self.chance.randrange(1, 4)):
            self.send(*self.query_adjust_bits())

    # QueryReps until the slot is 0, where that is near; and now and then one more.
    def count_down(self):
        near = self.session.slot if self.session.slot is not None and self.session.slot < 8 else 2
        for _ in range(near + self.now_and_then(10)):
            self.send(*self.query_rep_bits())

    # From any state to Acknowledged, as a rule.
    def find(self):
        self.send(*self.query_bits(95))
        if self.state == "arbitrate" and self.session.slot < 8 and self.now_and_then(80):
            self.count_down()
        if self.state == "reply":
            self.send(*self.ack_bits())

    # Any of the fifteen commands.
    def any_frame(self):
        make = self.one_of((self.req_rn_bits, 3), (self.read_bits, 3), (self.write_bits, 3),
                           (self.kill_bits, 2), (self.lock_bits, 2), (self.access_bits, 2),
                           (self.block_write_bits, 2), (self.block_erase_bits, 2),
                           (self.block_permalock_bits, 2), (build.nak, 0.4), (None, 8))
        if make is None:
            self.one_of((self.inventory_frame, 8), (self.short_frame, 1))()
        else:
            self.send(make())

    # A command that needs no cover.
    def plain_command(self):
        make = self.one_of((self.read_bits, 5), (self.lock_bits, 3), (self.block_write_bits, 4),
                           (self.block_erase_bits, 3),
                           (self.block_permalock_bits, 4 if self.layout().count["PERMA"] else 0.5))
        self.send(make())

    # A fresh cover number, as a rule by Req_RN with the handle.
    def take_cover(self):
        self.send(build.req_rn(self.number(2)))
        if self.now_and_then(4):
            self.send(build.req_rn(self.number(2)))

    # A Write with its cover, which now and then something else uses up.
    def covered_write(self):
        self.take_cover()
        if self.now_and_then(8):
            self.plain_command()
        self.send(self.write_bits())

    # Something between two halves.
    def interrupt(self):
        self.one_of((self.any_frame, 6), (self.plain_command, 2), (self.small_call, 1),
                    (self.change_image, 2), (self.power, 0.3), (lambda: self.send(build.nak()), 0.5))()

    # The halves of the access or the kill password, right as a rule.
    def halves(self, bits, section_first, wrong_percent):
        upper, lower = (self.section_word("RESERVED", section_first + k) for k in (0, 1))
        if self.now_and_then(wrong_percent):
            upper, lower = self.wrong_halves(upper, lower)
        self.take_cover()
        self.send(bits(upper))
        if self.now_and_then(15):
            self.interrupt()
        if self.now_and_then(95):
            self.take_cover()
        if self.now_and_then(12):
            self.interrupt()
        self.send(bits(lower))

    # Halves that do not make this password: the upper, the lower or both are others.
    def wrong_halves(self, upper, lower):
        which = self.one_of(("upper", 4), ("lower", 4), ("both", 2))
        return (upper if which == "lower" else self.other_half(upper, lower),
                lower if which == "upper" else self.other_half(lower, upper))

    # Another word than this half: one bit off, the password's other half, 0, or any.
    def other_half(self, half, partner):
        words = (half ^ 1, half ^ 0x8000, partner, 0, self.any_word())
        return self.chance.choice([word for word in words if word != half])

    # Whether a first Kill gets no error reply.
    def has_kill_password(self):
        return any(self.section_word("RESERVED", k) for k in (0, 1))

    # Makes a half wait, surely: this one, or the right one or any.
    def make_wait(self, bits, half=None):
        self.surely(build.req_rn(self.number(0)))
        slips, self.slips = self.slips, 0
        self.surely(bits(half))
        self.slips = slips

    # A waiting half, and one of the commands that break it. Write, Access and Kill have a cover number, the
    # others now and then.
    def broken_half(self):
        half, other = self.access_bits, self.kill_bits
        if self.has_kill_password() and self.now_and_then(60):
            half, other = other, half
        covered = [self.write_bits, other]
        plain = [self.ack_bits, self.read_bits, self.block_write_bits, self.block_erase_bits]
        if self.state == "secured":
            plain += [self.lock_bits, self.block_permalock_bits]
        breaks = self.chance.choice(2 * covered + 3 * plain + [self.ack_bits])
        self.make_wait(half)
        if breaks in covered or self.now_and_then(40):
            self.surely(build.req_rn(self.number(0)))
        made = breaks()
        self.send(*(made if isinstance(made, tuple) else (made,)))

    # Both halves of a password, one of them wrong or both.
    def wrong_password(self):
        bits, first = self.access_bits, 2
        if self.has_kill_password() and self.now_and_then(60):
            bits, first = self.kill_bits, 0
        upper, lower = self.wrong_halves(*(self.section_word("RESERVED", first + k) for k in (0, 1)))
        self.make_wait(bits, upper)
        self.surely(build.req_rn(self.number(0)))
        self.send(bits(lower))

    # The tag found surely, and brought to Open or Secured.
    def enter_surely(self):
        session = self.chance.randrange(4)
        self.surely(build.query(0, session, self.right_target(session)))
        for make in (build.ack, build.req_rn):
            self.surely(make(self.number(0)))

    # Some passwords in a row that fail, broken or wrong, the tag found again after each.
    def failing_run(self):
        for _ in range(self.chance.randrange(2, 7)):
            self.one_of((self.broken_half, 5), (self.wrong_password, 4))()
            if self.state in ("ready", "arbitrate"):
                self.enter_surely()
            if self.state not in possible.LINKED:
                return

    def access(self):
        self.halves(self.access_bits, 2, 12)

    def kill(self):
        self.halves(self.kill_bits, 0, 45)

    # ------------------------------------------------------------ Reads of EPC

    # A pointer into EPC: about word L + 1, about the bank's end, or any.
    def code_pointer(self):
        chance, count, code_end = self.chance, self.bank_count(BANK_EPC), self.code_length() + 2
        behind = chance.randrange(code_end, max(code_end, count) + 1)
        return self.one_of((0, 3), (1, 2), (2, 2), (chance.randrange(code_end), 3), (code_end - 1, 5), (code_end, 5),
                           (code_end + 1, 3), (behind, 4), (count - 1, 2), (count, 2), (count + 1, 1), (0x1FFFFF, 0.3))

    # A Read of EPC with WordCount 0; now and then of another bank, or with all words to the bank's end counted.
    def long_read(self):
        pointer = self.code_pointer()
        bank = self.one_of((BANK_EPC, 18), (BANK_TID, 1), (BANK_USER, 0.5), (BANK_RESERVED, 0.5))
        count = min(255, max(0, self.bank_count(bank) - pointer)) if self.now_and_then(10) else 0
        self.send(build.read(bank, pointer, count, self.number(), self.groups()), small_percent=18)

    # The PC written, alone or with words after it, or erased: another L as a rule.
    def move_length(self):
        count = self.bank_count(BANK_EPC)
        words = [self.pc(count, good=True)] + [self.any_word() for _ in range(self.chance.randrange(count - 1))]
        how = self.one_of(("Write", 3), ("BlockWrite", 3), ("BlockErase", 1))
        if how == "Write":
            self.take_cover()
            bits = build.write(BANK_EPC, 1, words[0], self.cover(), self.number(), self.groups())
        elif how == "BlockWrite":
            bits = build.block_write(BANK_EPC, 1, words, self.number(), self.groups())
        else:
            bits = build.block_erase(BANK_EPC, 1, 1, self.number(), self.groups())
        self.send(bits, cut_percent=25)

    # The image held with L so small that stale words stand behind word L + 1, where EPC has room for any.
    def shorten_code(self):
        image, layout, chance = bytearray(self.bench.image), self.layout(), self.chance
        if len(image) < 2 * layout.offset["WORK"]:
            return
        most = max(0, layout.count["EPC"] - 3)
        length = chance.choice([0, most, chance.randrange(most + 1)])
        model.put_word(image, layout.offset["EPC"] + 1, length << 11 | chance.randrange(0x800))
        self.put(build.image_line(image))

    # Some Reads of EPC in a row, L moved between them; a tag that is lost on the way is found again.
    def long_reads(self):
        if self.now_and_then(60):
            self.shorten_code()
        for _ in range(self.chance.randrange(3, 9)):
            self.one_of((self.long_read, 5), (self.move_length, 1))()
            if self.state == "off":
                self.power()
            if self.state in ("ready", "arbitrate"):
                self.enter_surely()
            if self.state not in possible.LINKED:
                return

    # --------------------------------------------------------------- SPI port

    def spi_read(self):
        count_all = self.layout().count["USER"]
        offset = self.chance.choice([self.pointer(count_all), 0])
        count = self.one_of((self.span(offset, count_all), 8), (255, 1), (256, 1))
        self.put("read %d %d %d" % (offset, count, self.room(min(9000, 2 * count))))

    def spi_write(self):
        layout, chance = self.layout(), self.chance
        offset = chance.choice([self.pointer(layout.count["USER"]), 0])
        count = self.span(offset, layout.count["USER"])
        if self.now_and_then(80):
            count = min(count, layout.pairs)
        if self.now_and_then(1):
            count = 256
        data = bytes(chance.randrange(256) for _ in range(2 * count))
        if self.now_and_then(4):
            data = data[:-1] if data else b"\0"
        try:
            need = len(model.spi_write(bytearray(self.bench.image), self.session, offset, data, ENOUGH).made)
        except model.Refused:
            need = 5
        self.put("write %d %s %d" % (offset, build.show(data), self.stores(need, 20)))

    # The image held, with USER open to the port.
    def open_user(self):
        image, layout = bytearray(self.bench.image), self.layout()
        if len(image) < 2 * layout.offset["WORK"]:
            return
        for offset, value in ((layout.offset["STATUS"], self.section_word("STATUS", 0) & 0x3FC),
                              (layout.offset["RESERVED"] + 2, 0), (layout.offset["RESERVED"] + 3, 0)):
            model.put_word(image, offset, value)
        self.put(build.image_line(image))

    # A run at the port: asked for, used, released as a rule.
    def spi_run(self):
        if self.now_and_then(35):
            self.open_user()
        self.put("ask")
        for _ in range(self.chance.randrange(1, 8)):
            self.one_of((self.spi_read, 5), (self.spi_write, 7), (lambda: self.put("register"), 3),
                        (self.any_frame, 1), (self.small_call, 1), (self.change_image, 0.5))()
            if not self.session.held:
                break
        if self.now_and_then(85):
            self.put("release")

    # ----------------------------------------------------------- given cases

    # Brings a case about: a situation, and in it a command or call that is answered so.
    def bring_about(self, situation, kind, answer):
        self.reach(situation, kind, answer)
        if possible.situation_of(self.session) != situation:
            return
        if kind not in possible.CALLS:
            self.bring_frame(kind, answer)
        else:
            self.bring_call(kind, answer)
        if self.session.held and self.now_and_then(80):
            self.put("release")

    # An image on which the case can come about.
    def image_for(self, situation, kind, answer):
        state, half, _ = possible.parts_of(situation)
        size = self.size
        if size in ("smallest", "edge") and self.now_and_then(70) or size == "largest" and self.now_and_then(85):
            self.size = "small"
        image = self.good_image()
        while not image.user:
            self.size = "small"
            image = self.good_image()
        self.size = size
        image.pending, image.killed = 0, int(state == "killed")
        image.reserved[0:2] = [0, 0] if (kind, answer) == ("Kill", 10) else self.nonzero()
        image.reserved[2:4] = self.nonzero() if state == "open" else [0, 0]
        image.lock = 0
        image.perma = [0] * len(image.perma)
        if answer == 10:
            image.lock = self.lock_word() | self.chance.choice([0, 0x155, 0x100])
        return image

    # A password that is none of zeros.
    def nonzero(self):
        return self.chance.choice([[self.any_word() | 1, self.any_word()], [0, self.any_word() | 0x100]])

    # A frame with room and power enough.
    def surely(self, bits, fresh=None):
        fresh = self.any_word() if fresh is None else fresh
        room = -(-len(self.foreseen(bits, fresh).reply) // 8)
        self.put(build.frame_line(bits, fresh, room + self.chance.randrange(3), ENOUGH))

    # A new tag brought to this situation.
    def reach(self, situation, kind, answer):
        state, half, cover = possible.parts_of(situation)
        self.put(build.image_line(self.image_for(situation, kind, answer).bytes()))
        self.put("power %d" % (0 if state == "off" else ENOUGH))
        if state in ("off", "killed"):
            return
        while self.now_and_then(25):
            self.surely(*self.select_bits())
        if state == "ready":
            return
        session, q = self.chance.randrange(4), self.chance.choice([1, 2, 4, 14, 15, self.chance.randrange(1, 16)])
        slot = 0
        if state == "arbitrate":
            slot = 1 if (kind, answer) == ("QueryRep", 4) else self.chance.randrange(1, 1 << q)
        elif self.now_and_then(30):
            q = 0
        self.surely(build.query(q, session, self.right_target(session)), self.any_word() >> q << q | slot)
        if state in ("arbitrate", "reply"):
            return
        self.surely(build.ack(self.number(0)))
        if state == "acknowledged":
            return
        self.surely(build.req_rn(self.number(0)))
        if half:
            make, first = (self.access_bits, 2) if half == "access" else (self.kill_bits, 0)
            upper, lower = (self.section_word("RESERVED", first + k) for k in (0, 1))
            if answer == 12 and self.now_and_then(50):
                upper = self.other_half(upper, lower)
            self.make_wait(make, upper)
        if cover:
            self.surely(build.req_rn(self.number(0)))

    # An image for 1, 2, 3, or 5 in place of a good one.
    def image_refused(self, answer):
        image, chance = self.good_image(), self.chance
        image.pending = 0
        if answer == 1:
            return image.bytes()[:chance.choice([0, 31, chance.randrange(32)])]
        if answer == 2:
            return chance.choice([image.bytes()[:-2], image.bytes()[:-1], self.one_more(image, build.STATUS)])
        if answer == 3:
            return self.break_status(image)
        self.add_pending(image)
        return image.bytes()

    # Puts what it takes in front of a call that is answered so: another image, or the port asked for.
    # What stands instead of it afterwards is the image that stood before.
    def prepare(self, answer):
        before = bytes(self.bench.image)
        if answer in (1, 2, 3) or (answer == 5 and self.state != "off"):
            self.put(build.image_line(self.image_refused(answer)))
        return before

    def restore(self, before):
        if bytes(self.bench.image) != before and self.state != "off" and self.now_and_then(90):
            self.put(build.image_line(before))

    # The makers of frames, by the commands' names.
    def maker_of(self, kind):
        return {"Query": self.query_bits, "QueryAdjust": self.query_adjust_bits, "QueryRep": self.query_rep_bits,
                "ACK": self.ack_bits, "Select": self.select_bits, "NAK": build.nak, "Req_RN": self.req_rn_bits,
                "Read": self.read_bits, "Write": self.write_bits, "Kill": self.kill_bits, "Lock": self.lock_bits,
                "Access": self.access_bits, "BlockWrite": self.block_write_bits,
                "BlockErase": self.block_erase_bits, "BlockPermalock": self.block_permalock_bits,
                "unknown code": self.unknown_bits}[kind]

    # Bits that begin no code, or end before one.
    def unknown_bits(self):
        tail = "".join(self.chance.choice("01") for _ in range(self.chance.randrange(60)))
        return self.chance.choice(["", "0", "1", "10", "100", "101", "11", "1100000", "11001",
                                   *(bits + tail for bits in ("1011", "1101", "111", "1100101", "110011"))])

    # A frame of this command whose answer, room and power given, is this one; None if chance brings none.
    def bits_for(self, kind, answer):
        make = self.maker_of(kind)
        for _ in range(80):
            made = make()
            bits, fresh = made if isinstance(made, tuple) else (made, self.any_word())
            if answer == 7 and kind != "unknown code":
                bits = self.chance.choice([bits + "0", bits + "1", bits + 8 * "0", bits[:-1],
                                           bits[:self.chance.randrange(len(bits))]])
            elif answer == 8:
                place = len(bits) - self.chance.randrange(1, 6)
                bits = bits[:place] + "10"[int(bits[place])] + bits[place + 1:]
            found = self.foreseen(bits, fresh)
            if model.NAMES.get(model.code_of(bits), "unknown code") != kind:
                continue
            if answer == found.number or (answer == 4 and found.reply) or (answer == 11 and found.made):
                return bits, fresh, found
        return None

    def bring_frame(self, kind, answer):
        if answer == 6:
            self.put("ask")
        before = self.prepare(answer)
        slips, self.slips = self.slips, 50 if answer == 9 else self.slips
        made = self.bits_for(kind, answer)
        self.slips = slips
        if made:
            bits, fresh, found = made
            need, stores = -(-len(found.reply) // 8), len(found.made)
            room = self.chance.choice([need - 1, self.chance.randrange(need)]) if answer == 4 else need
            s = self.chance.choice([stores - 1, self.chance.randrange(stores)]) if answer == 11 else ENOUGH
            self.put(build.frame_line(bits, fresh, room, s, data=build.pack(bits, self.chance.choice("01"))))
        self.restore(before)

    def bring_call(self, call, answer):
        if call == "power":
            self.bring_power(answer)
            return
        holds = answer in (0, 4, 11, 13) if call != "ask" else answer == 6
        if holds and self.state not in ("off", "open", "secured"):
            self.put("ask")
        before = self.prepare(answer)
        most = max(1, min(16, self.layout().count["USER"]))
        count = 0 if answer == 13 else self.chance.randrange(1, most + 1)
        if call in ("ask", "release", "register"):
            self.put(call)
        elif call == "read":
            self.put("read 0 %d %d" % (count, 2 * count - (answer == 4)))
        else:
            data = bytes(self.chance.randrange(256) for _ in range(2 * count))
            s = self.chance.randrange(3 * count + 2) if answer == 11 else ENOUGH
            self.put("write 0 %s %d" % (build.show(data), s))
        self.restore(before)

    # A power-up that is answered so.
    def bring_power(self, answer):
        before = self.prepare(answer)
        need = len(model.power_up(bytearray(self.bench.image), ENOUGH).made)
        self.put("power %d" % (self.chance.randrange(need) if answer == 11 else need))
        if bytes(self.bench.image) != before and self.now_and_then(90):
            self.put(build.image_line(before))

    # -------------------------------------------------------------- bad lines

    # A line that is none, or just about one.
    def odd_line(self):
        chance = self.chance
        good = chance.choice([b"check", b"dump", b"power 3", b"frame 4 00 0000 2 9", b"ask", b"release", b"register",
                              b"read 0 1 4", b"write 0 1234 9", b"frame 8 c0 0000 4 9", b"image 00"])
        parts = good.split(b" ")
        spoil = chance.choice([0, 1, 2, 3, 4, 5, 5, 6, 7, 8, 9, 10, 10, 10, 11, 12])
        if spoil == 0:
            line = good + chance.choice([b" ", b" 0", b"\r", b"\t", b"\0", b" -", b"\xc3\xa9"])
        elif spoil == 1:
            line = chance.choice([b" ", b"\t", b"\xff", b"-"]) + good
        elif spoil == 2:
            line = b" ".join(parts[:-1])
        elif spoil == 3:
            line = good.upper()
        elif spoil == 4:
            line = b"  ".join(parts) if len(parts) > 1 else good + b"  "
        elif spoil == 5:
            parts[chance.randrange(len(parts))] = chance.choice(
                [b"", b"-", b"00", b"01", b"x", b"+1", b"-1", b"0x1", b"1e3", b"1000000", b"1000001", b"9604",
                 b"9605", b"1.", b"0A", b"abc", b"abcde", b"\xe4", b"99999999999999999999999"])
            line = b" ".join(parts)
        elif spoil == 6:
            line = chance.choice([b"", b"#", b"# note", b"#\xff\r\t", b" #", b"\r", b"#> answer 9"])
        elif spoil == 7 and self.now_and_then(40):
            line = chance.choice([b"#", b"#", b"#", b"x"]) * chance.choice([20000, 20001])
        elif spoil == 8 and self.now_and_then(15):
            line = b"write 0 " + b"ab" * chance.choice([9994, 9995]) + b" 1"
        elif spoil == 9 and self.now_and_then(15):
            line = b"image " + b"00" * chance.choice([9604, 9605])
        elif spoil == 10:
            line = chance.choice([
                b"power 1000001", b"power 01", b"frame 1000001 c0 0000 4 9", b"frame 8 c0 0000 9605 9",
                b"frame 8 c0 0000 9604 9", b"frame 8 c0 0000 4 1000001", b"frame 08 c0 0000 4 9",
                b"frame 8 c0 000 4 9", b"frame 8 c0 00000 4 9", b"frame 8 C0 0000 4 9", b"frame 8 - 0000 00 9",
                b"read 1000001 1 4", b"read 0 1000001 4", b"read 0 1 9605", b"read 0 01 4",
                b"read 1000000 1000000 0", b"write 1000001 00 9", b"write 0 00 1000001", b"write 0 0 9",
                b"admit", b"admit 1234", b"admit -", b"admit 00000"])
        elif spoil == 11:
            line = chance.choice([b"images 00", b"chec", b"c", b"frame", b"nak", b"image"])
        else:
            line = good[:chance.randrange(len(good))]
        before = bytes(self.bench.image)
        self.put(line)
        if bytes(self.bench.image) != before and self.now_and_then(80):
            self.put(build.image_line(before))

    # ------------------------------------------------------------ whole lists

    def in_off(self):
        self.one_of((self.power, 10), (self.any_frame, 1), (self.small_call, 1), (self.new_image, 1),
                    (self.spi_read, 0.3), (self.spi_write, 0.3))()

    # To Acknowledged, and on to Open or Secured.
    def enter(self):
        self.find()
        if self.now_and_then(10):
            self.one_of((self.any_frame, 3), (self.spi_run, 3), (self.small_call, 2),
                        (self.change_image, 1))()
        if self.state == "acknowledged":
            self.send(build.req_rn(self.number()))

    def in_ready(self):
        self.one_of((self.enter, 9), (self.spi_run, 3), (self.select_run, 1.5), (self.inventory_frame, 1),
                    (self.any_frame, 1), (self.small_call, 0.7), (lambda: self.send(build.nak()), 0.2))()

    def in_arbitrate(self):
        self.one_of((self.count_down, 4), (self.adjust_run, 1.5), (self.enter, 6), (self.spi_run, 2),
                    (self.inventory_frame, 1.5), (self.any_frame, 1), (self.small_call, 0.7),
                    (lambda: self.send(build.nak()), 0.4))()

    def in_reply(self):
        self.one_of((lambda: self.send(*self.ack_bits()), 8), (self.inventory_frame, 2), (self.adjust_run, 0.8),
                    (self.any_frame, 1), (self.spi_run, 0.7), (self.small_call, 0.5),
                    (lambda: self.send(build.nak()), 0.4))()

    def in_acknowledged(self):
        self.one_of((lambda: self.send(build.req_rn(self.number(15))), 8), (self.any_frame, 1),
                    (self.inventory_frame, 1.5), (self.spi_run, 1), (lambda: self.send(build.nak()), 0.4))()

    def in_open(self):
        self.one_of((self.access, 7), (self.covered_write, 7), (self.plain_command, 10), (self.kill, 0.8),
                    (self.failing_run, 2), (self.long_reads, 2), (self.any_frame, 1.2),
                    (lambda: self.send(*self.ack_bits()), 0.5), (lambda: self.send(build.nak()), 0.3),
                    (self.small_call, 0.6))()

    def in_secured(self):
        self.one_of((self.plain_command, 16), (self.covered_write, 8), (self.access, 1.5), (self.kill, 0.9),
                    (self.failing_run, 1.5), (self.long_reads, 1.2), (self.any_frame, 1.2),
                    (lambda: self.send(*self.ack_bits()), 0.5), (lambda: self.send(build.nak()), 0.4),
                    (self.small_call, 0.6))()

    def in_killed(self):
        self.one_of((self.new_image, 3), (self.spi_run, 4), (self.any_frame, 3), (self.small_call, 2),
                    (lambda: self.send(build.nak()), 1), (self.power, 1), (self.change_image, 0.5))()

    def in_held(self):
        self.one_of((lambda: self.put("release"), 5), (self.spi_write, 2), (self.spi_read, 2),
                    (self.any_frame, 1), (self.power, 0.5))()

    # Whether the image held is good, with nothing pending.
    def image_ready(self):
        try:
            layout = model.check_image(self.bench.image)
        except model.Refused:
            return False
        return model.pending_count(self.bench.image, layout) == 0

    # The whole list.
    def make(self):
        for _ in range(self.chance.randrange(3)):
            self.one_of((self.any_frame, 1), (self.small_call, 2), (self.spi_read, 1), (self.power, 1),
                        (lambda: self.put("dump"), 1))()
        self.new_image()
        while len(self.lines) < self.length:
            self.step()
        while self.cases:
            self.bring_about(*self.cases.pop())
        self.put("dump")
        return self.lines

    # The next few lines.
    def step(self):
        if self.now_and_then(3):
            self.odd_line()
        elif self.now_and_then(3):
            self.put("dump")
        elif self.now_and_then(2.5):
            self.new_image()
        elif self.now_and_then(1.5):
            self.meet_damage()
        elif self.now_and_then(1.5):
            self.change_image()
        elif self.cases and self.now_and_then(12):
            self.bring_about(*self.cases.pop())
        elif not self.image_ready() and self.now_and_then(60):
            self.one_of((self.new_image, 1), (self.power, 2))()
        elif self.session.held:
            self.in_held()
        else:
            getattr(self, "in_" + self.state)()
