#!/usr/bin/env python3
"""Tears stores: the power fails between the two bytes of a word (RULES D3).

The stores are those that the model made. Of each, one byte is made and the other is not, and so of
the stores of the power-ups that follow, in any number: every image that can come of it is visited.
A whole power-up then leaves the old words or the new ones.
"""

import random
from collections import namedtuple

import build
import model
from build import BANK_EPC, BANK_RESERVED, BANK_USER, ENOUGH, Image

NUMBER, HANDLE, COVER, LATER_COVER = 0x1234, 0xA5C3, 0x0F1E, 0x7B2D
KILL_PASSWORD = [0x4B49, 0x4C4C]

# What is tried: an image's bytes, and a call that stores something in them, with power for s stores.
Case = namedtuple("Case", "name image call")

# Where the power fails: after k whole stores, and after byte j of the image, which is one of the next
# store's, or None.
Cut = namedtuple("Cut", "k j")


# --------------------------------------------------------------------------
# Tearing
# --------------------------------------------------------------------------

# The numbers below n; of many only those at the ends, those beside the marked ones, and some between.
def places(n, marked):
    if n <= 64:
        return set(range(n))
    near = {m + d for m in (0, n - 1, *marked) for d in (-1, 0, 1)}
    return {k for k in near if 0 <= k < n} | set(range(0, n, 29))


# Each cut before the end of these stores, and the image that it leaves.
def cuts(image, stores, work):
    image, left = bytearray(image), []
    chosen = places(len(stores), [k for k, (offset, _) in enumerate(stores) if offset == work])
    for k, (offset, value) in enumerate(stores):
        if k in chosen:
            left.append((Cut(k, None), bytes(image)))
            for half, byte in enumerate(value.to_bytes(2, "big")):
                torn = bytearray(image)
                torn[2 * offset + half] = byte
                left.append((Cut(k, 2 * offset + half), bytes(torn)))
        model.put_word(image, offset, value)
    return left


# The bits that nothing may change: header, TID, permalocks that are set, USER words of permalocked blocks.
def fixed(image, layout):
    bits = bytearray(len(image))
    words = [*range(model.HEADER_WORDS), *range(layout.offset["TID"], layout.offset["USER"])]
    words += [layout.offset["USER"] + n for n in range(layout.count["USER"])
              if model.block_permalocked(image, layout, n)]
    for offset in words:
        model.put_word(bits, offset, 0xFFFF)
    model.put_word(bits, layout.offset["STATUS"],
                   model.lock_word(image, layout) & model.PERMALOCK_BITS)
    for offset in range(layout.offset["PERMA"], layout.offset["WORK"]):
        model.put_word(bits, offset, model.word(image, offset))
    return int.from_bytes(bits, "big")


class Sweep:
    """One case's cuts, and every image that they and cut power-ups can leave."""

    def __init__(self, case):
        self.start = case.image
        self.layout = model.check_image(self.start)
        self.work = self.layout.offset["WORK"]
        assert model.pending_count(self.start, self.layout) == 0
        self.torn = 0                   # how many torn cuts were made
        self.known = {}                 # by image, what powered() found
        done = bytearray(self.start)
        self.stores = case.call(done, ENOUGH).made
        self.done = bytes(done)
        self.old, self.new = (self.powered(image)[0] for image in (self.start, self.done))
        assert self.old != self.new, case.name

    # The images that cuts of these stores leave, and the last one; None if a fixed bit changes.
    def left(self, image, stores, last):
        left = cuts(image, stores, self.work) + [(Cut(len(stores), None), last)]
        self.torn += sum(cut.j is not None for cut, _ in left)
        bits, now = fixed(image, self.layout), int.from_bytes(image, "big")
        if any((int.from_bytes(later, "big") ^ now) & bits for _, later in left):
            return None
        return left

    # The words outside WORK after a whole power-up, and the images that its cuts leave; None if the
    # image breaks a rule, or a fixed bit changes.
    def powered(self, image):
        if image not in self.known:
            self.known[image] = self.power(image)
        return self.known[image]

    def power(self, image):
        after = bytearray(image)
        answer = model.power_up(after, ENOUGH)
        left = self.left(image, answer.made, bytes(after)) if answer.number == 0 else None
        if left is None:
            return None
        return bytes(after[:2 * self.work]), {later for _, later in left}

    # Whether power-ups, cut or whole, keep every image good, and each whole one leaves these words.
    def leads(self, image, words):
        reached, waiting = {image}, [image]
        while waiting:
            found = self.powered(waiting.pop())
            if found is None or found[0] != words:
                return False
            waiting += found[1] - reached
            reached |= found[1]
        return True

    # The cuts of the call that lead elsewhere than a rule says, which tells how many stores a cut is
    # worth: more than 2n make the new words. None if a fixed bit changes.
    def wrong(self, rule):
        n = len({offset for offset, _ in self.stores if offset < self.work})
        left = self.left(self.start, self.stores, self.done)
        if left is None:
            return None
        return [cut for cut, image in left
                if not self.leads(image, self.new if rule(cut, self.work) > 2 * n else self.old)]


# The rule: the low byte of the count is as good as the whole; and two that are wrong.
def low_decides(cut, work):
    return cut.k + (cut.j == 2 * work + 1)


def whole_alone(cut, work):
    return cut.k


def high_decides(cut, work):
    return cut.k + (cut.j == 2 * work)


# --------------------------------------------------------------------------
# Images and calls
# --------------------------------------------------------------------------

chance = random.Random(15)


# So many random words.
def some(n):
    return [chance.getrandbits(16) for _ in range(n)]


# What a frame is answered.
def heard(image, session, bits, fresh=0, s=ENOUGH):
    return model.radio_frame(image, session, len(bits), build.pack(bits), fresh, 64, s)


# A session in Secured with a handle and a cover number; one with half of the kill password, too.
def secured(image):
    image = bytearray(image)
    session = model.power_up(image, ENOUGH).session
    for bits, fresh in ((build.query(0), NUMBER), (build.ack(NUMBER), 0),
                        (build.req_rn(NUMBER), HANDLE), (build.req_rn(HANDLE), COVER)):
        session = heard(image, session, bits, fresh).session
    assert (session.state, session.number, session.cover) == ("secured", HANDLE, COVER)
    return session


def half_killed(image):
    session = heard(image, secured(image), build.kill(KILL_PASSWORD[0], COVER, HANDLE)).session
    return heard(image, session, build.req_rn(HANDLE), LATER_COVER).session


# The call that sends this frame.
def sending(session, bits):
    return lambda image, s: heard(image, session, bits, 0, s)


# The call that writes these words by SPI.
def spi(image, offset, words):
    session = model.ask(model.power_up(bytearray(image), ENOUGH).session).session
    return lambda image, s: model.spi_write(image, session, offset, build.bytes_of_words(words), s)


# The cases of an image whose USER words from `free` on may be written.
def cases(name, image, free, pc, lock, masks):
    data = image.bytes()
    session = secured(data)
    frames = {"Write USER": build.write(BANK_USER, free + 3, *some(1), COVER, HANDLE),
              "Write PC": build.write(BANK_EPC, 1, pc, COVER, HANDLE),
              "Write RESERVED": build.write(BANK_RESERVED, 2, *some(1), COVER, HANDLE),
              "BlockWrite EPC": build.block_write(BANK_EPC, 1, [pc] + some(2), HANDLE),
              "BlockErase": build.block_erase(BANK_USER, free, 5, HANDLE),
              "Lock": build.lock(*lock, HANDLE),
              "BlockPermalock": build.block_permalock(BANK_USER, 0, HANDLE, masks)}
    for n in (1, 2, 7, 16):
        frames["BlockWrite %d" % n] = build.block_write(BANK_USER, free, some(n), HANDLE)
    calls = {kind: sending(session, bits) for kind, bits in frames.items()}
    calls["Kill"] = sending(half_killed(data), build.kill(KILL_PASSWORD[1], LATER_COVER, HANDLE))
    calls["SPI"] = spi(data, 0, some(12))
    return {kind: Case("%s, %s" % (name, kind), data, call) for kind, call in calls.items()}


# The worked image.
WORKED = cases("worked", Image(), 0, 0x08AB, (0x3FF, 0b10_00_01_00_10), [0x5000])

# Leftovers in WORK and in EPC's CRC, no TID, blocks of odd size.
STALE = cases("stale", Image(
    block_size=3, reserved=KILL_PASSWORD + [0, 0], epc=[*some(1), 0x2012, *some(4)], tid=[],
    user=some(20), pairs=17, work=[some(2) for _ in range(17)]), 1, 0x19FF,
    (0b01_00_00_00_11, 0b01_00_00_00_10), [0xA200])

# Some permalocks, three of them of blocks, and two words of PERMA.
LOCKED = cases("locked", Image(
    block_size=2, lock=0b01_00_00_11_00, epc=[*some(1), 0x10FF, *some(2)], user=some(40),
    perma=[0x8001, 0x1000], pairs=20, work=[some(2) for _ in range(20)]), 2, 0x0000,
    (0b01_10_11_00_00, 0b01_10_01_00_00), [0x0180, 0xA000])

# As many words at once as there can be: the count FFh. Too many stores to try all.
WIDE = Image(block_size=16, user=some(300), perma=[0, 0], pairs=255,
             work=[some(2) for _ in range(255)]).bytes()
WIDEST = Case("wide, BlockWrite 255", WIDE,
              sending(secured(WIDE), build.block_write(BANK_USER, 20, some(255), HANDLE)))


# --------------------------------------------------------------------------
# That the sweep can fail
# --------------------------------------------------------------------------

# What the sweep finds where a call makes its stores in another order.
def found(case, order):
    def store_words(power, layout, words):
        work = layout.offset["WORK"]
        pairs = [(work + 1 + 2 * k + d, pair[d]) for k, pair in enumerate(words) for d in (0, 1)]
        for offset, value in order(pairs, [(work, len(words))], list(words), [(work, 0)]):
            power.store(offset, value)

    right, model.store_words = model.store_words, store_words
    try:
        return Sweep(case).wrong(low_decides)
    finally:
        model.store_words = right


# Each word made 0 before it is stored.
def blanked(words):
    return [store for offset, value in words for store in ((offset, 0), (offset, value))]


def able_to_fail():
    write, permalock = WORKED["Write USER"], LOCKED["BlockPermalock"]
    work = Sweep(write).work
    high, low = Cut(2, 2 * work), Cut(2, 2 * work + 1)
    assert Sweep(write).wrong(whole_alone) == [low]
    assert Sweep(write).wrong(high_decides) == [high, low]
    assert found(write, lambda pairs, count, words, end: pairs + count + words + end) == []
    assert found(write, lambda pairs, count, words, end: words + pairs + count + words + end)
    assert found(write, lambda pairs, count, words, end: pairs + words + count + end)
    assert found(write, lambda pairs, count, words, end: count + pairs + words + end)
    # a blanked word comes back, but a blanked permalock was off for a while
    assert found(write, lambda pairs, count, words, end: pairs + count + blanked(words) + end) == []
    assert found(permalock, lambda pairs, count, words, end: pairs + count + blanked(words) + end) is None


def main():
    able_to_fail()
    torn = 0
    for case in (*WORKED.values(), *STALE.values(), *LOCKED.values(), WIDEST):
        sweep = Sweep(case)
        wrong = sweep.wrong(low_decides)
        assert wrong == [], (case.name, wrong)
        torn += sweep.torn
    print("good: %d torn cuts, old or new each" % torn)


if __name__ == "__main__":
    main()
