#!/usr/bin/env python3
"""Writes what the program demo must write: its story told by the model, with frames from build.py.

The column of stores is taken from the list of stores that the model made, not from their number,
and so is the store that a cut tears.
"""

import build
import model

OLD = [3, 3, 6, 10, 24, 57, 0x1811]
NEW = [2, 3, 5, 12, 72, 0x1A25, 0]
HANDLE = 0xA5C3
ENOUGH = build.ENOUGH
HIGH, LOW = 0, 1

# The reader's Q, and the fresh words that the tag draws: at the Query, then at each QueryRep.
Q = 2
DRAWN = [0x7AD7, 0x2C90, 0xE41B, 0x613A]

FINDING = """\
A bench reader looks for the tag: a Query with Q = 2, then QueryReps until the tag replies. The tag
takes its slot from the low two bits of a random word, counts it down at each QueryRep, and replies
with a random word when it comes to 0. ACK brings the PC, the EPC and their CRC-16, Req_RN a handle.

"""

HEADING = """\
A gate writes a new loan entry over the old one by BlockWrite: seven words, 23 stores on the tag.
The power is cut after k of them, or inside the next one. A line without k is such a torn store:
its high byte is made and its low byte is not, and the torn word is shown as it stands. The low
byte alone is tried as well, and has a line where it leads the engine to another entry. The bank is
what the cut leaves in USER itself; then the reader powers up, and its layout engine reads the
entry through the port.

old entry  %s
new entry  %s

 k  stores made      torn  pending  bank   the engine reads                    verdict
"""


# Words as the lines show them.
def shown(words):
    return " ".join("%04x" % w for w in words)


# The worked image.
def start():
    return bytearray(build.Image().bytes())


# The radio frame of these bits, with power for s stores.
def send(image, session, bits, fresh, s):
    return model.radio_frame(image, session, len(bits), build.pack(bits), fresh, 64, s)


# The words of a reply.
def words_of(reply):
    return [int(reply[k:k + 16], 2) for k in range(0, len(reply), 16)]


# Finds the tag of an image from power-up on: what was sent, and the answer to each.
def find(image):
    session = model.power_up(image, ENOUGH).session
    steps, drawn = [], iter(DRAWN)

    def step(name, bits, fresh):
        nonlocal session
        answer = send(image, session, bits, fresh, 0)
        steps.append((name, answer))
        session = answer.session
        return words_of(answer.reply)

    number = step("Query, Q = %d" % Q, build.query(Q), next(drawn))
    while not number:
        number = step("QueryRep", build.query_rep(0), next(drawn))
    step("ACK", build.ack(*number), 0)
    step("Req_RN", build.req_rn(*number), HANDLE)
    return steps


# Tells how the tag is found.
def tell_finding():
    print(FINDING, end="")
    line = "%-12s  %-12s  %4s  %s"
    print(line % ("sent", "state", "slot", "the tag replies"))
    steps = find(start())
    for name, answer in steps:
        slot = "-" if answer.session.slot is None else answer.session.slot
        print(line % (name, answer.session.state, slot, shown(words_of(answer.reply)) or "nothing"))
    pc, *epc, _ = words_of(dict(steps)["ACK"].reply)
    print("\nThe tag is found: PC %04x, EPC %s.\n" % (pc, shown(epc)))


# The gate writes the new entry with power for k stores; the stores made.
def gate(image, k):
    session = find(image)[-1][1].session
    frame = build.block_write(build.BANK_USER, 0, NEW, session.number)
    answer = send(image, session, frame, 0, k)
    assert answer.number == (11 if k < 3 * len(NEW) + 2 else 0)
    return answer.made


# The engine's words after a whole power-up.
def engine(image):
    session = model.power_up(image, ENOUGH).session
    session = model.ask(session).session
    return words_of(model.spi_read(image, session, 0, len(NEW), 2 * len(NEW)).reply)


# What a list of stores has come to.
def told(layout, made):
    work, user = layout.offset["WORK"], layout.offset["USER"]
    staging = [store for store in made if store[0] > work]
    counts = [value for offset, value in made if offset == work]
    words = [store for store in made if user <= store[0] < user + len(NEW)]
    assert len(staging) + len(counts) + len(words) == len(made)
    if counts == [len(NEW), 0]:
        return "finished"
    if words:
        return "words %d of %d" % (len(words), len(NEW))
    if counts:
        return "announced"
    if staging:
        return "staged %2d of %d" % (len(staging), 2 * len(NEW))
    return "nothing"


# Which entry some words are.
def seen(words):
    return "old" if words == OLD else "new" if words == NEW else "mixed"


VERDICTS = {"old": "old entry, whole", "new": "new entry, whole", "mixed": "MIXED"}


# The line of an image that a cut left, and what the engine sees.
def line(k, stores, torn, image, layout):
    bank = [model.section_word(image, layout, "USER", n) for n in range(len(NEW))]
    pending = model.pending_count(image, layout)
    words = engine(image)
    text = "%2s  %-15s  %4s  %7d  %-5s  %s  %s" % (
        k, stores, torn, pending, seen(bank), shown(words), VERDICTS[seen(words)])
    return text, seen(words)


# The cut after k stores.
def whole(k):
    image = start()
    layout = model.check_image(image)
    return line(k, told(layout, gate(image, k)), "", image, layout)


# The cut after k stores and one byte of the next.
def torn(k, half):
    image = start()
    layout = model.check_image(image)
    offset, value = gate(start(), k + 1)[k]
    gate(image, k)
    image[2 * offset + half] = value.to_bytes(2, "big")[half]
    byte = "%s byte of %2d" % ("low" if half else "high", k + 1)
    return line("", byte, "%04x" % model.word(image, offset), image, layout)


# The last lines.
def total(name, sights):
    print("%d cuts %s: %d old, %d new, %d mixed" % (
        len(sights), name, *(sights.count(sight) for sight in ("old", "new", "mixed"))))


def main():
    assert build.Image().user[:7] == OLD
    tell_finding()
    print(HEADING % (shown(OLD), shown(NEW)), end="")
    stores = len(gate(start(), ENOUGH))
    between, inside = [], []
    for k in range(stores + 1):
        text, sight = whole(k)
        print(text)
        between.append(sight)
        if k == stores:
            break
        (high, after_high), (low, after_low) = torn(k, HIGH), torn(k, LOW)
        print(high)
        if after_low != after_high:
            print(low)
        inside += [after_high, after_low]
    print()
    total("between stores", between)
    total("inside a store", inside)


if __name__ == "__main__":
    main()
