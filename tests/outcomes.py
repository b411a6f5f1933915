"""What a line of gate can come to: every row of the table of answers, and every refusal by its reasons.

A list of its own, from the papers. compare --gate counts random lists by it, and
depottest.py holds the fixed list of gate to it: every outcome comes, and no other.
"""

import depot
import model

FORMS = tuple(depot.FORMS)

# What a reply to each command is read as.
SAYS = {"QueryRep": ("number",), "ACK": ("words",), "Query": ("number",), "QueryAdjust": ("number",), "Select": (),
        "NAK": (), "Req_RN": ("number",), "Read": ("words", "error"), "Write": ("done", "error"),
        "Kill": ("number", "done", "error"), "Lock": ("done", "error"), "Access": ("number",),
        "BlockWrite": ("done", "error"), "BlockErase": ("done", "error"),
        "BlockPermalock read": ("words", "error"), "BlockPermalock lock": ("done", "error")}

# The fields that can be beyond a command's limits.
BEYOND = {"QueryRep": "session", "ACK": "", "Query": "dr m trext sel session target q", "QueryAdjust": "session updn",
          "Select": "target action bank pointer length data", "NAK": "", "Req_RN": "", "Read": "bank pointer count",
          "Write": "bank pointer", "Kill": "", "Lock": "lock-mask lock-action", "Access": "",
          "BlockWrite": "bank pointer data", "BlockErase": "bank pointer count",
          "BlockPermalock read": "bank pointer range", "BlockPermalock lock": "bank pointer data"}

# The commands with a pointer.
POINTED = ("Select", "Read", "Write", "BlockWrite", "BlockErase", "BlockPermalock read", "BlockPermalock lock")

# What makes a reply one of another length, kind or handle, or one to a command that has none.
OTHER = {"QueryRep": ("length",), "ACK": ("length",), "Query": ("length",), "QueryAdjust": ("length",),
         "Select": ("none",), "NAK": ("none",), "Req_RN": ("length",), "Access": ("length", "handle")}
OTHER.update((form, ("length", "kind", "handle")) for form in FORMS if form not in OTHER)


# The outcomes of making.
def making():
    for form in FORMS:
        yield "make", form, "frame"
        yield "make", form, "refused 4", "room"
        for field in BEYOND[form].split():
            yield "make", form, "refused 9", field


# The outcomes of reading.
def reading():
    for form in FORMS:
        for kind in SAYS[form]:
            yield "read", form, kind
        for field in BEYOND[form].split():
            yield "read", form, "refused 9", field
        for reason in ("short", "past") if form in ("QueryRep", "Query", "QueryAdjust") else ("short", "past", "CRC"):
            yield "read", form, "refused 8", reason
        for reason in OTHER[form]:
            yield "read", form, "refused 15", reason


# The parts of lines by what they have to be, and those with a limit of their own.
WORD_PARTS = "number cover value half lock-mask lock-action WORD".split()
HEX_PARTS = "data HEX".split()
NUMBER_PARTS = ("bank pointer count range length target action dr m trext sel session q updn BITS ROOM S N").split()


# The reasons of bad lines.
def bad_lines():
    for reason in ("line too long", "unknown word", "number of parts", "neither read nor lock"):
        yield "bad", reason
    for parts, what in ((WORD_PARTS, "no word"), (HEX_PARTS, "no hex"), (NUMBER_PARTS, "no number"),
                        (NUMBER_PARTS, "above its limit")):
        for part in parts:
            yield "bad", "%s: %s" % (part, what)


# The lines that go through, and room.
def other_lines():
    for word in "image check power frame ask release register read write dump comment empty".split():
        yield "through", word
    yield "room", "room"


OUTCOMES = (*making(), *reading(), *bad_lines(), *other_lines())

# --------------------------------------------------------------------------
# Edges: values about the limits, which the outcomes do not tell apart
# --------------------------------------------------------------------------

POINTERS_MADE = (0, 127, 128, 16383, 16384, 2097151)
POINTERS_BEYOND = (2097152, 4294967295)
LENGTHS = (0, 1, 7, 8, 9, 255)
BLOCKS_MADE, BLOCKS_BEYOND = (2, 510), (0, 1, 511, 512)
WORDS_READ = (1, 255, 4096)
LONG_LINES = ("comment", "line of bench", "command", "reply")


# Every edge by its name.
def edges():
    for form in POINTED:
        for pointer in POINTERS_MADE:
            yield "%s at %d: frame" % (form, pointer)
        for pointer in POINTERS_BEYOND:
            yield "%s at %d: refused 9" % (form, pointer)
    for length in LENGTHS:
        yield "Select of %d bits: frame" % length
    yield "Select of 256 bits: refused 9"
    yield "Select with spare bits set: frame"
    yield "Select with a byte too few: refused 9"
    yield "Select with a byte too many: refused 9"
    for form in ("BlockWrite", "BlockPermalock lock"):
        for size in BLOCKS_MADE:
            yield "%s of %d bytes: frame" % (form, size)
        for size in BLOCKS_BEYOND:
            yield "%s of %d bytes: refused 9" % (form, size)
    for form, field in (("Read", "count"), ("BlockErase", "count"), ("BlockPermalock read", "range")):
        for value in (0, 1, 255, 256):
            made = value < 256 and (value or form == "Read")
            yield "%s with %s %d: %s" % (form, field, value, "frame" if made else "refused 9")
    for updn in range(9):
        yield "QueryAdjust with UpDn %d: %s" % (updn, "frame" if updn in (0, 3, 6) else "refused 9")
    for field in ("lock-mask", "lock-action"):
        yield "Lock with %s 03ff: frame" % field
        yield "Lock with %s 0400: refused 9" % field
    for length in range(32):
        yield "ACK, L = %d: words" % length
    for words in WORDS_READ:
        yield "Read with count 0, %d words: words" % words
    yield "Read with count 0, 0 words: refused 15"
    yield "Read with count 0, 4097 words: refused 15"
    yield "Read with count 255, 255 words: words"
    for form in FORMS:
        yield "%s for bench: frame" % form
        yield "%s in a room of its bytes: frame" % form
        yield "%s in a room one byte less: refused 4" % form
        if form not in ("QueryRep", "Query", "QueryAdjust"):
            yield "%s, 16 bits of 0: refused 15" % form
            yield "%s, 16 other bits: refused 8" % form
            yield "%s, a wrong CRC-16 and another length: refused 8" % form
        if BEYOND[form]:
            yield "%s beyond its limits, without room: refused 9" % form
            yield "%s beyond its limits, a reply of no bits: refused 9" % form
        for kind in SAYS[form]:
            yield "%s, bits and bytes past the count: %s" % (form, kind)
            yield "%s, the tag's own reply: %s" % (form, kind)
    for what in LONG_LINES:
        yield "%s of 20000 bytes" % what
        yield "%s of 20001 bytes: bad line" % what
    for size in (0, 9604):
        yield "room of %d bytes" % size
    yield "reply of 1000000 bits: refused 8"


EDGES = tuple(edges())


# What kind of line this is, for long lines.
def long_kind(text):
    word = text.split(b" ")[0]
    if text.startswith(b"#"):
        return "comment"
    if word in depot.BENCH_WORDS:
        return "line of bench"
    return "reply" if word == b"reply" else "command"


# The edges that a line met, seeing what it came to and the room it was made in.
def edges_met(text, brought, room):
    met = []
    if len(text) in (20000, 20001):
        met.append("%s of %d bytes%s" % (long_kind(text), len(text), ": bad line" if brought[0] == "bad" else ""))
    if brought[0] == "room":
        met.append("room of %d bytes" % room)
    if brought[0] not in ("make", "read"):
        return met
    words = text.split(b" ")
    command, three = depot.take_command(words if brought[0] == "make" else words[3:])
    if brought[0] == "make":
        found = made_edges(command, three, brought, room)
    else:
        found = read_edges(command, int(words[1]), model.read_hex(words[2]), brought)
    return met + ["%s: %s" % (edge, brought[2]) for edge in found]


# Those of a command, without what it came to.
def made_edges(command, three, brought, room):
    form, result = brought[1:3]
    reason = brought[3] if len(brought) > 3 else None
    yield from value_edges(command, reason)
    if result == "frame" and three:
        yield "%s for bench" % form
    if result == "refused 9" and room == 0:
        yield "%s beyond its limits, without room" % form
    elif result != "refused 9":
        size = -(-len(depot.frame_bits(command)) // 8)
        if size == room:
            yield "%s in a room of its bytes" % form
        if size == room + 1:
            yield "%s in a room one byte less" % form


# Those of a command's values, where it is made, or refused for this one.
def value_edges(command, reason):
    form, fields = command.form, command.fields
    if form in POINTED and reason in (None, "room", "pointer"):
        yield "%s at %d" % (form, fields["pointer"])
    if form == "Select" and reason in (None, "length", "data"):
        size, length = 8 * len(fields["data"]), fields["length"]
        yield "Select of %d bits" % length
        if reason == "data":
            yield "Select with a byte too few" if size < length else "Select with a byte too many"
        elif model.bits_of_bytes(fields["data"])[length:].strip("0"):
            yield "Select with spare bits set"
    elif "data" in fields and reason in (None, "data"):
        yield "%s of %d bytes" % (form, len(fields["data"]))
    for field in ("count", "range"):
        if field in fields and reason in (None, field):
            yield "%s with %s %d" % (form, field, fields[field])
    if "updn" in fields and reason in (None, "updn"):
        yield "QueryAdjust with UpDn %d" % fields["updn"]
    for field in ("lock-mask", "lock-action"):
        if field in fields and reason in (None, field):
            yield "Lock with %s %04x" % (field, fields[field])


# Those of a reply, without what it came to.
def read_edges(command, count, data, brought):
    form, result = brought[1:3]
    reason = brought[3] if len(brought) > 3 else None
    bits = model.bits_of_bytes(data)[:count]
    if result == "refused 9":
        if count == 0:
            yield "%s beyond its limits, a reply of no bits" % form
        return
    if count == 1000000:
        yield "reply of 1000000 bits"
    if reason in ("short", "past"):
        return
    if form not in depot.BARE and count == 16:
        yield "%s, 16 bits of 0" % form if bits == 16 * "0" else "%s, 16 other bits" % form
    elif reason == "CRC" and other_length(command, bits):
        yield "%s, a wrong CRC-16 and another length" % form
    if result.startswith("refused") and reason != "length":
        return
    if form == "ACK" and result == "words":
        yield "ACK, L = %d" % int(bits[:5], 2)
    if form == "Read" and count % 16 == 1:
        yield "Read with count %d, %d words" % (command["count"], (count - 33) // 16)
    spare = model.bits_of_bytes(data)[count:]
    if spare.strip("0") and len(spare) > 8:
        yield "%s, bits and bytes past the count" % form


# Whether a reply with a wrong CRC-16 would be refused for its length if it were right.
def other_length(command, bits):
    try:
        depot.BODIES[command.form](command, bits[:-16])
    except depot.Refused as refusal:
        return refusal.reason in ("length", "none")
    return False
