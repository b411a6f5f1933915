"""Which answers the rules allow, for each situation of a session and each command or call.

A list of its own, from the states, the order of refusals and what each command needs. selftest.py
and compare hold the hand list and the random lists to it: every pair with every answer it can have.
"""

import model

# The commands by what guards their frames.
UNGUARDED = ("QueryRep", "ACK", "QueryAdjust", "NAK")
INVENTORY = ("Query", "QueryAdjust", "QueryRep", "ACK", "Select")
COMMANDS = INVENTORY + ("NAK", "Req_RN", "Read", "Write", "Kill", "Lock", "Access", "BlockWrite",
                        "BlockErase", "BlockPermalock")
CALLS = ("power", "ask", "release", "register", "read", "write")
KINDS = COMMANDS + ("unknown code",) + CALLS

LINKED = ("open", "secured")

# The situations: a state, and in Open and Secured the waiting half and the cover number.
SITUATIONS = (("off", "ready", "arbitrate", "reply", "acknowledged")
              + tuple("%s%s%s" % (state, half, cover) for state in LINKED
                      for half in ("", " access", " kill") for cover in ("", " cover"))
              + ("killed",))


# The situation that a session of the model is in.
def situation_of(session):
    half = " " + model.NAMES[session.half[0]].lower() if session.half else ""
    return session.state + half + ("" if session.cover is None else " cover")


# Its state, its waiting half and whether it has a cover number.
def parts_of(situation):
    state, *rest = situation.split(" ")
    half = next((word for word in rest if word != "cover"), None)
    return state, half, "cover" in rest


# What a frame past 8 can be answered in a state outside Open and Secured.
UNLINKED = {
    "ready": {"Query": {0, 4}, "Select": {0, 9}},
    "arbitrate": {"Query": {0, 4}, "QueryAdjust": {0, 4, 9}, "QueryRep": {0, 4, 9}, "Select": {0, 9},
                  "NAK": {0}},
    "reply": {"Query": {0, 4}, "QueryAdjust": {0, 4, 9}, "QueryRep": {0, 9}, "ACK": {0, 4},
              "Select": {0, 9}, "NAK": {0}},
    "acknowledged": {"Query": {0, 4}, "QueryAdjust": {0, 9}, "QueryRep": {0, 9}, "ACK": {0, 4},
                     "Select": {0, 9}, "NAK": {0}, "Req_RN": {0, 4, 9}},
    "killed": {}}

# The same in Open and Secured: what goes to every tag, or takes part in no half.
LINKED_ALWAYS = {"Query": {0, 4}, "QueryAdjust": {0, 9}, "QueryRep": {0, 9}, "Select": {0, 9},
                 "NAK": {0}, "Req_RN": {0, 4, 9}}

# With no half waiting, the cover number there.
UNHALVED = {"ACK": {0, 4}, "Read": {0, 4, 9, 10}, "Write": {0, 4, 9, 10, 11}, "Kill": {0, 4, 9, 10},
            "Lock": {0, 4, 9, 10, 11}, "Access": {0, 4, 9}, "BlockWrite": {0, 4, 9, 10, 11},
            "BlockErase": {0, 4, 9, 10, 11}, "BlockPermalock": {0, 4, 9, 10, 11}}

# The command that a waiting half waits for, and what it can be answered: 12 where the password is wrong.
SECOND = {"access": ("Access", {0, 4, 9, 12}), "kill": ("Kill", {0, 4, 9, 11, 12})}


# What a frame past 8 can be answered in Open and Secured.
def linked_answers(state, half, cover, command):
    if command in LINKED_ALWAYS:
        return LINKED_ALWAYS[command]
    if command in ("Lock", "BlockPermalock") and state == "open":
        return {9}
    if command in ("Write", "Kill", "Access") and not cover:
        return {9}
    if half is None:
        return UNHALVED[command]
    second, answers = SECOND[half]
    if command == second:
        return answers                  # never 14: it breaks no halves
    if command == "ACK":
        return {0, 14}                  # another number; the handle
    return {9, 14}                      # never 12: no password is compared


# What a frame of this command can be answered.
def frame_answers(situation, command):
    state, half, cover = parts_of(situation)
    if state == "off":
        return {1, 2, 3, 5}
    answers = {1, 2, 3, 5, 7} | (set() if state in LINKED else {6})
    if command == "unknown code":
        return answers
    if command not in UNGUARDED:
        answers |= {8}
    if state in LINKED:
        return answers | linked_answers(state, half, cover, command)
    return answers | UNLINKED[state].get(command, {9})


# What another call can be answered.
def call_answers(situation, call):
    state = parts_of(situation)[0]
    if call == "power":
        return {0, 1, 2, 3, 11}
    imageless = call in ("ask", "release", "register")
    answers = {5} if state == "off" or not imageless else set()
    answers |= set() if imageless else {1, 2, 3}
    if state == "off":
        return answers
    if state in LINKED:
        return answers | {6}            # never granted there, so never held
    answers |= {0, 6}
    if call == "read":
        return answers | {4, 13}
    if call == "write":
        return answers | ({13} if state == "killed" else {11, 13})
    return answers


# What a frame of this command, or this call, can be answered.
def answers_of(situation, kind):
    return call_answers(situation, kind) if kind in CALLS else frame_answers(situation, kind)


# Every possible (situation, kind, answer).
POSSIBLE = [(situation, kind, answer) for situation in SITUATIONS for kind in KINDS
            for answer in sorted(answers_of(situation, kind))]


# --------------------------------------------------------------------------
# Reads of EPC
# --------------------------------------------------------------------------

# The Reads of EPC with WordCount 0 that end after word L + 1, by where the pointer lies; stale words are those behind.
IN_CODE = ("below L + 2, no stale word", "below L + 1, stale words", "at L + 1, stale words")

# These and the others with WordCount 0, and those with a count that begin below L + 2 and pass word L + 1; what each
# can be answered once it is past 9, 12 and 14.
EPC_READS = {**dict.fromkeys(IN_CODE, {0, 4}), "at L + 2": {0, 4}, "beyond L + 2": {0, 4},
             "at the bank's end": {4, 10}, "beyond the bank's end": {4, 10}, "a count past word L + 1": {0, 4}}


# Which of them a Read of EPC is, seeing L and the bank's count; None for any other.
def epc_read_of(pointer, word_count, length, bank_count):
    code_end = length + 2
    if word_count:
        return "a count past word L + 1" if pointer < code_end < pointer + word_count <= bank_count else None
    if pointer >= bank_count:
        return "at the bank's end" if pointer == bank_count else "beyond the bank's end"
    if pointer >= code_end:
        return "at L + 2" if pointer == code_end else "beyond L + 2"
    if code_end == bank_count:
        return "below L + 2, no stale word"
    return "at L + 1, stale words" if pointer + 1 == code_end else "below L + 1, stale words"


# What a line was as such a Read: (state before it, whether L is 0, which, answer), seeing the image; else None.
def epc_read_case(state, image, line, answer):
    if answer not in (0, 4, 10) or not line.startswith(b"frame "):
        return None
    count, data = line.split(b" ")[1:3]
    command = model.read_frame(int(count), model.read_hex(data))
    if command.code != model.READ or command.bank != "EPC":
        return None
    layout = model.read_layout(image)
    length = model.pc_length(model.section_word(image, layout, "EPC", 1))
    which = epc_read_of(command.pointer, command.count, length, layout.count["EPC"])
    return which and (state, length == 0, which, answer)


# Every possible one.
EPC_READ_CASES = [(state, empty, which, answer) for state in LINKED for empty in (True, False)
                  for which, answers in EPC_READS.items() for answer in sorted(answers)]
