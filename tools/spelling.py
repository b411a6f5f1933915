#!/usr/bin/env python3
"""Brings the repository's own words to the library's spelling: definitions and fields in snake case.

Run once, at the top, after the kit's port.py. Lemmas keep the dash between two names.
    tools/spelling.py          rewrites specs/, proofs/, must-fail/ and the clauses of src/
    tools/spelling.py --list   lists the words and what they become, and the places where two words fall together
"""
import collections
import glob
import re
import sys

WORD = re.compile(r"[^\s(){}\[\].,;:λ⌜⌝`|*]+")
CAMEL = re.compile(r"^[a-z][A-Za-z0-9_'-]*$")

# words that would fall together with another one in the same file
OWN = {
    "epcBits": "select_epc",
    "epcOther": "select_epc_other",
    "tidBits": "select_tid",
    "userBits": "select_user",
    "noBank": "select_no_bank",
    "noFlag": "select_no_flag",
    "p12Stores": "port_stores",
}
# and fields that would
FIELDS = {
    "crates/demands/specs/Terms.antt": {"new-flags": "first_flags"},
    "crates/demands/proofs/Terms.antt": {"new-flags": "first_flags"},
    "crates/demands/specs/Met.antt": {"req-rn": "req_rn_plain"},
    "crates/demands/specs/Refusals.antt": {"power-up": "at_power_up"},
    "crates/demands/proofs/Refusals.antt": {"power-up": "at_power_up"},
    "crates/demands/proofs/Short.antt": {"power-up": "at_power_up"},
    "crates/capi/specs/Wrong.antt": {"power-stores": "powered_stores"},
}
# lemmas that the kit's script took for words of the library, beside siblings with a dash
DASHED = {"left_in": "left-in", "halves_in": "halves-in", "to_one": "to-one", "code_by": "code-by"}


def snake(word):
    return re.sub(r"([a-z0-9])([A-Z])", r"\1_\2", word).lower()


def sources():
    return sorted(glob.glob("crates/*/specs/**/*.antt", recursive=True) + glob.glob("crates/*/proofs/**/*.antt", recursive=True))


def bare(text):
    return re.sub(r"--.*", "", text)


def fields_of(text):
    """The names of the fields of a file's records."""
    inside = False
    for line in text.split("\n"):
        if re.match(r"(pub )?record ", line):
            inside = True
        elif re.match(r"\S", line):
            inside = False
        elif inside:
            m = re.match(r"\s+(?:pub )?([^\s:(){}]+) :\s", line)
            if m:
                yield m.group(1)


def mapping():
    camel, dashed = set(), set()
    for path in sources():
        text = bare(open(path).read())
        for word in WORD.findall(text):
            if CAMEL.match(word) and re.search(r"[a-z0-9][A-Z]", word):
                camel.add(word)
        if "/specs/" in path or re.search(r"/proofs/\w+\.antt$", path):
            dashed |= {f for f in fields_of(text) if "-" in f}
    turned = {w: OWN.get(w, snake(w)) for w in camel}
    turned.update({w: snake(w).replace("-", "_") for w in dashed})
    return turned


def turn(path, text, turned):
    """The text with its words turned; a dash in prose stays."""
    turned = {**turned, **FIELDS.get(path, {})}
    prose = {w: n for w, n in turned.items() if "-" not in w}
    mark = "--" if path.endswith(".antt") else "//"
    made = []
    for line in text.split("\n"):
        code, begun, comment = line.partition(mark)
        made.append(turned_in(code, turned) + begun + turned_in(comment, prose))
    return "\n".join(made)


def turned_in(text, turned):
    return WORD.sub(lambda m: turned.get(m.group(0), m.group(0)), text)


def dashes_back(path, text):
    if path in ("crates/states/proofs/ByNumber.antt", "crates/tag/proofs/ByNumber.antt", "crates/depot/proofs/Heard.antt"):
        for word, own in DASHED.items():
            text = re.sub(r"(?<![\w.'-])%s(?![\w'-])" % word, own, text)
    return text


# `result` is the returned value in a clause: the definition of that name is `result_of`, and clauses say `result`
def result_of(path, text):
    if path != "crates/tag/specs/Result.antt" and not re.search(r"Rattle\.tag\.specs\.Result\.\{[^}]*\bresult\b", text):
        return text
    return re.sub(r"(?<![.\w'-])result(?![\w'-])(?! =)", "result_of", text)


def clause(match):
    starred, binder, fact = match.groups()
    if binder != "_":
        fact = re.sub(r"(?<![.\w'-])%s(?![\w'-])" % binder, "result", fact)
    return "ensures { %s }" % fact


def without_binder(text):
    return re.sub(r"ensures(\*) \{ λ (\w+)\. ⌜ ([^\n]*) ⌝ \}", clause, text)


# the names under which src/ imports definitions beside functions of the same name
def aliases(text):
    return re.sub(r"\b[a-z]+Of\b|\bnoPlace\b", lambda m: snake(m.group(0)), text)


def clashes(turned):
    for path in sources():
        words = set(WORD.findall(dashes_back(path, bare(open(path).read()))))
        made = collections.defaultdict(list)
        for w in words & set(turned):
            made[turned[w]].append(w)
        for new, old in made.items():
            if len(old) > 1 or new in words:
                yield path, new, old


def main():
    turned = mapping()
    if not turned or sys.argv[1:] not in ([], ["--list"]):
        sys.exit("spelling.py: no word here is of the older spelling" if not turned else __doc__)
    if sys.argv[1:]:
        for old, new in sorted(turned.items()):
            print(old, new)
        for path, new, old in clashes(turned):
            print("together:", path, new, *old)
        return
    for path in sources() + sorted(glob.glob("crates/*/src/**/*.rt", recursive=True) + glob.glob("crates/*/must-fail/*.edit")):
        text = open(path).read()
        made = result_of(path, turn(path, dashes_back(path, text), turned))
        if path.endswith(".rt"):
            made = without_binder(aliases(made))
        if made != text:
            open(path, "w").write(made)


main()
