#!/usr/bin/env python3
"""Counts what a reader must believe of the core: the lines of the definitions in specs/ that the promises of `image`, of `tag::power_up` and of
the methods of `tag::Session` reach, without comments, imports and empty lines; then what those of the depot reach besides, and those of `capi`, C's records.
Writes a line for each file, then the sum of each part; names what a file has that no promise reaches."""
import os
import re
import sys

CRATES = os.path.join(os.path.dirname(os.path.abspath(__file__)), "..", "crates")
FILES = """bits/Words bits/Bits bits/Below bits/First crc/Crc crc/Crc5 image/Layout image/Content image/Check ebv/Ebv frames/Message
frames/Frames replies/Replies replies/Pack stores/Stores rights/Rights states/Commands states/Inventory plans/Effects tag/Session
tag/Result tag/Table tag/Port tag/Power""".split()
PROMISED = {
    "image/Check": "check_of meaning",
    "stores/Stores": "change_stores",
    "tag/Session": "number_of",
    "tag/Result": "result_of first_of",
    "tag/Table": "frame_of",
    "tag/Port": "ask_of release_of register_of read_of write_of",
    "tag/Power": "power_up_of",
}
DEPOT_FILES = "readings/Reading depot/Limits depot/Making depot/Reading".split()
DEPOT_PROMISED = {"readings/Reading": "meaning", "depot/Making": "sent make_of", "depot/Reading": "read_of"}
C_FILES = "states/Numbers tag/Records capi/Told capi/Depot".split()
C_PROMISED = {
    "states/Numbers": "numbers_in",
    "tag/Records": "session_of in_numbers",
    "capi/Told": "told sheet_of",
    "capi/Depot": "command_of make_for read_for framed reply_of",
}
BEGINS = re.compile(r"(?:abbrev |unfoldable )?pub (?:record |data )?([A-Za-z][\w'-]*)(?: \(.*\))? : ")
CASE = re.compile(r"\s+([A-Za-z]\w*) :")
NAME = re.compile(r"(?:\b(\w+)\.)?([A-Za-z][\w'-]*)")


def lines_of(file):
    crate, name = file.split("/")
    with open(f"{CRATES}/{crate}/specs/{name}.antt", encoding="utf-8") as source:
        return [line.rstrip("\n") for line in source]


def read(file):
    """The definitions of a file, name to lines, and what its imports name."""
    defined, owner, named, folders, at = {}, {}, {}, {}, None
    for line in lines_of(file):
        brought = re.match(r"use Rattle\.(\w+)\.specs\.([\w.]+)\.\{(.*)\}", line)
        folder = re.match(r"use Rattle\.(\w+)\.specs\.([\w.]+) as (\w+)", line)
        if brought:
            for part in brought.group(3).split(","):
                first, *rest = part.split(" as ")
                named[(rest or [first])[-1].strip()] = (f"{brought.group(1)}/{brought.group(2)}", first.strip())
        elif folder:
            folders[folder.group(3)] = f"{folder.group(1)}/{folder.group(2)}"
        elif line.strip() and not line.strip().startswith("--") and not line.startswith(("use ", "pub mod")):
            body = line[2:] if re.match(r"  (abbrev|unfoldable) ", line) else line
            begins = BEGINS.match(body)
            if begins:
                at = begins.group(1)
                defined[at] = []
            if line.startswith("module "):
                at = "module"
            defined.setdefault(at, []).append(body)
            case = CASE.match(body)
            if case and defined[at][0].startswith("pub data"):
                owner[case.group(1)] = at
    return defined, owner, named, folders


def reach(known, todo):
    """What the names of todo lead to, as pairs of a file and a name."""
    seen = set()
    while todo:
        file, name = todo.pop()
        if (file, name) in seen or file not in known:
            continue
        defined, owner, named, folders = known[file]
        name = name if name in defined else owner.get(name)
        if name is None or (file, name) in seen:
            continue
        seen.add((file, name))
        for line in defined[name]:
            for folder, word in NAME.findall(line):
                if folder in folders:
                    todo.append((folders[folder], word))
                    continue
                # a part of a value: what stands before the point is a name too
                for each in folder, word:
                    if each in defined or each in owner:
                        todo.append((file, each))
                    elif each in named:
                        todo.append(named[each])
    return seen


def count(files, promised, what):
    """Prints the lines of the files that the promised names reach, and their sum."""
    known = {file: read(file) for file in files}
    todo = [(file, name) for file, names in promised.items() for name in names.split()]
    lost = [f"{file} {name}" for file, name in todo if name not in known[file][0]]
    if lost:
        sys.exit("believed: there is no definition " + ", ".join(lost))
    todo += [(file, "module") for file in files if "module" in known[file][0]]
    seen = reach(known, todo)
    total = 0
    for file in files:
        defined = known[file][0]
        reached = sum(len(body) for name, body in defined.items() if (file, name) in seen)
        others = " ".join(name for name in defined if (file, name) not in seen)
        total += reached
        print(f"{reached:4}  {file}" + (f"  (not reached: {others})" if others else ""))
    print(f"{total:4}  lines to believe {what}")


count(FILES, PROMISED, "of the core")
count(DEPOT_FILES, DEPOT_PROMISED, "of the depot besides")
count(C_FILES, C_PROMISED, "of C's records besides")
