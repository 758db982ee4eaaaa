#!/usr/bin/env python3
"""Brings the repository's own definitions and lemmas to today's spelling. It is run once, right behind the kit's port.py.

usage: tools/respell.py [--dry]     at the repository's root

What is declared in specs/ and in the files right in proofs/ is respelled, wherever it stands:
  - a definition that answers a type is in upper camel case, as a record is: movesTo -> MovesTo
  - any other word is in snake case: byteOrder -> byte_order, andThen-same -> and_then_same
  - a dash joins two names, an underscore adds a plain word to a name; a part is a name if the repository or std declares it
    or if std puts it behind a dash more often than behind an underscore
A name stays where its new spelling is in use already in a file that has it, and that is said. Rust code, strings and comments of
.rt files are read for clauses alone.
"""
import collections
import os
import re
import sys

NAME = r"[^\s(){}.;,@\"«»]+"
LINE = re.compile(r"^( *)((?:(?:pub|abbrev|unfoldable|data|record|open|deriving|mutual) )*)(" + NAME + r")((?: [({].*?[)}])*) :(?!:)(.*)$")
# Several constructors of one type on a line.
GROUP = re.compile(r"^( +)(?:pub )?((?:" + NAME + r" )+)(" + NAME + r") : [^=]*$")
STD = ["/opt/rattle/rattle/std/specs", "/opt/rattle/rattle/std/proofs", "/opt/rattle/rattle/core/specs", "/opt/rattle/rattle/core/proofs"]
# What the rule would give is in use beside it.
CHOSEN = {"entryFound": "found_entry", "firstIndex": "first_index_of", "headIn": "head_part", "isFree": "is_free_cell", "rowCount": "row_count_of", "movesTo": "MovesForward", "movesOn": "MovesPast", "isDigit": "is_digit_byte", "noItems": "empty_items", "sameBytes": "equal_bytes"}
HUMP = re.compile(r"[a-z0-9][A-Z]")


def files(top, ending=".antt"):
    for folder, dirs, names in os.walk(top):
        dirs[:] = sorted(d for d in dirs if d != "out")
        for n in sorted(names):
            if n.endswith(ending):
                yield os.path.join(folder, n)


def own_lemmas(path):
    """Is it a file of specs/, or one right in proofs/ (and no answer of a function)?"""
    return "/specs/" in path or re.search(r"/proofs/[^/]+\.antt$", path)


def declared(paths):
    found = {}
    for p in paths:
        record = None
        for line in open(p, encoding="utf-8"):
            line = line.rstrip("\n")
            m = LINE.match(line)
            group = GROUP.match(line)
            if not m and group and record:
                for name in (group[2] + group[3]).split():
                    found.setdefault(name, set()).add("field" if record[0] == "record" else "constructor")
                continue
            if not m:
                if line.strip() and not line.startswith(" "):
                    record = None
                continue
            words, name, sig, indent = m[2].split(), m[3], m[5].strip(), len(m[1])
            kind = "word"
            if "record" in words or "data" in words:
                record, kind = ("record" if "record" in words else "data", indent), "type"
            elif record and indent > record[1]:
                kind = "field" if record[0] == "record" else "constructor"
            else:
                record = None
                if re.search(r"(^|→ )Type \d$", sig):
                    kind = "type"
            found.setdefault(name, set()).add(kind)
    return found


def bare_words(path, text):
    """The words of a text that stand behind no dot, and of Rust the names of no functions."""
    text = re.sub(r"(?m)--.*$|//.*$", "", text)
    if path.endswith(".rt"):
        text = re.sub(r"(?m)^ *(pub )?(mod|use) [^;]*;", "", text)
        text = re.sub(r"\b\w+(?=\()", "", text)
    return {m[0] for m in re.finditer(NAME, text) if text[m.start() - 1 : m.start()] not in ".:"} | {m[0] for m in re.finditer(NAME, text) if text[m.start() - 1 : m.start()] == "." and text[: m.start()].endswith("specs.")}


def snake(part):
    if re.search(r"[^\w']", part) or not part[:1].islower():
        return part
    return re.sub(r"(?<=[a-z0-9])([A-Z])", lambda m: "_" + m[1].lower(), part)


def camel(name):
    return "".join(p[:1].upper() + p[1:] for p in re.split(r"[-_]", name))


def new_name(name, kinds, names, plain):
    if kinds == {"type"}:
        return name if name[0].isupper() else camel(name)
    if not name[0].islower():
        return name
    if re.search(r"[^\w'-]", name):
        return name
    name = name.replace("get_d_", "get_or-").replace("getD", "get_or")
    parts = [snake(p) for p in name.split("-")]
    out = parts[0]
    for part in parts[1:]:
        bare = part.rstrip("'")
        dash = bare in names or bare[:1].isupper() or bare.isdigit() or bare == ""
        if not dash and bare not in plain:
            dash = False
        out += ("-" if dash else "_") + part
    return out


def main(dry):
    own = [p for p in files("crates") if own_lemmas(p)]
    kinds = declared(own)
    std = declared(p for top in STD for p in files(top))
    after = collections.Counter()
    for n in std:
        if "-" not in n:
            continue
        for m in re.finditer(r"([-_])([a-z]+)", n):
            after[m[2]] += 1 if m[1] == "-" else -1
    names = {n for n in list(kinds) + list(std) if "-" not in n and len(n) > 2}
    names = {w for w in names if after.get(w, 0) >= 0} | {w for w, k in after.items() if k > 0}
    snaked = {snake(n) for n in names}
    names |= snaked | set("get_or take drop length append nil cons zero suc add sub set lookup insert remove put part map".split())
    plain = {w for w, k in after.items() if k < 0}
    table = {}
    for n, ks in kinds.items():
        if "field" in ks or n in std:
            continue
        new = CHOSEN.get(n) or new_name(n, ks, names, plain)
        if new != n:
            table[n] = new
    everything = list(files("crates")) + list(files("crates", ".rt"))
    texts = {p: open(p, encoding="utf-8").read() for p in everything}
    word = re.compile(NAME)
    held = {p: bare_words(p, t) for p, t in texts.items()}
    held_by = collections.defaultdict(list)
    for p, ws in held.items():
        for w in ws:
            held_by[w].append(p)
    kept, given, lemmas = {}, {}, {}
    for old, new in sorted(table.items(), key=lambda it: ("-" in it[0], it[0])):
        if new in kinds and new not in table and HUMP.search(old) and kinds[new] == {"word"} and new + "_lem" not in kinds:
            lemmas[new] = new + "_lem"
        elif new in given or new in kinds and new not in table:
            if "-" in old and new + "_lem" not in kinds and new + "_lem" not in given:
                given[new + "_lem"] = old
                table[old] = new + "_lem"
                continue
            kept[old] = new + " is another's"
            continue
        given[new] = old
        for p in held_by[old]:
            if new in held[p] and new not in lemmas:
                kept[old] = new + " is in use in " + p
                break
    table.update(lemmas)
    for old in kept:
        print("stays:", old, "since", kept[old])
        del table[old]
    print(len(table), "names")
    changed = 0
    for p, text in texts.items():
        labels = set(re.findall(r"(?m)^(?:abbrev )?(?:pub )?(" + NAME + r") : (?:tie|need|goal|g)\.", text)) if not own_lemmas(p) else set()
        words = {m[0] for m in word.finditer(text)}
        mine = {o: n for o, n in table.items() if o in words and o not in labels}
        if not mine:
            continue

        def one(m):
            o = m[0]
            if o not in mine or text[m.start() - 1 : m.start()] == "." and not HUMP.search(o):
                return o
            return mine[o]

        if p.endswith(".rt"):
            soft = lambda t: word.sub(lambda m: mine[m[0]] if m[0] in mine and (HUMP.search(m[0]) or "-" in m[0] and m.string[m.start() - 1 : m.start()] != ".") else m[0], t)
            new = "\n".join(soft(l) if re.match(r"\s*(ghost use|requires|ensures|ghost|//)", l) else l for l in text.split("\n"))
        else:
            new = word.sub(one, text)
        if new != text:
            changed += 1
            if not dry:
                open(p, "w", encoding="utf-8").write(new)
    for p in [p for p in list(files(".", ".md")) + list(files("crates", ".edit")) if not p.startswith("./.git/")]:
        text = open(p, encoding="utf-8").read()
        turn = lambda t: word.sub(lambda m: table[m[0]] if m[0] in table and (HUMP.search(m[0]) or "-" in m[0]) else m[0], t)
        new = re.sub(r"`[^`\n]+`", lambda m: "`" + turn(m[0][1:-1]) + "`", text) if p.endswith(".md") else turn(text)
        if new != text:
            changed += 1
            if not dry:
                open(p, "w", encoding="utf-8").write(new)
    print(changed, "files")


if __name__ == "__main__":
    main("--dry" in sys.argv[1:])
