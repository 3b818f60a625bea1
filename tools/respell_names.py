#!/usr/bin/env python3
"""Brings this repository's own definitions and lemmas to today's spelling: words in snake case, types and modules in camel case.

usage: python3 tools/respell_names.py [--list]      at the top of the repository, once, right after the kit's port.py

Turned, in specs/, proofs/ and the clauses and imports of src/:
- words in camel case, as `paConfig`, become `pa_config`;
- words whose parts a dash joins, as `six-pairs-differ`, become `six_pairs_differ`;
- a lemma that would have its function's name then gets `_lem`, and a place of the page of LoRa `_place`;
- the registers and fields of sheets/specs/Registers.antt, as `RegPaConfig`, become `reg_pa_config`, and the step `Put` becomes `put_field`.
Functions of src/, strings, constructors of own data types and names of the library keep theirs. --list prints the names, old and new,
and what falls together, and writes nothing.
"""

import os
import re
import sys

WORD = r"[^\s(){}\[\].,;:λ\"`]+"
DECLARED = re.compile(r"^\s*((?:(?:pub|abbrev|unfoldable|record|data|ruleset)\s+)*)(" + WORD + r")(?=[ \t]*(?:[({][^:]*:[^)}]*[)}][ \t]*)*:(?:\s|$))", re.M)
LOCAL = re.compile(r"(?<![\w'])[a-z]+[a-z0-9]*(?!ℤ)[A-Z][\w']*")
REGISTERS = "crates/sheets/specs/Registers.antt"
# Words whose respelled form another name has in the same files.
OTHERWISE = {"Put": "put_field", "getD-caps": "get_or_caps", "getD": "get_or"}
# Fields of the record OneLink, whose names stand beside definitions of the same name.
FIELDS = {"coding-rate", "spreading-factor", "sync-word"}
# The places of the page of LoRa, as `sync-word`, stand beside the sheets' words, as `syncWord`: `sync_word_place`.
PLACES = "crates/page/specs/Lora.antt"
# Files whose imports of registers and fields would fall together with other words: the module goes by the name R there.
QUALIFIED = {"crates/operations/specs/Modem.antt", "crates/page/proofs/Power.antt", "crates/sheets/specs/Modem.antt"}
PLACE_NAMES = set()
# Spelled alike in the library, or words of Rust's
KEEP = {"kHz", "dBm", "sameℤ"}


def texts():
    for folder, dirs, files in os.walk("crates"):
        dirs[:] = sorted(d for d in dirs if d != "out")
        for f in sorted(files):
            if f.endswith((".rt", ".antt")):
                yield os.path.join(folder, f)


def read(path):
    with open(path, encoding="utf-8") as f:
        return f.read()


def bare(text):
    return re.sub(r"--.*|\"(?:[^\"\\]|\\.)*\"", "", text)


def snake(word):
    w = re.sub(r"([a-z0-9'])([A-Z])", r"\1_\2", word)
    w = re.sub(r"([A-Z]+)([A-Z][a-z])", r"\1_\2", w)
    return w.lower() if w.isascii() else w[0].lower() + w[1:].lower().replace("ℤ", "ℤ")


def is_walk(path):
    return os.path.basename(path) in ("Proof.antt", "Answers.antt", "Invariants.antt")


def declared():
    """The names that are declared in .antt files, and those among them that stand in specs/ or files of lemmas."""
    every, lemmas, types = set(), set(), set()
    for p in texts():
        if not p.endswith(".antt") or p.endswith("/Lib.antt"):
            continue
        t = bare(read(p))
        for m in DECLARED.finditer(t):
            if m.group(2) in ("use", "→", "="):
                continue
            every.add(m.group(2))
            if not is_walk(p):
                lemmas.add(m.group(2))
    return every, lemmas


def library_words():
    """Words that the repository's files import from elsewhere."""
    found = set()
    for p in texts():
        for m in re.finditer(r"use ([\w.·+-]+)\.\{([^}]*)\}", read(p)):
            if not re.match(r"Rattle\.(?!std|bytes|io|os)", m.group(1)):
                found |= {w.strip() for w in m.group(2).split(",")}
    return found


def table():
    every, lemmas = declared()
    library = library_words()
    new = {}
    for w in sorted(every):
        if LOCAL.fullmatch(w) and w not in library and w not in KEEP:
            new[w] = snake(w)
    for p in texts():
        if p.endswith(".antt"):
            for w in LOCAL.findall(bare(read(p))):
                if w not in library and w not in KEEP and w not in new:
                    new[w] = snake(w)
    words = set(new.values())
    for w in sorted(lemmas):
        if "-" in w and not w.startswith("-") and w not in library:
            to = "_".join(new.get(x, snake(x) if LOCAL.fullmatch(x) else x) for x in w.split("-"))
            new[w] = to + ("_lem" if to in words and w not in FIELDS else "")
    return new, library, every


def registers():
    return [m.group(2) for m in DECLARED.finditer(bare(read(REGISTERS))) if m.group(2)[0].isupper()]


TOKEN = re.compile(r"\"(?:[^\"\\]|\\.)*\"|b'(?:[^'\\]|\\.)'|[^\s(){}\[\].,;:\"`λ]+|.", re.S)


def turned(text, new, path):
    """The text with each whole word of the table respelled; a field of a record that the checker makes (c.x, l.x, w.x) keeps its dash."""
    out, before, head = [], "", ""
    for m in TOKEN.finditer(text):
        t = m.group(0)
        w = new.get(t)
        if w is not None and before == "." and "-" in t and re.fullmatch(r"[a-z]['\w]*", head or ""):
            w = None if is_walk(path) or head in ("c", "l", "w") else w
        out.append(w or t)
        if t != ".":
            head = t if before != "." else head
        before = t
    return "".join(out)


def ghost_parts(text):
    """The parts of a .rt file that speak of specs: imports and clauses."""
    parts = []
    for m in re.finditer(r"ghost use [^;]*;|#!?\[tactic[^\]]*\]", text):
        parts.append((m.start(), m.end()))
    for m in re.finditer(r"(?m)^\s*(?:requires|ensures|ghost)\b[^{;\n]*\{", text):
        depth, i = 1, m.end()
        while depth:
            depth += {"{": 1, "}": -1}.get(text[i], 0)
            i += 1
        parts.append((m.start(), i))
    return sorted(parts)


def places():
    return {m.group(2) for m in DECLARED.finditer(bare(read(PLACES))) if "-" in m.group(2)}


def with_registers(text, new, regs, path=""):
    """Registers and fields where a file imports them by name or names them by their module."""
    mine = dict(new)
    if path.startswith("crates/page/") or re.search(r"use Rattle\.page\.specs\.Lora\b", text):
        mine.update({w: w.replace("-", "_") + "_place" for w in PLACE_NAMES})
        mine.update({w: w.replace("-", "_") for w in FIELDS if path == "crates/link/proofs/Demand3.antt"})
    if path in QUALIFIED:
        m = re.search(r"use Rattle\.sheets\.specs\.Registers\.\{([^}]*)\}", text)
        for w in m.group(1).split(","):
            mine[w.strip()] = "R." + snake(w.strip())
        return text.replace(m.group(0), "use Rattle.sheets.specs.Registers as R"), mine
    for m in re.finditer(r"use Rattle\.sheets\.specs\.Registers\.\{([^}]*)\}", text):
        for w in m.group(1).split(","):
            if w.strip() in regs:
                mine[w.strip()] = snake(w.strip())
    for m in re.finditer(r"use Rattle\.sheets\.specs\.Registers as (\w+)", text):
        text = re.sub(r"(?<![\w.'])" + m.group(1) + r"\.([A-Z]\w*)", lambda k: m.group(1) + "." + (snake(k.group(1)) if k.group(1) in regs else k.group(1)), text)
    return text, mine


def main(argv):
    new, library, every = table()
    new.update(OTHERWISE)
    regs = set(registers())
    PLACE_NAMES.update(places())
    if "--list" in argv:
        for w in sorted(new):
            print(w, new[w])
        for w in sorted(regs):
            print(w, snake(w))
        to = {}
        for w, n in new.items():
            to.setdefault(n, []).append(w)
        for n, ws in sorted(to.items()):
            if len(ws) > 1 or n in every or n in library:
                print("together:", n, ws, "declared" if n in every else "", "library" if n in library else "")
        return 0
    for p in texts():
        t = read(p)
        if p.endswith(".antt"):
            if p == REGISTERS:
                mine = dict(new, **{w: snake(w) for w in regs})
                u = turned(t, mine, p)
            else:
                u, mine = with_registers(t, new, regs, p)
                u = turned(u, mine, p)
        else:
            u, at = "", 0
            _, mine = with_registers(t, new, regs, p)
            for a, b in ghost_parts(t):
                if a < at:
                    continue
                u += t[at:a] + turned(t[a:b], mine, p)
                at = b
            u += t[at:]
        if u != t:
            with open(p, "w", encoding="utf-8") as f:
                f.write(u)
    return 0


if __name__ == "__main__":
    raise SystemExit(main(sys.argv[1:]))
