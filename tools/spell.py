#!/usr/bin/env python3
"""Brings this repository's own definitions and lemmas to today's spelling, once, behind port.py.

usage: python3 tools/spell.py [TOP]      TOP: the folder that has crates/ (default: the folder above this one)

- Theorems of floor's specs/ go to proofs/, statements unchanged, since an edit of a definition counts only where no theorem of specs/ rests on it.
  The few definitions that stood among them stay in specs/ under their paths (KEPT).
- Names of definitions, fields and lemmas are in snake case; types, facts and modules keep their capitals. Functions of src/, exported C names, strings,
  inputs and outputs keep their names.

It prints names that fall together in a file, and proves nothing.
"""

import os
import re
import sys

TOP = os.path.abspath(sys.argv[1] if len(sys.argv) > 1 else os.path.join(os.path.dirname(os.path.abspath(__file__)), ".."))
CRATES = os.path.join(TOP, "crates")
OWN_CRATES = sorted(c for c in os.listdir(CRATES) if os.path.isdir(os.path.join(CRATES, c, "src")))

# Definitions that stand in a file of theorems and that code or a definition cites: they stay in specs/.
KEPT = {
    "Calls.Sound": ["Sound", "SoundBoard"],
    "Cuts.ByWalls": ["other", "spansBox", "wallCut", "wallChoice", "sameBox", "leafOf", "divided_by", "growBy", "treeBy", "capped"],
    "Jobs.Facts": ["EntryOk", "Passes"],
    "Jobs.Stars": ["entry", "named", "ofKind", "AtLeast", "AtMost", "Sorted", "GoodStar"],
    "Jobs.Written": ["Counts"],
    "Lists.Laws": ["bit", "count"],
    "Plans.Held": ["Drawn"],
    "Registers.Merge": ["inLine", "opened", "extended", "goesOn", "mergeFrom", "merged"],
    "Totals.Wrapped": ["tellWith"],
    "Walls.Relax": ["total", "Reached"],
    "Walls.Walk": ["Walk"],
}
# The constructors of those that are data.
CONSTRUCTORS = {"Walls.Walk": ["start", "on", "off", "up"]}
# Files of theorems at the top of specs/.
TOPS = ["Demands", "Examples", "Slips"]


def read(p):
    with open(p, encoding="utf-8") as f:
        return f.read()


def write(p, t):
    os.makedirs(os.path.dirname(p), exist_ok=True)
    with open(p, "w", encoding="utf-8") as f:
        f.write(t)


def words_of(text):
    return set(re.findall(r"[^\s(){}\[\],;.`\"]+", text))


# --- theorems of floor to proofs/ ---


def blocks_of(text):
    """The head (comments and imports) and the blocks of a file, which blank lines part at column 0."""
    lines = text.split("\n")
    i = 0
    while i < len(lines) and (lines[i].startswith("--") or lines[i].startswith("use ") or lines[i].startswith("pub mod ")):
        i += 1
    head, rest = lines[:i], lines[i:]
    blocks, now = [], []
    for l in rest:
        if now and l and not l[0].isspace() and now[-1] == "" and not re.match(r"\)|\]|\}", l):
            blocks.append("\n".join(now).strip("\n"))
            now = []
        now.append(l)
    if "\n".join(now).strip():
        blocks.append("\n".join(now).strip("\n"))
    return head, [b for b in blocks if b.strip()]


def name_of(block):
    for l in block.split("\n"):
        if l.startswith("--"):
            continue
        m = re.match(r"(?:pub |abbrev |unfoldable |data |record )*([^\s(:]+)", l)
        return m.group(1)
    return ""


def imports_of(head, body):
    """The import lines that the body needs, names without a use dropped."""
    used = words_of(body)
    out = []
    for l in head:
        m = re.match(r"(use [\w.·'ᴰ]+\.)\{(.*)\}$", l)
        if m:
            # an operator ◌+◌ is used where + stands
            names = [n.strip() for n in m.group(2).split(",")]
            kept = [n for n in names if n in used or not re.match(r"[\w'-]+$", n) and all(p in body for p in n.split("◌") if p)]
            if kept:
                out.append(f"{m.group(1)}{{{', '.join(kept)}}}")
        elif l.startswith("use "):
            out.append(l)
    return out


COUNT = """  -- how many pass
  abbrev pub count : (A → Bool) → List A → ℕ
  count p xs = length (keep p xs)

"""
AT_TOP = """-- how many pass
abbrev pub count : {A : Type 0} → (A → Bool) → List A → ℕ
count p xs = length (keep p xs)"""


def move_theorems():
    specs, proofs = os.path.join(CRATES, "floor", "specs"), os.path.join(CRATES, "floor", "proofs")
    moved = {}
    for dp, dn, fn in os.walk(specs):
        for f in sorted(fn):
            m = os.path.relpath(os.path.join(dp, f), specs)[:-5].replace("/", ".")
            if f.endswith(".antt") and ("." in m or m in TOPS):
                moved[m] = set(KEPT.get(m, []))
    lib, by_top = [], {}
    for m in moved:
        if "." in m:
            by_top.setdefault(m.split(".")[0], []).append(m.split(".")[1])
        else:
            lib.append(m)
    order = [l[len("pub mod ") :] for l in read(os.path.join(specs, "Lib.antt")).split() if False] or re.findall(r"pub mod (\w+)", read(os.path.join(specs, "Lib.antt")))
    for m in sorted(moved):
        old = os.path.join(specs, m.replace(".", "/") + ".antt")
        text = read(old)
        if m == "Lists.Laws":
            # `count` stood in a module over its type
            assert text.count(COUNT) == 1
            text = text.replace(COUNT, "").replace("module _ {A : Type 0} where\n", AT_TOP + "\n\nmodule _ {A : Type 0} where\n", 1)
        head, blocks = blocks_of(text)
        kept = [b for b in blocks if name_of(b) in moved[m]]
        assert len(kept) == len(moved[m]), (m, moved[m], [name_of(b) for b in blocks])
        to = os.path.join(proofs, m.replace(".", "/") + ".antt")
        if not kept:
            write(to, text)
            os.remove(old)
            continue
        rest = [b for b in blocks if name_of(b) not in moved[m]]
        comments = [l for l in head if l.startswith("--")]
        body = "\n\n".join(kept)
        write(old, "\n".join(["-- Definitions; what is proved of them stands in proofs/ under the same name. Assumes nothing."] + imports_of(head, body)) + "\n\n" + body + "\n")
        body = "\n\n".join(rest)
        mine = [f"use Rattle.floor.specs.{m}.{{{', '.join(n for n in KEPT[m] + CONSTRUCTORS.get(m, []) if n in words_of(body))}}}"]
        write(to, "\n".join(comments + imports_of(head, body) + [l for l in mine if "{}" not in l]) + "\n\n" + body + "\n")
    # the modules that declare them
    for t in by_top:
        p = os.path.join(specs, t + ".antt")
        text = read(p)
        subs = re.findall(r"(?m)^pub mod (\w+)\n", text)
        for s in subs:
            if not KEPT.get(f"{t}.{s}"):
                text = text.replace(f"pub mod {s}\n", "")
        write(p, text)
        write(os.path.join(proofs, t + ".antt"), f"-- What is proved of specs/{t}.antt.\n" + "".join(f"pub mod {s}\n" for s in subs))
    text = read(os.path.join(specs, "Lib.antt"))
    for t in lib:
        text = text.replace(f"pub mod {t}\n", "")
    write(os.path.join(specs, "Lib.antt"), text)
    write(os.path.join(proofs, "Lib.antt"), "".join(f"pub mod {t}\n" for t in order if t in by_top or t in lib))
    # who cites them
    for dp, dn, fn in os.walk(CRATES):
        dn[:] = [d for d in dn if d != "out"]
        for f in sorted(fn):
            if not f.endswith((".rt", ".antt")):
                continue
            p = os.path.join(dp, f)
            text = was = read(p)
            lines = []
            for l in text.split("\n"):
                m = re.match(r"(.*?use )Rattle\.floor\.specs\.([\w.]+)\.\{(.*)\}(;?)$", l)
                if m and m.group(2) in moved:
                    names = [n.strip() for n in m.group(3).split(",")]
                    kept = moved[m.group(2)] | set(CONSTRUCTORS.get(m.group(2), []))
                    a, b = [n for n in names if n in kept], [n for n in names if n not in kept]
                    if a:
                        lines.append(f"{m.group(1)}Rattle.floor.specs.{m.group(2)}.{{{', '.join(a)}}}{m.group(4)}")
                    if b:
                        lines.append(f"{m.group(1)}Rattle.floor.proofs.{m.group(2)}.{{{', '.join(b)}}}{m.group(4)}")
                    continue
                m = re.match(r"(.*?use )Rattle\.floor\.specs\.([\w.]+)(;?)$", l)
                if m and (m.group(2) in moved or ".".join(m.group(2).split(".")[:-1]) in moved):
                    l = l.replace("Rattle.floor.specs.", "Rattle.floor.proofs.")
                lines.append(l)
            text = "\n".join(lines)
            if text != was:
                write(p, text)


# --- names ---

WORD = re.compile(r"[^\s(){}\[\],;.`\"]+")
PLAIN = re.compile(r"[a-z][\w'-]*\Z")


def is_old(t):
    return bool(PLAIN.match(t)) and bool(re.search(r"[A-Z]|[\w']-[\w']", t)) and not t.endswith("-") and t.isascii() or bool(re.match(r"[a-z][\w'-]*\Z", t) and re.search(r"[A-Z]|[\w']-[\w']", t) and not re.search(r"[^\w'-]", t))


# Names that would fall together with a definition's: a lemma of a definition's name is NAME_lem, a field says more.
LEFT = {"not-nil"}
TABLE = {"getD-mem": "get_or_mem", "mem-getD": "mem_get_or", "is-room": "is_a_room", "is-last": "is_the_last", "is-drawn": "is_drawn"}
BY_CRATE = {("narrowing", "is-drawn"): "is_drawn_lem"}
CRATE = [""]
LEMMAS = {}


def plain(t):
    return re.sub(r"(?<=[a-z0-9'])([A-Z])", lambda m: "_" + m.group(1).lower(), t.replace("-", "_"))


def renewed(t):
    return BY_CRATE.get((CRATE[0], t)) or TABLE.get(t) or LEMMAS.get(t) or plain(t)


def find_lemmas(every):
    """The lemmas that would fall together with a definition in some file of definitions or lemmas."""
    for p, c, part, of_function in every:
        if not p.endswith(".antt") or of_function:
            continue
        text = read(p)
        _, other = imports(text)
        now = {}
        for l in text.split("\n"):
            for t in WORD.findall(code_only(l, "--")[0]):
                if t[:1].islower():
                    now.setdefault(plain(t) if t not in other and t not in LEFT else t, set()).add(t)
        for n, ts in now.items():
            if len(ts) > 1:
                for t in ts:
                    if t not in TABLE and t not in other and ("-" in t or t == n and not any("-" in x for x in ts)):
                        LEMMAS[t] = n + "_lem"


def files():
    """Each file below crates/ with its crate, its part and whether it is a file of a function's proof."""
    for c in OWN_CRATES:
        for part in ("specs", "proofs", "src"):
            top = os.path.join(CRATES, c, part)
            for dp, dn, fn in os.walk(top):
                dn.sort()
                for f in sorted(fn):
                    p = os.path.join(dp, f)
                    if f.endswith((".antt", ".rt")):
                        rel = os.path.relpath(p, top).split("/")
                        yield p, c, part, part == "proofs" and any(not x[0].isupper() for x in rel)


OWN_USE = re.compile(r"use Rattle\.(" + "|".join(OWN_CRATES) + r")\.([\w.+']+)\.\{(.*?)\}")


def imports(text):
    """The names that a file imports from this repository's definitions and lemmas, and those from elsewhere."""
    own, other = set(), set()
    for l in text.split("\n"):
        m = re.search(r"\buse ([^\s{]+)\.\{(.*?)\}", l)
        if m:
            names = {n.strip().split(" as ")[-1] for n in m.group(2).split(",")}
            at = m.group(1).split(".")
            mine = at[0] == "Rattle" and at[1] in OWN_CRATES and all(x[0].isupper() for x in at[3:])
            (own if mine else other).update(names)
        else:
            m = re.search(r"\buse ([^\s{;]+)", l)
            if m:
                other.add(m.group(1).split(".")[-1])
    return own, other


def declared(text):
    names, fields = set(), set()
    for l in text.split("\n"):
        m = re.match(r"\s*(?:pub |abbrev |unfoldable |data |record )*((?:[^\s():]+ )+):(?: |$)", l)
        if m:
            for n in m.group(1).split():
                names.add(n)
                fields.add(n)
        m = re.match(r"\s*(?:pub )?(?:data|record) ([^\s(:]+)", l)
        if m:
            names.add(m.group(1))
    return names, fields


def code_only(line, mark):
    """A line in front of its comment, and the comment."""
    at = line.find(mark)
    return (line, "") if at < 0 else (line[:at], line[at:])


def turn(text, wants, mark):
    out = []
    for l in text.split("\n"):
        code, comment = code_only(l, mark)
        code = WORD.sub(lambda m: renewed(m.group(0)) if wants(m.group(0), code, m.start()) else m.group(0), code)
        comment = re.sub(r"`[^`]*`", lambda q: WORD.sub(lambda m: renewed(m.group(0)) if is_old(m.group(0)) and m.group(0) in ALL else m.group(0), q.group(0)), comment)
        out.append(code + comment)
    return "\n".join(out)


ALL = set()


def respell():
    every = list(files())
    fields = set()
    for p, c, part, of_function in every:
        if p.endswith(".antt") and not of_function:
            n, f = declared(read(p))
            ALL.update(n)
            fields |= f
    find_lemmas(every)
    unknown = {}
    for p, c, part, of_function in every:
        CRATE[0] = c
        text = read(p)
        own, other = imports(text)
        if p.endswith(".rt"):
            old_own = {n for n in own if is_old(n)}

            def wants(t, code, at):
                if not is_old(t):
                    return False
                if t in old_own:
                    return True
                return t in ALL and (code[:at].endswith(".") or bool(re.search(r"[A-Z]", t)))

            new = turn(text, wants, "//")
        elif of_function:

            def wants(t, code, at):
                if t in other or not is_old(t) and t not in LEMMAS:
                    return False
                if t in own:
                    return True
                return is_old(t) and t in fields and (code[:at].endswith(".") or re.match(r" = ", code[at + len(t) :]) is not None and "record" in text and not re.match(r"\s*$", code[:at]) is None and not re.match(r"^$", code[:at]))

            new = turn(text, wants, "--")
        else:
            mine, _ = declared(text)

            def wants(t, code, at):
                if t in other or t in LEFT:
                    return False
                if t in LEMMAS or t in ALL and is_old(t):
                    return True
                if not is_old(t):
                    return False
                unknown.setdefault(t, set()).add(p)
                return True

            new = turn(text, wants, "--")
        if new != text:
            fall_together(p, text, new)
            write(p, new)
    for t in sorted(unknown):
        print(f"local: {t} in {', '.join(sorted(os.path.relpath(x, CRATES) for x in unknown[t]))[:120]}")
    turn_edits()


def fall_together(p, text, new):
    """Says where two words of a file became one."""
    was, now = {}, {}
    for a, b in zip(text.split("\n"), new.split("\n")):
        mark = "//" if p.endswith(".rt") else "--"
        x, y = WORD.findall(code_only(a, mark)[0]), WORD.findall(code_only(b, mark)[0])
        for s, t in zip(x, y):
            now.setdefault(t, set()).add(s)
    for t, s in sorted(now.items()):
        if len(s) > 1:
            print(f"fall together: {os.path.relpath(p, CRATES)}: {', '.join(sorted(s))} -> {t}")


def turn_edits():
    """The words of edits; what else changed in them is turned by hand."""
    for c in OWN_CRATES:
        for folder in ("must-fail", "wrong"):
            top = os.path.join(CRATES, c, folder)
            if not os.path.isdir(top):
                continue
            for f in sorted(os.listdir(top)):
                if f.endswith(".edit"):
                    p = os.path.join(top, f)
                    out = []
                    for l in read(p).split("\n"):
                        if l.startswith(("old: ", "new: ")):
                            l = WORD.sub(lambda m: renewed(m.group(0)) if is_old(m.group(0)) and m.group(0) in ALL else m.group(0), l)
                        out.append(l)
                    write(p, "\n".join(out))


if __name__ == "__main__":
    if os.path.exists(os.path.join(CRATES, "floor", "proofs", "Demands.antt")):
        sys.exit("spell: it has run already")
    move_theorems()
    respell()
