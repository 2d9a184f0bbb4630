#!/usr/bin/env python3
"""Brings the names of this repository's own definitions, fields and lemmas to snake case, once, behind port.py.

usage: python3 tools/respell.py        at the top of the repository, right after the kit's port/port.py

Words come to snake case; types, records and modules keep their capitals, and so does a name from src/. A dash stays only where it joins
the names of two definitions. What is respelled and what it becomes is printed, a line each, and written to docs/respelled.txt.
Besides names it turns the one clause form that port.py leaves, and gives each crate the line that lets the check try its tactics.
"""
import os
import re
import sys

NAME = r"[A-Za-z0-9_'⁻¹²³₀-₉?ˢ+*≤<≡-]+"
TOKEN = re.compile(r"(?<![A-Za-z0-9_'⁻¹₀-₉-])[A-Za-z_][A-Za-z0-9_'⁻¹₀-₉-]*")
DECLARED = re.compile(r"^\s*(?:(?:abbrev|unfoldable|pub|private)\s+)*(record\s+|data\s+)?([A-Za-z_][A-Za-z0-9_'⁻¹₀-₉-]*)((?:\s+[({].*)?)\s*:(?:\s|$)")
STD = {"length", "map", "take", "drop", "append", "set", "get_or", "any", "all", "cond"}
# `result` is a word of clauses now.
GIVEN = {"result": "result_of"}


def files(*endings):
    for folder, dirs, names in os.walk("crates"):
        dirs[:] = sorted(d for d in dirs if d != "out")
        for n in sorted(names):
            if n.endswith(endings):
                yield os.path.join(folder, n)


def read(path):
    with open(path, encoding="utf-8") as f:
        return f.read()


def write(path, text):
    with open(path, "w", encoding="utf-8") as f:
        f.write(text)


def snake(name):
    return re.sub(r"(?<=[a-z0-9])([A-Z])", lambda m: "_" + m.group(1).lower(), name)


def declared():
    """What the crates' own antt declares: the names, and those of definitions among them."""
    own, made = {}, set()
    for p in files(".antt"):
        by_hand = p.endswith("/Proof.antt")
        for line in read(p).splitlines():
            if line.lstrip().startswith(("--", "use ")):
                continue
            m = DECLARED.match(line)
            if not m or m.group(1) or (by_hand and (": tie." in line or "-lts.Need" in line or ": tie.Need" in line)):
                continue
            own.setdefault(m.group(2), p)
            if re.match(r"^\s*(abbrev|unfoldable)", line):
                made.add(m.group(2))
    return own, made


def imported():
    """The names that come from elsewhere."""
    names = set()
    for p in files(".antt"):
        for m in re.finditer(r"(?ms)^(?:pub )?use ([^\s{]+)\.\{([^}]*)\}", read(p)):
            if not re.match(r"Rattle\.(?!std\.|core\.)", m.group(1)):
                names |= {w.split(" as ")[-1].strip() for w in m.group(2).split(",")}
    return names


def functions():
    names = set()
    for p in files(".rt"):
        names |= set(re.findall(r"\bfn (\w+)", read(p)))
    return names


def spelled(name, known):
    """The name in snake case; its dashes stay only where each part is the name of a definition."""
    plain = snake(name)
    parts = plain.split("-")
    if len(parts) > 1:
        def joined(rest):
            if not rest:
                return []
            for k in range(len(rest), 0, -1):
                word = "_".join(rest[:k])
                if word in known:
                    more = joined(rest[k:])
                    if more is not None:
                        return [word] + more
            return None
        whole = joined(parts)
        plain = "-".join(whole) if whole and len(whole) > 1 else "_".join(parts)
    return plain


def turned():
    """Each name that changes, with what it becomes. Where two would fall together the definition keeps the word and the lemma gets `_lem`."""
    own, made = declared()
    outside = imported()
    known = {snake(n) for n in made} | functions() | STD
    turn = {}
    for n in own:
        if not n[0].isupper() and n not in outside:
            turn[n] = GIVEN.get(n) or spelled(n, known)
    meet = {}
    for old, new in turn.items():
        meet.setdefault(new, []).append(old)
    for new, olds in sorted(meet.items()):
        keeps = [o for o in olds if o in made] or [o for o in olds if o == new] or olds[:1]
        if new in outside:
            keeps = []
        for o in olds:
            if o not in keeps[:1]:
                turn[o] = new + "_lem"
    return {a: b for a, b in turn.items() if a != b}, turn


CAMEL = re.compile(r"^[a-z][A-Za-z0-9]*[A-Z]")


def respelled(text, turn, is_rust, takes_result):
    def swap(m):
        word, at = m.group(0), m.start()
        new = turn.get(word)
        if not new:
            return word
        before = text[max(0, at - 40):at]
        behind_dot = before.endswith(".")
        of_module = re.search(r"(?<![\w.])[A-Z]\w*\.$", before) is not None
        if word in GIVEN:
            is_ours = before.endswith("Operation.") if of_module else takes_result and not behind_dot
            is_word = is_rust and re.match(r"\s*[≡≤<.]", text[m.end():])
            return new if is_ours and not is_word else word
        if CAMEL.match(word.split("-")[0]) and "-" not in word:
            return new
        if behind_dot and not of_module:
            return word
        return new

    return TOKEN.sub(swap, text)


def main():
    if os.path.exists("docs/respelled.txt"):
        sys.exit("respell: done before")
    turn, every = turned()
    for p in files(".antt", ".rt"):
        text = read(p)
        takes = bool(re.search(r"Operation\.\{[^}]*\bresult\b", text)) or p.endswith("value/specs/Operation.antt")
        is_rust = p.endswith(".rt")
        new = respelled(text, turn, is_rust, takes)
        if is_rust:
            new = re.sub(r"ensures\* \{ λ r\. ⌜ r ≡ (.*) ⌝ \}", r"ensures { result ≡ \1 }", new)
            if p.endswith(("src/lib.rt", "src/main.rt")) and "#![tactic(auto)]" not in new:
                head, rest = new.split("\n", 1)
                new = head + "\n#![tactic(auto)]\n" + rest
        if new != text:
            write(p, new)
    with open("docs/respelled.txt", "w", encoding="utf-8") as f:
        f.writelines(f"{a} {b}\n" for a, b in sorted(turn.items()))
    print(f"respell: {len(turn)} names")


if __name__ == "__main__":
    main()
