#!/usr/bin/env python3
"""Spells the repository's own definitions and lemmas as today's Rattle spells its own: words in snake case, a dash only
where it joins the names of two definitions. Run once, right behind port.py, at the top of the checkout:

    tools/respell.py [--list]      (--list prints old and new and changes nothing)

It changes names that files of crates/*/specs and crates/*/proofs declare, in those files and in the clauses of src/.
Functions of src/, strings, types and modules keep theirs; so does a name that a file takes from a library, and each name
that Rattle makes of the code (a Proof.antt's goals)."""
import os
import re
import sys

NAME = r"[^\s(){}.;,@\"«»◌]+"
TOKEN = re.compile(r"(?<![^\s(){}.;,@\"«»◌])" + NAME)
DECLARED = re.compile(r"(?m)^\s*(?:(?:pub|abbrev|unfoldable|data|record|axiom) )*(" + NAME + r")(?: (?:\{[^{}\n]*\}|\([^()\n]*\)))* :")
# two or more in one line, as constructors without arguments
SEVERAL = re.compile(r"(?m)^\s+(?:pub )?(" + NAME + r"(?: " + NAME + r")+) :")
USE = re.compile(r"(?m)^\s*(?:ghost |pub )*use ([^\s;{]+?)\.?\{([^}]*)\}")
# what Rattle makes of the code
MADE = re.compile(r"(?:returns|invariant|decreases|loop|slice|overflow|Need|goal|cast|bounds)-|.*-(?:spec|requires|preserved|smaller|init)$|μ-")
# fields of records, which are no lemmas
FIELDS = {"more-fragments": "more_fragments", "payload-at": "payload_at", "sender-mac": "sender_mac"}
ACRONYMS = [("IPv4", "Ipv4"), ("DHCP", "Dhcp"), ("UDP", "Udp"), ("TCP", "Tcp"), ("MAC", "Mac")]
# the names of definitions that a lemma's name joins by a dash
WORDS = set("""length drop take append replicate get_or set sum map reverse cons nil zero suc put part each u8_at u16_at
u32_at bytes_at be16 be32 put_if_fits min div mod pow bit_and bit_or eqb leb ltb leaves joined runs""".split())


def texts(root, ends):
    for folder, dirs, files in os.walk(os.path.join(root, "crates")):
        dirs[:] = sorted(d for d in dirs if d != "out")
        for f in sorted(files):
            if f.endswith(ends):
                yield os.path.join(folder, f)


def snake(name):
    for old, new in ACRONYMS:
        name = name.replace(old, new)
    parts = name.split("-")
    turned = [re.sub(r"(?<=[a-z0-9])([A-Z])", lambda m: "_" + m[1].lower(), p) if p[:1].islower() else p for p in parts]
    out = turned[0]
    for before, part in zip(turned, turned[1:]):
        facts = before[:1].isupper() or part[:1].isupper()
        symbol = not re.search(r"\w", before) or not re.search(r"\w", part)
        out += ("-" if facts or symbol or (before in WORDS and part in WORDS) else "_") + part
    return out


def main(argv):
    root = "."
    read = {p: open(p, encoding="utf-8").read() for p in texts(root, (".antt", ".rt"))}
    declared, places = set(), {}
    for p, text in read.items():
        if not p.endswith(".antt") or p.endswith(("/Proof.antt", "/Invariants.antt", "/Answers.antt")):
            continue
        found = set(DECLARED.findall(text))
        for line in SEVERAL.findall(text):
            found.update(line.split())
        declared |= found
        for name in found:
            places.setdefault(name, set()).add(p)
    table = {}
    for name in sorted(declared):
        if MADE.match(name) or not name[:1].islower():
            continue
        new = snake(name)
        if new != name:
            table[name] = new
    # names that fall together
    every = set()
    per_file = {}
    for p, text in read.items():
        per_file[p] = set(TOKEN.findall(text))
        every |= per_file[p]
    back = {}
    for old, new in table.items():
        back.setdefault(new, []).append(old)
    clash = {}
    for new, olds in back.items():
        if len(olds) > 1:
            for o in olds:
                clash[o] = "with " + " ".join(x for x in olds if x != o)
    for old, new in table.items():
        if new in every:
            both = [p for p in read if old in per_file[p] and new in per_file[p]]
            elsewhere = places.get(new, set())
            if both or elsewhere:
                clash[old] = "with the name " + new + " in " + " ".join(sorted(both or elsewhere)[:3])
    for old in sorted(clash):
        print("look:", old, "->", table[old], "falls together", clash[old])
    if "--list" in argv:
        for old, new in table.items():
            if old not in clash:
                print(old, new)
        return
    # where names fall together, a definition named as one of the Rust's functions gets _lem, and so does a lemma named as a definition
    for old in sorted(clash, key=lambda o: ("-" in o, o)):
        new = table[old]
        for ending in ("", "_lem", "_law"):
            if new + ending not in every and new + ending not in [table[o] for o in table if o != old and o not in clash]:
                break
        else:
            raise SystemExit("no name for " + old)
        table[old] = FIELDS.get(old, new + ending)
        every.add(table[old])
        print("so:", old, "->", table[old])
    back = {}
    for old, new in table.items():
        assert new not in back, (old, back[new], new)
        back[new] = old
    for p, text in read.items():
        theirs = set()
        for path, items in USE.findall(text):
            if not path.startswith("Rattle.") or path.startswith(("Rattle.std", "Rattle.core")):
                theirs.update(TOKEN.findall(items))
        mine = {o: n for o, n in table.items() if o not in theirs}
        # a comment's words with a dash are English, or a document's
        code = re.compile(r"(?m)^(.*?)((?:^|(?<=\s))(?:--|//)(?:\s.*)?)?$")
        words = {o: n for o, n in mine.items() if "-" not in o}
        turned = lambda table, it: TOKEN.sub(lambda m: table.get(m[0], m[0]), it)
        new = code.sub(lambda m: turned(mine, m[1]) + turned(words, m[2] or ""), text)
        if new != text:
            open(p, "w", encoding="utf-8").write(new)


main(sys.argv[1:])
