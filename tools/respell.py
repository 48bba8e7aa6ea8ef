#!/usr/bin/env python3
"""Brings the names of this repository's own definitions and lemmas to the spelling of today's Rattle.

    tools/respell.py            at the top of the repository, once, after port.py

Types and facts become upper camel case, all other names snake case. A dash stays where it joins two names: that of a
definition and that of another, or of a definition and an operator. Functions of src/, strings, inputs and outputs keep
their names, and so do the names that Rattle makes (those behind `goal.`, and the steps behind `c.`). Names that fall
together are reported, and then nothing is written.
"""
import collections
import glob
import re
import sys

TOKEN = r"[^\s(){},;.@\"`⌜⌝λ]+"
NAME = r"(?![:=→↔×]|in |let )" + TOKEN
HEAD = re.compile(
    r"^\s*((?:abbrev |unfoldable |opaque |private )*)(?:pub )?(?:record |data |ruleset )?((?:" + NAME + r" )*" + NAME + r")\s*(?:\(|\{|:|where|$)")
# words of the library that lemmas are named after
WORDS = {"length", "take", "drop", "map", "reverse", "append", "get_or", "decimal", "joined", "set"}
# names whose parts say more than their dashes
SPECIAL = {"getD-all": "get_or_all", "digitsOf-after": "digits_of_after", "digitsOf-number": "digits_of_number"}


def antt_files():
    return sorted(glob.glob("crates/*/specs/**/*.antt", recursive=True) + glob.glob("crates/*/proofs/**/*.antt", recursive=True))


def collect():
    own, specs, made = collections.Counter(), set(), set()
    library = set()
    for path in antt_files():
        for line in open(path, encoding="utf-8"):
            made.update(re.findall(r"\b(?:goal|given)\.(?:\w+\.)?(" + TOKEN + ")", line))
            made.update(re.findall(r"(?<![\w.])(?:c|l|w)\.(" + TOKEN + ")", line))
            stripped = line.strip()
            if stripped.startswith("use "):
                own.update(re.findall(r" as (" + TOKEN + ")", line))
                if re.match(r"use (?:Rattle\.std|mathlib|denote|borrow|native|lib|Prim|specs)\b", stripped):
                    listed = line.split("{", 1)[-1]
                    library.update(re.findall(TOKEN, re.sub(r" as " + TOKEN, "", listed)))
                continue
            if stripped.startswith(("--", "in ", "let ", "∷", ")", "where")):
                continue
            head = HEAD.match(line)
            if not head:
                continue
            for name in head.group(2).split(" "):
                if re.search(r": (?:goal|given)\." + re.escape(name) + r"\s*$", line):
                    continue
                own[name] += 1
                if "/specs/" in path and head.group(1):
                    specs.add(name)
    for name in sorted(n for n in library & set(own) if "-" in n):
        print(f"look: {name} is imported from the library too, and stays")
        del own[name]
    return own, specs, made


def snake(name, specs):
    if name in SPECIAL:
        return SPECIAL[name]
    parts = name.split("-")
    joined = set()
    for i in range(1, len(parts)):
        left, right = "-".join(parts[:i]), "-".join(parts[i:])
        operator = not re.match(r"\w", right)
        if operator or (left in specs | WORDS and right in specs | WORDS and name not in specs):
            joined.add(i)
    text = parts[0]
    for i in range(1, len(parts)):
        text += ("-" if i in joined else "_") + parts[i]
    return text


def spelled(name, specs):
    if name[0].isupper():
        if name.startswith("Decides-"):
            return name
        return "".join(part[0].upper() + part[1:] for part in name.split("-"))
    return snake(name, specs)


def turn(text, names, made):
    def one(match):
        word = match.group(0)
        if word not in names:
            return word
        before = text[max(0, match.start() - 6):match.start()]
        if re.search(r"(?:goal|given|(?<![\w.])[clw])\.$", before) and word in made:
            return word
        return names[word]
    return re.sub(TOKEN, one, text)


def turn_source(text, names, made):
    # strings keep what they say
    pieces = re.split(r'(b?"(?:[^"\\\n]|\\.)*")', text)
    return "".join(piece if i % 2 else turn(piece, names, made) for i, piece in enumerate(pieces))


def turn_page(text, names, made):
    pieces = re.split(r"(`[^`\n]*`)", text)
    return "".join(turn(piece, names, made) if i % 2 else piece for i, piece in enumerate(pieces))


def turn_edit(text, names, made):
    if re.search(r"^file: (?:specs|proofs)/", text, re.M):
        return turn(text, names, made)
    return turn_source(text, names, made)


def main():
    own, specs, made = collect()
    names = {n: spelled(n, specs) for n in own if "-" in n and re.search(r"\w-", n)}
    names = {old: new for old, new in names.items() if old != new}
    tokens = set()
    sources = glob.glob("crates/*/src/**/*.rt", recursive=True)
    for path in antt_files():
        tokens.update(re.findall(TOKEN, open(path, encoding="utf-8").read()))
    for path in sources:
        for line in open(path, encoding="utf-8"):
            if re.match(r"\s*(?:ghost|requires|ensures)\b", line):
                tokens.update(re.findall(TOKEN, line))
    back = collections.defaultdict(list)
    for old, new in names.items():
        back[new].append(old)
    clashes = [(new, olds) for new, olds in back.items() if len(olds) > 1]
    for new, olds in sorted(back.items()):
        if new in tokens:
            print(f"look: {olds} -> {new}, which is there already")
    for old in sorted(names):
        if old in made:
            print(f"look: {old} is also a name that Rattle makes")
    if clashes:
        print("fall together:", clashes)
        return 1
    if sys.argv[1:] == ["--look"]:
        return 0
    for paths, how in ((antt_files(), turn), (sources, turn_source), (glob.glob("crates/*/must-fail/*.edit"), turn_edit),
                       (glob.glob("docs/**/*.md", recursive=True) + ["README.md"], turn_page)):
        for path in paths:
            text = open(path, encoding="utf-8").read()
            new = how(text, names, made)
            if new != text:
                open(path, "w", encoding="utf-8").write(new)
    print(f"{len(names)} names")
    return 0


if __name__ == "__main__":
    sys.exit(main())
