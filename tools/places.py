#!/usr/bin/env python3
"""Lists and counts forms of code in crates/*/src that a plainer form of the language may serve.

Run at the top of the repository: tools/places.py [-l]. With -l each place is printed with its file and line.
docs/DESIGN-PASS.md says what each point is, and which of the places are kept and why.
"""
import re
import sys
from pathlib import Path

POINTS = [
    ("1 a field of type bool", r"^\s+(pub(\(crate\))? )?[a-z_]+: bool,"),
    ("1 an error or a value passed on by hand", r"Err\((refusal|stop)\) => Err\(|return Err\((refusal|stop)\)|None => (None|Err\(|return Err\()"),
    ("1 a table of numbers of refusals", r"Refusal::[A-Z][a-z]+(Length)?(\(_\))? => (1|10|20|40|43),"),
    ("1 a refusal or a kind as a bare number", r"Result<[^<>]*, (u8|u32|usize)>|number: u32\b|code: u8,"),
    ("1 false, true or 0 for a failure or for nothing", r"// .*([;,] (false|true) where|, or 0\b|0 while|0 where there is no)"),
    ("1 a presence asked by hand", r"None => (false|true|0|unreachable\(\)),|is_none\(\) \{"),
    ("3 a range as a loop", r"^\s*for [a-z_]+ in .*\.\."),
    ("3 a loop with its own end", r"^\s*(while |loop \{)"),
    ("3 a count kept by hand", r"\+= 1;|saturating_add\(1\)"),
    ("4 a byte of a truth by hand", r"\{ 1 \} else \{ 0 \}|Some\((true|false)\) => (1|0)|\] [!=]= 1\b|\] == 1\)"),
    ("4 a literal put together by hand", r"(?<!struct )(?<!impl )\bLiteral \{( |$)"),
    ("4 a conversion, a comparison or a printing of its own", r"^\s*(pub(\(crate\))? )?fn (asked|framed|same|is_signal|bit_of|given_as|literal|answer_number|from_fields|code|put_number)\("),
    ("6 a length beside a buffer", r"^\s+(pub(\(crate\))? )?(len|count|used|bytes): usize,"),
    ("6 an array that is filled up to a place", r"\[(first|none|0u8|None|0|Row::Signal\(0\)); [A-Z0-9_a-z]+\]"),
    ("7 a switch on which step to run", r"fn (claim_of|guard_of|window_literal|link|truth_at)\b"),
]

FACTS = ["k < 32", "k ≤ 31", "l ≤ k", "highest ≤ 2112", "length letters", "i ≤ 31", "n ≤ 32", "length rows.now ≤ 32", "at + "]


def sources():
    return sorted(p for p in Path("crates").glob("*/src/**/*.rt"))


def several(text):
    """Functions of five parameters or more."""
    for m in re.finditer(r"fn ([a-z_0-9]+)(<[^(]*>)?\(([^)]*)\)", text):
        params = [q for q in m.group(3).split(",") if ":" in q or "self" in q]
        if len(params) >= 5:
            yield text[: m.start()].count("\n") + 1, m.group(1)


def main():
    listed = "-l" in sys.argv
    for name, pattern in POINTS:
        hits = []
        for path in sources():
            for n, line in enumerate(path.read_text().splitlines(), 1):
                if re.search(pattern, line):
                    hits.append(f"    {path}:{n}: {line.strip()}")
        print(f"{len(hits):4}  {name}")
        if listed:
            print("\n".join(hits))
    hits = [f"    {p}:{n}: fn {f}" for p in sources() for n, f in several(p.read_text())]
    print(f"{len(hits):4}  5 a function of five parameters or more")
    if listed:
        print("\n".join(hits))
    for fact in FACTS:
        clauses = sum(
            1
            for p in sources()
            for line in p.read_text().splitlines()
            if re.match(r"\s*(requires|ensures)\b", line) and fact in line
        )
        print(f"{clauses:4}  5 clauses with {fact}")
    names = {}
    for p in sources():
        for f in re.findall(r"^\s*(?:pub(?:\(crate\))? )?(?:const )?(?:fn ([a-z_0-9]+)|const ([A-Z_]+):)", p.read_text(), re.M):
            names.setdefault(f[0] or f[1], set()).add(str(p))
    twins = {n: sorted(ps) for n, ps in names.items() if len(ps) > 1 and n not in ("main", "new", "fmt", "show", "number")}
    print(f"{len(twins):4}  2 names of a function or a constant in more than one file")
    if listed:
        for n, ps in sorted(twins.items()):
            print(f"    {n}: {', '.join(ps)}")
    answers = [p for p in Path("crates").glob("*/proofs/**/*.antt")]
    lines = sum(len(p.read_text().splitlines()) for p in answers)
    print(f"{lines:4}  8 lines of proofs, in {len(answers)} files")


main()
