#!/usr/bin/env python3
"""Brings the names of definitions and lemmas to Rattle's spelling, after port.py: words in snake case, and no definition called `result`.

    tools/respell.py        once, at the top of the repository

- A word in lower camel case of three letters or more, as `leastDivisor` or the first part of `sumTo-count`, is written in snake case: in specs/, proofs/,
  clauses, comments, must-fail edits, and where a document names it in backticks. Rust's names never have that form, so none of them is touched.
- The definition `result` is `outcome_after`, since a clause's `result` is what the function returned; and the clauses that kept their λ for that are
  written without it.
- Three lemmas that would have their definition's name get `_lem`. A definition may have the name of a function of src/ that answers it.
"""
import pathlib
import re

ROOT = pathlib.Path(__file__).resolve().parent.parent
CAMEL = re.compile(r"(?<![A-Za-z0-9])[a-z][a-z0-9]*[A-Z][A-Za-z0-9]*")
CHARACTER = r"[A-Za-z0-9_'\-₀-₉]"
STARRED = re.compile(r"\b(ensures|requires)\*( \w+)? \{ λ (\w+)\. ⌜\s+(.*?)\s+⌝ \}", re.S)
LEMMAS = [("read/proofs/ValueLaws", "zero_row"), ("pair/proofs/LiftLaws", "low_rows"), ("hensel/proofs/JoinedLaws", "power_at")]


def snake(word):
    return re.sub(r"(?<=[a-z0-9])(?=[A-Z])|(?<=[A-Z])(?=[A-Z][a-z])", "_", word).lower()


def token(name):
    return re.compile(rf"(?<!{CHARACTER})(?<!\.){re.escape(name)}(?!{CHARACTER})")


def camels(text):
    return {w for w in CAMEL.findall(text) if len(w) > 2}


def unstar(match):
    kind, name, value, body = match.groups()
    body = token("result").sub("outcome_after", body)
    if value != "_":
        assert f"λ {value}." not in body, body
        body = token(value).sub("result", body)
    return f"{kind}{name or ''} {{ {body} }}"


def respell(text, words):
    return CAMEL.sub(lambda m: snake(m.group()) if m.group() in words else m.group(), text)


def main():
    sources = sorted(p for pattern in ("specs/**/*.antt", "proofs/**/*.antt") for p in ROOT.glob(f"crates/*/{pattern}"))
    codes = sorted(ROOT.glob("crates/*/src/**/*.rt"))
    edits = sorted(ROOT.glob("crates/*/must-fail/*.edit"))
    pages = sorted([ROOT / "README.md", *ROOT.glob("docs/**/*.md"), *ROOT.glob("crates/**/*.md")])
    words = set()
    for path in sources:
        words |= camels(path.read_text())
    for name, lemma in LEMMAS:
        path = ROOT / "crates" / f"{name}.antt"
        if path.exists():
            path.write_text(token(lemma).sub(f"{lemma}_lem", path.read_text()))
    for path in sources:
        path.write_text(token("result").sub("outcome_after", respell(path.read_text(), words)))
    for path in codes:
        text = respell(path.read_text(), words)
        text = STARRED.sub(unstar, text)
        text = re.sub(r"^ghost use .*$", lambda m: token("result").sub("outcome_after", m.group()), text, flags=re.M)
        path.write_text(text)
    for path in edits:
        path.write_text(respell(path.read_text(), words))
    for path in pages:
        path.write_text(re.sub(r"`[^`\n]*`", lambda m: respell(m.group(), words), path.read_text()))


if __name__ == "__main__":
    main()
