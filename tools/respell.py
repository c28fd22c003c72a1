#!/usr/bin/env python3
"""Brings the repository's own definitions and lemmas to the spelling of today's Rattle, after port.py: words are in snake case, a dash stands only
between the names of two definitions, as in `sum-digit`. What is renamed is what specs/ and the lemma files of proofs/ define; functions of src/ keep
their names. Run once, at the top: a second run would take names of today for older ones."""
import glob
import re
import sys

# The definitions that a lemma's name may join by a dash: std's, and those of the repository that a lemma's left side applies.
JOINED = set("""
length take drop set append zero suc mul div mod pow get_or
sum times degree poly cells divide coefficient held horner reduce low high added shifted digits decimal piece packed row digit
generators lengths patternAt
""".split())

# Where the rule would make two names one, or leave one that says something else.
BY_HAND = {
    "low_run": "low_run_lem",
    "high-run": "high_run_lem",
    "getD-listed": "get_or-listed",
    "degree-of": "degree_of_lem",
    "first-number": "first_number_lem",
    "remainder-high": "remainder_high_lem",
    "remainder-low": "remainder_low_lem",
}

NAME = re.compile(r"(?<![\w'\-])[A-Za-z][\w'\-]*(?![\w'\-])")


def defined(path):
    """The names that a file defines: at its top level, in a record or a `data`, or under a `where`."""
    names = set()
    for line in open(path, encoding="utf-8"):
        if re.match(r"\s*(use|mod|pub mod|pub use|--)", line):
            continue
        top = re.match(r"(?:abbrev |unfoldable |pub |data |record )*([^\s:(){}]+)\s*(?:[({][^)}]*[)}]\s*)*:\s", line)
        inner = re.match(r"\s+(?:pub )?([^\s:(){}λ]+)\s*:\s", line)
        for match in (top, inner):
            if match:
                names.add(match.group(1))
    return names


def respelled(name):
    """A name by the rule."""
    if name in BY_HAND:
        return BY_HAND[name]
    if name[0].isupper():
        return name
    parts = re.sub(r"(?<=[a-z0-9])([A-Z])", lambda m: "_" + m.group(1).lower(), name).split("-")
    made = parts[0]
    for left, right in zip(parts, parts[1:]):
        made += ("-" if left in JOINED and right in JOINED else "_") + right
    return made


def main():
    lemmas = glob.glob("crates/*/specs/*.antt") + glob.glob("crates/*/proofs/*.antt")
    names = set().union(*map(defined, lemmas))
    turned = {name: respelled(name) for name in names if respelled(name) != name}
    files = sorted(
        glob.glob("crates/*/specs/*.antt") + glob.glob("crates/*/proofs/**/*.antt", recursive=True)
        + glob.glob("crates/*/src/**/*.rt", recursive=True) + glob.glob("crates/*/must-fail/*.edit") + glob.glob("docs/*.md") + ["README.md"]
    )
    texts = {path: open(path, encoding="utf-8").read() for path in files}
    standing = {word for text in texts.values() for word in NAME.findall(text)}
    made = {}
    for old, new in sorted(turned.items()):
        made.setdefault(new, []).append(old)
    for new, olds in sorted(made.items()):
        if len(olds) > 1 or (new in standing and new not in turned):
            print("falls together:", new, "from", *olds, file=sys.stderr)
    count = 0
    for path, text in texts.items():
        new = NAME.sub(lambda m: turned.get(m.group(0), m.group(0)), text)
        if new != text:
            count += 1
            open(path, "w", encoding="utf-8").write(new)
    print(f"{len(turned)} names in {count} files")


if __name__ == "__main__":
    main()
