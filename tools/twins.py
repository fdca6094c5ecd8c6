#!/usr/bin/env python3
"""Functions of crates/*/src whose bodies have one shape: the same but for names, numbers and texts.

tools/twins.py           prints each group, and how many functions are beyond the first of their group
"""
import glob
import re
from collections import defaultdict

KEYWORDS = {
    "if", "else", "match", "while", "for", "in", "loop", "return", "let", "mut", "as", "true", "false", "Some", "None", "Ok", "Err",
    "break", "continue", "self", "Self", "fn", "impl", "u8", "u16", "u32", "u64", "usize", "move",
}
FN = re.compile(r"^( *)(?:pub(?:\(crate\))? )?(?:const )?(?:extern \"C\" )?fn (\w+)", re.M)
LEAST = 4


def functions(text):
    """Name and body of each function: from the brace on a line of its own, or at the end of the signature, to the one below it."""
    for found in FN.finditer(text):
        indent = found[1]
        start = re.compile(r"\{\n").search(text, found.end())
        own = re.compile(rf"^{indent}\{{\n", re.M).search(text, found.end())
        end = re.compile(rf"^{indent}\}}", re.M).search(text, found.end())
        if not start or not end or ";\n" in text[found.end() : start.start()]:
            continue  # a function of a trait, without a body
        at = own.end() if own and own.end() < end.start() else start.end()
        yield found[2], text[at : end.start()]


def shape(body):
    body = re.sub(r"//[^\n]*", "", body)
    body = re.sub(r'b?"(?:\\.|[^"\\])*"', '"', body)
    return re.sub(r"\w+", lambda w: w[0] if w[0] in KEYWORDS else ("0" if w[0][0].isdigit() else "x"), re.sub(r"\s+", " ", body))


def main():
    groups = defaultdict(list)
    for path in sorted(glob.glob("crates/*/src/**/*.rt", recursive=True)):
        with open(path) as file:
            text = file.read()
        for name, body in functions(text):
            if body.count("\n") >= LEAST:
                groups[shape(body)].append(f"{path.split('/')[1]}::{name}")
    twins = sorted(names for names in groups.values() if len(names) > 1)
    for names in twins:
        print("  " + ", ".join(names))
    print(f"2 functions beyond the first of their shape, of {LEAST} lines and more: {sum(len(names) - 1 for names in twins)}")


main()
