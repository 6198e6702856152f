"""Counts the places that docs/DESIGN-PASS.md speaks of, in the src/ of every crate of a checkout.

    python3 tools/places.py [CHECKOUT]

Prints for each point the places that its patterns find, a line each. A pattern finds a place by its text; what each place is was read by hand.
"""
import glob
import os
import re
import sys

TOP = sys.argv[1] if len(sys.argv) > 1 else "."
FILES = {os.path.relpath(f, TOP): open(f, encoding="utf-8").read() for f in sorted(glob.glob(TOP + "/crates/*/src/**/*.rt", recursive=True))}
HEAD = re.compile(r"^( *)(?:pub )?fn (\w+)(?:<[^(]*>)?\(([^)]*)\)(?: -> ([^{\n]+?))?(?: \{)?$", re.M)
WORDS = {"if", "else", "while", "for", "in", "return", "match", "let", "mut", "Some", "None", "Ok", "Err"}


def lines(pattern, what):
    """Every line of the sources that the pattern finds, with what it is."""
    return [(f, n, what, line.strip()) for f, text in FILES.items() for n, line in enumerate(text.split("\n"), 1) if re.search(pattern, line)]


def functions():
    """Every function: its file, line, name, parameters, result, clauses and body."""
    for f, text in FILES.items():
        for head in HEAD.finditer(text):
            indent = head.group(1)
            start = head.end() if head.group().endswith("{") else text.find("\n" + indent + "{", head.end())
            end = text.find("\n" + indent + "}", start)
            yield f, text.count("\n", 0, head.start()) + 1, head.group(2), head.group(3), head.group(4) or "", text[head.end() : start], text[start:end]


def answers_a_code():
    """Functions that answer the reply of five numbers."""
    return [(f, n, "a function that answers a code", name) for f, n, name, _, result, _, _ in functions() if result.endswith("Reply")]


def twins():
    """Functions whose bodies are the same once names and numbers are taken out."""
    shapes = {}
    for f, n, name, _, _, _, body in functions():
        shape = re.sub(r"\b[A-Za-z_]\w*\b", lambda m: m.group() if m.group() in WORDS else "x", re.sub(r"//.*", "", body))
        shape = re.sub(r"\bx(\s*(\.|::)\s*x)+\b", "x", re.sub(r"\b\d\w*\b", "x", shape))
        shape = re.sub(r"\bx(\s*[:,]\s*x)+\b,?", "x", re.sub(r"\s+", " ", shape))
        shape = re.sub(r"\{ (Err\(x \{ x \}\)) \}", r"\1", shape)
        shape = re.sub(r"x \. x|x\.x", "x", re.sub(r"\s*\.\s*", ".", shape))
        if len(re.findall(r"\bx\b", shape)) > 3:
            shapes.setdefault(shape, []).append((f, n, "the same shape", name))
    return [place for places in shapes.values() if len(places) > 1 for place in places]


def raw_values():
    """Functions whose clauses say of a number or a slice what a type of its own could say: `has` of a word, or that it is read as a plan."""
    found = []
    for f, n, name, parameters, result, clauses, _ in functions():
        if result == "u64" and "has result" in clauses or any(re.search(r"\bhas " + p + r"\b", clauses) for p in re.findall(r"(\w+): u64", parameters)):
            found.append((f, n, "a word as a set", name))
        if "plan: &[u64]" in parameters or "plan: &'p [u64]" in parameters:
            found.append((f, n, "a slice as a plan", name))
    return found


POINTS = {
    "1 numbers for refusals, kinds and none": lambda: answers_a_code() + lines(r"pub code: u64", "a code") + lines(r"// .*(64|links) where there is none|fact: 0,|// Word i.*0 past|// .*an empty part for", "a number or a part for none") + lines(r"requires \{ k ≤ 2 \}", "a number for a kind"),
    "2 twins": twins,
    "3 loops that count an index by hand": lambda: lines(r"^\s*(while|loop)\b", "a loop"),
    "4 conversions and derives": lambda: lines(r"(trailing_zeros|count_ones)\(\w*\) as u64|\w\[\w+\] as u64", "a conversion that From has") + lines(r"#\[derive\(Drop\)\]", "a plain type with no equality, copy or print"),
    "5 values that a type of their own could hold": raw_values,
    "6 buffers with a length beside, arenas": lambda: lines(r"\w+_len: usize|4 \+ 3 \*|FIRST_STEP \+|FIRST_STEP as", "words found by their place"),
    "7 switches on a step, tables of functions": lambda: lines(r"\bdyn\b|: fn\(|match step\b", "a choice of what to run"),
}

for point, places in POINTS.items():
    found = places()
    print(f"{point}: {len(found)}")
    for f, n, what, text in found:
        print(f"    {f}:{n}: {what}: {text}")
