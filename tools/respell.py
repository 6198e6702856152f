#!/usr/bin/env python3
"""Brings the repository's own names to today's spelling, once, right after port.py.

usage: python3 tools/respell.py [--list]     at the top of the repository; --list prints the renaming and writes nothing

port.py respells only the names that a library spells too. This does the rest, in specs/, proofs/ and the clauses of src/:
  definitions, lemmas, fields and constructors get snake case: `membersFrom` is `members_from`, `least-hit` is `least_hit`;
      a lemma that would fall together with its function gets `_lem` behind it;
  in specs/ and in clauses, the tests of the library get the words of its Prelude: `eqb a b` is `a == b`, `ltb` is `nat_lt`, `leb` is `nat_le`,
      `cond b x y` is `if b then x else y`, `get_or xs i 0` of numbers is `slice_index xs i`, and at another default `slice_index_or`;
  a file of lemmas imports from Common what Common passes on.
Functions of src/, exported names and text stay as they are. It ends with `rt fmt` in each crate.
"""

import glob
import os
import re
import subprocess
import sys

TOKEN = re.compile(r'[^\s(){}.;,@"«»\[\]|]+')
LIBRARY = "/opt/rattle/rattle"
OLD = re.compile(r"[a-z].*[a-z0-9'](-[a-z0-9]|[A-Z])")
WORDS = {"eqb": "◌==◌", "ltb": "nat_lt", "leb": "nat_le", "cond": "if◌then◌else◌"}


def text_of(path):
    with open(path, encoding="utf-8") as f:
        return f.read()


def code_of(text):
    return re.sub(r"--[^\n]*", "", text)


def imports(text):
    """(whole line, module, names) of each import that lists names."""
    for m in re.finditer(r"^(?:pub |ghost )?use ([\w.·+'-]+)\.\{([^}]*)\};?$", text, re.M):
        yield m.group(0), m.group(1), [w.strip() for w in m.group(2).split(",") if w.strip()]


def own_module(module):
    return re.match(r"Rattle\.(sets|model|plan|run)\.", module) is not None


def files():
    found = glob.glob("crates/*/specs/**/*.antt", recursive=True) + glob.glob("crates/*/proofs/**/*.antt", recursive=True)
    return sorted(p for p in found if "/out/" not in p)


def by_hand(path):
    """A file of definitions or lemmas, and no proof of one function."""
    return re.fullmatch(r"crates/\w+/(specs|proofs)/\w+\.antt", path) is not None


def snake(name):
    return re.sub(r"([a-z0-9'])([A-Z])", r"\1_\2", name).lower().replace("-", "_")


def renaming():
    from_libraries, tokens, old = set(), set(), set()
    for p in files():
        text = text_of(p)
        for _, module, names in imports(text):
            if not own_module(module):
                from_libraries.update(n.split(" as ")[0] for n in names)
        found = set(TOKEN.findall(re.sub(r"(?m)^(pub )?use [\w.·+'-]+( as \w+|(?=\.\{))", "", code_of(text))))
        tokens |= found
        if by_hand(p):
            old |= {w for w in found if OLD.match(w)}
    old -= from_libraries
    taken = (tokens - old) | from_libraries
    table = {}
    for name in sorted(old, key=lambda w: ("-" in w, w)):
        new = snake(name)
        if new in taken or new in table.values():
            new += "_lem"
        if new in taken or new in table.values():
            raise SystemExit(f"respell: {name} has no free name")
        table[name] = new
    return table


def respelt(text, table, whole):
    """The code with each token of the table turned; in a comment only names in camel case turn."""

    def turn(line):
        code, dash, comment = line.partition("--")
        code = TOKEN.sub(lambda m: table.get(m.group(0), m.group(0)), code)
        comment = TOKEN.sub(lambda m: table.get(m.group(0), m.group(0)) if "-" not in m.group(0) else m.group(0), comment)
        return code + dash + comment

    return "\n".join(turn(line) for line in text.split("\n")) if whole else text


def atom(text, at):
    """Where the argument that begins at or after `at` begins and ends."""
    while at < len(text) and text[at] == " ":
        at += 1
    start = at
    if at < len(text) and text[at] == "(":
        depth = 0
        while True:
            depth += {"(": 1, ")": -1}.get(text[at], 0)
            at += 1
            if depth == 0:
                break
        while at < len(text) and re.match(r"\.\w", text[at:]):
            at += 1 + len(re.match(r"\w+", text[at + 1 :]).group(0))
    else:
        m = re.match(r"\[\]|[^\s(){};,\[\]]+", text[at:])
        if not m:
            return None
        at += m.end()
    return start, at


def bare(argument):
    return argument[1:-1] if argument.startswith("(") and argument.endswith(")") and atom(argument, 0)[1] == len(argument) else argument


def whole_place(before, after):
    return re.search(r"(=|\bin|↦|\(|λ [^()]*\.|=\s*\n)\s*$", before) and re.match(r"\s*($|\)|\||\]|\n|in\n)", after)


def turn_words(text):
    """The library's tests by the words of Prelude, outside comments and imports."""
    for word, count in (("get_or", 3), ("eqb", 2), ("cond", 3)):
        at = 0
        while True:
            m = re.compile(r"(?<![\w◌-])" + word + r"(?![\w◌-])").search(text, at)
            if not m:
                break
            line = text[text.rfind("\n", 0, m.start()) + 1 : m.start()]
            places, end = [], m.end()
            if not re.match(r"(pub |ghost )?use ", line) and "--" not in line:
                for _ in range(count):
                    place = atom(text, end)
                    if place is None:
                        break
                    places.append(text[place[0] : place[1]])
                    end = place[1]
            if len(places) < count:
                at = m.end()
                continue
            before, after = text[: m.start()], text[end:]
            if word == "get_or":
                numbers = places[2] == "0"
                new = f"slice_index {places[0]} {places[1]}" if numbers else f"slice_index_or {places[0]} {places[1]} {places[2]}"
            elif word == "eqb":
                new = f"{bare_operand(places[0])} == {bare_operand(places[1])}"
            else:
                new = f"if {bare(places[0])} then {bare(places[1])} else {bare(places[2])}"
                if not whole_place(before, after):
                    new = f"({new})"
            text = before + new + after
            at = len(before)
            if word == "eqb" or word == "get_or":
                at = len(before) + 1
    for word in ("ltb", "leb"):
        text = re.sub(r"(?<![\w◌-])" + word + r"(?![\w◌-])", WORDS[word], text)
    return text


def bare_operand(argument):
    """An operand of `==` keeps its parentheses only where an operator stands in it."""
    inside = bare(argument)
    return inside if inside != argument and not re.search(r" ([-+*/%^∷]|\+\+|&&|\|\||==) |λ", inside) else argument


def mend_imports(text):
    """Import lists of specs/ and src/ name the words that the code now has."""
    code = "\n".join(l for l in code_of(text).split("\n") if not re.match(r"(pub |ghost )?use ", l))
    have = {
        "◌==◌": " == " in code,
        "nat_lt": re.search(r"\bnat_lt\b", code),
        "nat_le": re.search(r"\bnat_le\b", code),
        "if◌then◌else◌": re.search(r"\bif .* then ", code),
        "slice_index": re.search(r"\bslice_index\b", code),
        "slice_index_or": re.search(r"\bslice_index_or\b", code),
    }
    for line, module, names in list(imports(text)):
        if module != "Rattle.std.specs.Prelude":
            continue
        kept = [n for n in names if n not in ("eqb", "ltb", "leb", "cond", "get_or", "nat_lt", "nat_le")]
        kept += [n for n, used in have.items() if used and n not in kept]
        text = text.replace(line, line[: line.index("{")] + "{" + ", ".join(kept) + "}" + (";" if line.endswith(";") else ""))
    return text


def origins():
    """For each name that Common passes on, the modules that it comes through."""
    where = {}

    def module_file(module):
        for crate in ("std", "core", "std_alloc", "std_collections"):
            if module.startswith(f"Rattle.{crate}."):
                return f"{LIBRARY}/{crate}/" + module[len(f"Rattle.{crate}.") :].replace(".", "/") + ".antt"
        return None

    def follow(module, through):
        path = module_file(module)
        if path is None or not os.path.exists(path):
            return
        for _, below, names in imports(text_of(path)):
            for n in names:
                first, _, last = n.partition(" as ")
                name = last or first
                if through is None or name in through:
                    where.setdefault(name, set()).add((below, first))
            follow(below, {(n.partition(" as ")[2] or n) for n in names})

    follow("Rattle.std.proofs.Common", None)
    return where


def from_common(text, where):
    """One import of Common for all that it passes on."""
    taken, first = [], None
    for line, module, names in list(imports(text)):
        if own_module(module) or module.startswith("Rattle.std.specs.declared"):
            continue
        plain = [n for n in names if " as " not in n]
        passed = [n for n in plain if module == "Rattle.std.specs.Prelude" or (module, n) in where.get(n, ())]
        passed = [n for n in passed if n in where or module == "Rattle.std.specs.Prelude"]
        if not passed:
            continue
        rest = [n for n in names if n not in passed]
        taken += [n for n in passed if n not in taken]
        new = line[: line.index("{")] + "{" + ", ".join(rest) + "}" if rest else ""
        if first is None:
            first = "\0"
            new = first + ("\n" + new if new else "")
        text = text.replace(line + "\n", new + "\n" if new else "", 1)
    return text.replace("\0", "use Rattle.std.proofs.Common.{" + ", ".join(taken) + "}") if taken else text


def main(argv):
    table = renaming()
    if argv:
        print("\n".join(f"{a} {b}" for a, b in table.items()))
        return 0
    where = origins()
    for p in files():
        text = respelt(text_of(p), table, True)
        if "/specs/" in p:
            text = re.sub(r"^use (mathlib\.Core\.List|Prim\.Native\.Nat|Rattle\.std\.proofs\.Math\.(Bool|Dec))\.\{", "use Rattle.std.specs.Prelude.{", text, flags=re.M)
            text = mend_imports(join_prelude(turn_words(text) if not p.endswith("/Relax.antt") else turn_relax(text)))
        elif by_hand(p):
            text = from_common(text, where)
        with open(p, "w", encoding="utf-8") as f:
            f.write(text)
    for p in sorted(glob.glob("crates/*/src/*.rt")):
        text = TOKEN.sub(lambda m: table.get(m.group(0), m.group(0)), text_of(p))
        with open(p, "w", encoding="utf-8") as f:
            f.write(mend_imports("\n".join(turn_words(l) if "ensures" in l else l for l in text.split("\n"))))
    for crate in sorted(glob.glob("crates/*/")):
        subprocess.run(["rt", "fmt"], cwd=crate, check=False, stdout=subprocess.DEVNULL)
    return 0


def turn_relax(text):
    """As turn_words; the one `get_or` of this file is that of an Option, and stays."""
    return turn_words(text.replace("get_or (found", "get_OR (found")).replace("get_OR", "get_or")


def join_prelude(text):
    """One import of Prelude."""
    lines = [(line, names) for line, module, names in imports(text) if module == "Rattle.std.specs.Prelude"]
    if len(lines) < 2:
        return text
    names = []
    for _, more in lines:
        names += [n for n in more if n not in names]
    for line, _ in lines[1:]:
        text = text.replace(line + "\n", "", 1)
    return text.replace(lines[0][0], "use Rattle.std.specs.Prelude.{" + ", ".join(names) + "}", 1)


if __name__ == "__main__":
    raise SystemExit(main(sys.argv[1:]))
