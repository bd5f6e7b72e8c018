#!/usr/bin/env python3
"""Brings the repository's own definitions and lemmas to the kit's spelling; run once at the top, after the kit's port.py.

Words go to snake case, and types and facts to upper camel case: lent-ram becomes lent_ram, Same-cells becomes SameCells.
Names of src/, strings, inputs and outputs stay, and so do the kit's own names and the names of goals.
In comments and on the pages only names between backticks are turned.
"""
import pathlib
import re

WORD = r"[A-Za-zℕ][\w']*(?:-[\w']+)+"
NAMED = re.compile(r"^\s*(?:(?:abbrev|unfoldable|pub)\s+)*(" + WORD + r")\s*:(?!:)")
TYPED = re.compile(r"^\s*(?:pub\s+)?(?:data|record|module)\s+([A-Za-z][\w'-]*)")
# a type that the first script spelled half; and one that was spelled as a word, in its crate alone
TYPES = {"At_source": "AtSource"}
LOCAL = {"control": {"few": "Few"}}
RENAMED = re.compile(r"\bas (" + WORD + r")")
TOKEN = re.compile(r"(?<![\w'.-])[A-Za-zℕ][\w'-]*|(?<=[.])[A-Za-zℕ][\w'-]*")


def turned(name):
    if name in TYPES:
        return TYPES[name]
    parts = name.split("-")
    if name[0].isupper():
        return parts[0] + "".join(p[0].upper() + p[1:] for p in parts[1:])
    return "_".join(parts)


def own_names(files):
    names = set(TYPES)
    for path in files:
        goals = path.name in ("Answers.antt", "Invariants.antt", "Proof.antt")
        for line in path.read_text().split("\n"):
            found = NAMED.match(line)
            if found and not (goals and re.search(r":\s*goal\.", line)):
                names.add(found.group(1))
            found = TYPED.match(line)
            if found and "-" in found.group(1):
                names.add(found.group(1))
            if not line.lstrip().startswith("--"):
                names.update(RENAMED.findall(line))
    return names


def respell(text, names, local, comment):
    """The text with each own name turned, outside comments and strings; inside a comment, between backticks."""
    def word(m):
        return turned(m.group(0)) if m.group(0) in names else local.get(m.group(0), m.group(0))

    def ticked(m):
        return TOKEN.sub(word, m.group(0))

    out = []
    for line in text.split("\n"):
        cut = re.match(r"((?:[^\"/-]|\"(?:[^\"\\]|\\.)*\"|" + {"//": "/(?!/)|-", "--": "/|-(?!-)|(?<=\\S)--"}[comment] + r")*)(.*)", line)
        code, rest = cut.group(1), cut.group(2)
        pieces = re.split(r"(\"(?:[^\"\\]|\\.)*\")", code)
        code = "".join(p if p.startswith('"') else TOKEN.sub(word, p) for p in pieces)
        out.append(code + re.sub(r"`[^`]*`", ticked, rest))
    return "\n".join(out)


def main():
    crates = pathlib.Path("crates")
    antt = sorted(p for p in crates.rglob("*.antt") if "out" not in p.parts)
    code = sorted(p for p in crates.rglob("*.rt") if "out" not in p.parts)
    names = own_names(antt)
    before = {w for p in antt + code for w in TOKEN.findall(p.read_text())}
    meet = sorted(n for n in names if turned(n) in before)
    for path in antt + code:
        local = LOCAL.get(path.parts[1], {})
        path.write_text(respell(path.read_text(), names, local, "--" if path.suffix == ".antt" else "//"))
    # the words that the programs read and print
    said = {w for p in antt + code for q in re.findall(r'"(?:[^"\\\n]|\\.)*"', p.read_text()) for w in re.findall(WORD, q)}
    defined = ({turned(n) for n in names} | before) - {turned(w) for w in said}
    for path in [pathlib.Path("README.md"), *sorted(pathlib.Path("docs").glob("*.md"))]:
        def ticked(m):
            return re.sub(WORD, lambda w: turned(w.group(0)) if turned(w.group(0)) in defined else w.group(0), m.group(0))
        path.write_text(re.sub(r"`[^`\n]*`", ticked, path.read_text()))
    print(f"{len(names)} names")
    for n in meet:
        print(f"look: {n} -> {turned(n)} was there before")


main()
