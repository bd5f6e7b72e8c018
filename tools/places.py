#!/usr/bin/env python3
"""Counts the places in src/ that docs/DESIGN-PASS.md speaks of, by patterns; what a hit is worth is for a reader to say.

    python3 tools/places.py              counts in the working tree
    python3 tools/places.py COMMIT       counts in a commit
    python3 tools/places.py -v [COMMIT]  the lines too
"""
import re
import subprocess
import sys

# the pattern's name, and what a line has that it counts
LINES = [
    ("1 enums of the repository", r"^\s*(pub(\(crate\))? )?enum [A-Z]"),
    ("1 bools beside other fields or parameters", r"^\s*(pub )?[a-z_]+: bool,$"),
    ("1 functions that answer a bool", r"^\s*(pub(\(crate\))? )?fn .*-> bool"),
    ("1 numbers that stand for a kind", r"\bline: 0\b|=> 99,|Ok\(_\) => 0,|names == 0"),
    ("1 an answer taken apart to be made again", r"let Ok\(.*else \{|if let Err\(|^\s*(Some|Ok)\((\w+)\) => (Some|Ok)\("),
    ("3 loops", r"^\s*(for|while|loop)\b.*\{$"),
    ("3 loops over a range", r"^\s*for .* in .*\.\..*\{$"),
    ("3 loops with an index", r"\.enumerate\(\) \{$"),
    ("3 a place tested and read by its number", r"^\s*(if|\} else if) .*<.*(\.len\(\)|\b256)\b.*\{"),
    ("4 words and numbers of enums by hand", r"fn (word|words|number|t_cycles|radix)\("),
    ("4 equality by hand", r"fn same_|=> true,|=> false,"),
    ("4 conversions of a byte by hand", r"fn (class|source|space|rule|ready|command|timing|interrupt_control|digit|hexadecimal_digit)\("),
    ("4 low and high bytes by hand", r"% 256|/ 256"),
    ("4 impls of From, TryFrom and Display", r"^impl.*\b(From|TryFrom|Display)\b.* for "),
    ("4 derives of equality", r"derive\(.*PartialEq"),
    ("5 a memory and a device space as parameters", r"^\s*devices: &"),
    ("5 the three records of a channel as parameters", r"forcing: &mut Forcing"),
    ("5 program and progress as parameters", r"program: &Program.*progress: &|^\s*progress: &"),
    ("5 a bound of the count in a contract", r"requires \{.*count ≤"),
    ("5 the name of a lent slice in a contract", r"ensures .*ghost_name ≡"),
    ("5 the heap as a parameter", r"heap: Global"),
    ("6 arrays and lent slices in structs", r"^\s*(pub )?[a-z_]+: (&'a (mut )?\[|\[)"),
    ("6 Vec, String and Box", r"\b(Vec|String|Box)\b<?"),
    ("7 closures and functions as parameters", r"impl Fn|: Fn(Once|Mut)?\(|\.(map|map_err|and_then|ok_or|is_some_and|map_or|filter|position)\("),
    ("7 a match on a name", r"match name \{"),
]


def run(*words):
    return subprocess.run(words, check=True, capture_output=True, text=True).stdout


def sources(commit):
    """The source files of a commit, or of the working tree, with their text."""
    listed = run("git", "ls-tree", "-r", "--name-only", commit) if commit else run("git", "ls-files", "-co", "--exclude-standard")
    for path in sorted(listed.splitlines()):
        if re.fullmatch(r"crates/\w+/src/.*\.rt", path):
            yield path, run("git", "show", f"{commit}:{path}") if commit else open(path).read()


def shape(body):
    """A function's text with each name and value replaced by the number of its first place: twins have one shape."""
    seen = {}
    return " ".join(
        word if not re.match(r"[\w\"']", word) or word in ("if", "else", "match", "let", "mut", "self", "return", "for", "in")
        else str(seen.setdefault(word, len(seen)))
        for word in re.findall(r"\"[^\"]*\"|\w+|\S", re.sub(r"//.*", "", body))
    )


def functions(text):
    """The functions of a file with three lines of body or more: the name, and the text from `fn` to the closing brace."""
    for found in re.finditer(r"^( *)(?:pub(?:\(crate\))? )?fn (\w+).*?^\1\}$", text, re.M | re.S):
        body = re.sub(r"(?m)^\s*(requires|ensures).*\n", "", found.group(0))
        if body.count("\n") >= 4:
            yield found.group(2), body


def main():
    words = [w for w in sys.argv[1:] if w != "-v"]
    files = list(sources(words[0] if words else None))
    for name, pattern in LINES:
        hits = [f"{path}:{n}: {line.strip()}" for path, text in files for n, line in enumerate(text.splitlines(), 1) if re.search(pattern, line)]
        print(f"{len(hits):4} {name}")
        if "-v" in sys.argv:
            print(*(f"       {hit}" for hit in hits), sep="\n")
    shapes = {}
    for path, text in files:
        for name, body in functions(text):
            shapes.setdefault(shape(body), []).append(f"{path}: {name}")
    twins = [places for places in shapes.values() if len(places) > 1]
    print(f"{sum(map(len, twins)):4} 2 functions of one shape, in {len(twins)} groups")
    if "-v" in sys.argv:
        print(*(f"       {', '.join(places)}" for places in twins), sep="\n")


main()
