#!/usr/bin/env python3
"""Lists the places in src/ that read like the older language, by what they are.

  python3 tools/places.py [KIND]      at the top of the repository; without KIND, the counts of all kinds

A line that it prints is a candidate: docs/DESIGN-PASS.md says which of them are places, and what became of them.
Tests are left out."""
import collections
import glob
import re
import sys

# kind -> what it looks for in one line of code
LINES = {
    "question-mark": r"Err\((\w+)\) => (return )?Err\(|is_err\(\) \{|Err\(_\) => (return )?(Err|None)\b|None => (return )?Err\(|if let Some\(refusal\)",
    "flag": r"^\s*(pub(\(crate\))? )?\w+: bool,$",
    "number": r"\b(number|order|division|kind|code): u8\b|\.(order|kind|division) \{$|\b(kind|code|division) == |refuse\(heap, \d|, 1[567]\)|granted\(at, \d|denied\(at, \d|write_shown\(heap, out, at, \d",
    "loop": r"\bfor \w+ in .*\.\.|\bwhile\b|\bloop \{",
    "by-hand": r"\bfn (is_same|agree|compare_exponents|compare_from_last|is_among|either|digit|describe\w*|\w+_name|refusal_of|run_fault|cap|decode|count|byte|write_(power|factor|powers|term|polynomial|variable|variables|row|rows|setting))\b|\bas (usize|u64|u16)\b|\.copy_from_slice\(",
    "arrays": r"Vec<Vec<|: Vec<usize>|leaders: Vec<|fn place_of|for prime in PRIMES|spare: Vec<",
    "switch": r"\btrait Work\b|impl.* Work\b|\bdyn\b|fn\(\w",
}

# what travels together: parameters of one function
GROUPS = {
    "field and order": (r"\bfield: &?F\b", r"\border: &?O\b"),
    "heap and out": (r"\bheap: Global\b", r"\bout: &mut\b"),
    "coefficient and shift": (r"\bcoefficient: u16\b", r"\bshift: &"),
    "rest, done and spare": (r"\brest: &mut Buffer\b", r"\bspare: &mut Buffer\b"),
    "table, marks and work": (r"\btable: &mut Table\b", r"\bmarks: &mut Marks\b"),
    "rows and marks": (r"\brows: &\[Row\]", r"\bmarks: &Marks\b"),
    "at and out": (r"\bat: usize\b", r"\bout: &mut Vec<u8>"),
}


def files():
    return [p for p in sorted(glob.glob("crates/*/src/**/*.rt", recursive=True)) if not p.endswith("tests.rt")]


def functions(text):
    """The signature of each function with a body, with the line where it begins."""
    for m in re.finditer(r"\bfn \w+.*?(?=\n?\s*\{\n)", text, re.S):
        yield text.count("\n", 0, m.start()) + 1, m.group(0)


def requires(signature):
    return re.findall(r"requires (?:\w+ )?\{ (.*) \}", signature)


def found(kind):
    for path in files():
        text = open(path, encoding="utf-8").read()
        if kind in LINES:
            for n, line in enumerate(text.split("\n"), 1):
                code = line.split("//")[0]
                if "ensures" not in code and "ghost" not in code and re.search(LINES[kind], code):
                    yield path, n, line.strip()
        elif kind == "success-flag":
            for n, s in functions(text):
                head = s.split("ensures")[0].split("requires")[0]
                if "&mut" in head and "-> bool" in head:
                    yield path, n, s.split("(")[0]
        elif kind == "shape":
            for m in re.finditer(r"\benum (\w+)[^{]*\{(.*?)\n\}", text, re.S):
                yield path, text.count("\n", 0, m.start()) + 1, "enum " + m.group(1)
        elif kind == "together":
            for n, s in functions(text):
                head = s.split("ensures")[0].split("requires")[0]
                for name, parts in GROUPS.items():
                    if all(re.search(p, head) for p in parts):
                        yield path, n, s.split("(")[0] + ": " + name
        elif kind == "fact":
            for n, s in functions(text):
                for clause in requires(s):
                    yield path, n, s.split("(")[0].split("<")[0] + " requires " + clause
        elif kind == "twin":
            for n, s in functions(text):
                if re.search(r"fn (write_(count_|bytes_|terms_)?line|write_hex\w*|write_\w+_field|write_(added|judged)|(start|show|measure)_by_\w+|multiply|quotient|raise|variable|multiplicative)\b", s):
                    yield path, n, s.split("(")[0].split("<")[0]
            for m in re.finditer(r"struct (Operands|Setting|Flags|MarkRow|Memory)\b|const MOST_(ROWS|BYTES)\b|exponents: \[0; WIDTH\]", text):
                yield path, text.count("\n", 0, m.start()) + 1, m.group(0)


KINDS = ["shape", "flag", "success-flag", "number", "question-mark", "twin", "loop", "by-hand", "fact", "together", "arrays", "switch"]


def main():
    if len(sys.argv) > 1:
        for path, n, what in found(sys.argv[1]):
            print(f"{path}:{n}: {what}")
        return
    for kind in KINDS:
        crates = collections.Counter(p.split("/")[1] for p, _, _ in found(kind))
        print(f"{kind}: {sum(crates.values())}  " + ", ".join(f"{c} {k}" for c, k in crates.items()))


main()
