#!/usr/bin/env python3
"""Respells the names that this repository declares in specs/ and proofs/.

Words (functions, lemmas, fields, constructors) become snake case, types and facts upper camel case. A dash stays
only where it joins an operator to a name. Names of goals, of the library and of src/ keep their spelling. Run once,
at the top, after the kit's port.py; a second run finds nothing to change.
"""
import glob
import re
import sys

# Names that no rule gives.
BY_HAND = {
    "getD-map-at": "get_or_map_at",
    "degree-reverseAux": "degree_reverse_aux",
    "times-reverseAux": "times_reverse_aux",
    "starts-no-term": "StartsNoTerm",
    "unless-appended": "UnlessAppended",
    "M-is": "m_is",
    "Height": "height_of",
    "G-0": "g_zero",
    "G-shift": "g_shift",
    "in-U": "in_u",
    "out-U": "out_u",
    "Command-as-Term": "CommandTerm",
    "Settled-as-Appended": "SettledAppended",
}
# Plain words, which are added to an operator with an underscore.
PLAIN = {"assoc", "comm", "cancel", "left"}
WORD = re.compile(r"[A-Za-z0-9_']+\??\Z")
DECLARED = re.compile(r"^ *(?:abbrev |unfoldable )?(?:pub )?(?:abbrev |unfoldable )?(?:pub )?([^\s:()\[\]{}]+) : (.*)$")
TYPE = re.compile(r"^ *(?:pub )?(?:record|data) ([^\s:()\[\]{}]+)")
CONSTRUCTORS = re.compile(r"^ +(?:pub )?((?:[^\s:()\[\]{}]+ )+):")
ALIAS = re.compile(r" as ([A-Za-z0-9]+(?:-[A-Za-z0-9]+)+)")
# Parameters, and what `let` and `λ` bind.
BOUND = re.compile(r"[({]((?:[^\s(){}\[\]:,.]+ )+):|\blet ([^\s(){}\[\]:,.]+) [:=]|λ ((?:[^\s(){}\[\]:,.]+ ?)+)\.")
LIBRARY = re.compile(r"use (?:Rattle\.(?:std|core)|mathlib|native|Prim|lib|borrow|denote)\.[^{;]*\{([^}]*)\}")
BREAKS = re.compile(r"([\s(){}\[\],;.\"]+)")


def antt_files():
    return sorted(
        glob.glob("crates/*/specs/**/*.antt", recursive=True) + glob.glob("crates/*/proofs/**/*.antt", recursive=True)
    )


def new_name(name):
    if name in BY_HAND:
        return BY_HAND[name]
    parts = name.split("-")
    if len(parts) == 1 or not all(parts):
        return name
    if name[0].isupper() and all(WORD.match(part) for part in parts):
        return parts[0] + "".join(part[:1].upper() + part[1:] for part in parts[1:])
    out = parts[0]
    for before, part in zip(parts, parts[1:]):
        words = WORD.match(before) and WORD.match(part)
        out += ("_" if words or part in PLAIN else "-") + part
    return out


def declared_names():
    names = {}
    for path in antt_files():
        for line in open(path, encoding="utf-8"):
            m = DECLARED.match(line)
            if m and not re.match(r"(goal|need|given)\.", m.group(2)):
                names.setdefault(m.group(1), set()).add(path)
            for groups in BOUND.findall(line.partition("-- ")[0]):
                for name in " ".join(groups).split():
                    if "-" in name and not name.startswith(("-", "_")):
                        names.setdefault(name, set()).add(path)
            m = TYPE.match(line) or CONSTRUCTORS.match(line)
            for name in m.group(1).split() if m else []:
                names.setdefault(name, set()).add(path)
            if " use " in " " + line:
                for name in ALIAS.findall(line):
                    names.setdefault(name, set()).add(path)
    for path in sorted(glob.glob("crates/*/src/**/*.rt", recursive=True)):
        for line in open(path, encoding="utf-8"):
            if line.startswith("ghost use "):
                for name in ALIAS.findall(line):
                    names.setdefault(name, set()).add(path)
    return names


def without_imported(table, text):
    """The library's names keep their spelling in a file that imports them, though a crate has one of the same name."""
    imported = set()
    for names in LIBRARY.findall(text):
        imported.update(name.split(" as ")[0].strip() for name in names.split(","))
    return {old: new for old, new in table.items() if old not in imported}


def goal_names():
    """Names that a proof file gives to goals: those are the check's."""
    names = set()
    for path in antt_files():
        for line in open(path, encoding="utf-8"):
            m = DECLARED.match(line)
            if m and re.match(r"(goal|need|given)\.", m.group(2)):
                names.add(m.group(1))
    return names


def turn_line(line, table, path, met):
    pieces = BREAKS.split(line)
    for i in range(0, len(pieces), 2):
        piece = pieces[i]
        new = table.get(piece)
        if new is None:
            continue
        behind = "".join(pieces[:i])
        owner = re.search(r"([^\s(){}\[\],;]+)\.\Z", behind)
        if owner and owner.group(1) in ("goal", "need", "given"):
            continue
        if owner:
            met.append((path, owner.group(1) + "." + piece))
        pieces[i] = new
    return "".join(pieces)


def turn_rust(text, table, path, met):
    """Only comments and strings are skipped: a dash without spaces does not occur in code."""
    out = []
    for line in text.split("\n"):
        if line.lstrip().startswith("//"):
            out.append(line)
            continue
        parts = re.split(r'("(?:[^"\\]|\\.)*")', line)
        for i in range(0, len(parts), 2):
            parts[i] = turn_line(parts[i], table, path, met)
        out.append("".join(parts))
    return "\n".join(out)


def main():
    names = declared_names()
    goals = goal_names()
    table = {}
    for name in names:
        new = new_name(name)
        if new != name:
            table[name] = new
    clashes = [(old, new) for old, new in table.items() if new in names]
    taken = {}
    for old, new in table.items():
        taken.setdefault(new, []).append(old)
    clashes += [(olds, new) for new, olds in taken.items() if len(olds) > 1]
    for clash in clashes:
        print("falls together:", *clash)
    for name in sorted(set(table) & goals):
        print("a goal too:", name)
    met = []
    whole = table
    for path in antt_files():
        text = open(path, encoding="utf-8").read()
        table = without_imported(whole, text)
        out = []
        for line in text.split("\n"):
            goal = DECLARED.match(line)
            code, dashes, note = line.partition("-- ")
            if line.lstrip().startswith("--"):
                out.append(line)
            elif goal and re.match(r"(goal|need|given)\.", goal.group(2)):
                out.append(line)
            else:
                out.append(turn_line(code, table, path, met) + dashes + note)
        new = "\n".join(out)
        if new != text:
            open(path, "w", encoding="utf-8").write(new)
    for path in sorted(glob.glob("crates/*/src/**/*.rt", recursive=True)):
        text = open(path, encoding="utf-8").read()
        new = turn_rust(text, without_imported(whole, text), path, met)
        if new != text:
            open(path, "w", encoding="utf-8").write(new)
    if "--fields" in sys.argv:
        for path, use in met:
            print("field:", path, use)
    print(f"{len(whole)} names")


if __name__ == "__main__":
    main()
