#!/usr/bin/env python3
"""Brings this repository's own definitions and lemmas to the spelling of rattle-kit-13f: words in snake case, types in camel case.

usage: python3 tools/respell.py        at the top of the repository, once, after the kit's own port.py

What it turns, in specs/, proofs/ and the ghost parts of src/: words such as digitCount to digit_count, lemmas and record fields such as
run-ends to run_ends, and statements such as Keys-stand to KeysStand. What it leaves: functions and types of src/, strings, comments' words
without a name in them, and the names that Rattle makes for goals and steps of proofs.
"""

import glob
import re
import subprocess

# a lemma that stands beside std's own names
KEPT = {"total-++"}
# where two names would fall together, or a word would have the name of a field
CHOSEN = {
    "all-in-run": "all_in_run_lem",
    "as-amount": "as_amount_lem",
    "as-currency": "as_currency_lem",
    "as-day": "as_day_lem",
    "as-key": "as_key_lem",
    "day-number": "day_number_lem",
    "is-numeral": "is_numeral_lem",
    "numeral-of": "numeral_of_lem",
    "firstDay": "day_zero",
    "eqZ": "same_int",
    "decides-eqZ": "decides_same_int",
}
# names that port.py had turned already, by the folder in which they are lemmas
CHOSEN_IN = {"crates/calendar/proofs/": {"is_digit": "is_digit_lem"}, "crates/fields/proofs/Numbers.antt": {"units_of": "units_of_lem"}}
CHAR = re.compile(r"b?'(?:\\.|[^'\\])'")
STRING = re.compile(r'"(?:\\.|[^"\\])*"', re.S)
WORD = re.compile(r"[A-Za-z_\u2124\u2115][A-Za-z0-9_'\u2124\u2115+*]*(?:-[A-Za-z0-9_'\u2124\u2115+*]+)*")


def snake(name):
    name = name.replace("-", "_")
    name = re.sub(r"([a-z0-9])([A-Z])", r"\1_\2", name)
    return name.lower()


def camel(name):
    return "".join(part[:1].upper() + part[1:] for part in name.split("-"))


def files(pattern):
    return sorted(glob.glob(pattern, recursive=True))


def is_answer(path):
    return path.rsplit("/", 1)[1] in ("Answers.antt", "Invariants.antt", "Proof.antt")


def own_names():
    """The words and lemmas with a dash that specs/ and proofs/ define; goals that Rattle names are none."""
    dashed = set()
    for path in files("crates/*/specs/**/*.antt") + files("crates/*/proofs/**/*.antt"):
        goals = set()
        for line in open(path, encoding="utf-8"):
            m = re.match(r"^(?:(?:abbrev|unfoldable|pub)\s+)*(?:record\s+|data\s+)?([A-Za-z][^\s:({]*)", line)
            if re.match(r"^(?:(?:abbrev|pub)\s+)*\S+ : goal\.", line):
                goals.add(m[1])
            elif m and "-" in m[1] and not line.startswith("use "):
                dashed.add(m[1])
            m = re.match(r"^  (?:pub )?([a-z][a-z0-9-]*) :", line)
            if m and "-" in m[1] and not is_answer(path):
                dashed.add(m[1])
        dashed -= goals
    return dashed - KEPT


def turned(name, dashed, chosen):
    if name in chosen:
        return chosen[name]
    if name in dashed:
        return camel(name) if name[0].isupper() else snake(name)
    if re.match(r"^[a-z][A-Za-z0-9']*$", name) and re.search(r"[a-z0-9][A-Z]", name):
        return snake(name)
    return name


def turn(path, text, dashed):
    chosen = CHOSEN | {k: v for where, names in CHOSEN_IN.items() if path.startswith(where) and not is_answer(path) for k, v in names.items()}
    kept = []

    def keep(m):
        kept.append(m[0])
        return f"\0{len(kept) - 1}\0"

    if path.endswith(".rt"):
        text = CHAR.sub(keep, text)
    text = STRING.sub(keep, text)
    text = WORD.sub(lambda m: turned(m[0], dashed, chosen), text)
    return re.sub("\0(\\d+)\0", lambda m: kept[int(m[1])], text)


def main():
    dashed = own_names()
    changed = 0
    for path in files("crates/**/*.antt") + files("crates/**/*.rt"):
        if "/out/" in path:
            continue
        with open(path, encoding="utf-8") as f:
            old = f.read()
        new = turn(path, old, dashed)
        if new != old:
            with open(path, "w", encoding="utf-8") as f:
                f.write(new)
            changed += 1
    for crate in sorted({p.split("/")[1] for p in files("crates/*/src/*.rt")}):
        subprocess.run(["rt", "fmt"], cwd=f"crates/{crate}", capture_output=True, check=False)
    print(f"respell: {changed} files")


if __name__ == "__main__":
    main()
