#!/usr/bin/env python3
"""Counts the places of docs/DESIGN-PASS.md in crates/*/src, by rules on the text.

    tools/design_counts.py [COMMIT] [--places]

counts in the files of a commit, or in those of the working tree. With --places each place is printed too.
A place with a reason in a line beside it is counted as any other.
"""
import collections
import re
import subprocess
import sys

LOOP = re.compile(r"^\s*(while|loop)\b")
PARAMETERS = re.compile(r"\bfn (\w+)(?:<[^>]*>)?\(([^)]*)\)(?: -> ([^\n{]*))?", re.S)
# By hand, what the library or a derive has: the name of a helper says which.
BY_HAND = re.compile(r"\bfn (greater|precedes|one_more|copy|comes_before|tag_byte|frame_byte|header_byte|is_refusal|host_number|lesser_if|turn_over|put_number)\b")
WIDENED = re.compile(r"\bas (u16|u32|u64|usize)\b")
CHOICE = re.compile(r"\bfn (share|price|weight_if|letter_call|letter_of|covers_column|own_label|own_side)\b")
GROUPS = {
    "counts, highs, lows": ("counts", "highs", "lows"),
    "starts, ends": ("starts", "ends"),
    "out, at": ("out", "at"),
    "agrees, reaches": ("agrees", "reaches"),
    "masks, keep, frags": ("masks", "keep", "frags"),
    "cells, weights, starts, ends, slots": ("cells", "weights", "starts", "ends", "slots"),
    "n, cells, tags, grades": ("n", "cells", "tags", "grades"),
    "first, second": ("first", "second"),
}


def files(commit):
    if commit is None:
        names = subprocess.run(["git", "ls-files", "crates/*/src/*.rt"], capture_output=True, text=True, check=True).stdout.split()
        return {name: open(name, encoding="utf-8").read() for name in names}
    names = subprocess.run(["git", "ls-tree", "-r", "--name-only", commit, "crates"], capture_output=True, text=True, check=True).stdout.split()
    show = lambda name: subprocess.run(["git", "show", f"{commit}:{name}"], capture_output=True, text=True, check=True).stdout
    return {name: show(name) for name in names if re.fullmatch(r"crates/\w+/src/.*\.rt", name)}


def code(line):
    return line.split("//")[0]


def lines(texts, pattern):
    for name, text in texts.items():
        for at, line in enumerate(text.split("\n"), 1):
            if pattern.search(code(line)) and not line.lstrip().startswith(("ghost", "requires", "ensures")):
                yield f"{name}:{at}: {line.strip()}"


def signatures(texts):
    for name, text in texts.items():
        for match in PARAMETERS.finditer(re.sub(r"//[^\n]*", "", text)):
            parameters = [p.split(":")[0].strip().removeprefix("mut ") for p in match[2].split(",") if ":" in p]
            yield name, match[1], parameters, match[2] + " -> " + (match[3] or "()")


def facts(texts):
    """Facts of a contract that stand in those of three or more functions."""
    found = collections.defaultdict(set)
    for name, text in texts.items():
        for body in re.finditer(r"\bfn (\w+)(.*?)\n\s*\{\n", text, re.S):
            for clause in re.finditer(r"requires(?: \w+)? \{(.*?)\}\n", body[2], re.S):
                for fact in re.split(r"×", clause[1]):
                    found[" ".join(fact.split()).strip("() ").replace(".old", ".now")].add((name, body[1]))
    return {fact: sorted(who) for fact, who in found.items() if len(who) >= 3}


def places(texts):
    result = collections.OrderedDict()
    result["1 own enums of the shape of Option or Result"] = list(lines(texts, re.compile(r"\benum Outcome\b")))
    result["1 uses of its cases"] = list(lines(texts, re.compile(r"\bOutcome::(Accepted|Refused)\b")))
    result["1 a flag with a value beside it"] = list(lines(texts, re.compile(r"\bwhole: bool\b")))
    result["1 numbers for kinds, in parameters"] = [f"{n}: {f}({p})" for n, f, ps, text in signatures(texts) for p in ps
                                                    if p in ("letter", "number", "side", "s", "code") and re.search(rf"\b{p}: u8\b", text)]
    result["1 numbers that stand for none"] = [f"{n}: {f}" for n, f, _, text in signatures(texts)
                                               if "-> Option" not in text and f in ("position_of", "first_deep", "first_unmarked", "free_slot", "start_of", "end_of", "calls_start", "calls_end", "lowest", "end", "line_start", "line_end")]
    result["2 functions of one choice"] = list(lines(texts, CHOICE))
    result["2 twins"] = list(lines(texts, re.compile(r"\bfn (decode|fill_tags|fill_grades|records_fault|gapless_fault|row_joined|row_apart|lesser|smaller|larger|clear|clear_row|put_column_fields"
                                                     r"|put_fragment_fields|blank_answer|blank_work|blank_table|wide|equal)\b|\bstruct (Words|Letters)\b")))
    result["3 loops that are no for"] = list(lines(texts, LOOP))
    result["4 by hand"] = list(lines(texts, BY_HAND))
    result["4 widened by as"] = list(lines(texts, WIDENED))
    for group, names in GROUPS.items():
        # two lines that are compared are no group
        result[f"5 parameters {group}"] = [f"{n}: {f}" for n, f, ps, _ in signatures(texts)
                                           if all(name in ps for name in names) and not ("/places/" in n and group == "first, second")]
    result["5 facts in three contracts or more"] = [f"{len(who)} {fact}" for fact, who in sorted(facts(texts).items(), key=lambda i: -len(i[1]))]
    result["6 masks as words"] = [f"{n}: {f}" for n, f, ps, text in signatures(texts) if re.search(r"\[u64; 512\]|\b(masks|columns): &(mut )?\[u64\]", text)]
    result["7 switches"] = [f"{n}: {f}({p})" for n, f, ps, text in signatures(texts) for p in ps if re.search(rf"\b{p}: bool\b", text)]
    return result


def main():
    commit = next((a for a in sys.argv[1:] if not a.startswith("-")), None)
    for title, found in places(files(commit)).items():
        print(f"{len(found):4} {title}")
        if "--places" in sys.argv:
            for place in found:
                print(f"       {place}")


if __name__ == "__main__":
    main()
