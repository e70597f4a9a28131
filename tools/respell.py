#!/usr/bin/env python3
"""Brings the repository's own definitions and lemmas to today's spelling, after port.py has turned the rest. Run once, at the top of the repository.

Definitions, lemmas, fields and bound names in camel case become snake case; a definition that would then have the name of a function of src/ takes another (those that port.py has spelled keep that).
Fields of records with hyphens take underscores. The test of two numbers, == of crate below, becomes =?, since == is the library's; if then else is the library's own.
Functions of src/, exported names, strings, inputs and outputs keep their names: in a .rt file only clauses and ghost items change, in any file no comment but its cited names.
"""
import glob
import re

# a definition beside a function of its name, and names that would fall together
GIVEN = {
    "bothOf": "both_places", "callsEnd": "calls_end_of", "callsSpan": "calls_span_of", "callsStart": "calls_start_of",
    "cellByte": "cell_byte_of", "columnCount": "column_count_of", "columnsConflict": "columns_conflict_in", "conflictCount": "conflict_count_of",
    "conflictCounts": "conflict_counts_of", "conflictKept": "conflict_kept_in", "endColumn": "end_column_of", "firstDeep": "first_deep_of",
    "firstSides": "first_sides_of", "fragmentKeepMarks": "fragment_keep_marks_of", "fragmentLine": "fragment_removal_line", "snpLine": "snp_removal_line",
    "fragmentRemoval": "fragment_removal_holds", "snpRemoval": "snp_removal_holds", "freeSlot": "free_slot_of", "hostNumber": "host_number_of",
    "isCall": "is_call_code", "leastCostSides": "least_cost_sides_of", "lettersOf": "letters_in", "mayFollow": "can_follow", "mayJoin": "can_join",
    "newByte": "new_byte_of", "newLabel": "new_label_of", "newSide": "new_side_of", "onSides": "sides_where", "oneMore": "one_more_of",
    "openEnd": "has_open_end", "outOfFrame": "is_out_of_frame", "outOfOrder": "is_out_of_order", "ownLabel": "own_label_of", "ownSide": "own_side_of",
    "pairNumber": "pair_number_of", "recordAt": "record_bytes_at", "rowStart": "row_start_of", "slotTotal": "slot_total_of", "snpKeepMarks": "snp_keep_marks_of",
    "stateReach": "state_reach_of", "strayBits": "has_stray_bits", "unknownCall": "has_unknown_call", "withFragment": "with_fragment_in", "yesOrNo": "yes_no_number",
    "SOn": "s_on", "FOn": "f_on", "COn": "c_on", "A-call": "a-call", "B-call": "b-call",
}
STAYS = {"digitsIn"}  # of the library
WORD = re.compile(r"[^\s(){}\[\].;,@\"«»:λ&*!]+")


def snake(word):
    """A word in today's spelling; parts of a lemma's name are parted by hyphens, and each is a word."""
    if word in STAYS or "/" in word or "\\" in word:
        return word
    if word in GIVEN:
        return GIVEN[word]
    if word in FIELDS:
        return FIELDS[word]
    parts = word.split("-")
    if len(parts) > 1:
        return "-".join({"getD": "get_or", "==": "=?"}.get(p, snake(p)) for p in parts)
    if re.match(r"[a-z]", word):
        return re.sub(r"(?<=[a-z0-9])([A-Z])", lambda m: "_" + m[1].lower(), word)
    return {"==": "=?", "◌==◌": "◌=?◌"}.get(word, word)


def turned(text):
    return WORD.sub(lambda m: snake(m[0]), text)


def of_comment(text):
    """In a comment only names that are spelled as no English word is."""
    return re.sub(r"[A-Za-z][\w-]*", lambda m: snake(m[0]) if m[0] in GIVEN or m[0] in DECLARED and re.search(r"[a-z0-9][A-Z]", m[0]) else m[0], text)


def antt(text):
    out = []
    for line in text.split("\n"):
        m = re.match(r"(.*?)(?:(?<=\s)|^)(--(?=\s|$).*)$", line)
        code, note = (m[1], m[2]) if m else (line, "")
        parts = re.split(r'("(?:[^"\\]|\\.)*")', code)
        out.append("".join(p if p.startswith('"') else turned(p) for p in parts) + of_comment(note))
    return "\n".join(out)


def closing(text, at):
    depth = 0
    for i in range(at, len(text)):
        if text[i] == "{":
            depth += 1
        elif text[i] == "}":
            depth -= 1
            if not depth:
                return i + 1
    raise ValueError(text[at : at + 80])


CLAUSE = re.compile(r"\b(?:(?:requires|ensures)\*?(?: \w+)? (?=\{)|ghost \w+: (?=\{))|\bghost use [^;]*;|//[^\n]*")


def rt(text):
    out, at = [], 0
    while m := CLAUSE.search(text, at):
        out.append(text[at : m.start()])
        if m[0].startswith("//"):
            out.append(of_comment(m[0]))
            at = m.end()
            continue
        at = m.end() if m[0].endswith(";") else closing(text, m.end())
        out.append(turned(text[m.start() : at]))
    return "".join(out) + text[at:]


def nested(text):
    """A test within the else of another stands in brackets: the library's if then else does not associate."""
    while (m := re.search(r"\belse if\b", text)) is not None:
        at = m.start() + 5
        depth, i = 0, at
        while i < len(text):
            c = text[i]
            if c in "([{":
                depth += 1
            elif c in ")]}":
                if not depth:
                    break
                depth -= 1
            elif depth == 0 and (c in ",;" or c == "\n" and not text[i + 1 :].lstrip(" ").startswith(("if ", "else "))):
                break
            i += 1
        end = len(text[:i].rstrip())
        text = text[:at] + "(" + text[at:end] + ")" + text[end:]
    return text


def library_if(text, ghost):
    """if then else comes from the library's Prelude and no more from crate below."""
    own = re.compile(r"(?m)^((?:pub )?(?:ghost )?use Rattle\.below\.specs\.Below\.\{)([^}]*)(\};?)\n")
    m = own.search(text)
    if not m or "if◌then◌else◌" not in m[2]:
        return text
    names = [n.strip() for n in m[2].split(",") if n.strip() != "if◌then◌else◌"]
    text = text[: m.start()] + (m[1] + ", ".join(names) + m[3] + "\n" if names else "") + text[m.end() :]
    lead, end = ("ghost use", ";") if ghost else ("use", "")
    prelude = re.compile(r"(?m)^(" + lead + r" Rattle\.std\.specs\.Prelude\.\{)([^}]*)(\}" + end + ")")
    if k := prelude.search(text):
        return text[: k.end(2)] + ", if◌then◌else◌" + text[k.end(2) :]
    k = re.search(r"(?m)^" + lead + " ", text)
    return text[: k.start()] + lead + " Rattle.std.specs.Prelude.{if◌then◌else◌}" + end + "\n" + text[k.start() :]


def edit(text):
    out = []
    for line in text.split("\n"):
        m = re.match(r"((?:old|new|file):)(.*)$", line)
        if line.startswith("#"):
            out.append(of_comment(line))
        elif m and m[1] != "file:":
            body = m[2]
            out.append(m[1] + (antt(body) if current_antt else rt(body)))
        else:
            current_antt = m is not None and line.strip().endswith(".antt")
            out.append(line)
    return "\n".join(out)


ANTT = [f for k in ("specs", "proofs") for f in glob.glob(f"crates/*/{k}/**/*.antt", recursive=True)]
RT = glob.glob("crates/*/src/**/*.rt", recursive=True)
EDITS = glob.glob("crates/*/must-fail/*.edit")
DECLARATION = re.compile(r"(?m)^ *(?:(?:pub|abbrev|unfoldable) )*([^\s(){}.;,@\"«»:λ]+)(?: \{[^{}\n]*\})* :(?= )")
DECLARED = {m[1] for f in ANTT for m in DECLARATION.finditer(open(f).read())}
FIELDS = {}
BESIDE = {"cells-left": "cells_are", "tags-left": "tags_are", "grades-left": "grades_are", "table-left": "table_is"}  # of records with bound names spelled so
for f in ANTT:
    body = open(f).read()
    for m in re.finditer(r"(?m)^( *)pub record [^\n]*where\n((?:\1 +[^\n]*\n|\n)*)", body):
        for n in DECLARATION.finditer(m[2]):
            if "-" in n[1]:
                FIELDS[n[1]] = BESIDE.get(n[1], n[1].replace("-", "_"))

def below(text):
    """Crate below loses its own if then else."""
    text = text.replace("infixr 5 if◌then◌else◌\n", "").replace("max, Bool,", "max, if◌then◌else◌, Bool,", 1)
    return re.sub(r"module _ \{ℓ\} \{A : Type ℓ\} where\n  abbrev pub if◌then◌else◌ [^\n]*\n(?:  if◌then◌else◌ [^\n]*\n)+\n", "", text)


if __name__ == "__main__":
    for f in ANTT:
        text = antt(open(f).read())
        text = nested(text)
        text = below(text) if f == "crates/below/specs/Below.antt" else library_if(text, False)
        if f.endswith("/RoundTrips.antt"):
            text = re.sub(r"(\bpub |\.)cells_left(?= :| ∙)", r"\1cells_are", text)  # port.py gave this field the name of a bound name
        if f.endswith(("/Unweighed.antt", "/UnweighedLaws.antt")):
            text = re.sub(r"(?m)^(  (?:pub )?)(snp|fragment)_answer (?=[:=] )", r"\1answer_of_\2s ", text)  # fields beside the definitions of their names
        text = re.sub(r"\b(if-\w+) \{ℓ\} : \{A : Type ℓ\}", r"\1 : {A : Type 0}", text)
        open(f, "w").write(text)
    for f in RT:
        text = rt(open(f).read())
        text = library_if(text, True)
        open(f, "w").write(text)
    for f in EDITS:
        text = edit(open(f).read())
        open(f, "w").write(text)
    print(len(FIELDS), "fields:", " ".join(sorted(FIELDS.values())))
