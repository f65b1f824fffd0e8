#!/usr/bin/env python3
"""Counts the places of docs/DESIGN-PASS.md in crates/*/src at a commit: `tools/places.py COMMIT [WORD]`, where a WORD, as 3a, prints
the lines of that row instead. The rows are regular expressions over lines, but for twins: functions whose bodies are the same once
each name, number and text is taken for any other."""
import re
import subprocess
import sys
from collections import defaultdict

ROWS = [
    ("1a", "variants of an own enum that carry a refusal's number", r"^\s*Refused\(u32\)"),
    ("1b", "refusals as numbers: fields, results, parameters", r"\b(refusal|refused|number|otherwise): u32\b|fn \w*(refusal|number|judge|length_or_bit)\w*\b.*-> u32"),
    ("1c", "answers beside a state, or a flag beside a value, in one struct", r"^\s*(pub )?(answer|handed|slot|is_sent|is_sending|has_bits|is_end|is_whole|is_broken|begins|demodulated_slot_available|down_is_input|up_is_input): (\w*Answer|bool),"),
    ("1d", "numbers for kinds", r"\b(mode|train_type|burst_type|kind|kinds|format|wrong|value_of|letter|code): (u8|u32|i32|&\[u8\])\b"),
    ("1e", "a flag and what it stands for as two parameters", r"has_bits: (bool|u32)"),
    ("1f", "a number in place of nothing", r"u64::MAX$|u64::MAX;|NO_OFFSET|ERRS_NO_BURST|65537|else \{ 4 \}|< 4 \{|(uplink|downlink|at|name) (>|==) 0|at == 0|-1\.0$|r < 0\.0|< 0\.0 \{$"),
    ("3a", "loops over a count", r"\bfor \w+ in [^.]*\.\.(?!u64::MAX|usize::MAX)"),
    ("3b", "loops on a condition", r"^\s*('\w+: )?while\b"),
    ("4a", "copies and fills by element", r"^\s*\w+\[[^]]+\] = (\w+\[[^]]+\]|0|0\.0|7|\w+);$"),
    ("4b", "std's methods written by hand", r"\b(least|saturating_sub|is_before|is_same|absolute|is_finite|not_bits|sum|difference)\("),
    ("4c", "conversions and printing by hand", r"fn (number|mode_of|slot_type|type_of|type_name|character_of|bit_of|digit_of|answer_number|take_number|complaint_of|format|form|default|signed|narrow|half_word|word|wide|float|pattern)\b"),
    ("5a", "functions that take the three arrays of the past", r"^\s*(past_)?abs: &"),
    ("5b", "functions that take a slot's bits with the flag", r"^\s*has_bits: (bool|u32),|has_bits: bool, bits"),
    ("5d", "clauses that say a text's length beside its bytes", r"IsPrefixLen result\.len result\.bytes|result\.len ≤ 2048"),
    ("5c", "functions that take the form of a line with what is shown", r"^\s*form: Form,|, form: Form,"),
    ("6a", "a buffer with its length beside it", r"^\s*(pub )?(len|used|held): usize,"),
    ("6b", "parallel slices and arrays", r"^\s*(pub )?(re|im|out_re|out_im|counters|kinds|subslot1|subslot2|slot): &(mut )?\[(f32|i64|u8|usize)\],|^const CONSTELLATION|^\s*pub (re|im|abs): \[f32"),
    ("7a", "a number or a letter that says which step runs", r"match (kind|letter\(line, 0\)|other|mode) \{"),
]


def lines_at(commit):
    listed = subprocess.run(["git", "ls-tree", "-r", "--name-only", commit, "crates"], capture_output=True, text=True, check=True)
    for name in listed.stdout.split():
        if re.fullmatch(r"crates/\w+/src/[\w/]+\.rt", name):
            text = subprocess.run(["git", "show", f"{commit}:{name}"], capture_output=True, text=True, check=True).stdout
            yield name, text


def bodies(text):
    lines = re.sub(r"//[^\n]*", "", text).split("\n")
    for at, line in enumerate(lines):
        head = re.match(r"( *)(?:pub(?:\(crate\))? )?(?:extern \"C\" )?fn (\w+)", line)
        # A body begins behind the first line that ends in a brace; a line that ends in `;` before it has none.
        first = at
        while head and first < len(lines) and not lines[first].rstrip().endswith(("{", ";")):
            first += 1
        if head and first < len(lines) and lines[first].rstrip().endswith("{"):
            last = lines.index(head.group(1) + "}", first)
            yield head.group(2), "\n".join(lines[first + 1 : last])


def shape(body):
    words = re.findall(r'b?"[^"]*"|b?\'.\'|\d[\w.]*|\w+|[^\s\w]', body)
    keep = {"if", "else", "for", "in", "while", "match", "return", "let", "mut", "self"}
    return tuple(w if w in keep or not re.match(r"[\w\"']", w) else "_" for w in words)


def main():
    commit, *word = sys.argv[1:]
    files = list(lines_at(commit))
    found = {}
    for row, what, pattern in ROWS:
        wanted = re.compile(pattern)
        hits = []
        for name, text in files:
            for number, line in enumerate(text.split("\n"), 1):
                if wanted.search(line) and not re.match(r"\s*(//|ghost|pub use|use)" + ("" if row == "5d" else r"|\s*(ensures|requires)"), line):
                    hits.append(f"{name}:{number}: {line.strip()}")
        found[row] = (what, hits)
    shapes = defaultdict(list)
    for name, text in files:
        for function, body in bodies(text):
            if len(shape(body)) >= 14:
                shapes[shape(body)].append(f"{name}: {function}")
    twins = [" ~ ".join(names) for names in shapes.values() if len(names) > 1]
    found["2a"] = ("functions of one shape", twins)
    for row in sorted(found):
        what, hits = found[row]
        if not word:
            print(f"{row}  {len(hits):4}  {what}")
        elif row in word:
            print("\n".join(hits))


main()
