#!/usr/bin/env python3
"""Counts the places of older forms in crates/*/src and the answers in crates/*/proofs, point by point, as docs/DESIGN-PASS.md tells them.

usage: tools/places.py [COMMIT] [--list]     without COMMIT: the working tree
"""
import re
import subprocess
import sys

# Each line of src/ that one of these finds is a place.
POINTS = {
    "1 own Option or Result, a flag beside its value, a number for a kind or for none": [
        # an enum's variant for none or for a refusal; a field with a refusal, a flag or a rank beside the value
        r"^\s+(Unread|Nothing|NoSpan|Skipped|Not\(.*\)),$",
        r"^\s+(pub(\(crate\))? )?(refusal: Refusal|shared: bool|is_read: bool|rank: usize),$",
        # a refusal by a number, tested by it, or one that is none
        r"^    pub number: u32,$", r"\.number == 0", r"Refusal::NONE", r"const (NOTHING|NONE):",
        # a flag as a parameter beside the value that it speaks of
        r"^\s+\w+_read: bool,$",
        # an answer of which 0 is none
        r"^\s*// .*(, or 0\b|; 0 if|: 0 if|0 for none)",
        # kinds as numbers
        r"\b(kind|label) == [01]\b", r"label % 8", r"accepting\(\w+\) == 1",
    ],
    "2 functions that differ from another in a type, a size, a field or a constant": [
        r"fn (narrow_(source|destination|protocol|port)|put_(rules|directives|exceptions|addresses|numbers)|accepting_(rules|directives)"
        r"|exceptions_of|(rules|directives)_in_form|read_lines|judge_sets|list_sets|read_full|shift|refill|action_number|least|at_most|wide)\(",
    ],
    "3 loops that count an index": [r"^\s*while ", r"^\s*for (i|place) in "],
    "4 equality, order, copying, conversion and printing by hand": [
        r"fn (same|same_action|same_left|same_pair|nothing|nothing_of|higher|lower|at_most|least|wide|nearer|of_numbers|of_bounds|bounds"
        r"|flag_number|pair|long_number|accepting|named|number_above|are_zeros|action_number|action)\(",
        r"let mut \w+ = (self|row|rules|policy|best\.strips);",
    ],
    "5 parameters that always travel together": [r"words: &(mut )?\[u64\]", r"output: &mut \[u8\]", r"\bdirectives: usize", r"\bat: usize, line: u32"],
    "6 buffers with a length or a place beside": [
        r"^\s+(pub )?(\w+_)?count: usize,$", r"start: usize\b(?! = )", r"row: \[u32; ROW\]", r"marks: \[bool",
    ],
    "7 switches on which step to run": [r"match (letter|which|field) \{", r"if field < 2"],
}


def files(commit, pattern):
    """The files whose paths match, as lines."""
    if commit:
        names = subprocess.check_output(["git", "ls-tree", "-r", "--name-only", commit, "crates"], text=True).split()
        read = lambda name: subprocess.check_output(["git", "show", f"{commit}:{name}"], text=True)
    else:
        names = subprocess.check_output(["git", "ls-files", "crates"], text=True).split()
        read = lambda name: open(name).read()
    return {n: read(n).splitlines() for n in names if re.fullmatch(pattern, n)}


def main():
    arguments = [a for a in sys.argv[1:] if a != "--list"]
    commit = arguments[0] if arguments else None
    sources = files(commit, r"crates/\w+/src/\w+\.rt")
    for point, patterns in POINTS.items():
        found = [
            (name, i, line.strip())
            for name, lines in sorted(sources.items())
            for i, line in enumerate(lines, 1)
            if any(re.search(p, line) for p in patterns)
        ]
        print(f"{len(found):6} {point}")
        if "--list" in sys.argv:
            for name, i, line in found:
                print(f"         {name}:{i}: {line}")
    # the blocks of functions and theorems that stand under `proofs/F`, and their lines
    answers = files(commit, r"crates/\w+/proofs/.+/(Answers|Invariants)\.antt")
    print(f"{len(answers):6} 8 files of answers and invariants, {sum(map(len, answers.values()))} lines")
    others = files(commit, r"crates/\w+/proofs/\w+\.antt")
    print(f"{len(others):6}   files of lemmas beside them, {sum(map(len, others.values()))} lines")


main()
