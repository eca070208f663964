#!/usr/bin/env python3
"""Lists the lines of crates/*/src that may be places of an older form, by point: `places.py [ROOT]`; `--counts` gives the numbers only.

A pattern finds candidates, not places: docs/DESIGN-PASS.md says which of them are.
"""
import collections
import pathlib
import re
import sys

ARGS = [a for a in sys.argv[1:] if not a.startswith("-")]
ROOT = pathlib.Path(ARGS[0] if ARGS else ".")
FILES = sorted(ROOT.glob("crates/*/src/*.rt"))

# by lines
LINES = {
    "1a enums": r"^\s*(pub(\(crate\))? )?enum \w+",
    "1b numbers for refusals and kinds": r"Result<[^<>]*, u(8|32)>|Option<\((u8|u32)|\b(number|refusal): u8\b|=> \d+,$|= u32::MAX;",
    "1c flags beside values": r"^\s*(pub(\(crate\))? )?(track|abnormal|ended|finished|after_row|idle): bool,",
    "1d matches that stand for ?, map or ok_or": r"\bNone => None\b|Err\((_|\w+)\) => (return )?Err\b|Ok\(\(\)\) => \{\}|if let Some\(fault\) = |None => Err\(",
    "3a index and counting loops": r"^\s*(while|loop)\b|\bfor \w+ in [^{]*\.\.|\blet mut (number|start|place|count|offset|clock|rows|ticks|i|at)\b[^=]*= (0|1|arrival)(usize|u32|u64)?;",
    "4 equality, conversion, printing by hand": r"fn (same|told|is_abnormal|mode_with)\w*\(|fn \w+_(number|word|numbers|record)\(|fn (number|numbers|word|letter|symbol|kind_word|ending_word)\(|fn of\(numbers|fn (print|show)_(answer|fault|turn|row|step|found)\(|matches!\(.*(Layer|Kind|Outcome)::",
    "6 buffers, parallel arrays, tables": r"^\s*(pub(\(crate\))? )?\w+: \[[^;\]]+; [A-Z0-9]+\],|^\s*(pub(\(crate\))? )?(count|len|head): (usize|u32),",
    "7 switches and tables of functions": r"\bdyn \b|\bfn\(|impl Fn|Origin|match (opening|self)\.(board|pool) \{|let checks = \[",
}

CLAUSE = re.compile(r"(requires|ensures)( \w+)? \{ (.*) \}")


def spelling(clause):
    """The clause with its numbers and the names of values left out, so that repeated facts fall together."""
    clause = re.sub(r"\b\d+\b", "N", clause)
    return re.sub(r"\b(self|result|plan|pool|board|reader|writer|bytes|buffer|above|rows|given)\b", "x", clause)


def show(title, found):
    print(f"== {title}: {len(found)}")
    if "--counts" not in sys.argv:
        for line in found:
            print("   " + line)


def functions(text):
    """The functions of a text: name, line, and the shape of the body, with its names, numbers and strings left out."""
    for m in re.finditer(r"^( *)(?:pub(?:\(crate\))? )?(?:const )?fn (\w+).*?\n\1\}", text, re.S | re.M):
        whole = m.group(0)
        start = whole.find(f"\n{m.group(1)}{{")
        start = start if start >= 0 else whole.find("{")
        body = re.sub(r"\b(0x)?[0-9a-f_]*\d\w*\b", "N", whole[start:])
        body = re.sub(r'b?"[^"]*"', "S", body)
        body = re.sub(r"\b(let|mut|if|else|match|for|in|while|return|Some|None|Ok|Err)\b", r"~\1~", body)
        yield m.group(2), text[: m.start()].count("\n") + 1, re.sub(r"\s+", "", re.sub(r"(?<!~)\b[A-Za-z_]\w*\b(?!~)", "w", body))


def searches(text):
    """`for` loops of up to eight lines that search, count or add up by hand."""
    for m in re.finditer(r"^( *)for [^\n]* in [^\n]*\{\n((?:\1 [^\n]*\n){1,8})\1\}", text, re.M):
        if re.search(r"return|\bbreak\b|count\(&mut|\+= |= \w+\.saturating_add|&& ", m.group(2)) and "?;" not in m.group(2):
            yield text[: m.start()].count("\n") + 1, m.group(0).split("\n")[0].strip()


def main():
    for title, pattern in LINES.items():
        found = []
        for path in FILES:
            for k, line in enumerate(path.read_text().split("\n"), 1):
                code = line.split("//")[0]
                if "ghost use" not in code and re.search(pattern, code):
                    found.append(f"{path.relative_to(ROOT)}:{k}: {line.strip()}")
        show(title, found)
    shapes = collections.defaultdict(list)
    clauses = collections.defaultdict(list)
    loops = []
    for path in FILES:
        text = path.read_text()
        loops += [f"{path.relative_to(ROOT)}:{k}: {line}" for k, line in searches(text)]
        for name, line, shape in functions(text):
            if len(shape) > 40:
                shapes[shape].append(f"{path.relative_to(ROOT)}:{line} {name}")
        for k, line in enumerate(text.split("\n"), 1):
            m = CLAUSE.search(line)
            if m and m.group(1) == "requires":
                for part in re.split(r" × ", m.group(3)):
                    clauses[spelling(part.strip("() "))].append(f"{path.relative_to(ROOT)}:{k}")
    show("3b searches and sums by hand", loops)
    show("2 functions of one shape", [", ".join(v) for v in shapes.values() if len(v) > 1])
    show("5 facts that three or more functions ask for", [f"{c}: {len(v)} ({v[0]} ..)" for c, v in clauses.items() if len(v) > 2])
    answers = list(ROOT.glob("crates/*/proofs/**/Answers.antt"))
    proofs = list(ROOT.glob("crates/*/proofs/**/*.antt"))
    lemmas = [p for p in proofs if p.name not in ("Answers.antt", "Invariants.antt", "Lib.antt")]
    lines = lambda paths: sum(len(p.read_text().split("\n")) - 1 for p in paths)
    goals = sum(len(re.findall(r"^pub \S+ :", p.read_text(), re.M)) for p in answers)
    print(f"== 8 proofs: {len(answers)} files of answers with {goals} answers in {lines(answers)} lines, {len(lemmas)} files of lemmas with {lines(lemmas)} lines, {lines(proofs)} lines in all")


main()
