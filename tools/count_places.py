#!/usr/bin/env python3
"""Counts, in the code of every crate, the places that docs/DESIGN-PASS.md speaks of.

    python3 tools/count_places.py        the counts
    python3 tools/count_places.py -v     each place too

Each count is of lines of crates/*/src that match, but for the twins and the facts of contracts, which are
counted over whole functions, and for answers and lemmas, which stand in crates/*/proofs. What is counted is a place to look at: the page says what became of it.
"""
import difflib
import glob
import os
import re
import sys

SHOW = "-v" in sys.argv[1:]

LINES = [
    ("1 own enums", r"^\s*(pub(\(crate\))? )?enum "),
    ("1 numbers and flags in place of a type, answered",
     r"-> (u8|\((u8|usize|bool), |\(\[u8|Result<(bool|\(u8, usize\)), )"),
    ("1 numbers and flags in place of a type, taken", r"\b(number: u8|[a-z_]+: bool)\b"),
    ("1 numbers that stand for no number", r"\bNO_LIMIT\b"),
    ("1 errors and absences written out",
     r"Err\(Fault|return Err\(|return None|None => None|_ => None|Err\(AllocError\)|None => Err"),
    ("3 loops over a length, a count or an index",
     r"\bwhile |\bfor [a-z_]+ in [^{]*\.\.[^{]*\{|\.enumerate\(\)"),
    ("3 indices stepped by hand", r"\b(at|i|first|last|index|inputs|k)\b( [+-]= 1;| = [a-z_]+\.saturating_add\(1\))"),
    ("4 casts", r" as (u8|u16|u32|u64|usize|i32|i64|char)\b"),
    ("4 equality, conversion and printing by hand",
     r"fn (same_word|same|number|text|kind_of|keyword_of|refusal_printed|negated|is_blank|holds|covers)\("),
    ("4 plain types without equality derived", None),
    ("6 arrays with a fixed length", r"\[[^\]\[]*; *([0-9]+|[A-Z_]+)\]"),
    ("6 counts kept beside what they count", r"^\s*(pub(\(crate\))? )?(count|len|inputs|grades|words): usize,"),
    ("6 indices kept in place of what they name",
     r"^\s*(pub(\(crate\))? )?(index|grade|from|to|binder|domain|body|function|argument|left|right|part|below|otherwise): usize,"),
    ("7 switches on a value that says what to run", r"match (how|form|self|class|kind) \{"),
]


def sources():
    for path in sorted(glob.glob("crates/*/src/**/*.rt", recursive=True)):
        with open(path, encoding="utf-8") as file:
            yield path, file.read().split("\n")


def is_contract(line):
    return re.match(r"\s*(ensures|requires|ghost)\b", line) or re.match(r"\s*//", line)


def print_count(title, places):
    print(f"{len(places):4}  {title}")
    if SHOW:
        for place in places:
            print("        " + place)


def plain_types(path, lines):
    for i, line in enumerate(lines):
        if "derive(" in line and "Copy" in line and "PartialEq" not in line:
            yield f"{path}:{i + 1}: {lines[i + 1].strip()}"


def functions(path, lines):
    """Each function with its parameters, its clauses and its body."""
    text = "\n".join(lines)
    for found in re.finditer(r"\bfn ([a-z_0-9]+)", text):
        start = found.start()
        clauses = re.search(r"\n\s*(ensures|requires)|\{\s*\n|;\s*\n", text[start:])
        if not clauses:
            continue
        head = text[start:start + clauses.start()]
        body = re.search(r"(?m)^(\s*)\{\s*$|\)\s*(->[^{;]*)?\{\s*$", text[start:])
        if not body:
            continue
        at = start + body.end() - 1
        depth = 0
        for end in range(at, len(text)):
            depth += {"{": 1, "}": -1}.get(text[end], 0)
            if depth == 0:
                break
        yield found.group(1), path, head, text[start + len(head):at], text[at:end + 1]


def shape(code):
    words = re.findall(r"[A-Za-z_][A-Za-z_0-9]*|[0-9_]+|b?\"[^\"]*\"|\S", re.sub(r"//[^\n]*", "", code))
    kept = {"if", "else", "match", "for", "while", "in", "let", "return", "mut", "fn", "Some", "None", "Ok", "Err", "self"}
    return [w if w in kept or not re.match(r"[A-Za-z0-9_\"]", w) else "x" for w in words]


def twins(all_functions):
    shapes = [(name, path, shape(head + body)) for name, path, head, _, body in all_functions if "/tests/" not in path]
    shapes = [s for s in shapes if len(s[2]) >= 40]
    for i, (name, path, one) in enumerate(shapes):
        for other_name, other_path, other in shapes[i + 1:]:
            if abs(len(one) - len(other)) <= max(len(one), len(other)) // 8:
                if difflib.SequenceMatcher(None, one, other, autojunk=False).ratio() >= 0.92:
                    yield f"{path}: {name} and {other_path}: {other_name}"


def repeated(all_functions):
    """Facts that are required in three contracts or more, and parameters that three functions or more take together."""
    facts = {}
    groups = {}
    for name, path, head, clauses, _ in all_functions:
        if "/tests/" in path:
            continue
        for fact in re.findall(r"requires [a-z_]*\s*\{ (.*) \}", clauses):
            facts.setdefault(fact, []).append(name)
        taken = re.findall(r"\b([a-z_]+): (&[^,)]*)", head)
        names = sorted(n for n, _ in taken)
        for i, one in enumerate(names):
            for other in names[i + 1:]:
                groups.setdefault(f"{one} and {other}", []).append(name)
    for fact, users in facts.items():
        if len(users) >= 3:
            yield "fact", f"{fact}: {', '.join(users)}"
    for group, users in groups.items():
        if len(users) >= 4:
            yield "group", f"{group}: {', '.join(users)}"


def answers():
    for path in sorted(glob.glob("crates/*/proofs/**/Answers.antt", recursive=True)):
        with open(path, encoding="utf-8") as file:
            for line in file:
                if line.startswith("pub ") and " : " in line:
                    yield f"{path}: {line.split()[1]}"


def main():
    os.chdir(os.path.join(os.path.dirname(os.path.abspath(__file__)), ".."))
    files = list(sources())
    for title, pattern in LINES:
        places = []
        for path, lines in files:
            if pattern is None:
                places += plain_types(path, lines)
                continue
            for i, line in enumerate(lines):
                if not is_contract(line) and re.search(pattern, line):
                    places.append(f"{path}:{i + 1}: {line.strip()}")
        print_count(title, places)
    every = [f for path, lines in files for f in functions(path, lines)]
    print_count("2 functions of one shape", list(twins(every)))
    constants = {}
    for path, lines in files:
        for line in lines:
            found = re.match(r"\s*(pub )?const ([A-Z_]+): (\w+) = ([0-9_]+);", line)
            if found and "/tests/" not in path:
                constants.setdefault((found.group(3), found.group(4)), []).append(f"{path}: {found.group(2)}")
    print_count("2 constants of one value", [" and ".join(v) for v in constants.values() if len(v) > 1])
    over = list(repeated(every))
    print_count("5 facts that three contracts or more require", [p for k, p in over if k == "fact"])
    print_count("5 references that four functions or more take together", [p for k, p in over if k == "group"])
    print_count("8 answers in proofs", list(answers()))
    lemmas = [f"{p}: {l.split(' :')[0]}" for p in sorted(glob.glob("crates/*/proofs/*.antt"))
              for l in open(p, encoding="utf-8") if re.match(r"(abbrev )?(pub )?[a-zA-Z_'-]+ : ", l)]
    print_count("8 lemmas in proofs", lemmas)


main()
