#!/usr/bin/env python3
"""Counts, point by point, where the sources may hold an older form: places.py [-v] [ROOT]. With -v it prints each line.

It goes by text and finds too much rather than too little: a line counted here is a place to read, not yet one to change.
Test modules (src/tests.rt and the crate cases) are counted with the rest."""
import collections
import glob
import os
import re
import sys

SHAPES = [
    ("1a. a call that changes what it is lent and answers a flag", r"fn \w+.*&mut .*-> bool"),
    ("1b. an arm that takes an Option or a Result apart", r"^\s*(Some|None|Ok|Err)(\(.*\))? => "),
    ("1c. a flag in a record", r"^\s+(pub )?\w+: (\[)?bool\b"),
    ("1d. an enum", r"^\s*(pub )?enum \w+"),
    ("1e. an enum or a record with no derive beyond Clone, Copy and Drop", None),
    ("1f. an arm that gives a variant a number", r"=> \d+,$"),
    ("2a. a chain of lines of one shape (three or more)", None),
    ("2b. a function of the same shape as another (names, words and numbers aside)", None),
    ("3. a loop that counts", r"\bwhile\b|\bloop \{|for \w+ in 0\.\.|\.enumerate\(\)|^\s*\w+(\.\w+)? (\+|-)= "),
    ("4a. a trait of the library written by hand", r"^impl(<.*>)? (fmt::)?(Clone|Copy|PartialEq|Eq|PartialOrd|Ord|Display|Default|From|TryFrom)\b.* for "),
    ("4b. a cast", r" as (u8|u16|u32|u64|usize)\b"),
    ("4c. a function that compares, names or converts", r"fn (same|name|meaning|number|place|class_of|field_of|\w+_of)\("),
    ("5a. a clause that three or more functions repeat", None),
    ("5b. two parameters that travel together through three or more functions", None),
    ("6a. a record that holds a length, or lists side by side", r"^\s+(len|names|starts|numbers|given|truths|sends|nodes|brackets)\w*: "),
    ("6b. a use of the bounded list", r"Bounded(<|::)"),
    ("7. a match that picks what to run, or a table of functions", r"match (self|class|op|kind|d|due|name|node|field|test\.field\(\))\b|\bfn\(|\bdyn |impl Fn"),
]


def sources(root):
    for path in sorted(glob.glob(os.path.join(root, "crates/*/src/**/*.rt"), recursive=True)):
        yield os.path.relpath(path, root), open(path).read()


def functions(text):
    """Each function's name, parameters, clauses and body, by its braces."""
    lines = text.split("\n")
    for i, line in enumerate(lines):
        found = re.match(r"\s*(pub )?fn (\w+)", line)
        if not found:
            continue
        indent = len(line) - len(line.lstrip())
        block = []
        for later in lines[i:]:
            block.append(later)
            if later.rstrip() == " " * indent + "}" or (later.rstrip().endswith(";") and "{\n" not in "\n".join(block)):
                break
        yield i + 1, found.group(2), "\n".join(block)


def shape(block):
    block = re.sub(r'b?"[^"]*"', '"', block)
    block = re.sub(r"(requires|ensures).*", "", block)
    block = re.sub(r"\b[A-Za-z_]\w*\b", "n", block)
    return re.sub(r"\d+", "0", re.sub(r"\s+", " ", block))


def line_shape(line):
    return re.sub(r"\d+", "0", re.sub(r"\b[A-Za-z_]\w*\b", "n", re.sub(r'b?"[^"]*"', '"', line.strip().lstrip("& "))))


def by_hand(root):
    found = {key: [] for key in ("1e", "2a", "2b", "5a", "5b")}
    shapes, clauses, pairs = (collections.defaultdict(list) for _ in range(3))
    for path, text in sources(root):
        lines = text.split("\n")
        for i, line in enumerate(lines):
            if re.match(r"\s*(pub )?(enum|struct) \w+", line):
                derived = " ".join(lines[max(0, i - 2):i])
                if not re.search(r"derive\([^)]*(PartialEq|Debug|Hash|Ord|Default)", derived):
                    found["1e"].append((path, i + 1, line.strip()))
        i = 0
        while i < len(lines):
            j = i
            while j + 1 < len(lines) and "(" in lines[i] and line_shape(lines[j + 1]) == line_shape(lines[i]):
                j += 1
            if j - i >= 2 and not re.search(r"assert|use |mod ", lines[i]):
                found["2a"].append((path, i + 1, lines[i].strip() + f"   .. {j - i + 1} lines"))
            i = j + 1
        for at, name, block in functions(text):
            if block.count("\n") >= 3:
                shapes[shape(block)].append((path, at, name))
            head = block.split("{\n")[0]
            for clause in set(re.findall(r"(?:requires|ensures)[^{]*\{ (.*) \}", block)):
                for fact in set(clause.split(" × ")):
                    clauses[re.sub(r"self\.(old|new|now)|\w+\.(old|new|now)|result", "x", fact)].append((path, at, name))
            params = re.findall(r"(\w+): ([^,()]+)", head.split("->")[0])
            named = sorted(p + ": " + re.sub(r"&('\w+ )?(mut )?", "", t).strip() for p, t in params)
            for a in range(len(named)):
                for b in range(a + 1, len(named)):
                    pairs[(named[a], named[b])].append((path, at, name))
    for group in shapes.values():
        if len(group) > 1:
            found["2b"].append((group[0][0], group[0][1], ", ".join(f"{n}" for _, _, n in group)))
    for fact, group in clauses.items():
        if len(group) > 2:
            found["5a"].append((group[0][0], group[0][1], f"{fact}: " + ", ".join(n for _, _, n in group)))
    for pair, group in pairs.items():
        if len(group) > 2:
            found["5b"].append((group[0][0], group[0][1], " and ".join(pair) + ": " + ", ".join(n for _, _, n in group)))
    return found


def main():
    verbose = "-v" in sys.argv
    roots = [a for a in sys.argv[1:] if a != "-v"]
    root = roots[0] if roots else os.path.join(os.path.dirname(os.path.abspath(__file__)), "..")
    computed = by_hand(root)
    for title, pattern in SHAPES:
        if pattern is None:
            hits = computed[title.split(".")[0]]
        else:
            hits = [(p, i + 1, l.strip()) for p, t in sources(root) for i, l in enumerate(t.split("\n"))
                    if re.search(pattern, l) and not l.lstrip().startswith(("//", "ghost"))]
        print(f"{title}: {len(hits)}")
        if verbose:
            for path, at, line in hits:
                print(f"    {path}:{at}: {line[:150]}")
    answers = lines = 0
    for path in glob.glob(os.path.join(root, "crates/*/proofs/**/*.antt"), recursive=True):
        text = open(path).read()
        lines += text.count("\n")
        answers += len(re.findall(r"(?m)^pub (\S+) : goal\.\1", text))
    print(f"8. answers written by hand: {answers}, in {lines} lines of proofs/")


main()
