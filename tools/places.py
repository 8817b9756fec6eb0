#!/usr/bin/env python3
"""places.py POINT [FOLDER]: lists the places of one point of docs/DESIGN-PASS.md in FOLDER/crates/*/src, and their count."""
import collections
import glob
import os
import re
import sys

point = sys.argv[1] if len(sys.argv) > 1 else ""
folder = sys.argv[2] if len(sys.argv) > 2 else os.path.join(os.path.dirname(os.path.abspath(__file__)), "..")
sources = sorted(glob.glob(os.path.join(folder, "crates/*/src/**/*.rt"), recursive=True))
PATTERNS = {
    # enums, numbers answered for kinds or refusals, refusals taken apart by hand, and words of a sentinel
    "1": r"\benum [A-Z]|fn (number|place|kind_number|decision_count|silent_decision)\((&?self)?\)|let (Ok|Err)\(.*else|Err\(\w+\) => (return )?Err|Err\(PackRefusal::Memory\);|; their number if",
    # a range of numbers gone through, and counters
    "3": r"^\s*(for\b.*\bin\b.*\.\.|while\b|loop\b)|^\s*\w+ \+= 1;",
    # conversions, comparisons and printing
    "4": r"^\s*(pub(\(crate\))? )?fn (is_same|is_earlier|refused|refusal_line|told_\w+|hex_of|bytes_of|digit|addresses|ports|protocols|push_\w+|largest_values)\b|derive\(Clone, Copy(, Debug)?\)\]|^\s*impl\b.*\b(From|TryFrom|Display|PartialEq|PartialOrd|Ord|Clone)\b",
    # a slice or a list with a count, a place or an end beside it
    "6": r"fn \w+.*(&\[\w+\]|&mut \[\w+\]|Vec<\w+>).*: usize|^\s*(pub )?(bytes|rows|words|rest): |\blet mut (low|high) = |const WIDTHS|=> \(\d+, \d\),",
    # a word that says which step to run
    "7": r"\bmatch (words\b.*|call\b.*|.*as_str\(\)) \{|matches!\(call",
}


def lines():
    for path in sources:
        for number, line in enumerate(open(path), 1):
            if not line.lstrip().startswith("//"):
                yield os.path.relpath(path, os.path.join(folder, "crates")), number, line.rstrip("\n")


def functions():
    """Each function's place, and its body with names, numbers and space taken out."""
    for path in sources:
        text = re.sub(r"//.*", "", open(path).read())
        for found in re.finditer(r"\bfn (\w+)", text):
            open_at = re.search(r"^\s*\{\s*$|\{\n", text[found.end():], re.M)
            ended = text.find(";", found.end())
            if open_at is None or -1 < ended < found.end() + open_at.start() and "{" not in text[found.end():ended]:
                continue
            start = found.end() + open_at.end()
            depth, at = 1, start
            while depth and at < len(text):
                depth += (text[at] == "{") - (text[at] == "}")
                at += 1
            body = re.sub(r"\s+", "", re.sub(r"\b(?!if|else|for|in|while|match|let|return)[A-Za-z_]\w*\b|\b\d\w*\b", "x", text[start:at - 1]))
            yield os.path.relpath(path, os.path.join(folder, "crates")), found[1], body


if point in PATTERNS:
    places = [f"{p}:{n}: {l.strip()}" for p, n, l in lines() if re.search(PATTERNS[point], l)]
elif point == "2":
    bodies = collections.defaultdict(list)
    for path, name, body in functions():
        if len(body) > 20:
            bodies[body].append(f"{path}: {name}")
    places = [", ".join(b) for b in bodies.values() if len(b) > 1]
elif point == "5":
    facts = collections.defaultdict(list)
    for path, number, line in lines():
        clause = re.match(r"\s*requires\s*\w*\s*\{ (.*) \}", line)
        for fact in re.split(" × ", clause[1]) if clause else []:
            facts[fact.strip("() ")].append(f"{path}:{number}")
    places = [f"{f}: {', '.join(w)}" for f, w in facts.items() if len(w) > 2]
elif point == "8":
    counts = collections.Counter()
    for path in glob.glob(os.path.join(folder, "crates/*/proofs/**/*.antt"), recursive=True):
        crate = os.path.relpath(path, os.path.join(folder, "crates")).split(os.sep)[0]
        counts[crate] += len(re.findall(r"^pub \S+ : goal\.", open(path).read(), re.M)) if path.endswith("Answers.antt") else 0
    places = [f"{c}: {n} answers" for c, n in sorted(counts.items()) if n]
    print("\n".join(places))
    print(sum(counts.values()), "answers")
    sys.exit()
else:
    sys.exit(__doc__)
print("\n".join(places))
print(len(places), "places")
