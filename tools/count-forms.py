#!/usr/bin/env python3
"""Counts the places in src/ that docs/DESIGN-PASS.md speaks of.

    tools/count-forms.py [COMMIT]     default: the files as they are; each line is a count and what was counted
"""
import re
import subprocess
import sys
from collections import Counter

PATTERNS = [
    ("enums", r"^\s*(pub )?enum "),
    ("enums with a variant Refused(..)", r"^\s+Refused\("),
    ("tests of a kind's number", r"\bkind (==|<|!=) [0-3]\b|[0-3] < kind\b"),
    ("while", r"^\s*while "),
    ("while let", r"^\s*while let "),
    ("loop", r"^\s*(let \w+ = )?loop \{"),
    ("for", r"^\s*for "),
    ("?", r"\?[;.)]|\? \{"),
    ("Option< and Result< in signatures", r"->.*(Option|Result)<"),
    ("impl", r"^impl"),
    ("closures, impl Fn and dyn", r"\|\w+\| |impl Fn|\bdyn "),
]
TOGETHER = [
    ("s", "at", "end"),
    ("source", "table", "count"),
    ("table", "count", "skip"),
    ("tag", "kind", "value", "length"),
    ("rt", "program"),
]


def files(commit):
    """Yields the name and the text of each file of src/."""
    run = lambda *words: subprocess.run(words, capture_output=True, text=True, check=True).stdout
    names = run("git", "ls-tree", "-r", "--name-only", commit).split() if commit else run("git", "ls-files").split()
    for name in names:
        if re.fullmatch(r"crates/\w+/src/.*\.rt", name):
            yield name, run("git", "show", f"{commit}:{name}") if commit else open(name, encoding="utf-8").read()


def main():
    texts = dict(files(sys.argv[1] if len(sys.argv) > 1 else None))
    code = {name: [line for line in text.split("\n") if not line.lstrip().startswith("//")] for name, text in texts.items()}
    print(f"{sum(len(text.split(chr(10))) - 1 for text in texts.values()):6} lines in {len(texts)} files")
    for what, pattern in PATTERNS:
        print(f"{sum(bool(re.search(pattern, line)) for lines in code.values() for line in lines):6} {what}")
    heads = [re.findall(r"(\w+): ", m[1]) for text in texts.values() for m in re.finditer(r"\bfn \w+\s*(?:<[^>]*>)?\(([^)]*)\)", text)]
    print(f"{len(heads):6} functions; {sum(len(names) > 5 for names in heads)} have six parameters or more")
    for group in TOGETHER:
        print(f"{sum(set(group) <= set(names) for names in heads):6} functions with the parameters {', '.join(group)}")
    # Seven lines in a row that are in two places, once names of numbers are left out.
    runs = Counter()
    for lines in code.values():
        plain = [re.sub(r"\d+", "0", line.strip()) for line in lines if line.strip() not in ("", "}")]
        for i in range(len(plain) - 6):
            runs["\n".join(plain[i : i + 7])] += 1
    print(f"{sum(n - 1 for n in runs.values() if n > 1):6} runs of seven lines that are written more than once")


main()
