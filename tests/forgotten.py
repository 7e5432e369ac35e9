#!/usr/bin/env python3
"""Whether the code of crates/ forgets a value, which then keeps its memory for good.

No contract can say that what a function lets go of is given back. std has a few ways to keep it from that, and none of
their names may stand in code, tests and imports among it; comments, texts, contracts and ghost items are passed over.
"""
import sys

from refusals import ROOT, tokens_of

NAMES = {"forget", "ManuallyDrop", "leak", "into_raw", "into_raw_parts"}
FOUND = [
    "fn f(text: Vec<u8>) { std::mem::forget(text); }",
    "use std::mem::forget as let_go;",
    "fn f(text: Box<[u8]>) -> &'static [u8] { Box::leak(text) }",
    "fn f(text: Vec<u8>) { let _kept = ManuallyDrop::new(text); }",
]
PASSED = [
    "/// It doesn't forget.\nfn f() { let text = \"forget\"; } // leak",
    "fn f()\n    ensures { forget }\n{}",
    "fn forgets(leaks: u8) -> u8 { leaks }",
]


def forgets(text):
    """The lines and the names that stand there."""
    return [(line, word) for word, line in tokens_of(text) if word in NAMES]


def main():
    wrong = [f"a planted line is not found: {it}" for it in FOUND if not forgets(it)]
    wrong += [f"a sound line is refused: {it}" for it in PASSED if forgets(it)]
    for file in sorted((ROOT / "crates").glob("*/src/**/*.rt")):
        for line, word in forgets(file.read_text()):
            wrong.append(f"{file.relative_to(ROOT)}:{line}: {word}")
    for it in wrong:
        print(it)
    print("forgotten: values may be forgotten here" if wrong else "forgotten: no value is forgotten")
    return 1 if wrong else 0


if __name__ == "__main__":
    sys.exit(main())
