#!/usr/bin/env python3
"""Whether the code of crates/ writes by hand what `derive` writes: `==`, an order, a hash, a copy or a default.

What a derive of std's gives is std's own. Written by hand such a trait does what its own ghost items say, and those may
say anything that is lawful: that all values are equal, or two that differ. So each one has to be known here, with what
says that it is right. Tests are passed over.
"""
import sys

from refusals import ROOT, tokens_of

TRAITS = {"PartialEq", "Eq", "PartialOrd", "Ord", "Hash", "Clone", "Default"}
# the file under crates/, the type, its traits, and what says that they are right
KNOWN = [
    ("prepared_body/src/noted.rt", "SpanOrigin", {"PartialEq"}, "`same_origin`, of which `prepared_eq` is made"),
    ("prepared_body/src/prepared.rt", "Prepared", {"PartialEq"}, "`prepared_eq` of its specs/Equal"),
    ("otlp_trace/src/octets.rt", "Octets", {"Clone", "PartialEq", "Eq"}, "byte for byte, as of lists"),
    ("text_slice/src/text_slice.rt", "TextSlice", {"PartialEq", "Eq"}, "byte for byte, as of lists"),
    ("otlp_trace/src/repeated.rt", "Repeated", {"PartialEq", "Eq"}, "value for value, as of lists"),
]
FOUND = [
    "impl PartialEq for Job {\n    ghost eq = { same };\n\n    fn eq(&self, other: &Job) -> bool {\n        true\n    }\n}",
    "impl<T: Eq> std::cmp::PartialEq<Pair<T>> for Pair<T> {}",
    "impl<'a> Clone for crate::job::Job<'a> {}",
    "impl Default for Job {}",
]
PASSED = [
    "/// impl PartialEq for Job\n#[derive(Clone, PartialEq, Eq)]\nstruct Job; // impl Eq for Job",
    "impl<T: PartialEq + Clone> Line for Pair<T> {}",
    "fn f<T: Clone>(job: impl PartialEq) where T: Eq {}",
]


def behind_angles(words, at):
    """Behind the angle brackets that open here, if they do."""
    depth = 0
    while at < len(words):
        depth += (words[at] == "<") - (words[at] == ">")
        if depth <= 0:
            return at + (words[at] == ">")
        at += 1
    return at


def behind_path(words, at):
    """The last name of the path that begins here, and what stands behind the path."""
    while words[at + 1 : at + 2] == ["::"]:
        at += 2
    name = words[at] if at < len(words) else ""
    return name, behind_angles(words, at + 1) if words[at + 1 : at + 2] == ["<"] else at + 1


def written(text):
    """The lines, traits and types of such impls."""
    found = tokens_of(text)
    words = [word for word, _ in found]
    for i, (word, line) in enumerate(found):
        if word != "impl":
            continue
        at = behind_angles(words, i + 1) if words[i + 1 : i + 2] == ["<"] else i + 1
        trait, at = behind_path(words, at)
        if trait in TRAITS and words[at : at + 1] == ["for"]:
            yield line, trait, behind_path(words, at + 1)[0]


def main():
    wrong = [f"a planted line is not found: {it}" for it in FOUND if not list(written(it))]
    wrong += [f"a sound line is refused: {it}" for it in PASSED if list(written(it))]
    known = {(file, name, trait) for file, name, traits, _why in KNOWN for trait in traits}
    for file in sorted((ROOT / "crates").glob("*/src/**/*.rt")):
        at = file.relative_to(ROOT / "crates")
        if at.parts[0].endswith("_tests"):
            continue
        for line, trait, name in written(file.read_text()):
            if (str(at), name, trait) in known:
                known.discard((str(at), name, trait))
            else:
                wrong.append(f"crates/{at}:{line}: {trait} of {name}")
    wrong += [f"known, and not there: {' '.join(it)}" for it in sorted(known)]
    for it in wrong:
        print(it)
    print("by_hand: a derive may be meant here" if wrong else "by_hand: what derive writes is left to it")
    return 1 if wrong else 0


if __name__ == "__main__":
    sys.exit(main())
