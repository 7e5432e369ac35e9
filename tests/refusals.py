#!/usr/bin/env python3
"""Lists where a want of memory is made in the code of crates/, and fails on a place that isn't known.

No contract can say that `OutOfMemory` is answered only where a growth was refused. So this looks at each place where a
value that says so is made: `AllocError`, `AllocFailed`, a variant `OutOfMemory`, `Stopped` of `tenant_shard`, `AnswerRefused`
of `export_edge`, or a reply with the status 503, by `without_memory` or by hand. Such a value may be made
- in `from` of a conversion from `AllocError` or `AllocFailed`, where it is all that stands there;
- in an arm of a `match` whose one pattern is itself a want of memory, and so in what maps one to another;
- in the block of an `if` that asks only whether an error's kind is `ErrorKind::OutOfMemory`;
- in the places of KNOWN below, so many times in that function.
Types, patterns, comparisons, contracts, comments and tests make no value and are passed over. docs/TESTING.md says what
this can't see.

    refusals.py          the check, and a test of the check: lines planted in copies are found
    refusals.py --list   each place where such a value is made, and why it may be
"""
import pathlib
import re
import sys

ROOT = pathlib.Path(__file__).resolve().parent.parent
TYPES = {"AllocError", "AllocFailed", "AnswerRefused", "Stopped"}
REPLY = "without_memory"
WORDS = TYPES | {"OutOfMemory", REPLY}

# the file under crates/, the function, how often, and why
KNOWN = [
    ("settings_check/src/read.rt", "document", 1, "the TOML reader's error says that it is want of memory"),
    ("text_slice/src/text_slice.rt", "whole", 1, "a place in a block has 32 bits, and this block has more bytes"),
    ("span_pool/src/pool.rt", "put", 1, "a key has 32 bits, and the vacant one has more"),
    ("span_batcher/src/encode.rt", "put_front", 1, "a length has 64 bits, and what is to follow may have more bytes"),
    ("text_pool/src/pool.rt", "put", 1, "the same of a text"),
    ("otlp_prepare/src/body_spans.rt", "next_index", 1, "an origin's index has 32 bits, and there are more origins"),
    ("audit_log/src/body.rt", "packed", 2, "an origin's index and a text's length have 32 bits, and these have more"),
    ("tenant_pipeline/src/outbox.rt", "offer", 1, "the queue gives the batch back with its want of memory"),
    ("tenant_pipeline/src/unsent.rt", "write", 1, "the queue gives the batch back with its want of memory"),
    ("tail_settings/src/parsed.rt", "parse", 1, "the TOML reader's error says that it is want of memory"),
    ("trace_collector_program/src/serve.rt", "fault_of", 1, "a thread needs memory of its own to start"),
    ("tenant_shard/src/shard.rt", "run", 2, "room for the outcomes was refused, or a step was"),
    ("tenant_registry/src/replies.rt", "without_memory", 1, "the reply itself"),
    ("tenant_registry/src/changes.rt", "added", 1, "there was no memory to hear what is answered: it is no text"),
    ("tenant_registry/src/changes.rt", "add_answered", 1, "there was no memory to hear what is answered"),
    ("tenant_registry/src/changes.rt", "not_added", 1, "the line that is answered says so"),
    ("tenant_registry/src/changes.rt", "retire_told", 1, "there was no memory to hear what is answered: it is no text"),
    ("tenant_registry/src/changes.rt", "retire_answered", 1, "there was no memory to hear what is answered"),
    ("tenant_registry/src/documents.rt", "from", 1, "of a document's faults want of memory alone has no number"),
    ("service_context/src/context.rt", "reply_to_head", 1, "bodies on their way leave too little for this one, of what they may take"),
    ("service_context/src/context.rt", "answer", 1, "the step with the answer was refused memory"),
    ("service_context/src/context.rt", "admitted", 1, "memory was refused, and not all is done yet that was put off for it"),
]

CLAUSE = re.compile(r"(?:ensures|requires|decreases|invariant|variant)\b\*?\s*(?:[a-z_]\w*\s*)?\{")
TOKEN = re.compile(r"[A-Za-z_]\w*|\d\w*|::|->|=>|==|!=|<=|>=|&&|\|\||\.\.=|\.\.|<<|\S")
GHOST = re.compile(r"ghost\b")
LIFETIME = re.compile(r"'[A-Za-z_]\w*(?!')")
CHARACTER = re.compile(r"b?'(?:\\.[^']*|[^'\\])'")
RAW = re.compile(r'b?r(#*)"')


def end_of_text(text, at):
    """Behind a string in double quotes that begins here."""
    at += 1
    while at < len(text) and text[at] != '"':
        at += 2 if text[at] == "\\" else 1
    return at + 1


def end_of_braces(text, at):
    """Behind the braces that open here, in the language of clauses."""
    depth = 0
    while at < len(text):
        if text[at] == '"':
            at = end_of_text(text, at)
            continue
        depth += (text[at] == "{") - (text[at] == "}")
        at += 1
        if depth == 0:
            break
    return at


def end_of_ghost(text, at):
    """Behind a ghost item: its semicolon, or its braces where none follows."""
    while at < len(text) and text[at] != ";":
        if text[at] == "{":
            at = end_of_braces(text, at)
            rest = text[at:].lstrip()
            if not rest.startswith((";", "×", ".", "→")):
                return at
            continue
        at += 1
    return at + 1


def end_of_comment(text, at):
    if text.startswith("//", at):
        end = text.find("\n", at)
        return len(text) if end < 0 else end
    depth = 0
    while at < len(text):
        if text.startswith("/*", at):
            depth, at = depth + 1, at + 2
        elif text.startswith("*/", at):
            depth, at = depth - 1, at + 2
            if depth == 0:
                break
        else:
            at += 1
    return at


def tokens_of(text):
    """The words and signs of the code with their lines; no comments, texts, characters, clauses or ghost items."""
    found, at, line = [], 0, 1
    while at < len(text):
        begun = at
        if text[at].isspace():
            at += 1
        elif text.startswith(("//", "/*"), at):
            at = end_of_comment(text, at)
        elif RAW.match(text, at):
            raw = RAW.match(text, at)
            at = text.find('"' + raw[1], raw.end()) + 1 + len(raw[1])
        elif text[at] == '"' or text.startswith('b"', at):
            at = end_of_text(text, at + (text[at] == "b"))
            found.append(('""', line))
        elif CHARACTER.match(text, at):
            at = CHARACTER.match(text, at).end()
            found.append(("''", line))
        elif LIFETIME.match(text, at):
            at = LIFETIME.match(text, at).end()
        elif CLAUSE.match(text, at) and not text[at - 1 : at].isalnum():
            at = end_of_braces(text, CLAUSE.match(text, at).end() - 1)
        elif GHOST.match(text, at):
            at = end_of_ghost(text, at)
        else:
            token = TOKEN.match(text, at)
            found.append((token[0], line))
            at = token.end()
        line += text.count("\n", begun, at)
    return found


class Code:
    """A file's tokens, which brackets belong together, and in which brackets each token stands."""

    def __init__(self, text):
        found = tokens_of(text)
        self.words = [word for word, _ in found]
        self.lines = [line for _, line in found]
        self.match, self.inside, open_ = {}, [], []
        for i, word in enumerate(self.words):
            if word in (")", "]", "}") and open_:
                self.match[open_[-1]], self.match[i] = i, open_[-1]
                open_.pop()
            self.inside.append(open_[-1] if open_ else None)
            if word in ("(", "[", "{"):
                open_.append(i)

    def word(self, i):
        return self.words[i] if 0 <= i < len(self.words) else ""

    def end_of_item(self, i):
        """Behind an item: its semicolon or its braces, whichever comes first."""
        while i < len(self.words) and self.words[i] not in (";", "{"):
            i = self.match.get(i, i) + 1 if self.words[i] in ("(", "[") else i + 1
        return (self.match.get(i, i) if self.word(i) == "{" else i) + 1


def path_start(code, i):
    """The first token of the path that ends here, as `a` of `a::b::C`."""
    while code.word(i - 1) == "::" and re.match(r"\w", code.word(i - 2)):
        i -= 2
    return i


def is_type(code, i):
    """Whether the word stands where a type does."""
    first = path_start(code, i)
    while code.word(first - 1) in ("&", "mut", "dyn"):
        first -= 1
    before, opener = code.word(first - 1), code.inside[i]
    if before in ("->", "for", "impl", "as"):
        return True
    if before == ":" and opener is not None and code.words[opener] == "(":
        return True
    if before == ":" and code.word(first - 3) in ("let", "mut"):
        return True
    return within_angles(code, first, i)


def within_angles(code, first, last):
    """Whether the words stand between `<` and its `>`."""
    i, depth = first - 1, 0
    while i >= 0 and not (depth == 0 and code.words[i] == "<"):
        if code.words[i] in ("(", "[", "{", ";"):
            return False
        depth += (code.words[i] == ">") - (code.words[i] == "<")
        i = code.match.get(i, i) - 1 if code.words[i] in (")", "]", "}") else i - 1
    k, depth = last + 1, 0
    while i >= 0 and k < len(code.words):
        if code.words[k] == ">" and depth == 0:
            return True
        if code.words[k] in (")", "]", "}", ";", "{"):
            return False
        depth += (code.words[k] == "<") - (code.words[k] == ">")
        k = code.match.get(k, k) + 1 if code.words[k] in ("(", "[") else k + 1
    return False


def is_named(code, opener):
    """Whether braces hold the parts of what a pattern names, and no block."""
    if opener is None or code.words[opener] != "{" or not re.match(r"[A-Z]", code.word(opener - 1)):
        return False
    return code.word(path_start(code, opener - 1) - 1) in ("{", "}", ",", "|", "(", "[", "&", "let")


def is_in_pattern(code, i):
    """Whether the word stands in the pattern of an arm, so that `=>` follows at the end of it."""
    at, opener = i + 1, code.inside[i]
    while at < len(code.words):
        word, is_block = code.words[at], opener is None or code.words[opener] == "{" and not is_named(code, opener)
        if word == "=>":
            return True
        if word in (";", "return", "=") or word == "{" and not is_named(code, at) or word in (",", "}") and is_block:
            return False
        if word in ("(", "[", "{"):
            at = code.match.get(at, at) + 1
        elif word in (")", "]", "}"):
            if opener is None or code.match.get(opener) != at or code.word(opener - 1) == "!":
                return False
            at, opener = at + 1, code.inside[opener]
        else:
            at += 1
    return False


def is_let(code, i):
    """Whether the word stands between `let` and its `=`."""
    at = i
    while code.inside[at] is not None and code.words[code.inside[at]] in ("(", "["):
        at = code.inside[at]
    end = code.match.get(at, at) + 1
    while code.word(end) in ("|", "::") or re.match(r"\w", code.word(end)) and code.word(end) not in ("if", "else"):
        end += 1
    if code.word(end) != "=":
        return False
    at -= 1
    while at >= 0 and code.words[at] not in (";", "{", "}", "=", "let", "=>", "("):
        at -= 1
    return code.word(at) == "let"


def is_compared(code, i):
    """Whether the word is a side of == or !=, or a pattern of matches!."""
    first = path_start(code, i)
    if code.word(first - 1) in ("==", "!=") or code.word(i + 1) in ("==", "!="):
        return True
    at = i
    while code.inside[at] is not None and code.words[code.inside[at]] in ("(", "["):
        opener = code.inside[at]
        if code.word(opener - 1) == "!" and code.word(opener - 2) == "matches":
            return any(code.words[k] == "," and code.inside[k] == opener for k in range(opener, at))
        at = opener
    return False


def end_of_attribute(code, i):
    """Behind the attribute that begins here, or None."""
    opener = i + 2 if code.word(i + 1) == "!" else i + 1
    return code.match.get(opener, opener) + 1 if code.word(i) == "#" and code.word(opener) == "[" else None


def is_definition(code, i):
    """Whether an import, a type's other name, a struct or an enum begins here, none of which makes a value."""
    if code.words[i] in ("struct", "enum", "union"):
        return bool(re.match(r"[A-Z]", code.word(i + 1)))
    return code.words[i] == "use" or code.words[i] == "type" and code.word(i - 1) not in ("::", ".")


def other_names(code, i, end):
    """Where an import or a type gives one of our words another name."""
    inside = [k for k in range(i, end) if code.words[k] in WORDS]
    if code.words[i] == "use":
        return [k for k in inside if code.word(k + 1) == "as"]
    return [k for k in inside if code.words[i] == "type" and code.word(k - 1) == "="]


def passed_over(code):
    """The tokens of attributes, definitions and tests; where one of our words gets another name; and the modules of tests
    that are files of their own."""
    skip, wrong, tests, i, is_test = set(), [], [], 0, False
    while i < len(code.words):
        end = end_of_attribute(code, i)
        if end:
            is_test = is_test or code.words[i + 2 : end - 1] in (["cfg", "(", "test", ")"], ["test"])
            skip |= set(range(i, end))
        elif is_definition(code, i):
            end = code.end_of_item(i)
            while code.words[i] == "use" and code.word(end - 1) == "}":
                end = code.end_of_item(end)
            wrong += other_names(code, i, end)
            skip |= set(range(i, end))
            is_test = False
        elif is_test and code.words[i] in ("mod", "fn", "impl", "trait", "const", "static", "macro_rules"):
            end = code.end_of_item(i)
            tests += [code.words[i + 1]] if code.words[i] == "mod" and code.word(i + 2) == ";" else []
            skip |= set(range(i, end))
            is_test = False
        i = end or i + 1
    return skip, wrong, tests


def functions_of(code):
    """Each function's name with the tokens of its body."""
    found = []
    for i, word in enumerate(code.words):
        if word == "fn" and re.match(r"\w", code.word(i + 1)):
            end = code.end_of_item(i)
            if code.word(end - 1) == "}":
                found.append((code.word(i + 1), code.match[end - 1], end - 1))
    return found


def function_at(functions, i):
    inside = [it for it in functions if it[1] < i < it[2]]
    return max(inside, key=lambda it: it[1]) if inside else ("", -1, -1)


def is_conversion(code, function, i):
    """Whether the word is made in `from` of a conversion from a want of memory, whose body is that value alone."""
    name, begun, ended = function
    if name != "from":
        return False
    body = code.words[begun + 1 : ended]
    if any(not re.fullmatch(r"[A-Z]\w*|::|\(|\)", it) for it in body):
        return False
    opener = code.inside[begun]
    if opener is None:
        return False
    k = opener - 1
    while k >= 0 and code.words[k] not in ("impl", "}", ";"):
        k -= 1
    header = " ".join(code.words[k:opener])
    return bool(re.search(r"\bFrom < (AllocError|AllocFailed < \w+ >) > for \w+", header))


def arrow_before(code, i):
    """The `=>` of the arm in whose answer the word stands, if that isn't inside further brackets."""
    at, level = i - 1, code.inside[i]
    while at >= 0 and code.inside[at] == level and code.words[at] not in (",", ";"):
        if code.words[at] == "=>":
            return at
        at = code.match.get(at, at) - 1 if code.words[at] in (")", "]", "}") else at - 1
    return None


def pattern_before(code, arrow):
    """The words of an arm's pattern, with its guard."""
    at, level = arrow - 1, code.inside[arrow]
    if code.word(at) == "}":
        at = code.match.get(at, at) - 1
    while at >= 0 and code.inside[at] == level and code.words[at] not in (",", "}", "=>"):
        at = code.match.get(at, at) - 1 if code.words[at] in (")", "]") else at - 1
    return " ".join(code.words[at + 1 : arrow])


def is_mapped(code, i):
    """Whether the word is made in an arm whose one pattern is a want of memory, and that has no guard. A word that isn't
    imported would be a name for anything."""
    at = i
    while at is not None:
        arrow = arrow_before(code, at)
        if arrow is not None:
            shape = r"(?:\w+ \( )*((?:\w+ :: )*)(AllocError|OutOfMemory)(?: \{[\w :,]*\})?(?: \))*"
            named = re.fullmatch(shape, pattern_before(code, arrow))
            imports = re.search(r"\buse std :: [^;]*\bAllocError\b", " ".join(code.words))
            return bool(named and (named[1] or named[2] == "AllocError" and imports))
        at = code.inside[at]
    return False


def is_asked(code, i):
    """Whether the word is made in the block of an `if` that asks only whether an error's kind is want of memory."""
    at = code.inside[i]
    while at is not None:
        asked = " ".join(code.words[max(at - 10, 0) : at])
        if code.words[at] == "{" and re.fullmatch(r"if \w+ \. kind \( \) == ErrorKind :: OutOfMemory", asked):
            return True
        at = code.inside[at]
    return False


def is_503(code, i):
    """Whether the number is the status of a reply that is made here."""
    return code.words[max(i - 2, 0) : i + 1] == ["status", ":", "503"]


def made_in(text):
    """Each place where a want of memory is made: the line, the function, the word, and why it may be, if it may."""
    code = Code(text)
    skip, wrong, tests = passed_over(code)
    functions, found = functions_of(code), []
    for i in wrong:
        found.append((code.lines[i], "", code.words[i], "", "is given another name, under which this check can't find it"))
    for i, word in enumerate(code.words):
        if i in skip or word not in WORDS and not is_503(code, i):
            continue
        if word == REPLY and code.word(i - 1) == "fn":
            continue
        if word == "Stopped" and code.word(i + 1) not in ("{", "("):
            continue
        if is_type(code, i) or is_in_pattern(code, i) or is_let(code, i) or is_compared(code, i):
            continue
        function = function_at(functions, i)
        why = "a conversion" if is_conversion(code, function, i) else ""
        why = why or ("one want of memory becomes another" if is_mapped(code, i) else "")
        why = why or ("std's error is want of memory" if is_asked(code, i) else "")
        found.append((code.lines[i], function[0], word, why, "is made"))
    return found, tests


def files():
    """The code of the crates without their tests."""
    for folder in sorted((ROOT / "crates").glob("*/src")):
        if folder.parent.name.endswith("_tests"):
            continue
        tests = set()
        sources = sorted(folder.rglob("*.rt"))
        for file in sources:
            _, _, named = passed_over(Code(file.read_text()))
            beside = file.parent if file.name in ("lib.rt", "main.rt", "mod.rt") else file.with_suffix("")
            tests |= {beside / name for name in named}
        for file in sources:
            inside = {file.with_suffix(""), *file.parents}
            if not inside & tests:
                yield file


def check(shows):
    """What is wrong, and how many places there are."""
    faults, counts, number = [], {}, 0
    for file in files():
        short = str(file.relative_to(ROOT / "crates"))
        for line, function, word, why, how in made_in(file.read_text())[0]:
            number += 1
            known = next((it for it in KNOWN if it[:2] == (short, function)), None)
            if known and not why and how == "is made":
                counts[known[:2]] = counts.get(known[:2], 0) + 1
                why = known[3]
            place = f"in `{function}`" if function else "in no function"
            if shows:
                print(f"crates/{short}:{line}: {word} {place}: {why or 'NOT KNOWN'}")
            if not why:
                faults.append(f"crates/{short}:{line}: {word} {how} {place}")
    for path, function, wanted, _ in KNOWN:
        seen = counts.get((path, function), 0)
        if seen != wanted:
            faults.append(f"crates/{path}: `{function}` makes {seen} beside conversions, and KNOWN says {wanted}")
    return faults, number


FOUND = [
    "fn f() -> Result<(), AllocError> { Err(AllocError) }",
    "fn f(i: usize) -> Result<(), AllocError> { if i > 9 { return Err(AllocError); } Ok(()) }",
    "fn f() -> Result<(), AllocError> { Err(std::alloc::AllocError) }",
    "fn f(n: u64) -> Result<(), Refusal> { match n { 7 => Err(Refusal::OutOfMemory), _ => Ok(()) } }",
    "fn f(x: Result<(), Other>) -> Result<(), AllocError> { x.map_err(|_| AllocError) }",
    "fn f(e: Fault) -> Refusal { match e { Fault::OutOfMemory | Fault::Deep => Refusal::OutOfMemory, _ => Refusal::Bad } }",
    "fn f(e: Fault, n: u64) -> Refusal { match e { Fault::Deep if n > 3 => Refusal::OutOfMemory, _ => Refusal::Bad } }",
    "fn f(e: Fault) -> Refusal { match e { Fault::Wide => Refusal::Bad, _ => Refusal::OutOfMemory } }",
    "fn f(e: Fault) -> Refusal { match e { Fault::OutOfMemory => Refusal::Bad, _ => { Refusal::OutOfMemory } } }",
    "impl From<Fault> for Refusal { fn from(_e: Fault) -> Refusal { Refusal::OutOfMemory } }",
    "impl From<AllocError> for Refusal { fn from(_e: AllocError) -> Refusal { make(); Refusal::OutOfMemory } } fn make() -> Refusal { Refusal::OutOfMemory }",
    "use std::alloc::AllocError as Gone; fn f() -> Result<(), Gone> { Err(Gone) }",
    "type Gone = AllocError; fn f() -> Result<(), Gone> { Err(Gone {}) }",
    "fn f(a: u64, b: u64) -> bool { g(a < b, AllocError) }",
    "fn f() -> Wrapped { Wrapped { error: AllocError } }",
    "#[cfg(test)] trait T { fn g(); } fn f() -> Result<(), AllocError> { Err(AllocError) }",
    "#[cfg(test)] mod tests; fn f() -> Result<(), AllocError> { Err(AllocError) }",
    "fn f() -> Result<(), Stopped> { Err(Stopped { outcomes: none() }) }",
    "fn f() -> Option<Refusal> { let quote = '\"'; Some(Refusal::OutOfMemory) }",
    "fn f() -> bool { let fault = Refusal::OutOfMemory; fault == other() }",
    "fn f(x: bool) -> Refusal { if x { Refusal::Bad } else { Refusal::OutOfMemory } }",
    "fn f(e: Error) -> Q { if e.kind() == ErrorKind::OutOfMemory { Q::Line } else { Q::OutOfMemory } }",
    "fn f(e: Error) -> Q { if g() || e.kind() == ErrorKind::OutOfMemory { Q::OutOfMemory } else { Q::Line } }",
    "fn f(e: Error) -> Q { if e.kind() == ErrorKind::OutOfMemory || g() { Q::OutOfMemory } else { Q::Line } }",
    "fn f(n: u64) -> R { match n { 1 => match STATE { _ => Err(AllocError) } B => g() } }",
    "fn f(e: Fault) -> Refusal { match e { OutOfMemory => Refusal::OutOfMemory } }",
    "fn f(e: Fault) -> Refusal { match e { Fault::OutOfMemory => match g() { _ => Refusal::OutOfMemory } } }",
    "const GONE: Refusal = Refusal::OutOfMemory; fn f(x: Option<u8>) -> Result<u8, AllocError> { x.ok_or_else(|| AllocError) }",
    "fn f(n: u64) -> R { let Some(x) = n else { return Err(AllocError) }; match x { A => 1, B => 2 } }",
    "fn f(x: R) -> Reply { match x { Ok(y) => y, Err(Refusal::Bad(_)) => without_memory(a) } }",
    "fn f(x: R) -> Reply { match x { Ok(y) => y, Err(_) => without_memory(a) } }",
    "fn f(x: R) -> Q { match x { Fault::Deep { at } => Q::OutOfMemory { at }, Fault::OutOfMemory { at } => Q::Bad { at } } }",
    "use crate::post::without_memory as other; fn f() -> Reply { other(a) }",
    "fn f(a: Global) -> Reply { Reply { status: 503, body: Vec::new(a) } }",
]
PASSED = [
    "use std::alloc::{AllocError, Global}; fn f(x: Global) -> Result<Vec<u8>, AllocError> { g(x) }",
    "// Err(AllocError)\nfn f() { /* Err(AllocError) /* in */ AllocError */ let t = \"AllocError\"; }",
    "/// Or `OutOfMemory`.\npub enum Fault { #[error(\"{0}\")] Deep, OutOfMemory }",
    "fn f(e: Fault) -> u8 { match e { Fault::OutOfMemory => 3, Fault::Deep => 1 } }",
    "fn f(e: Fault) -> u8 { match e { Fault::Deep | Fault::OutOfMemory => 3, _ => 1 } }",
    "fn f(e: Result<u8, Fault>) -> u8 { match e { Ok(x) => x, Err(Fault::OutOfMemory) if x() => 3, Err(_) => 1 } }",
    "fn f(e: Fault) -> u8 { if let Fault::OutOfMemory = e { 1 } else { 2 } }",
    "fn f(e: R) -> u8 { let Err(AllocError) = e else { return 1 }; 2 }",
    "fn f(e: &Error) -> bool { e.kind() == ErrorKind::OutOfMemory || matches!(g(), Err(Fault::OutOfMemory)) }",
    "fn f() -> u8\n    ensures memory { IfErr result (λ fault. fault ≢ ReadFault.OutOfMemory) }\n    ensures { result ≡ moment' }\n{ 1 }",
    "impl M for Shard {\n    ghost view = { λ s. OutOfMemory };\n    ghost use Rattle.x.{OutOfMemory};\n}",
    "#[cfg(test)]\nmod tests { fn f() -> Result<(), AllocError> { Err(AllocError) } }",
    "impl From<AllocError> for Fault {\n    ghost from_gives = { λ _ e. e ≡ OutOfMemory };\n    fn from(_error: AllocError) -> Fault { Fault::OutOfMemory }\n}",
    "impl<T: Drop> From<AllocFailed<T>> for Fault { fn from(_e: AllocFailed<T>) -> Fault { Fault::Replay(Other::OutOfMemory) } }",
        "fn f(e: Error) -> Q { if e.kind() == ErrorKind::OutOfMemory { Q::Gone(P::OutOfMemory) } else { Q::Line } }",
    "use std::alloc::{AllocError, Global}; fn f(x: R) -> Q { match x { Ok(y) => Ok(y), Err(AllocError) => Err(Q::OutOfMemory) } }",
    "fn f(x: R) -> Q { match x { Ok(y) => Ok(y), Err(FromHexError::OutOfMemory) => Err(AllocError), Err(_) => Ok(z) } }",
    "fn f(x: R) -> Q { match x { Fault::Deep { at } => Q::Deep { at }, Fault::OutOfMemory => Q::OutOfMemory } }",
    "fn f(x: R) -> Q { match x { Ok(y) => { g(y) } Err(Refusal::OutOfMemory) => { Err(Q::OutOfMemory) } } }",
    "fn f(x: R) -> Q { match x { R::Deep { at } => g(at), R::OutOfMemory { at: n } => { set(n); Err(Q::OutOfMemory) } } }",
    "fn f(g: Vec<AllocError>, h: &AllocError) -> Option<AllocError> { h.go::<AllocError>() }",
    "fn f(x: R) -> Reply { match x { Ok(y) => y, Err(HubFault::OutOfMemory) => without_memory(a) } }",
    "fn f(reply: &Reply) -> bool { reply.status == 503 }",
]


def self_test():
    """What the check would let through of lines that it has to find, and finds in lines that make nothing."""
    unknown = lambda text: [it for it in made_in(text)[0] if not it[3]]
    wrong = [f"a planted line is not found: {it}" for it in FOUND if not unknown(it)]
    wrong += [f"a sound line is refused: {it}" for it in PASSED if unknown(it)]
    # a bug that every proof and test would let through: no turn for the members after the ninth
    for file in files():
        text = file.read_text()
        at = re.search(r"\bfn \w+[^;{}]*-> Result<[^{;]*AllocError>[^;]*?\n\{\n", text)
        if at and not unknown(text[: at.end()] + "    if busy() { return Err(AllocError); }\n" + text[at.end() :]):
            wrong.append(f"a line planted in a copy of {file.relative_to(ROOT)} is not found")
    return wrong


def main(words):
    faults, number = check("--list" in words)
    faults += self_test()
    for fault in faults:
        print(fault)
    if faults:
        print("refusals: want of memory may be made only in a conversion, in an arm that maps one to another, or where")
        print("KNOWN in tests/refusals.py says so")
        return 1
    print(f"refusals: want of memory is made in {number} places, and each is known")
    return 0


if __name__ == "__main__":
    sys.exit(main(sys.argv[1:]))
