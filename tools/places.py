#!/usr/bin/env python3
"""Counts, in src/ of every crate, the places that the design pass looks at, one heading for each of its points.

    tools/places.py [--list] [ROOT]        ROOT is a checkout, by default this one

A place is what one of the patterns below finds; whether it should change is for a reader to say. docs/DESIGN-PASS.md has the outcome.
"""
import pathlib
import re
import subprocess
import sys
from collections import defaultdict

LIST = "--list" in sys.argv
ROOTS = [a for a in sys.argv[1:] if not a.startswith("--")]
ROOT = pathlib.Path(ROOTS[0] if ROOTS else pathlib.Path(__file__).resolve().parent.parent)

FILES = sorted(f for f in ROOT.glob("crates/*/src/**/*.rt"))


def bare(text):
    """A line without its comment, and without the attribute that it is."""
    return re.sub(r"//.*|^\s*#\[.*\]\s*$|#\[from[^\]]*\] ", "", text)


def hits(pattern, comments=False):
    found = []
    for f in FILES:
        for n, line in enumerate(f.read_text().splitlines(), 1):
            if re.search(pattern, line if comments else bare(line)):
                found.append((f.relative_to(ROOT), n, line.strip()))
    return found


def blocks(text, head):
    """Each item that begins with `head`, with its text up to the brace that closes it."""
    for m in re.finditer(head, text, re.M):
        open_at = text.find("{", m.end() - 1)
        # a contract's braces stand before the body: the body begins at a brace that begins a line, or ends the head's line
        body = re.compile(r"^\s*\{\s*$|\{\s*$", re.M).search(text, m.start())
        if body:
            open_at = text.index("{", body.start())
        depth, i = 0, open_at
        while i < len(text):
            if text[i] == "{":
                depth += 1
            elif text[i] == "}":
                depth -= 1
                if depth == 0:
                    break
            i += 1
        start = m.end() - len(m.group().lstrip())
        yield m, text[start : i + 1], text[:start].count("\n") + 1


def variants(body):
    inner = body[body.index("{") + 1 : body.rindex("}")]
    out, depth, word = [], 0, ""
    for ch in inner:
        if ch in "({[<":
            depth += 1
        if ch in ")}]>":
            depth -= 1
        if ch == "," and depth == 0:
            out.append(word.strip())
            word = ""
        else:
            word += ch
    if word.strip():
        out.append(word.strip())
    return out


def enums():
    for f in FILES:
        text = "\n".join(bare(l) for l in f.read_text().splitlines())
        for m, body, line in blocks(text, r"^\s*(pub(\(crate\))? )?enum (\w+)"):
            yield f.relative_to(ROOT), line, m.group(3), variants(body)


def shaped_like_option():
    return [
        (f, n, f"enum {name} {{ {' | '.join(v)} }}")
        for f, n, name, v in enums()
        if len(v) == 2 and sum(bool(re.search(r"[({]", x)) for x in v) == 1
    ]


def shaped_like_result():
    return [
        (f, n, f"enum {name}")
        for f, n, name, v in enums()
        if not re.search(r"Fault|Unreadable|Refusal|Error", name)
        and any(re.search(r"\(\w*Fault\)", x) for x in v)
    ]


TOKEN = re.compile(r'"(?:[^"\\]|\\.)*"|\'.\'|[A-Za-z_]\w*|\d[\d_]*|\S')
KEPT = set("fn let mut if else match return for in while pub impl self Self Some None Ok Err true false Result Option".split())


def skeleton(text):
    out = []
    for t in TOKEN.findall(text):
        if t in KEPT or not re.match(r"[\w\"']", t):
            out.append(t)
        else:
            out.append("w")
    return " ".join(out)


def outline(body):
    """A type's text without its name and the types of its fields: two types with one outline differ only in those."""
    kind, rest = re.match(r"(?:pub(?:\(crate\))? )?(struct|enum) \w+(.*)", body, re.S).groups()
    rest = re.sub(r"pub(\(crate\))? ", "", rest)
    if kind == "struct":
        return kind + " " + " ".join(re.findall(r"(\w+):", re.sub(r"ghost \w+: \{.*\},", "", rest)))
    return kind + " " + " ".join(re.match(r"\w+", v).group() for v in variants(rest))


def same_outline():
    groups = defaultdict(list)
    for f in FILES:
        text = "\n".join(bare(l) for l in f.read_text().splitlines())
        for m, body, line in blocks(text, r"^\s*(pub(\(crate\))? )?(struct|enum) \w+[^;{(]*\{"):
            groups[outline(body)].append((f.relative_to(ROOT), line, body.splitlines()[0].strip()))
    return [p for g in groups.values() if len(g) > 1 for p in g]


def same_shape(head, least):
    groups = defaultdict(list)
    for f in FILES:
        text = "\n".join(bare(l) for l in f.read_text().splitlines())
        for m, body, line in blocks(text, head):
            body = re.sub(r"^\s*(ensures|requires|ghost use).*$", "", body, flags=re.M)
            if len(TOKEN.findall(body)) >= least:
                groups[skeleton(body)].append((f.relative_to(ROOT), line, body.splitlines()[0].strip()))
    return [p for g in groups.values() if len(g) > 1 for p in g]


def modules_alike():
    """Modules of two crates that share ten lines or more in a row."""
    lines = {f: [l.strip() for l in f.read_text().splitlines() if l.strip()] for f in FILES}
    out = []
    seen = {}
    for f, ls in lines.items():
        for i in range(len(ls) - 9):
            key = tuple(ls[i : i + 10])
            if key in seen and seen[key] != f:
                out.append((f.relative_to(ROOT), i, f"ten lines as in {seen[key].relative_to(ROOT)}"))
                break
            seen.setdefault(key, f)
    return out


def arms(body):
    """The arms of a match, each a pattern and what it gives, from the text between its braces."""
    out, depth, word, i = [], 0, "", 0
    while i < len(body):
        ch = body[i]
        if ch in "({[":
            depth += 1
        if ch in ")}]":
            depth -= 1
        word += ch
        ends_block = ch == "}" and depth == 0 and "=>" in word and word.split("=>", 1)[1].lstrip().startswith("{")
        if (ch == "," and depth == 0 and "=>" in word) or ends_block:
            out.append(word)
            word = ""
        i += 1
    if "=>" in word:
        out.append(word)
    return [tuple(x.strip().strip(",").strip() for x in a.split("=>", 1)) for a in out]


def matches():
    for f in FILES:
        text = "\n".join(bare(l) for l in f.read_text().splitlines())
        for m in re.finditer(r"\bmatch [^{;]+?\{\s*$", text, re.M):
            depth, i = 1, m.end()
            while depth and i < len(text):
                depth += {"{": 1, "}": -1}.get(text[i], 0)
                i += 1
            yield f.relative_to(ROOT), text[: m.start()].count("\n") + 1, " ".join(m.group().split()), arms(text[m.end() : i - 1])


def methods_by_match():
    """A match on an Option or a Result, one arm of which only passes on or gives a constant: a method of the library does that."""
    plain = re.compile(r"^(None|false|true|0|Answer::Wait|(Ok|Some)\(\w+\)|Err\([\w:]*\)|Err\([\w:]+\(\w+\)\))$")
    return [
        (f, n, head + " " + " | ".join(f"{p} => {' '.join(g.split())[:40]}" for p, g in found))
        for f, n, head, found in matches()
        if len(found) == 2
        and all(re.match(r"(Some|None|Ok|Err)\b", p) for p, _ in found)
        and any(plain.match(g) for _, g in found)
    ]


def tests_by_match():
    """A match that only says yes or no."""
    return [(f, n, head) for f, n, head, found in matches() if found and all(g in ("true", "false") for _, g in found)]


def options_by_if():
    out = []
    for f in FILES:
        text = "\n".join(bare(l) for l in f.read_text().splitlines())
        for m in re.finditer(r"\bif [^{;]+\{\s*Some\(.*\)\s*\} else \{\s*None\s*\}", text):
            out.append((f.relative_to(ROOT), text[: m.start()].count("\n") + 1, " ".join(m.group().split())))
    return out


def codes_by_match():
    """A match that turns each case of an enum into a number or a word, or back."""
    constant = re.compile(r'^(\d[\d_]*|"[^"]*"|(Some|Ok)\(\w+::\w+\))$')
    return [(f, n, head) for f, n, head, found in matches() if sum(bool(constant.match(g)) for _, g in found) >= 2]


def repeated_clauses():
    count = defaultdict(list)
    for f in FILES:
        for n, line in enumerate(f.read_text().splitlines(), 1):
            m = re.match(r"\s*(ensures|requires)\s+(\w+ )?(\{.*\})", line)
            if m:
                count[m.group(3)].append((f.relative_to(ROOT), n, line.strip()))
    return [p for ps in count.values() if len(ps) >= 3 and len(ps[0][2]) > 40 for p in ps]


def many_parameters():
    out = []
    for f in FILES:
        text = "\n".join(bare(l) for l in f.read_text().splitlines())
        for m in re.finditer(r"^\s*(?:pub(?:\(crate\))? )?fn (\w+)(?:<[^(]*>)?\(", text, re.M):
            i, depth = m.end(), 1
            while depth:
                depth += {"(": 1, ")": -1}.get(text[i], 0)
                i += 1
            names = re.findall(r"(\w+):", text[m.end() : i])
            if len(names) >= 5:
                out.append((f.relative_to(ROOT), text[: m.start()].count("\n") + 1, f"{m.group(1)}({', '.join(names)})"))
    return out


def proofs(pattern, glob):
    return [
        (f.relative_to(ROOT), n, line.strip())
        for f in sorted(ROOT.glob(glob))
        for n, line in enumerate(f.read_text().splitlines(), 1)
        if re.search(pattern, line)
    ]


POINTS = [
    ("1. Own Option and Result, flags, numbers for kinds", [
        ("enums of the shape of Option", shaped_like_option()),
        ("enums that hold a fault and are no fault", shaped_like_result()),
        ("fields that are a flag", hits(r"^\s*(pub(\(crate\))? )?[a-z_]+: bool,")),
        ("fields and results that number a kind", hits(r"\b(choice|phase): u8|-> u8\b|\bState\(u8\)")),
        ("numbers that stand for none", hits(r"//.*\b(or 0|0 where|0 for|0 is missing|of 0|or all where|and 0 )", comments=True)),
    ]),
    ("2. Twins", [
        ("functions of one shape", same_shape(r"^\s*(pub(\(crate\))? )?fn \w+", 34)),
        ("types of one shape", same_outline()),
        ("modules that share ten lines", modules_alike()),
    ]),
    ("3. Loops that count by hand", [
        ("loops over numbers, counts and whiles", hits(r"\bwhile\b|\bfor \w+ in [^{]*\.\.|\+= 1\b|\.enumerate\(\)|remove\(0\)")),
        ("totals added up in a loop", hits(r"^\s*(sum|written) \+= ")),
    ]),
    ("4. Equality, conversion and printing by hand", [
        ("errors printed by hand", hits(r"impl fmt::Display for \w*(Fault|Unreadable)\b")),
        ("From of errors by hand", hits(r"^impl(<[^>]*>)? From<.* for \w*(Fault|Unreadable)\b")),
        ("numbers and words of enums by match", codes_by_match()),
        ("matches that are a method of Option or Result", methods_by_match()),
        ("matches that only say yes or no", tests_by_match()),
        ("an Option by if and else", options_by_if()),
    ]),
    ("5. Facts and parameters that go together", [
        ("clauses that stand three times or more", repeated_clauses()),
        ("functions of five parameters or more", many_parameters()),
    ]),
    ("6. Buffers with a length, parallel arrays", [
        ("arrays in structs", hits(r"^\s*(pub(\(crate\))? )?\w+: \[[A-Z]\w*(?:<.*>)?; .*\],|^\s*pub \w+: \[\w+; .*\],")),
        ("lengths beside what they measure", hits(r"^\s*(pub(\(crate\))? )?(count|written|len|passed|coming): (usize|u32|u64),")),
    ]),
    ("7. Switches on which step to run", [
        ("enums of calls", hits(r"enum (Call|Ask|Request|Line|BothAsked)\b")),
    ]),
    ("8. Proofs", [
        ("answers", proofs(r"^pub ", "crates/*/proofs/**/Answers.antt")),
        ("lemmas in proofs/", proofs(r"^(abbrev )?pub \S+ :", "crates/*/proofs/*.antt")),
        ("lines of proofs/", [(f.relative_to(ROOT), 0, "") for f in sorted(ROOT.glob("crates/*/proofs/**/*.antt")) for _ in f.read_text().splitlines()]),
    ]),
]

for title, parts in POINTS:
    print(f"{title}: {sum(len(found) for _, found in parts) if not title.startswith('8') else ''}".rstrip(": "))
    for name, found in parts:
        print(f"    {name}: {len(found)}")
        if LIST and not title.startswith("8"):
            for f, n, text in found:
                print(f"        {f}:{n}: {text}")
