#!/usr/bin/env python3
"""Respells the repository's own definitions and lemmas: words in snake case, a dash only between two names.

usage: tools/respell.py [--list]      at the top of the repository; --list only prints what would be renamed

Names are taken from the signatures, fields and constructors in specs/ and proofs/. Names of src/, the names of goals that
Rattle makes, strings, inputs and outputs are left alone. It refuses where two names of one file would fall together.
"""

import os
import re
import sys

SEPARATORS = set(" \n\t(){}[];,.\"⌜⌝`")
HEAD = re.compile(r"^\s*((?:abbrev |unfoldable |pub )*)([^\s(){}\[\];,.\"`:=]+)(?: ([^\s:=]+))* : (.*)")
FIELD = re.compile(r"^\s+(?:pub )?([^\s(){}\[\];,.\"`:=]+) : ")
TYPE = re.compile(r"^(?:pub )?(?:data|record) ([^\s(){}\[\];,.\"`:=]+)")


def antt_files():
    for folder, dirs, files in os.walk("crates"):
        dirs[:] = sorted(d for d in dirs if d not in ("out", "src", "must-fail", "data"))
        for f in sorted(files):
            if f.endswith(".antt"):
                yield os.path.join(folder, f)


def source_files():
    for folder, dirs, files in os.walk("crates"):
        dirs[:] = sorted(d for d in dirs if d not in ("out", "specs", "proofs", "must-fail", "data"))
        for f in sorted(files):
            if f.endswith(".rt"):
                yield os.path.join(folder, f)


def tokens(text):
    """(token, is a name) pairs that join to the text; comments and strings are no names."""
    at, n = 0, len(text)
    while at < n:
        ch = text[at]
        if ch == '"':
            end = at + 1
            while end < n and text[end] != '"':
                end += 2 if text[end] == "\\" else 1
            yield text[at : end + 1], False
            at = end + 1
        elif ch in SEPARATORS:
            yield ch, False
            at += 1
        else:
            end = at
            while end < n and text[end] not in SEPARATORS:
                end += 1
            yield text[at:end], True
            at = end


def snake(part):
    if not part[:1].islower():
        return part
    return re.sub(r"(?<=[a-z0-9])([A-Z])", lambda m: "_" + m.group(1).lower(), part)


def collect():
    lemmas, fields, words = set(), set(), set()
    for path in antt_files():
        with open(path, encoding="utf-8") as f:
            lines = f.read().split("\n")
        inside = False
        for line in lines:
            if TYPE.match(line):
                words.add(TYPE.match(line).group(1))
                inside = True
                continue
            if line and not line[0].isspace():
                inside = False
            head = None if inside else HEAD.match(line)
            if head and not line.strip().startswith(("use ", "open ", "--", "ruleset", "let ", "module ")):
                if head.group(4).startswith("goal."):
                    continue
                lemmas.add(head.group(2))
                continue
            field = FIELD.match(line)
            if inside and field:
                fields.add(field.group(1))
    for path in list(antt_files()) + list(source_files()):
        with open(path, encoding="utf-8") as f:
            for use in re.findall(r"use Rattle\.[\w.]+\.\{([^}]*)\}", f.read()):
                for name in use.split(","):
                    word, _, alias = (w.strip() for w in name.partition(" as "))
                    if alias and snake(alias) != alias:
                        lemmas.add(alias)
                    if re.fullmatch(r"[A-Za-z][A-Za-z0-9_']*", word):
                        words.add(word)
    words |= {n for n in lemmas | fields if "-" not in n}
    words |= {snake(w) for w in words}
    return lemmas, fields, words


def source_names():
    """Functions and fields of src/, which stand in paths of proofs and behind dots."""
    names = set()
    for path in source_files():
        with open(path, encoding="utf-8") as f:
            text = f.read()
        names |= set(re.findall(r"\bfn (\w+)", text)) | set(re.findall(r"^\s+(?:pub )?(\w+): ", text, re.M))
    return names


def new_name(name, field, words):
    parts = [snake(p) for p in name.split("-")]
    out = parts[0]
    for left, right in zip(parts, parts[1:]):
        joined = left in words and right in words and not field
        out += ("-" if joined else "_") + right
    return out


def main():
    lemmas, fields, words = collect()
    # what would fall together with a definition gets another name
    turned = {"all-deferred": "all_deferred_counted"}
    defined = {new_name(n, False, words) for n in lemmas | fields if "-" not in n}
    for name in sorted(lemmas | fields):
        if not re.match(r"[A-Za-z]", name) or name.endswith("-") or "→" in name:
            continue
        new = new_name(name, name in fields, words)
        if name in turned:
            continue
        if new in defined and "-" in name and name not in fields:
            new += "_lem"
        if new != name:
            turned[name] = new
    if "--list" in sys.argv[1:]:
        for a, b in turned.items():
            print(a, b)
        return
    bad = 0
    texts = {}
    source = source_names()
    # lemmas that an earlier script spelled like a definition is spelled now
    local = {"crates/rules/proofs/Proper.antt": {"to_write": "to_write_lem", "to_free": "to_free_lem"}}
    for path in list(antt_files()) + list(source_files()):
        with open(path, encoding="utf-8") as f:
            text = f.read()
        seen = {}
        out = []
        for token, is_name in tokens(text):
            new = local.get(path, {}).get(token) or turned.get(token, token) if is_name else token
            if is_name and path.endswith(".antt"):
                if seen.setdefault(new, token) != token and not {seen[new], token} & source:
                    print(f"{path}: {seen[new]} and {token} fall together as {new}")
                    bad += 1
            out.append(new)
        texts[path] = (text, "".join(out))
    if bad:
        raise SystemExit(1)
    for path, (old, new) in texts.items():
        if new != old:
            with open(path, "w", encoding="utf-8") as f:
                f.write(new)
    print(f"{len(turned)} names respelled")


main()
