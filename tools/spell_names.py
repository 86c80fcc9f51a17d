#!/usr/bin/env python3
"""Spells the repository's own words as Rattle's library spells its: snake case for definitions, lemmas, fields and
variables, camel case for types. Run once, at the top, after the kit's own script for older repositories:

    python3 tools/spell_names.py

Names that Rattle makes of the code (the goals and steps that a function's answers cite), names of the library, and the code
itself keep their spelling. A test of the form `sound?` becomes `is_sound`. The crate `slab` becomes `van_slab`, since the
kit has a library of that name. Words that fall together in a file are printed.
"""
import collections
import os
import re
import subprocess
import sys

OWN = "roads stowage text orders slab growth fleet outcomes dispatcher console dispatch_console program day worked trial".split()
WORD = re.compile(r"(?<![\w'?\-])[A-Za-z_][\w'₀-₉]*(?:-[\w'₀-₉]+)*\??")
OWN_MODULE = re.compile(r"Rattle\.(%s)\.(specs|proofs)\b" % "|".join(OWN))


def spelled(word):
    """A word in today's spelling."""
    test = word.endswith("?")
    parts = word.rstrip("?").split("-")
    if word[0].isupper():
        return parts[0] + "".join(p[:1].upper() + p[1:] for p in parts[1:])
    name = "_".join(parts)
    return "is_" + name if test else name


def old(word):
    """Whether a word has the older spelling."""
    return bool(re.search(r"[A-Za-z'₀-₉?]-[\w]|\w-\w", word)) or (word.endswith("?") and len(word) > 1)


def code(line, mark):
    """A line's code and its comment."""
    m = re.search(r"(^|\s)%s.*$" % mark, line)
    return (line[: m.start()], line[m.start():]) if m else (line, "")


def uses(text):
    """For each word that a file imports, whether from the repository's own lemmas and definitions; and its aliases."""
    words, aliases = {}, {}
    for m in re.finditer(r"use ([\w.'+-]+?)(?:\.\{([^}]*)\}| as ([\w-]+)|;?$)", text, re.M):
        module, names, alias = m.groups()
        mine = bool(OWN_MODULE.match(module)) and not re.search(r"\.(Goals|Given)\b", module)
        if names is None:
            aliases[alias or module.split(".")[-1]] = mine
            continue
        for name in re.split(r",\s*", names):
            for part in name.split(" as "):
                words[part.strip()] = mine
    return words, aliases


def lemma_file(path):
    parts = path.split("/")
    return len(parts) == 4 and parts[2] in ("specs", "proofs")


def declared(paths):
    """The fields of the repository's records, and the names of its clauses."""
    fields = set()
    for path, text in paths.items():
        if path.endswith(".antt"):
            fields |= {w for w in re.findall(r"^\s+pub ([\w'?₀-₉-]+)(?: :| \()", text, re.M) if old(w)}
    return fields


def respell(path, text, fields):
    words, aliases = uses(text)
    rust = path.endswith(".rt")
    lemma = lemma_file(path)
    seen = collections.defaultdict(set)
    out = []
    for line in text.split("\n"):
        body, comment = code(line, "//" if rust else "--")
        module = re.match(r"\s*(?:ghost )?(?:pub )?use (\S+?)(?:\.\{|;| as|$)", body)
        mine = module and OWN_MODULE.match(module.group(1)) and not re.search(r"\.(Goals|Given)\b", module.group(1))
        strings = re.findall(r'"(?:[^"\\]|\\.)*"', body)

        def turn(m):
            word, at = m.group(0), m.start()
            before = body[:at]
            if any(word in s for s in strings):
                return word
            if not old(word):
                seen[word].add(word)
                return word
            if module:
                return word if not mine else note(word)
            chain = re.search(r"([\w'-]+)\.$", before)
            if before.endswith("."):
                if chain and chain.group(1) in aliases:
                    return note(word) if aliases[chain.group(1)] else word
                if chain and chain.group(1) == "goal":
                    return word
                return note(word) if word in fields else word
            if words.get(word) is False:
                return word
            if rust or lemma or words.get(word):
                return note(word)
            # an answer: a goal's name stands at the margin
            if re.match(r"(abbrev )?(pub )?$", before.lstrip()) and not line.startswith(" "):
                return word
            return note(word) if word in LOCAL.get(path, ()) else word

        def note(word):
            new = spelled(word)
            seen[new].add(word)
            return new

        body = WORD.sub(turn, body)
        out.append(body + comment)
    for new, olds in seen.items():
        if len(olds) > 1:
            print(f"{path}: {', '.join(sorted(olds))} fall together as {new}")
    return "\n".join(out)


LOCAL = {}


def locals_of(text):
    """The variables and helpers that an answer file names itself."""
    names = set(re.findall(r"(?:let|in) ([\w'?₀-₉-]+)(?: :| =)", text))
    names |= set(re.findall(r"^\s+([\w'?₀-₉-]+) : ", text, re.M))
    names |= set(re.findall(r"λ \(?([\w'₀-₉-]+)", text))
    names |= set(re.findall(r"^(?!pub|abbrev pub)([\w'?₀-₉-]+) : (?!goal)", text, re.M))
    names |= {w for group in re.findall(r"[({]([\w'₀-₉ -]+) :", text) for w in group.split()}
    return {n for n in names if old(n)}


def main():
    files = {}
    for root, _, names in os.walk("crates"):
        for name in names:
            path = os.path.join(root, name)
            if name.endswith((".antt", ".rt")):
                files[path] = open(path, encoding="utf-8").read()
    fields = declared(files)
    for path, text in files.items():
        if path.endswith(".antt") and not lemma_file(path):
            LOCAL[path] = locals_of(text)
    for path, text in sorted(files.items()):
        new = respell(path, text, fields)
        new = re.sub(r"\bRattle\.slab\.", "Rattle.van_slab.", new)
        if path.endswith(".rt"):
            new = re.sub(r"\b(use|pub use) slab::", r"\1 van_slab::", new)
            new = re.sub(r"(?<![\w:])slab::(?=[a-zA-Z])", "van_slab::", new)
        if new != text:
            open(path, "w", encoding="utf-8").write(new)
    text = open("crates.txt", encoding="utf-8").read()
    new = re.sub(r"\bslab\b", "van_slab", text)
    if new != text:
        open("crates.txt", "w", encoding="utf-8").write(new)
        subprocess.run(["git", "mv", "crates/slab", "crates/van_slab"], check=True)


if __name__ == "__main__":
    sys.exit(main())
