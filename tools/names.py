#!/usr/bin/env python3
"""Brings the repository's own names to today's spelling: definitions, lemmas, fields and constructors in snake case, modules in
camel case. It runs once, at the top, after the kit's port.py.

Turned are words that begin in lower case: every word in camel case (fieldsText: fields_text), and every name declared in specs/
or proofs/ with a dash in it (has-least: has_least). A name that is there already takes the ending _lem. Types keep their
spelling, and so do names of Rattle source, of std and of what the check generates, texts in quotes, and goals (tie.Need-..).
The folder specs/computed becomes specs/Computed. Must-fail edits and pages are turned by the same table.
"""
import collections
import os
import re
import subprocess
import sys

# names of lemmas that a definition's new name meets in their file
APART = {("crates/table/proofs/Lawful.antt", "row_fits"): "row_fits_lem"}
WORD = re.compile(r"[^\s()\[\]{}.,;\"⌜⌝`:]+")
DECLARED = re.compile(
    r"^\s*(?:(?:unfoldable|abbrev|pub)\s+)*(?:(?:data|record|ruleset)\s+)?"
    r"((?:[^\s()\[\]{}.,;:]+)(?:\s*,\s*[^\s()\[\]{}.,;:]+)*)\s*(?:\([^)]*\)\s*|\{[^}]*\}\s*)*:(?:\s(.*))?$"
)
TEXT = re.compile(r'"(?:[^"\\]|\\.)*"')


def listed(*endings):
    out = subprocess.run(["git", "ls-files", "-z", "crates"], capture_output=True, text=True, check=True).stdout
    return [f for f in out.split("\0") if f.endswith(endings)]


def read(path):
    with open(path, encoding="utf-8") as f:
        return f.read()


def snake(name):
    return re.sub(r"(?<=[a-z0-9])([A-Z])", lambda m: "_" + m.group(1).lower(), name).replace("-", "_")


def parts(line):
    """The code of a line and its comment."""
    bare = TEXT.sub(lambda m: "\"" + "x" * (len(m.group()) - 2) + "\"", line)
    m = re.search(r"(^|\s)--(\s|$|-)", bare)
    return (line[: m.start()], line[m.start():]) if m else (line, "")


def table():
    words, dashed, goals = set(), set(), set()
    for path in listed(".antt"):
        for line in read(path).split("\n"):
            code = parts(line)[0]
            words.update(WORD.findall(TEXT.sub('""', code)))
            m = DECLARED.match(code)
            if m:
                names = [n.strip() for n in m.group(1).split(",")]
                if re.search(r"\btie\.(Need|invariant|decreases)", m.group(2) or ""):
                    goals.update(names)
                else:
                    dashed.update(n for n in names if "-" in n)
    turned = {}
    for name in sorted(words):
        if re.match(r"^[a-z][A-Za-z0-9_']*$", name) and re.search(r"[a-z0-9][A-Z]", name) and "_Is" not in name:
            turned[name] = snake(name)
    taken = set(turned.values()) | words
    for name in sorted(dashed - goals):
        if re.match(r"^[a-z][A-Za-z0-9_'-]*$", name):
            to = snake(name)
            turned[name] = to + "_lem" if to in taken and to + "_lem" not in taken else to
    return turned


def turn(text, turned):
    def one(m):
        word = m.group()
        to = turned.get(word, word)
        # the step of a call of a Rust function: c.mark-at
        if to.endswith("_lem") and re.search(r"(^|[^\w'-])[a-z][\w'.-]*\.$", text[: m.start()]):
            to = to[:-4]
        return to

    return WORD.sub(one, text)


def main():
    turned = table()
    camel = {k: v for k, v in turned.items() if "-" not in k}
    for path in listed(".antt", ".rt", ".edit"):
        table_here = camel if path.endswith(".rt") else dict(turned)
        for (at, old), new in APART.items():
            if at == path:
                table_here[old] = new
        out = []
        for line in read(path).split("\n"):
            if path.endswith(".edit") and line.startswith("file: "):
                out.append(line.replace("specs/computed", "specs/Computed"))
                continue
            code, comment = parts(line) if path.endswith(".antt") else (line, "")
            pieces = TEXT.split(code)
            texts = TEXT.findall(code) + [""]
            code = "".join(turn(p, table_here) + t for p, t in zip(pieces, texts))
            line = code + turn(comment, table_here)
            if path.endswith((".antt", ".rt")):
                line = re.sub(r"(specs\.)computed\b", r"\1Computed", line)
                line = re.sub(r"^(pub mod|mod) computed$", r"\1 Computed", line)
            out.append(line)
        with open(path, "w", encoding="utf-8") as f:
            f.write("\n".join(out))
    for path in listed(".antt"):
        new = path.replace("/specs/computed", "/specs/Computed")
        if new != path:
            os.makedirs(os.path.dirname(new), exist_ok=True)
            subprocess.run(["git", "mv", path, new], check=True)
    pages = ["README.md", "CONTRIBUTING.md"] + [os.path.join(d, f) for d, _, fs in os.walk("docs") for f in fs if f.endswith(".md")]
    for path in pages:
        if os.path.basename(path) in ("PORT.md",):
            continue
        text = read(path)
        text = re.sub(r"`[^`\n]+`", lambda m: turn(m.group(), turned), text)
        text = text.replace("specs/computed", "specs/Computed")
        with open(path, "w", encoding="utf-8") as f:
            f.write(text)
    if "-v" in sys.argv:
        for k, v in sorted(turned.items()):
            print(k, v)


if __name__ == "__main__":
    main()
