#!/usr/bin/env python3
"""Respells the repository's own definitions, lemmas, constructors and fields as today's Rattle spells them.

usage: python3 tools/respell.py            at the top of the repository: turns the names of tools/respell.tsv
       python3 tools/respell.py --table    prints such a table from what specs/ and proofs/ declare

A row of the table is an old name, a tab and the new one. What turns: the text of .antt files outside comments, and code
spans of comments; clauses, `ghost use` items and code spans of comments in .rt files; the texts of must-fail edits; code
spans of the pages. Strings, and the code of src/, stay as they are. Run it once: some new names are old names of others.
"""

import os
import re
import sys

NAME = r"[^\s(){}.;,@\"«»\[\]\\:`]+"
TOKEN = re.compile(NAME)
HERE = os.path.dirname(os.path.realpath(__file__))
TABLE = os.path.join(HERE, "respell.tsv")
# Words of the library and of the code that a dash may stand beside in the name of a law.
KNOWN = set("length take drop get_or set append map cond eqb ltb leb not min max pow mul add sub mod div suc zero".split())


def texts(root, ends):
    for folder, dirs, files in os.walk(root):
        dirs[:] = sorted(d for d in dirs if d not in ("out", ".git"))
        for f in sorted(files):
            if f.endswith(ends):
                yield os.path.join(folder, f)


def read(path):
    with open(path, encoding="utf-8", newline="") as f:
        return f.read()


def snake(word):
    """Camel case in snake case. A byte, as the C of 6C, is no word of its own."""
    return re.sub(r"(?<=[a-z])(?=[A-Z])|(?<=[0-9])(?=[A-Z][a-z])", "_", word).lower()


def declared(root):
    """Each name that a file of specs/, or of lemmas, declares, with what it is there: word (a definition of specs/), inner
    (a constructor or a field) or law; and the files."""
    found = {}
    head = re.compile(r"^(?:unfoldable |abbrev )?(?:pub )?(" + NAME + r") :(?: |$)")
    inner = re.compile(r"^\s+(?:pub )?(" + NAME + r") :(?: |$)")
    for p in texts(os.path.join(root, "crates"), ".antt"):
        m = re.search(r"/crates/\w+/(specs|proofs)/\w+\.antt$", p)
        if not m:
            continue
        kind, block = ("word" if m.group(1) == "specs" else "law"), False
        for line in read(p).split("\n"):
            if line and not line[0].isspace():
                block = bool(re.match(r"(pub )?(data|record) ", line))
                m = head.match(line)
                if m:
                    found.setdefault(m.group(1), set()).add((kind, p))
            else:
                m = inner.match(line)
                if m:
                    found.setdefault(m.group(1), set()).add(("inner" if block else "law", p))
    return found


def new_name(old, known):
    parts = [snake(p) for p in old.split("-")]
    out = parts[0]
    for k, p in enumerate(parts[1:], 1):
        rest = "_".join(parts[k:])
        out += ("-" if out in known and (p in known or rest in known) else "_") + p
    return out.replace("get_d-", "get_or-").replace("′", "'")


def table(root):
    names = declared(root)
    kinds = {n: {k for k, _ in at} for n, at in names.items()}
    known = {snake(n) for n in names if "word" in kinds[n] and "-" not in n and not n[0].isupper()} | KNOWN
    rows, taken = {}, {}
    for n in names:
        rows[n] = n if n[0].isupper() else new_name(n, known)
    for n in names:
        taken.setdefault(rows[n], []).append(n)
    for to, olds in taken.items():
        laws = [n for n in olds if kinds[n] == {"law"}]
        if len(laws) == len(olds):
            laws = [n for n in laws if not re.search("[a-z][A-Z]", n)]
        if len(olds) > 1 and len(olds) - len(laws) == 1:
            for n in laws:
                rows[n] = to + "_lem"
    # The same name of a field and of a law, where a word has the law's name: the field has a row of its own, with a point.
    for n, to in list(rows.items()):
        if "inner" in kinds[n] and kinds[n] != {"inner"} and len(taken[to]) > 1:
            rows["." + n] = to
            if "law" in kinds[n]:
                rows[n] = to + "_lem"
    return names, {n: to for n, to in rows.items() if to != n}


def turn(text, rows):
    def one(m):
        n = m.group()
        before, after = text[: m.start()], text[m.end() :]
        if "." + n in rows and (before.endswith((".", "{ ", "; ")) or re.fullmatch(r"\s+(pub )?", before)) and re.match(r" [:=] |[^\s]|$", after if not before.endswith(".") else ""):
            return rows["." + n]
        return rows.get(n, n)

    return TOKEN.sub(one, text)


def spans(text, rows):
    return re.sub(r"`[^`\n]*`", lambda m: turn(m.group(), rows), text)


def antt(text, rows):
    out = []
    for line in text.split("\n"):
        m = re.search(r"(^|\s)--(\s|$)", line)
        code, note = (line[: m.start()], line[m.start() :]) if m else (line, "")
        out.append(turn(code, rows) + spans(note, rows))
    return "\n".join(out)


def rattle(text, rows):
    """Names of camel case are no names of Rust's here, and a name with a dash is none: so the whole of a line turns, but for strings."""
    out = []
    for line in text.split("\n"):
        m = re.search(r"(^|\s)//", line)
        code, note = (line[: m.start()], line[m.start() :]) if m else (line, "")
        code = "".join(p if k % 2 else turn(p, rows) for k, p in enumerate(re.split(r"(b?\"(?:[^\"\\]|\\.)*\")", code)))
        out.append(code + spans(note, rows))
    return "\n".join(out)


def main(argv):
    root = os.path.dirname(HERE)
    if argv == ["--table"]:
        names, rows = table(root)
        for n in sorted(rows):
            print(n + "\t" + rows[n])
        new = {}
        for n in names:
            new.setdefault(rows.get(n, n), []).append(n)
        for n, olds in sorted(new.items()):
            if len(olds) > 1:
                print("falls together: " + n + " <- " + ", ".join(olds), file=sys.stderr)
        return 0
    rows = dict(line.split("\t") for line in read(TABLE).split("\n") if line)
    # A plain word may be a name of Rust's, and only files of antt speak of the law that had it.
    laws = {n: to for n, to in rows.items() if re.search("[a-z0-9][A-Z]|-|^[.]", n)}
    turned = 0
    for ends, how in ((".antt", antt), (".rt", rattle), (".edit", turn), (".md", spans)):
        for p in texts(root, ends):
            old = read(p)
            new = how(old, rows if ends == ".antt" else laws)
            if new != old:
                turned += 1
                with open(p, "w", encoding="utf-8", newline="") as f:
                    f.write(new)
    print(f"respell: {turned} files")
    return 0


if __name__ == "__main__":
    raise SystemExit(main(sys.argv[1:]))
