#!/usr/bin/env python3
"""Respells the repository's own definitions and lemmas: snake case, and camel case for facts and types (their names begin
with a capital letter). Only names declared in specs/*.antt and proofs/*.antt are touched, and in them the part that stands
between hyphens; names that the toolchain makes for a function's goals (loop-i-preserved, in-Some) keep their hyphens.
Names brought in under another name (`as`), lemmas that stand in a function's answers, and names between back quotes in
comments and pages are respelled too. Run once, at the top of the repository, after port.py. It prints names that fall
together, and then writes nothing."""
import glob
import re
import sys

TOKEN = r"[^\s:(){}\[\],;.λ«»|=→×\"`]+"
DECLARED = re.compile(r"\s*(?:(?:abbrev|unfoldable|pub|data|record|syntax|opaque)\s+)*(" + TOKEN + r")\s*(?:\{[^}]*\}\s*|\((?:[^()]|\([^()]*\))*\)\s*)*:\s")
WORD = re.compile(r"(?<![^\s:(){}\[\],;.λ«»|=→×\"`◌])(" + TOKEN + r")(?![^\s:(){}\[\],;.λ«»|=→×\"`])")


def specs_and_lemmas():
    return sorted(glob.glob("crates/*/specs/*.antt") + glob.glob("crates/*/proofs/*.antt"))


def all_antt():
    return sorted(glob.glob("crates/**/*.antt", recursive=True))


def code_and_comment(line, mark):
    at = line.find(mark)
    return (line, "") if at < 0 else (line[:at], line[at:])


def new_name(name):
    if name[0].isupper():
        return "".join(part[:1].upper() + part[1:] for part in name.split("-"))
    return name.replace("-", "_")


declared, fields = set(), set()
for path in specs_and_lemmas():
    for line in open(path):
        found = DECLARED.match(code_and_comment(line, "--")[0])
        if found:
            declared.add(found.group(1))
            if line[0] == " ":
                fields.add(found.group(1))
# Names of the library that the plain respelling would fall together with.
OTHERWISE = {"bit-or": "in_bit_or", "bit-and": "in_bit_and"}
# Bound variables with hyphens.
BOUND = set("user-rows registered-rows row-byte by-grammar by-judge near-end same-draft whole-end in-text is-i".split())
names = {name: OTHERWISE.get(name) or new_name(name) for name in declared | BOUND if "-" in name.strip("-") and re.search("[A-Za-z]", name)}

together = {}
for old, new in names.items():
    together.setdefault(new, []).append(old)
clash = [(new, olds) for new, olds in sorted(together.items()) if len(olds) > 1 or new in declared]
if clash:
    for new, olds in clash:
        print("falls together:", new, "from", " ".join(olds), "(declared already)" if new in declared else "")
    sys.exit(1)


IMPORTED = re.compile(r"^use (Rattle\.[A-Za-z_.]+)\.\{([^}]*)\}", re.M)
brought = set()
for path in all_antt():
    text = open(path).read()
    imported = {
        name.strip().split(" as ")[-1] for it in IMPORTED.finditer(text) if ".std." in it[1] for name in it[2].split(",")
    }
    used = {names[name] for name in names if re.search(r"(?<![\w-])" + re.escape(name) + r"(?![\w-])", text)}
    for name in sorted(imported & used):
        print("brought in already:", name, "in", path)
        brought.add(name)
if brought:
    sys.exit(1)


ALIAS = re.compile(r"\bas ([A-Za-z]+(?:-[A-Za-z0-9]+)+)")
LOCAL = re.compile(r"^\s*(?:(?:abbrev|unfoldable|pub)\s+)*([A-Za-z]+(?:-[A-Za-z0-9]+)+)\s*:\s(?!goal\.)", re.M)
own = {}  # of the file at hand: what it brings in under another name, and lemmas that stand in a function's answers


def own_names(path, text):
    found = set(ALIAS.findall("\n".join(re.findall(r"^(?:ghost )?use [^\n]*", text, re.M))))
    if path.endswith(".antt") and path not in specs_and_lemmas():
        found |= set(LOCAL.findall(re.sub(r"--.*", "", text)))
    return {name: new_name(name) for name in found}


def respelled(text):
    """A name behind a dot is one of ours where it is a field, or where a module stands before the dot: c.plan-of is a call's."""

    def one(it):
        before = text[: it.start()]
        if before.endswith("."):
            owner = re.search(r"([^\s.(){}\[\]]*)\.$", before)
            if not (it[1] in fields or owner and owner[1][:1].isupper()):
                return it[1]
        return own.get(it[1]) or names.get(it[1], it[1])

    return WORD.sub(one, text)


QUOTED = re.compile(r"`([^`\s]+)`")


def quoted(comment):
    """Names that a comment or a page puts between back quotes."""
    return QUOTED.sub(lambda it: "`" + (own.get(it[1]) or names.get(it[1], it[1])) + "`", comment)


count = 0
for path in sorted(glob.glob("*.md") + glob.glob("docs/*.md")):
    text = open(path).read()
    if quoted(text) != text:
        open(path, "w").write(quoted(text))
        count += 1
for path in all_antt():
    old = open(path).read()
    own = own_names(path, old)
    new = "".join(
        respelled(code) + quoted(comment)
        for code, comment in (code_and_comment(line, "--") for line in old.splitlines(keepends=True))
    )
    if new != old:
        open(path, "w").write(new)
        count += 1

# In source files only what stands in clauses: lines of ghost use, ensures, requires, ghost members and laws.
GHOST = re.compile(r"^\s*(ghost |ensures|requires)")
for path in sorted(glob.glob("crates/*/src/**/*.rt", recursive=True)):
    out, depth, inside = [], 0, False
    own = own_names(path, open(path).read())
    for line in open(path):
        code, comment = code_and_comment(line, "//")
        if inside or GHOST.match(code):
            if not inside:
                inside, depth = True, 0
            depth += code.count("{") - code.count("}")
            code = respelled(code)
            if depth <= 0:
                inside = False
        out.append(code + quoted(comment))
    new = "".join(out)
    if new != open(path).read():
        open(path, "w").write(new)
        count += 1
print("respelled", len(names), "names in", count, "files")
