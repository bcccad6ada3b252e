"""Lists the places of src/ that look like the older language, point by point, for docs/DESIGN-PASS.md.

usage: python3 tools/places.py [COMMIT]     at the top; without a commit, of the files as they stand

It goes by text, so a line is a place to look at. What each place came to stands on that page.
"""

import collections
import difflib
import re
import subprocess
import sys

FUNCTION = re.compile(r"^(\s*)(?:pub(?:\(crate\))? )?fn (\w+)")
KEYWORDS = set("let mut if else match for in while loop return Some None Ok Err self true false as u8 u16 u32 u64 usize".split())


def run(*words):
    return subprocess.run(words, check=True, capture_output=True, text=True).stdout


def sources(commit):
    """The files of src/, by name."""
    if commit:
        names = run("git", "ls-tree", "-r", "--name-only", commit, "crates").split()
        return {n: run("git", "show", f"{commit}:{n}") for n in names if "/src/" in n and n.endswith(".rt")}
    names = run("git", "ls-files", "crates").split()
    return {n: open(n).read() for n in names if "/src/" in n and n.endswith(".rt")}


def functions(text):
    """The functions of a file: name, line, head with clauses, body."""
    lines, out, i = text.split("\n"), [], 0
    while i < len(lines):
        m = FUNCTION.match(lines[i])
        if m:
            indent, opens = m.group(1), i
            while not lines[opens].endswith((" {", "{}", ";")) and lines[opens] != indent + "{":
                opens += 1
            ends = opens
            if lines[opens].endswith("{"):
                while lines[ends] != indent + "}":
                    ends += 1
            out.append((m.group(2), i + 1, "\n".join(lines[i:opens]), "\n".join(lines[opens : ends + 1])))
            i = ends
        i += 1
    return out


def shape(body):
    """The body with names, numbers and strings made alike."""
    names, out = {}, []
    for t in re.findall(r"b?\"[^\"]*\"|'[^']*'|\w+|[^\s\w]", re.sub(r"//.*", "", body)):
        if t[0].isdigit():
            out.append("number")
        elif t[0] in "\"'" or t.startswith('b"'):
            out.append("text")
        elif t.isidentifier() and t not in KEYWORDS:
            out.append(f"name{names.setdefault(t, len(names))}")
        else:
            out.append(t)
    return out


def grep(files, pattern):
    for name, text in files.items():
        for n, line in enumerate(text.split("\n"), 1):
            if re.search(pattern, line) and not re.match(r"\s*//", line):
                yield f"{name}:{n}: {line.strip()}"


def show(point, title, lines):
    lines = list(lines)
    print(f"\n{point} {title}: {len(lines)}")
    for line in lines:
        print("   ", line)


def twins(files):
    found = [(f"{n}:{l} {f}", shape(b)) for n, t in files.items() for f, l, _, b in functions(t)]
    found = [(w, s) for w, s in found if len(s) >= 24]
    for i, (a, s) in enumerate(found):
        for b, t in found[i + 1 :]:
            if 0.75 < len(s) / len(t) < 1.34:
                ratio = difflib.SequenceMatcher(None, s, t, autojunk=False).ratio()
                if ratio >= 0.92:
                    yield f"{ratio:.2f} {a} ~ {b}"


def repeated_clauses(files):
    places = collections.defaultdict(list)
    for n, t in files.items():
        for f, l, head, _ in functions(t):
            for clause in re.findall(r"requires(?: \w+)? \{ (.*) \}", head):
                places[re.sub(r"\.(old|new|now)\b", "", clause)].append(f"{n}:{l} {f}")
    return [f"{c}: {len(p)}: {', '.join(p)}" for c, p in places.items() if len(p) >= 3]


def together(files):
    places = collections.defaultdict(list)
    for n, t in files.items():
        for f, l, head, _ in functions(t):
            names = re.findall(r"(\w+): ", head.split("ensures")[0].split("requires")[0])
            for i, a in enumerate(names):
                for b in names[i + 1 :]:
                    places[tuple(sorted((a, b)))].append(f"{n}:{l} {f}")
    return [f"{' and '.join(p)}: {len(w)}: {', '.join(w)}" for p, w in places.items() if len(w) >= 4]


def main():
    commit = sys.argv[1] if len(sys.argv) > 1 else None
    files = sources(commit)
    show(1, "cases that stand for none", grep(files, r"^\s*(Nothing|None|Missing|Nil|Absent),$"))
    show(1, "numbers for kinds or refusals", grep(files, r"fn \w*(number|code)\w*\(.*-> u8|-> \(u8, usize\)|\(u8, usize\), Fail|number: u8"))
    show(1, "arms that only pass a value on", grep(files, r"^\s*(None|Err\(\w+\)|Ok\(\(\)\)) => (None|false|true|0|Ok\(|Err\(|return)"))
    show(1, "let .. else that only returns none or an error", (
        f"{n}:{t[: m.start()].count(chr(10)) + 1}: {m.group(0).split(' else')[0].strip()}"
        for n, t in files.items()
        for m in re.finditer(r"let (?:Some|Ok)\([^\n]* else \{\n\s*return (?:None|Err\([^;]*\)|false|0);\n", t)))
    show(1, "if let that binds nothing", grep(files, r"if let (Some|Err|Ok)\(_\)|let Some\(_\) ="))
    show(1, "if let on a case that holds nothing", grep(files, r"if let \w+::\w+ ="))
    show(1, "an if that chooses between none and a value, or a case and true", (
        f"{n}:{t[: m.start()].count(chr(10)) + 1}: {m.group(0).split('{')[0].strip()} .."
        for n, t in files.items()
        for m in re.finditer(r"^ *(?:} else )?if [^\n]* \{\n *(?:None|false|true|Some\([^\n]*\))\n *\} else \{\n *(?:None|false|true|Some\([^\n]*\))\n", t, re.M)))
    show(2, "functions of one shape", twins(files))
    show(3, "loops over a counted index, or that count or cut by hand", grep(files, r"for \w+ in 0\.\.\w+\.len\(\)|for i in 0\.\.\d|while \w+ (>=?|<=?|!=) |while let Some\(\(.*cut\(|while \w+\.len\(\) "))
    show(3, "counters", grep(files, r"\b\w+ [+-]= 1;"))
    show(4, "bodies that compare, and matches from each case to a value", grep(files, r"^\s*(a == b|\w+ == self\.\w+\(\))$"))
    show(4, "functions that convert, print or compare by hand", grep(files, r"fn (number|explain|word|spelling|holding|stands_for|read|read_call|mark_of|same\w*|spells|is_spelt|hex_digit|digit_value|heading_of|place|refuse|misplaced|layer|plan_of|empty|unfilled)\("))
    show(4, "numbers converted by `as`", grep(files, r"\bas (u8|u16|u32|u64|usize)\b"))
    show(4, "types that derive no comparison", (
        f"{n}: {m.group(2)}" for n, t in files.items() for m in re.finditer(r"#\[derive\(([^)]*)\)\]\npub(?:\(crate\))? (?:enum|struct) (\w+)", t) if "PartialEq" not in m.group(1)))
    show(5, "what three or more functions require", repeated_clauses(files))
    show(5, "parameters that four or more functions take together", together(files))
    show(6, "arrays in structs", grep(files, r"^\s*(pub(\(crate\))? )?\w+: \[.*; \d+\],"))
    show(7, "tables of functions, and pointers to them", grep(files, r"\bfn\(|dyn |\[fn"))


main()
