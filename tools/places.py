#!/usr/bin/env python3
"""Lists the places in crates/*/src that docs/DESIGN-PASS.md counts, for each of its points.

usage: python3 tools/places.py [COMMIT] [--list]     at the top of the repository

Reads the sources as they stand, or those of a commit. Prints a count for each point and kind of place; with --list the places
too, as crate/file:line and the line. What it finds are candidates: the page says of each kind which of them stay and why.
"""
import collections
import re
import subprocess
import sys

FN = re.compile(r"^\s*(?:pub(?:\(crate\))? )?(?:const )?(?:extern \"C\" )?fn (\w+)", re.M)


def sources(commit):
    if commit:
        names = subprocess.run(["git", "ls-tree", "-r", "--name-only", commit, "crates"], capture_output=True, text=True, check=True).stdout.split()
    else:
        names = subprocess.run(["git", "ls-files", "crates"], capture_output=True, text=True, check=True).stdout.split()
    for name in sorted(names):
        if not re.match(r"crates/\w+/src/.*\.rt$", name):
            continue
        if commit:
            text = subprocess.run(["git", "show", f"{commit}:{name}"], capture_output=True, text=True, check=True).stdout
        else:
            try:
                text = open(name, encoding="utf-8").read()
            except FileNotFoundError:
                continue
        yield name[len("crates/"):].replace("/src/", "/"), text


def lines_with(texts, pattern, code_only=True):
    found = []
    for name, text in texts:
        for number, line in enumerate(text.splitlines(), 1):
            stripped = line.strip()
            if code_only and (stripped.startswith("//") or stripped.startswith("ghost use") or re.match(r"(requires|ensures)\b", stripped)):
                continue
            if re.search(pattern, line):
                found.append((name, number, stripped))
    return found


def matches(texts, pattern):
    found = []
    for name, text in texts:
        for m in re.finditer(pattern, text, re.M):
            found.append((name, text.count("\n", 0, m.start()) + 1, " ".join(m.group(0).split())[:150]))
    return found


def functions(texts):
    """Each function with its parameters and clauses."""
    for name, text in texts:
        for m in FN.finditer(text):
            end = text.find("\n{", m.end())
            inner = re.search(r"\n\s*\{", text[m.end():])
            stop = m.end() + inner.start() if inner else end
            yield name, text.count("\n", 0, m.start()) + 1, m.group(1), text[m.end():stop]


def repeated_clauses(texts):
    """Clauses that stand word for word in three or more functions, old, new, now and entry told apart no more than the argument."""
    seen = collections.defaultdict(list)
    for name, number, fn, head in functions(texts):
        for clause in re.findall(r"^\s*(?:requires|ensures)[^\n]*(?:\n\s+(?:→|×)[^\n]*)*", head, re.M):
            body = re.sub(r"\.(old|new|now|entry)\b", "", " ".join(clause.split()))
            if body.startswith("requires") or "limit_in" in body[:60] or "count_in" in body[:60]:
                seen[body].append((name, number, fn))
    return {c: fns for c, fns in seen.items() if len(fns) >= 3}


def repeated_parameters(texts):
    """Three parameters that stand together in three or more functions."""
    seen = collections.defaultdict(list)
    for name, number, fn, head in functions(texts):
        if not head.startswith(("(", "<")):
            continue
        inside = head[head.find("(") + 1:]
        depth, out = 1, ""
        for ch in inside:
            depth += (ch in "([{") - (ch in ")]}")
            if depth == 0:
                break
            out += ch
        params = [p.strip() for p in re.findall(r"(?:^|,)\s*(?:mut )?(\w+):", out)]
        from itertools import combinations
        for three in combinations(sorted(set(params)), 3):
            seen[three].append((name, number, fn))
    return {t: fns for t, fns in seen.items() if len(fns) >= 3}


def constants(texts):
    """Constants of one name in several crates, texts aside."""
    seen = collections.defaultdict(list)
    for name, text in texts:
        for m in re.finditer(r"^(?:pub )?const (\w+): (?!&str)[^=]*= ([^;]*);", text, re.M):
            seen[m.group(1)].append((name, text.count("\n", 0, m.start()) + 1, m.group(0)))
    return [p for ps in seen.values() if len({n.split("/")[0] for n, _, _ in ps}) > 1 for p in ps]


TOKEN = re.compile(r"[A-Za-z_]\w*|\d\w*|\"[^\"]*\"|'.'|\S")
KEPT = {"fn", "let", "mut", "if", "else", "match", "for", "in", "while", "return", "self", "Some", "None", "Ok", "Err", "as", "break", "continue", "loop"}


def shape(body):
    """A body with its names numbered as they come, and its numbers and texts alike."""
    names = {}
    out = []
    for token in TOKEN.findall(re.sub(r"//[^\n]*", "", body)):
        if token in KEPT:
            out.append(token)
        elif re.match(r"[A-Za-z_]", token):
            out.append("n" + str(names.setdefault(token, len(names))))
        elif re.match(r"[\d\"']", token):
            out.append("0")
        else:
            out.append(token)
    return tuple(out)


def bodies(texts):
    """Each function with its body."""
    for name, text in texts:
        for m in FN.finditer(text):
            inner = re.compile(r"\{[ \t]*\n|\{\}").search(text, m.end())
            while inner and re.search(r"(requires|ensures)[^\n]*$", text[:inner.start()].rsplit("\n", 1)[-1]):
                inner = re.compile(r"\{[ \t]*\n|\{\}").search(text, inner.end())
            if not inner:
                continue
            depth, i = 0, inner.start()
            while i < len(text):
                depth += (text[i] == "{") - (text[i] == "}")
                i += 1
                if depth == 0:
                    break
            yield name, text.count("\n", 0, m.start()) + 1, m.group(1), text[inner.start():i]


def twins(texts):
    """Functions whose bodies have one shape, of 20 tokens or more."""
    seen = collections.defaultdict(list)
    for name, number, fn, body in bodies(texts):
        form = shape(body)
        if len(form) >= 20:
            seen[form].append((name, number, fn))
    return [p for ps in seen.values() if len(ps) > 1 for p in ps + [("", "", "--")]]


def main():
    arguments = [a for a in sys.argv[1:] if a != "--list"]
    texts = list(sources(arguments[0] if arguments else None))
    kinds = [
        ("1a", "enums, of which those that are an Option or a Result are told by reading", matches(texts, r"^\s*(?:pub )?enum \w+[^{]*\{[^}]*\}")),
        ("1b", "a bool, a number or another Result or Option inside a Result or Option", lines_with(texts, r"Result<(bool|Result<|Option<)|Option<Option<|Option<bool>|Result<[^<>]*(<[^<>]*>)?[^<>]*, u(8|32|64|size)>")),
        ("1c", "a number that stands for none", lines_with(texts, r"//.*(\b0 where|\b99 for|[^h] 0 or one more|too many, |stands for more)", False)),
        ("1d", "numbers for kinds", lines_with(texts, r"match (kind|row\[0\]|bytes\[0\])|-> u8$|side: u32|nearest: u32|inherits: u32")),
        ("2a", "constants of one name in several crates", constants(texts)),
        ("2b", "functions whose bodies have one shape", twins(texts)),
        ("3a", "for over a range of numbers", lines_with(texts, r"\bfor \w+ in [^{]*\.\.")),
        ("3b", "while and loop", lines_with(texts, r"^\s*(while|loop)\b")),
        ("4a", "if or match by hand for a number of a bool, or for a default", matches(texts, r"\{\s*if [^{};]* \{ (?:1|0|Some\([^{}]*\)) \} else \{ (?:1|0|None) \}|match [^{};]*\{\s*(?:Some|Ok)\((\w+)\) => \1,\s*(?:None|Err\(_\)) => [^,{}]*,\s*\}|match [^{};]*\{\s*(?:Some|Ok)\((\w+)\) => (?:Some|Ok)\(\2\),\s*(?:None|Err\(\w+\)) => [^{}]*,\s*\}")),
        ("4b", "let .. else that hands None or an error on", matches(texts, r"let (?:Some|Ok)\([^;{}]*else \{\s*return (?:None|Err\([^;{}]*\)|Ok\(Err\([^;{}]*\)\)|Ok\(None\)|Ok\(false\));\s*\}")),
        ("4c", "texts chosen by hand", lines_with(texts, r"-> &'static str")),
    ]
    for label, what, places in kinds:
        print(f"{label}  {len([p for p in places if p[0]]):4}  {what}")
        if "--list" in sys.argv:
            for name, number, line in places:
                print(f"        {name}:{number}: {line}")
    clauses = repeated_clauses(texts)
    print(f"5a  {len(clauses):4}  facts asked for, or said of the header, in three or more functions")
    if "--list" in sys.argv:
        for clause, fns in sorted(clauses.items(), key=lambda c: -len(c[1])):
            print(f"        {len(fns)} functions: {clause[:140]}")
    params = repeated_parameters(texts)
    print(f"5b  {len(params):4}  three parameters together in three or more functions")
    if "--list" in sys.argv:
        for three, fns in sorted(params.items(), key=lambda c: -len(c[1])):
            print(f"        {len(fns)} functions: {', '.join(three)}: {', '.join(sorted({n.split('/')[0] + '::' + f for n, _, f in fns}))[:160]}")


main()
