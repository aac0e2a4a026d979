#!/usr/bin/env python3
"""Gives the definitions and lemmas of this repository the spelling of Rattle's guide on names:
types and facts in upper camel case, everything else in snake case; in a lemma's name a dash joins two names,
and a plain word is added with an underscore.

    tools/respell.py [--list] [FOLDER]     run once, right after the kit's port.py, at the top of the repository

Names of src/, strings, inputs and outputs keep their spelling, and so do names of the library and those that Rattle makes.
"""
import os
import re
import sys

listing = "--list" in sys.argv
top = ([a for a in sys.argv[1:] if not a.startswith("--")] or ["."])[0]
os.chdir(top)

TOKEN = r"[^\s(){}\[\].;,λ«»`\"@]+"
SIGNATURE = re.compile(r"^(?P<indent>\s*)(?P<words>(?:(?:abbrev|unfoldable|pub|record|data)\s+)*)(?P<name>" + TOKEN + r")(?=\s)(?P<rest>.*)$")
BOUND = re.compile(r"[({]((?:[\w'-]+ )+):|\blet ([\w'-]+)|λ ((?:[\w'-]+ ?)+)\.")
# operations that lemmas join to a name by a dash
JOINED = set("chain be32 table_bytes append map filter length take drop insert remove set cons nil min max lookup slice_index get_or between replicate".split())
# names that would otherwise fall together with another name
BY_HAND = {
    "date-of": "date_of_day",
    "file-named": "file_name_of",
    "hex-bytes": "hex_bytes_of",
    "hex-text": "hex_text_of",
    "month-length": "days_of_month",
    "year-length": "days_of_year",
    "work-named": "work_of_name",
    "calendars-agree": "calendars_agree_lem",
}


def files(kinds):
    for folder, dirs, names in os.walk("."):
        dirs[:] = sorted(d for d in dirs if d not in ("out", ".git", "tools"))
        for n in sorted(names):
            if n.endswith(kinds):
                yield os.path.join(folder, n)


def text(path):
    with open(path, encoding="utf-8") as f:
        return f.read()


def typed(rest):
    """What stands behind the colon of a signature, its binders before it; None where there is no colon."""
    depth = 0
    for k, c in enumerate(rest):
        depth += {"(": 1, "{": 1, ")": -1, "}": -1}.get(c, 0)
        if depth == 0 and rest[k : k + 3] == " : " or depth == 0 and rest[k:] == " :":
            return rest[:k] + " " + rest[k + 3 :]
        if depth == 0 and c not in " )}":
            return None
    return None


def signatures(source):
    """The signatures of a file: words before the name, the name, and its type with the lines that go on with it."""
    lines = source.split("\n")
    i = 0
    while i < len(lines):
        m = SIGNATURE.match(lines[i])
        if m is None or lines[i].lstrip().startswith("--") or m["name"] in ("use", "let", "in", "module") or typed(m["rest"]) is None:
            i += 1
            continue
        whole, j = m["rest"], i + 1
        while j < len(lines) and lines[j].strip() and len(lines[j]) - len(lines[j].lstrip()) > len(m["indent"]):
            whole += " " + lines[j].strip()
            j += 1
        yield m["words"].split(), m["name"], typed(whole)
        i += 1


def is_fact(kind):
    return re.search(r"(^|→\s*|\s)Type( 0)?( where\b.*)?$", kind.split(" where ")[0].strip()) is not None


def camel(name):
    return "".join(w[:1].upper() + w[1:] for w in re.split(r"[-_]", name))


def states(kind, facts):
    """Whether a type is a statement, so that its name is a lemma's."""
    last = kind.rsplit("→", 1)[-1]
    return any(s in kind for s in ("≡", "≤", " < ", "∈", "⊥", "⊎")) or any(w in facts for w in re.findall(r"[\w-]+", last))


def snake(name):
    return name.replace("-", "_")


def lemma(name, known):
    """A dash stays where it joins a name of ours to an operation, and becomes an underscore before or after a plain word."""
    words = name.split("-")
    for j in range(1, len(words)):
        left, right = "_".join(words[:j]), "_".join(words[j:])
        if left in known and right in JOINED:
            return left + "-" + right
    return snake(name)


def renamings():
    found, bound = {}, {}
    for p in files(".antt"):
        for words, name, kind in signatures(text(p)):
            if "goal." in kind and re.match(r"\s*goal\.", kind):
                continue
            if re.match(r"(returns|loop|invariant|decreases)-", name):
                continue
            found.setdefault(name, []).append((words, kind, p))
        for m in BOUND.finditer(text(p)):
            for name in (m[1] or m[2] or m[3]).split():
                if "-" in name:
                    bound.setdefault(name, p)
    facts = {n for n, v in found.items() for w, k, _ in v if is_fact(k)}
    known = {snake(n) for n, v in found.items() if n not in facts and any("abbrev" in w or "unfoldable" in w for w, _, _ in v)} | JOINED
    turned = {}
    for name, uses in found.items():
        if name in BY_HAND:
            turned[name] = BY_HAND[name]
        elif any(is_fact(k) for _, k, _ in uses):
            if "-" in name or name[:1].islower():
                turned[name] = camel(name)
        elif "-" in name or "getD" in name:
            name2 = name.replace("getD", "get_or")
            if any("abbrev" in w or "unfoldable" in w for w, _, _ in uses) or not all(states(k, facts) for _, k, _ in uses):
                turned[name] = snake(name2)
            else:
                turned[name] = lemma(name2, known)
    for name in bound:
        turned.setdefault(name, snake(name))
    return {a: b for a, b in turned.items() if a != b}, found


def imported(source):
    """The names that a file takes from outside the repository."""
    own = set(os.listdir("crates"))
    out = set()
    for m in re.finditer(r"^\s*(?:pub\s+)?(?:ghost\s+)?use\s+([\w.'-]+)\.\{([^}]*)\}", source, re.M):
        path = m[1].split(".")
        if not (path[0] == "Rattle" and len(path) > 1 and path[1] in own):
            out |= {re.split(r"\s+as\s+", n.strip())[0] for n in m[2].split(",")}
    return out


def turn(source, turned, skip):
    def one(m):
        w = m[0]
        if re.search(r"(^|[^\w'])(c|l|goal)\.$", source[max(0, m.start() - 6) : m.start()]):
            return w
        return turned[w] if w in turned and w not in skip else w
    return re.sub(r"(?<![\w'-])[A-Za-z][\w'-]*(?![\w'-])", one, source)


def ghosts(source):
    """The spans of a .rt file that are contracts, ghost items and imports."""
    spans = [(m.start(), m.end()) for m in re.finditer(r"ghost use [^;]*;", source)]
    for m in re.finditer(r"\b(?:requires|ensures|ghost)\b\*?(?:\s+\w+)?\s*(?:[:=]\s*)?\{", source):
        depth, j = 0, m.end() - 1
        while True:
            depth += {"{": 1, "}": -1}.get(source[j], 0)
            j += 1
            if depth == 0:
                break
        spans.append((m.start(), j))
    return sorted(spans)


def main():
    turned, found = renamings()
    if listing:
        for a, b in sorted(turned.items()):
            print(a, "->", b, "|", ";".join(sorted({p for _, _, p in found.get(a, [])}))[:120])
    # names that fall together
    tokens = {}
    for p in files((".antt", ".rt")):
        tokens[p] = set(re.findall(r"(?<![\w'-])[A-Za-z][\w'-]*(?![\w'-])", text(p)))
    back = {}
    for a, b in turned.items():
        back.setdefault(b, []).append(a)
    bad = 0
    for b, olds in sorted(back.items()):
        if len(olds) > 1:
            print("fall together:", b, olds, file=sys.stderr)
            bad += 1
        for p, ts in tokens.items():
            if b in ts and any(a in ts for a in olds):
                print("taken:", b, "of", olds, "in", p, file=sys.stderr)
                bad += 1
    if listing:
        print(len(turned), "names,", bad, "conflicts", file=sys.stderr)
        return
    for p in files(".antt"):
        s = text(p)
        t = turn(s, turned, imported(s))
        if t != s:
            open(p, "w", encoding="utf-8").write(t)
    for p in files(".rt"):
        s = text(p)
        out, at, skip = "", 0, imported(s)
        for a, b in ghosts(s):
            if a < at:
                continue
            out += s[at:a] + turn(s[a:b], turned, skip)
            at = b
        out += s[at:]
        if out != s:
            open(p, "w", encoding="utf-8").write(out)
    dashed = {a: b for a, b in turned.items() if "-" in a}
    for p in files((".edit", ".md")):
        s = text(p)
        if p.endswith(".edit"):
            t = turn(s, turned if "file: src/" not in s else dashed, set())
        else:
            t = re.sub(r"`[^`\n]*`", lambda m: turn(m[0], dashed, set()), s)
        if t != s:
            open(p, "w", encoding="utf-8").write(t)


main()
