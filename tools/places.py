"""Lists the places in crates/*/src that docs/DESIGN-PASS.md counts, for one of its points:

    python3 tools/places.py POINT [TOP]

POINT is 1 to 8, TOP the repository to read (this one if it is left out). Crates that only hold tests are left out.
The last line has the number of hits.
"""
import collections
import difflib
import glob
import itertools
import os
import re
import sys

TESTS = ("borders", "store_trials", "sheet_borders")

PATTERNS = {
    1: r"^\s+(pub )?[a-z_]+: bool,|&mut .*-> bool|^\s+(pub )?(number|tag|code|kind): u8|fn (code|byte|of_byte)\("
       r"|\b(first|tag) [!=]= [0-9]|\btag: [0-9]|^\s+(Nothing|None|Unknown),$|^pub fn \w+(<\w+>)?\(.*\) -> u8$",
    3: r"\bwhile\b|\bloop\b|\.enumerate\(\)|\bfor \w+ in [^{]*\.\.|^\s*\w+ [+-]= ",
    4: r"fn (is_same|is_below|lies_below|same_text|has|words|refusal|say|in_words|byte|of_byte|narrow|read|read_date"
       r"|date_of|day_of|place_in|work_named|name_of|empty)\b|\(self\.\w+, self\.\w+\) =="
       r"|\bas (u8|u16|u32|u64)\b",
    6: r"&'a mut \[|^\s+len: usize|^\s+lens: |\blen: usize|\bat: usize|fn rank_of|^\s+(pub )?\w+: \[\w+; \d+\]",
    7: r"\bdyn\b|: fn\(|impl Fn|\} else if ",
}


def sources(top):
    for path in sorted(glob.glob(os.path.join(top, "crates/*/src/**/*.rt"), recursive=True)):
        name = os.path.relpath(path, top)
        if name.split("/")[1] not in TESTS:
            with open(path) as file:
                yield name, file.read().split("\n")


def matching(top, pattern):
    for name, lines in sources(top):
        for i, line in enumerate(lines, 1):
            if re.search(pattern, line) and not line.strip().startswith("//"):
                yield f"{name}:{i}: {line.strip()}"


def functions(top):
    """Each function: where it is, and its text without clauses and comments."""
    for name, lines in sources(top):
        for i, line in enumerate(lines):
            head = re.match(r"^(\s*)(?:pub )?(?:final )?fn (\w+)", line)
            if not head:
                continue
            end = next((j for j in range(i, len(lines)) if lines[j] in (head.group(1) + "}", head.group(1) + "{}")), i)
            text = [x.strip() for x in lines[i:end + 1]]
            text = [x for x in text if x and not x.startswith(("//", "ensures", "requires"))]
            yield f"{name}:{i + 1} {head.group(2)}", re.findall(r"\w+|[^\w\s]", " ".join(text))


def twins(top):
    long = [(where, words) for where, words in functions(top) if 18 <= len(words) <= 400]
    for (a, x), (b, y) in itertools.combinations(long, 2):
        ratio = difflib.SequenceMatcher(None, x, y, autojunk=False).ratio()
        if ratio >= 0.8:
            yield f"{ratio:.2f} {a} ~ {b}"


def travelling(top):
    facts, pairs = collections.defaultdict(list), collections.defaultdict(list)
    for name, lines in sources(top):
        for i, line in enumerate(lines, 1):
            clause = re.match(r"^\s*(requires|ensures)\s*\w*\s*\{(.*)\}$", line)
            if clause:
                facts[clause.group(2).strip()].append(f"{name}:{i}")
        for f in re.finditer(r"fn (\w+)(?:<[^>]*>)?\(([^)]*)\)", "\n".join(lines)):
            given = sorted({p.strip() for p in f.group(2).split(",") if ":" in p and "heap" not in p})
            for pair in itertools.combinations(given, 2):
                pairs[pair].append(f"{name} {f.group(1)}")
    for fact, where in sorted(facts.items(), key=lambda x: -len(x[1])):
        if len(where) >= 3:
            yield f"{len(where)} contracts say {fact}"
    for pair, where in sorted(pairs.items(), key=lambda x: -len(x[1])):
        if len(where) >= 4:
            yield f"{len(where)} functions take {' and '.join(pair)}: {', '.join(where)}"


def answers(top):
    for path in sorted(glob.glob(os.path.join(top, "crates/*/proofs/**/Answers.antt"), recursive=True)):
        with open(path) as file:
            yield f"{os.path.relpath(path, top)}: {len(file.readlines())} lines"


def main():
    point = int(sys.argv[1])
    top = sys.argv[2] if len(sys.argv) > 2 else os.path.join(os.path.dirname(os.path.abspath(__file__)), "..")
    if point in PATTERNS:
        hits = list(matching(top, PATTERNS[point]))
    else:
        hits = list({2: twins, 5: travelling, 8: answers}[point](top))
    for hit in hits:
        print(hit)
    print(len(hits), "hits")


main()
