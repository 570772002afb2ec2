#!/usr/bin/env python3
"""respell [--dry]: brings the repository's own definitions and lemmas to the spelling of today's Rattle. Run once, at the top, right
after the kit's port.py.

A definition, constructor, field or lemma is in snake_case; a type, a fact (what is of a `Type`) and a module in CamelCase. A dash stays
only between two names that are declared themselves, as in `length-drop`; elsewhere it becomes an underscore. Functions of src/, exported
names, strings and the names that Rattle makes stay. A lemma or a field that would get a definition's name gets the one that OWN gives.

--dry prints the names and writes nothing; names that fall together are told in either case: look at those IN ONE FILE.
It goes by text, so read the diff of specs/ and src/.
"""
import collections
import glob
import os
import re
import sys

# Names that would fall together with a definition's get one of their own: lemmas, local cases and fields.
OWN = {
    "batch-number": "number_of_batch",
    "by-cd": "cd_case",
    "by-scan": "scan_case",
    "by-stage1": "stage1_case",
    "by-stage2": "stage2_case",
    "by-ste": "ste_case",
    "by-verdict": "verdict_case",
    "by_index": "index_case",
    "by_row": "row_case",
    "by_rows": "rows_case",
    "event-write-ends": "event_write_end_told",
    "fill-ends": "fill_end_told",
    "goes_on": "continues",
    "in-second": "second_case",
    "in_scope": "within_scope",
    "is-absent": "absent_told",
    "is-empty": "ends_empty",
    "is-long": "of_long",
    "is-set": "bit_set",
    "is_found": "found_lowest",
    "mem-attr-formed": "mem_attr_is_formed",
    "of-kind": "kind_is",
    "of-stage": "stage_kind",
    "of-vmid": "vmid_is",
    "overflow-by": "overflow_as",
    "queue-by": "queue_as",
    "rowsAre": "rows_counted",
    "run_ends": "run_end_told",
    "sh-formed": "sh_is_formed",
    "slot-in": "slot_inside",
    "stage-of": "picked_stage",
    "table-fill-number": "number_of_table_fill",
}
HEAD = re.compile(r"^(?:abbrev |unfoldable |opaque |pub )*([^\s:({=.]+)(?: \{[^}]*\})? : (.*)$")
MEMBER = re.compile(r"^ {2,}(?:pub )?([^\s:({=.]+)(?: \{[^}]*\})? : ")
BLOCK = re.compile(r"^(?:pub )?(data|record) ([^\s:({]+)")
GOALS = ("Proof.antt", "Answers.antt", "Invariants.antt")


def files(*patterns):
    found = {path for pattern in patterns for path in glob.glob(pattern, recursive=True)}
    return sorted(p for p in found if os.path.isfile(p) and "/out/" not in p)


def declared():
    """What each declared name is, and the files that declare it."""
    kinds, where = collections.defaultdict(set), collections.defaultdict(set)
    for path in files("crates/*/specs/**/*.antt", "crates/*/proofs/**/*.antt"):
        if os.path.basename(path) in GOALS:
            continue
        block = None
        for line in open(path, encoding="utf-8"):
            name = kind = None
            if m := BLOCK.match(line):
                block, name, kind = m.group(1), m.group(2), "type"
            elif (m := MEMBER.match(line)) and block:
                name, kind = m.group(1), "constructor" if block == "data" else "field"
            elif (m := HEAD.match(line)) and m.group(1) != "use":
                block, name = None, m.group(1)
                kind = "fact" if re.search(r"Type [0-9ℓ{}]+\s*$", m.group(2)) else "value"
            if name:
                kinds[name].add(kind)
                where[name].add(path)
    return kinds, where


def snake(name):
    return re.sub(r"(?<=[a-z0-9])([A-Z])", lambda m: "_" + m.group(1).lower(), name)


def undashed(name, known):
    parts = name.split("-")
    out = parts[0]
    for i in range(1, len(parts)):
        both = "-".join(parts[:i]) in known and "-".join(parts[i:]) in known
        out += ("-" if both else "_") + parts[i]
    return out


def plan():
    """Old name to new name."""
    kinds, where = declared()
    known = set(map(snake, kinds))
    names = {}
    for name, kind in kinds.items():
        if "type" in kind or "◌" in name or not re.match(r"[a-z]", name):
            continue
        if kind == {"fact"}:
            new = "".join(part[:1].upper() + part[1:] for part in re.split(r"[_-]", name))
        else:
            new = undashed(snake(name), known)
        if new != name:
            names[name] = new
    together = collections.defaultdict(set)
    for name in kinds:
        together[names.get(name, name)].add(name)
    for new, olds in sorted(together.items()):
        if len(olds) > 1:
            keep = sorted(olds, key=lambda o: ("field" in kinds[o], not any("/specs/" in p for p in where[o]), o != new, o))[0]
            here = [p for p in set.union(*(where[o] for o in olds)) if sum(p in where[o] for o in olds) > 1]
            print("falls together%s: %s -> %s; %s keeps it" % (" IN ONE FILE" if here else "", ", ".join(sorted(olds)), new, keep), *here)
            names.update({o: OWN.get(o, new + "_lem") for o in olds if o != keep})
    return kinds, names


def main():
    if len(sys.argv) > 1 and sys.argv[1] != "--dry":
        raise SystemExit(__doc__)
    kinds, names = plan()
    if "--dry" in sys.argv:
        for old, new in sorted(names.items()):
            print(old, new)
        return
    # behind a dot such a name is a step of a goal, named after a function or a local, unless it is a field of our own
    rust = {a or b for path in files("crates/*/src/**/*.rt") for a, b in re.findall(r"\bfn (\w+)|\blet (?:mut )?(\w+)", open(path, encoding="utf-8").read())}
    steps = {o for o in names if "-" in o and ("field" not in kinds[o] or o.replace("-", "_") in rust)}
    steps |= {o for o, n in names.items() if (n.endswith("_lem") or o in OWN) and ("field" not in kinds[o] or o.replace("-", "_") in rust)}
    aliases = set()

    def put(m):
        before = re.search(r"([\w'-]+)\.$", m.string[:m.start()])
        return m.group(0) if before and before.group(1) not in aliases and m.group(1) in steps else names[m.group(1)]
    token = re.compile(r"(?<![\w'₀-])(" + "|".join(sorted(map(re.escape, names), key=len, reverse=True)) + r")(?![\w'₀-])")

    def ghost(line):
        """In a source only imports, clauses and comments: a dash in code is a minus."""
        bare = line.lstrip()
        return bare.startswith(("ghost ", "requires", "ensures", "//")) or "λ" in line or "≡" in line

    def prose(line):
        """A comment: what has a dash there is a word of English."""
        return token.sub(lambda m: m.group(0) if "-" in m.group(0) else put(m), line)

    def quoted(m):
        """A page's `path:name`: port.py has respelled some names in the files, and in no page."""
        def turned(w):
            word = w.group(0)
            new = names.get(word) or word
            if word not in kinds and word not in names and re.search("[a-z0-9][A-Z]|-", word):
                for other in (snake(word), word.replace("-", "_")):
                    if other in kinds:
                        new = names.get(other, other)
            return new
        path, colon, name = m.group(1).rpartition(":")
        file = os.path.join("crates", path)
        if not os.path.isfile(file):
            return "`" + path + colon + re.sub(r"(?<![\w'/.-])[a-z][\w'-]*(?![\w'/])", turned, name) + "`"
        there = open(file, encoding="utf-8").read()
        undashed_too = [name, snake(name), name.replace("-", "_")]
        new = next((n for n in [names[o] for o in undashed_too if o in names] + undashed_too if re.search(
            r"(?m)^\W*(\w+ )*%s( \{[^}]*\})? :" % re.escape(n) if file.endswith(".antt") else r"(fn|const|# ) *%s\b" % re.escape(n), there)), name)
        return "`" + path + colon + new + "`"

    def edit(text):
        """An edit's lines, by the file that each is about; a projection is written tight, as port.py writes it in the files."""
        out, source = [], False
        for line in text.splitlines(keepends=True):
            if line.startswith("file: "):
                source = line.startswith("file: src/")
            if source and not line.startswith("#"):
                line = token.sub(put, line) if ghost(line[5:]) else line
            else:
                line = token.sub(put, line)
            if line.startswith(("old: ", "new: ")) and (not source or ghost(line[5:])):
                line = re.sub(r"\(([\w'-]+(?: \.[\w'-]+)+)\)", lambda m: m.group(1).replace(" .", "."), line)
                line = re.sub(r"(?<=[\w')]) \.(?=[a-z_])", ".", line).replace("′", "'")
                # what port.py respelled in the files
                line = re.sub(r"(?<![\w'-])[a-z]+[a-z0-9]*(?:[A-Z][a-z0-9]*)+(?![\w'-])", lambda m: snake(m.group(0)) if m.group(0) not in kinds else m.group(0), line)
                line = re.sub(r"(?<![\w◌])_([+*/%^<≤≡-])_", r"◌\1◌", line)
            out.append(line)
        return "".join(out)
    changed = 0
    for path in sorted(files("crates/*/specs/**/*.antt", "crates/*/proofs/**/*.antt", "crates/*/must-fail/*.edit", "crates/*/src/**/*.rt", "docs/**/*.md", "*.md"), key=lambda p: p.endswith(".md")):
        text = open(path, encoding="utf-8").read()
        # behind the name of a module it is a name of that module
        aliases.clear()
        aliases.update(re.findall(r"(?m)^(?:pub )?(?:ghost )?use [^\n]* as ([\w'-]+);?$", text))
        if path.endswith(".rt"):
            new = "".join((prose(line) if line.lstrip().startswith("//") else token.sub(put, line)) if ghost(line) else line for line in text.splitlines(keepends=True))
        elif path.endswith(".edit"):
            new = edit(text)
        elif path.endswith(".md"):
            new = re.sub(r"`([^`\n]+)`", quoted, text)
        else:
            new = "".join(prose(line) if line.lstrip().startswith("--") else token.sub(put, line) for line in text.splitlines(keepends=True))
        if new != text:
            open(path, "w", encoding="utf-8").write(new)
            changed += 1
    print(len(names), "names in", changed, "files")


main()
