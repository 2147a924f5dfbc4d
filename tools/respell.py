#!/usr/bin/env python3
"""Brings the repository's own definitions and lemmas to the spelling of today's Rattle: words in snake case, types and modules in camel case.

usage: tools/respell.py        at the top of the repository, once, right after the kit's port.py and before any edit by hand

What is renamed is what a file of specs/ or proofs/ declares, and what it calls by another name where it is brought in. A word of several parts gets underscores, as port.py gives them to the names
that it respells. A lemma that would then be called as a definition gets _lem, and a field of a record of facts _fact.
Functions of src/, their fields and parameters, exported names, strings, inputs and outputs keep their names.
It rewrites .rt, .antt and .edit files and the code spans of comments, and prints what it called what (to names.tsv below the folder given by
RESPELL_SAID, if that is set). Python 3.8 or later.
"""
import collections
import os
import re
import sys

WORD = re.compile(r'[^\s(){}.;,@"«»]+')
DECLARED = re.compile(r"^( *)((?:pub |abbrev |unfoldable )*)([^\s:(){},.;→=\"]+)((?: \{[^{}\n]*\})*) : ")
FIELD_OF = re.compile(r"^( *)(?:pub )?record ")
USE = re.compile(r"\buse ([^\s;{]+)\.\{([^}]*)\}")

def texts(ends):
    for folder, dirs, files in os.walk("crates"):
        dirs[:] = sorted(d for d in dirs if d != "out")
        for f in sorted(files):
            if f.endswith(ends):
                yield os.path.join(folder, f)


def read(path):
    with open(path, encoding="utf-8", newline="") as f:
        return f.read()


def plain(part):
    """A part of a name without capitals inside it, but a fact or a type keeps its first."""
    if part[:1].isupper():
        return part
    return re.sub(r"(?<=[a-z0-9])([A-Z])", lambda m: "_" + m.group(1).lower(), part)


def is_answer(line):
    """An answer or an invariant of a function's proof, whose name is a label that Rattle asks for."""
    return re.search(r" : tie\.", line) or re.match(r"^pub \S+ : \{M : Type 1\}", line)


def declared():
    """Each name that specs/ and proofs/ declare, with where: 'specs', 'word' for a definition of proofs/, 'lemma' or 'field'."""
    names = collections.defaultdict(set)
    for path in texts(".antt"):
        in_specs = "/specs/" in path
        indent = None
        for line in read(path).split("\n"):
            if indent is not None and line.strip() and not line.startswith(" " * (indent + 1)):
                indent = None
            if FIELD_OF.match(line):
                indent = len(line) - len(line.lstrip())
            m = DECLARED.match(line)
            if not m or line.lstrip().startswith("--") or is_answer(line):
                continue
            kind = "specs" if in_specs else "field" if indent is not None else "word" if "abbrev" in m.group(2) or "unfoldable" in m.group(2) else "lemma"
            if kind == "lemma" and re.search(r" : .*(ℕ|Bool|List \S+|State|Table)$", line) and not re.search("[≡≤<↔]", line.split(" : ", 1)[1].split("→")[-1]):
                kind = "word"
            names[m.group(3)].add(kind)
    for path in texts((".antt", ".rt")):
        for _, listed in USE.findall(read(path)):
            for it in re.findall(r" as ([^\s,]+)", listed):
                names[it].add("lemma")
    return names


def spelled(name):
    return "_".join(plain(p) for p in name.split("-"))


def imported():
    """By file, the names that it takes from a library that is not the repository's."""
    own = {c for c in os.listdir("crates")}
    out = {}
    for path in texts((".antt", ".rt")):
        taken = set()
        for module, listed in USE.findall(read(path)):
            steps = module.split(".")
            if steps[0] == "Rattle" and len(steps) > 1 and steps[1] in own:
                continue
            for it in listed.split(","):
                it = it.strip().split(" as ")[-1].strip()
                if it:
                    taken.add(it)
        out[path] = taken
    return out


def table(names, taken):
    new = {n: spelled(n) for n in names}
    by_new = collections.defaultdict(list)
    for n, to in new.items():
        by_new[to].append(n)
    uses = collections.defaultdict(set)
    for path in taken:
        for w in set(WORD.findall(read(path))):
            if w in names:
                uses[w].add(path)
    for to, olds in sorted(by_new.items()):
        rank = lambda n: (0 if "specs" in names[n] else 1 if "word" in names[n] else 2 if "field" in names[n] else 3, n != to, n)
        olds.sort(key=rank)
        if len(olds) > 1:
            keep = 0
            for k, n in enumerate(olds):
                if k == keep:
                    continue
                to2 = to + ("_lem" if "lemma" in names[n] or "word" in names[n] else "_fact")
                while to2 in new.values():
                    to2 += "'"
                new[n] = to2
    # a name that a file takes from a library under the same spelling
    for n, to in sorted(new.items()):
        if n == to:
            continue
        if any(to in taken[p] for p in uses[n]):
            to2 = to + "_lem"
            while to2 in new.values():
                to2 += "'"
            new[n] = to2
    return {n: to for n, to in new.items() if n != to}


def turn_code(text, new, skip):
    """Renames whole words; behind a dot a word with a dash may be a label that Rattle makes, so there only fields of the repository's records
    and what a module has are renamed."""

    def word(m):
        w = m.group(0)
        if w not in new or w in skip:
            return w
        before = m.string[: m.start()]
        if "-" in w and before.endswith(".") and w not in FIELDS:
            head = re.search(r"([^\s(){};,@\"«».]+)\.$", before)
            if not head or not head.group(1)[:1].isupper() or head.group(1) in ("Goals",):
                return w
        return new[w]

    return WORD.sub(word, text)


SPAN = re.compile(r"`[^`\n]+`")


def turn_spans(text, new):
    return SPAN.sub(lambda m: "`" + turn_code(m.group(0)[1:-1], new, ()) + "`", text)


def turn_antt(text, new, skip):
    out = []
    for line in text.split("\n"):
        at = re.search(r"(^|\s)--(\s|$)", line)
        if at and line[: at.start()].count('"') % 2 == 0:
            code, said = line[: at.start()], line[at.start() :]
        else:
            code, said = line, ""
        if is_answer(line):
            name, rest = code.split(" : ", 1)
            out.append(name + " : " + turn_code(rest, new, skip) + turn_spans(said, new))
            continue
        out.append(turn_code(code, new, skip) + turn_spans(said, new))
    return "\n".join(out)


def clause_spans(text):
    """Where ghost items and clauses stand in a .rt file."""
    for m in re.finditer(r"\bghost use [^;]*;|\b(?:requires|ensures|ghost)\*?\s*(?:\w+\s*)?(?::\s*)?\{", text):
        if m.group(0).startswith("ghost use"):
            yield m.start(), m.end()
            continue
        depth, i = 1, m.end()
        while i < len(text) and depth:
            depth += {"{": 1, "}": -1}.get(text[i], 0)
            i += 1
        yield m.end(), i - 1


def turn_rt(text, new, skip):
    out, at = [], 0
    for a, b in clause_spans(text):
        if a < at:
            continue
        out += [turn_outside(text[at:a], new), turn_code(text[a:b], new, skip)]
        at = b
    out.append(turn_outside(text[at:], new))
    return "".join(out)


def turn_outside(text, new):
    return "\n".join(
        l[: l.index("//")] + turn_spans(l[l.index("//") :], new) if "//" in l and l[: l.index("//")].count('"') % 2 == 0 else l for l in text.split("\n")
    )


def turn_edit(text, new):
    out, of_code = [], True
    for line in text.split("\n"):
        if line.startswith("file: "):
            of_code = line.rstrip().endswith(".antt")
            out.append(line)
        elif line.startswith(("old: ", "new: ")):
            words = {n: to for n, to in new.items() if of_code or re.search(r"[a-z0-9][A-Z]", n)}
            out.append(line[:5] + turn_code(line[5:], words, ()))
        else:
            out.append(turn_spans(line, new))
    return "\n".join(out)


FIELDS = set()


def main():
    names = declared()
    FIELDS.update(n for n, kinds in names.items() if "field" in kinds or "specs" in kinds)
    taken = imported()
    new = table(names, taken)
    said = os.environ.get("RESPELL_SAID")
    if said:
        with open(os.path.join(said, "names.tsv"), "w") as f:
            for n in sorted(new):
                f.write(f"{n}\t{new[n]}\n")
    count = 0
    for path in texts((".antt", ".rt", ".edit")):
        text = read(path)
        if path.endswith(".edit"):
            turned = turn_edit(text, new)
        elif path.endswith(".rt"):
            turned = turn_rt(text, new, taken[path])
        else:
            turned = turn_antt(text, new, taken[path])
        if turned != text:
            count += 1
            with open(path, "w", encoding="utf-8", newline="") as f:
                f.write(turned)
    print(f"respell: {len(new)} names, {count} files")


if __name__ == "__main__":
    sys.exit(main())
