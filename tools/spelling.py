#!/usr/bin/env python3
"""Brings the repository's own definitions and lemmas to the spelling of today's Rattle, once, after the kit's port.py.

usage: tools/spelling.py [--check]      from the top of the repository

Words are joined by '_', and a hump becomes '_' and a small letter: if-true is if_true, amountLimit is amount_limit. Types keep their
capitals. What turns: each name that a file of specs/ or right in proofs/ declares (a definition, lemma, field, constructor, helper or a
variable in it), wherever it stands in antt, in clauses, in edits and in backticks. What stays: what is imported from the kit's libraries,
names that Rattle makes (in a function's own proof files), functions of src/, strings. --check writes nothing and lists names that would
fall together.
"""
import collections
import os
import re
import sys

WORD = r"[^\s(){}\[\];,.:=|\"«»λ→×@`\\]+"
SIGNATURE = re.compile(r"^\s*(?:(?:pattern|unfoldable|abbrev|pub)\s+)*((?:%s)(?:\s+%s)*)(?:\s*\{[^}]*\})?\s+:(?:\s|$)" % (WORD, WORD))
KEYWORDS = {"use", "module", "where", "let", "in", "record", "data", "pub", "abbrev", "unfoldable", "pattern", "unfolding", "infix", "mod", "open", "elim", "as", "rw", "at"}
# Names whose plain spelling is taken in a file where they stand: a lemma ends in _lem there, as the guide has it.
OTHERWISE = {"in_two": "in_two_lem", "list_written": "list_written_lem", "none_above": "none_above_lem", "first-line": "first_line'", "Counts-same": "counts_same"}
# A variable that keeps the plain spelling in this file.
PLAIN = {("crates/betterment/specs/Places.antt", "sovereign-step"), ("crates/mail/proofs/Filling.antt", "first-line")}


def snake(name):
    if name in OTHERWISE:
        return OTHERWISE[name]
    name = name.replace("′", "'")
    if re.match(r"^[a-z]", name):
        name = re.sub(r"([a-z0-9])([A-Z])", lambda m: m.group(1) + "_" + m.group(2).lower(), name)
        name = re.sub(r"([a-z])((?:19|20)\d\d)(?![0-9])", r"\1_\2", name)
    return re.sub(r"(?<=[^\s_-])-(?=[^\s-])", "_", name)


def turns(name):
    return name != snake(name) and re.match(r"^[A-Za-zℕ≤<⊎+*∷]", name)


def own(path):
    return path.startswith("Rattle.")and not path.startswith("Rattle.std.")


def files(kind):
    for folder, dirs, names in os.walk("crates"):
        dirs[:] = sorted(d for d in dirs if d not in ("out", "data"))
        for n in sorted(names):
            if n.endswith(kind):
                yield os.path.join(folder, n)


def of_a_function(path):
    return "/proofs/" in path and os.path.basename(path) in ("Proof.antt", "Answers.antt", "Invariants.antt")


def code_of(text):
    """Pieces of a text: (piece, what) with what one of code, comment, string."""
    out = []
    for m in re.finditer(r'("(?:\\.|[^"\\\n])*")|((?:^|(?<=\s))(?:--|//)[^\n]*)|([^"\n]+?(?=\s(?:--|//)|"|\n|$)|[\n"]|.)', text, re.M):
        out.append((m.group(0), "string" if m.group(1) else "comment" if m.group(2) else "code"))
    return out


def imports(text):
    """The names that a file takes from elsewhere, by whether the module is its own repository's."""
    ours, others = set(), set()
    for m in re.finditer(r"^(?:ghost )?use ([^\s{;]+?)(?:\.\{([^}]*)\}|(?=[\s;]))", text, re.M):
        path, items = m.group(1), m.group(2)
        if items is None:
            continue
        for it in items.split(","):
            it = it.strip()
            name = re.split(r"\s+as\s+", it)[0].strip()
            (ours if own(path) else others).add(name)
    return ours, others


def declared():
    names = collections.Counter()
    fields = set()
    for p in files(".antt"):
        if of_a_function(p):
            continue
        text = open(p, encoding="utf-8").read()
        ours, others = imports(text)
        code = "".join(t if w == "code" else " " for t, w in code_of(text))
        for line in code.split("\n"):
            m = SIGNATURE.match(line)
            if m:
                for n in m.group(1).split():
                    if n not in KEYWORDS:
                        names[n] += 1
            for m in re.finditer(r"\blet (%s)\s*[:=]" % WORD, line):
                if m.group(1) not in others:
                    names[m.group(1)] += 1
            for m in re.finditer(r"[({]((?:%s)(?:\s+%s)*)\s*:\s" % (WORD, WORD), line):
                for n in m.group(1).split():
                    if n not in others and n not in KEYWORDS:
                        names[n] += 1
            for m in re.finditer(r"λ\s+((?:%s\s*)+)\." % WORD, line):
                for n in m.group(1).split():
                    if n not in others:
                        names[n] += 1
            for m in re.finditer(r"\s(%s) ↦" % WORD, line):
                names[m.group(1)] += 1
            for m in re.finditer(r"\sas (%s)" % WORD, line):
                names[m.group(1)] += 1
        # what stands in a clause of a definition by cases, as a variable
        for line in code.split("\n"):
            m = re.match(r"^\s*(%s) ([^:]*?) = ?" % WORD, line)
            if m and m.group(1) in names:
                for n in re.findall(WORD, m.group(2)):
                    if turns(n) and n not in others and n not in ours:
                        names[n] += 1
    for p in files(".rt"):
        for line in re.findall(r"^ghost use [^;]*;", open(p, encoding="utf-8").read(), re.M):
            for n in re.findall(r"\sas (\w+)", line):
                names[n] += 1
    return names


def turn_code(text, names, keep, dotted):
    def one(m):
        word = m.group(0)
        before = text[m.start() - 1] if m.start() else " "
        if word in keep or not turns(word):
            return word
        if before == "." and not dotted and word not in names:
            return word
        return snake(word) if word in names else word
    return re.sub(WORD, one, text)


def prose(text, names, known):
    """A code span, or an edit's text: also names that port.py turned in the files."""
    def one(m):
        word = m.group(0)
        if not turns(word):
            return word
        return snake(word) if word in names or snake(word) in known else word
    return re.sub(WORD, one, text)


def turn(path, names, text, known):
    antt = path.endswith(".antt")
    ours, others = imports(text)
    keep = {n for n in others}
    if antt and of_a_function(path):
        # a function's own goals keep their names
        for line in text.split("\n"):
            m = SIGNATURE.match(line)
            if m:
                keep.update(n for n in m.group(1).split() if n not in ours)
    plain = {n: re.sub("-", "_", n) for f, n in PLAIN if f == path}
    out = []
    for piece, what in code_of(text):
        if what == "code":
            for n, k in plain.items():
                piece = re.sub(r"(?<![\w.-])%s(?![\w-])" % n, k, piece)
        if what == "string":
            out.append(piece)
        elif what == "comment":
            piece = re.sub(r"`([^`\n]*)`", lambda m: "`" + prose(m.group(1), names, known) + "`", piece)
            out.append(re.sub(r"(?<![\w`.-])[a-z][a-z0-9]*[A-Z]\w*(?![\w-])", lambda m: snake(m.group(0)) if snake(m.group(0)) in known else m.group(0), piece))
        else:
            if not antt:
                # a .rt file: only names with a hump or a dash that the definitions declare
                out.append(turn_code(piece, names, keep, True))
            else:
                out.append(turn_code(piece, names, keep, False))
    return "".join(out)


def main():
    check = "--check" in sys.argv
    names = declared()
    turning = {n: snake(n) for n in names if turns(n)}
    twins = collections.defaultdict(set)
    for n in names:
        twins[snake(n)].add(n)
    twins = {k: v for k, v in twins.items() if len(v) > 1}
    for p in files(".antt"):
        words = set(re.findall(WORD, open(p, encoding="utf-8").read()))
        for k, v in twins.items():
            for n in v & words:
                if "-" in n and n not in OTHERWISE and (p, n) not in PLAIN and len(v & words) > 1:
                    OTHERWISE[n] = k + "_lem"
    names["Counts-same"] = 1  # in a comment that port.py turned
    turning = {n: snake(n) for n in names if turns(n)}
    known = {snake(n) for n in names}
    if check:
        for n in sorted(OTHERWISE):
            print("otherwise:", n, OTHERWISE[n])
    changed = 0
    for p in list(files(".antt")) + list(files(".rt")):
        text = open(p, encoding="utf-8").read()
        new = turn(p, turning, text, known)
        if check and new != text:
            words = set(re.findall(WORD, text))
            for n in sorted(words & set(turning)):
                if turning[n] in words:
                    print("stands there too:", p, n, turning[n])
        if new != text:
            changed += 1
            if not check:
                open(p, "w", encoding="utf-8").write(new)
    for p in files(".edit"):
        lines = open(p, encoding="utf-8").read().split("\n")
        new = [re.sub(r"^((?:old|new):)(.*)$", lambda m: m.group(1) + prose(m.group(2), turning, known), l) for l in lines]
        if new != lines:
            changed += 1
            if not check:
                open(p, "w", encoding="utf-8").write("\n".join(new))
    pages = ["README.md", "CONTRIBUTING.md"] + [os.path.join("docs", n) for n in sorted(os.listdir("docs")) if n.endswith(".md")]
    for p in pages:
        text = open(p, encoding="utf-8").read()
        new = re.sub(r"`([^`\n]*)`", lambda m: "`" + prose(m.group(1), turning, known) + "`", text)
        if new != text:
            changed += 1
            if not check:
                open(p, "w", encoding="utf-8").write(new)
    print(f"{len(turning)} names, {changed} files")


if __name__ == "__main__":
    main()
