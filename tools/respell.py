#!/usr/bin/env python3
"""Spells the definitions and lemmas of this repository in snake case, after port.py: 'unknownCode' and 'unknown-code' become 'unknown_code'.

usage: python3 tools/respell.py [--check] [ROOT]

A name turns if specs/ or proofs/ declares it, at the top of a file, in a section, as a field or as a constructor, and it has a dash or a
capital inside; types, modules and what Rattle makes (the goals of a proof by hand and the labels behind 'c.') keep their spelling. It turns
in .antt files, in the clauses and comments of .rt files, in must-fail edits, and, in code spans, in the pages. The proof of a function f is named f_spec.
Two names that would fall together are printed, and nothing is written.
"""
import collections
import os
import re
import sys

WORD = re.compile(r"[^\s(){}.;,@\"«»\x60\[\]|:→]+")
DECLARES = re.compile(
    r"^( *)(?:unfoldable |abbrev )?(?:pub )?(?:abbrev |unfoldable )?(?:data |record |ruleset )?([^\s(){}.,;=:]+)(?:(?: [({].*)? :(?: |$)|$)"
)
STOPS = {"use", "pub", "mod", "unfolding", "where", "mutual", "let", "elim", "in", "]", "|"}
# Names that are spelled like another of their file once they turn, with the spelling that they get.
# A lemma that would have its function's name gets _lem.
OTHERWISE = {
    it: snake_lem
    for it, snake_lem in [
        (n, n.replace("-", "_") + "_lem")
        for n in (
            "answer-text behind-all had-text handle-types is-arm is-list is-magic is-yes-no list-items list-lines on-to own-arm"
            " put-line put-lines put-span or-equal item-at whole-end"
        ).split()
    ]
}
OTHERWISE |= {"record-bytes": "bytes_of_record", "no-arm": "no_arm_due", "start-of": "start_of_part", "end-of": "end_of_part"}
# Lemmas that port.py spelled like a definition: they turn in the file that declares them, where alone they are cited.
LEMMAS = {
    "crates/wire/proofs/ItemsSpelled.antt": "item_count",
    "crates/steps/proofs/Listed.antt": "step_lines",
    "crates/steps/proofs/Runs.antt": "put_one",
    "crates/steps/proofs/Leaves.antt": "step_by",
}
MADE = re.compile(r"(^|\.)(c|before|args|given|tie|goal)$|(^|\.)(before|args|given)\.")
STRING = re.compile(r'"(?:[^"\\\n]|\\.)*"')


def texts(root, ends):
    for folder, dirs, files in os.walk(root):
        dirs[:] = sorted(d for d in dirs if d not in ("out", ".git"))
        for f in sorted(files):
            if f.endswith(ends):
                yield os.path.join(folder, f)


def by_hand(path):
    return path.endswith("/Proof.antt")


def snake(name):
    words = re.sub(r"(?<=[a-z0-9])([A-Z])", lambda m: "_" + m[1].lower(), name)
    return words.replace("-", "_")


def table(root):
    declared = collections.defaultdict(set)
    for path in texts(os.path.join(root, "crates"), ".antt"):
        if by_hand(path):
            continue
        for line in open(path, encoding="utf-8"):
            m = DECLARES.match(line)
            if m and m[2] not in STOPS and not m[2].startswith("--"):
                declared[m[2]].add(path)
    turned = {}
    for name in declared:
        if not name[0].islower():
            continue
        if "-" in name.strip("-") or re.search(r"[a-z0-9][A-Z]", name):
            turned[name] = OTHERWISE.get(name, snake(name))
    return declared, turned


def turn(text, names, dashes_behind_dots, dashes=True):
    def one(m):
        w = m[0]
        if w not in names:
            bare = w.rstrip("'")
            if bare in names and "-" not in bare:
                return names[bare] + w[len(bare):]
            return w
        if "-" in w:
            behind = text[m.start() - 1 : m.start()] == "."
            if not dashes or behind and not dashes_behind_dots(text, m.start()):
                return w
        return names[w]

    return WORD.sub(one, text)


def chain_is_module(text, at):
    """Whether the dotted name that ends before 'at' begins with a capital, as a module's path does."""
    m = re.search(r"([^\s(){};,@\"«»\x60\[\]|:]*)\.$", text[:at])
    return bool(m) and m[1][:1].isupper()


def no_chain(text, at):
    return False


def own_field(text, at):
    """Whether a name behind a dot is a field or a section's, and no label of what Rattle makes."""
    m = re.search(r"([^\s(){};,@\"«»\x60\[\]|:]*)\.$", text[:at])
    return not (m and MADE.search(m[1]))


def antt(text, names, hand):
    out = []
    for line in text.split("\n"):
        code, mark, prose = (line, "", "")
        m = re.search(r"(?:^|\s)--(?=\s|$)", line)
        if m:
            code, prose = line[: m.start()], line[m.start() :]
        out.append(strings_apart(code, names, chain_is_module if hand else own_field) + comment(prose, names))
    return "\n".join(out)


def strings_apart(code, names, behind_dots):
    out, last = [], 0
    for m in STRING.finditer(code):
        out += [turn(code[last : m.start()], names, behind_dots), m[0]]
        last = m.end()
    return "".join(out + [turn(code[last:], names, behind_dots)])


def comment(prose, names):
    humps = {k: v for k, v in names.items() if "-" not in k}
    spans = re.sub(r"\x60[^\x60\n]+\x60", lambda m: turn(m[0], names, chain_is_module), prose)
    return turn(spans, humps, no_chain)


def rt(text, names):
    out = []
    for line in text.split("\n"):
        m = re.search(r"(?:^|\s)//", line)
        code, prose = (line[: m.start()], line[m.start() :]) if m else (line, "")
        out.append(strings_apart(code, names, own_field) + comment(prose, names))
    return "\n".join(out)


def edit(text, names):
    out = []
    for line in text.split("\n"):
        out.append(strings_apart(line, names, own_field) if line.startswith(("old:", "new:")) else comment(line, names))
    return "\n".join(out)


class Spelled(dict):
    """The table, and names that port.py turned, which the pages have as they were."""

    def __init__(self, names, declared):
        super().__init__(names)
        self.declared = set(declared) | set(names.values())

    def __contains__(self, name):
        hump = re.fullmatch(r"[a-z][a-z0-9]*([A-Z][a-z0-9]*)+", name)
        return super().__contains__(name) or bool(hump) and snake(name) in self.declared

    def __missing__(self, name):
        return snake(name)


def page(text, names):
    return re.sub(r"\x60[^\x60\n]+\x60", lambda m: turn(m[0], names, chain_is_module), text)


def main(argv):
    check = "--check" in argv
    argv = [a for a in argv if a != "--check"]
    root = argv[0] if argv else "."
    declared, names = table(root)
    meets = collections.defaultdict(set)
    for old, new in names.items():
        meets[new].add(old)
    bad = [f"{', '.join(sorted(olds))} would all be {new}" for new, olds in sorted(meets.items()) if len(olds) > 1]
    lemmas = set(LEMMAS.values()) | {"left_over"}  # left_over: a field there, a constructor here
    bad += [f"{old} would be {new}, which {sorted(declared[new])[0]} declares" for old, new in names.items() if new in declared and new not in lemmas]
    changed = {}
    for path in texts(root, (".antt", ".rt", ".edit", ".md")):
        if "/port/" in path or not os.path.isfile(path):
            continue
        text = open(path, encoding="utf-8").read()
        lemma = LEMMAS.get(os.path.relpath(path, root))
        if path.endswith(".antt"):
            if lemma:
                text = re.sub(rf"(?<![\w.-]){lemma}(?![\w-])", lemma + "_lem", text)
            new = antt(text, names, by_hand(path))
            if by_hand(path):
                function = os.path.basename(os.path.dirname(path))
                new = re.sub(r"(?m)^pub [\w-]+[-_]spec :", f"pub {function}_spec :", new)
                new = re.sub(r"(?m)^[\w-]+[-_]spec(?= =| [^:\n]*=)", f"{function}_spec", new)
        elif path.endswith(".rt"):
            new = rt(text, names)
        elif path.endswith(".edit"):
            new = edit(text, names)
        else:
            new = page(text, Spelled(names, declared))
        # a new spelling that stood in the file before, beside the old one
        words = set(re.findall(r"(?<![^\s(){};,@])" + WORD.pattern, text)) if path.endswith(".antt") else set()
        for old in words & set(names):
            if names[old] in words:
                bad.append(f"{path}: {old} would be {names[old]}, which stands there")
        if new != text:
            changed[path] = new
    print("\n".join(bad))
    print(f"{len(names)} names, {len(changed)} files, {len(bad)} that meet")
    if check or bad and "--anyway" not in argv:
        return 1 if bad else 0
    for path, new in changed.items():
        with open(path, "w", encoding="utf-8") as f:
            f.write(new)
    return 0


if __name__ == "__main__":
    raise SystemExit(main(sys.argv[1:]))
