#!/usr/bin/env python3
"""Brings the repository's own definitions and lemmas to snake case, once, after the kit's own script.

usage: tools/snake_names.py          at the top of the repository: rewrites crates/*/specs, proofs and the clauses of src in place
       tools/snake_names.py --list   writes nothing: prints each old name with its new one, and names that fall together

Types, records, variants and modules keep their names, as do names that a file takes from the kit.
"""
import collections
import glob
import re
import sys

WORD = re.compile(r"[^\s(){}\[\].,;:=→λ\"⌜⌝]+")
DECL = re.compile(r"^(\s*)((?:(?:pub|unfoldable|abbrev|record|data|ruleset|open)\s+)*)([^\s:(){}.,;=]+)\s*(?=:|\(|where|$)")
USE = re.compile(r"\buse\s+([^\s{]+?)(?:\.\{([^}]*)\}|\s+as\s+(\S+)|)\s*(?:;|$)", re.M)


# A lemma that would fall together with the definition that it is about ends in _lem.
LEMMAS = """all-defining all-from all-of any-over aside-number block-a block-s closed-words counted-all find-all form-of head-stored
in-high is-event is-idle is-tc judged-number judged-values latched-in marks-at mode-most most-channel most-event most-pairs
most-pulse most-raw most-samples next-at on-state pairs-at quick-line samples-ok scalers-stored scan-count scan-left
scan-stored settings-count state-count state-ok state-stored step-number step-values tail-words type-of values-by
window-head fits_in in_window is_block pair_line second_at""".split()
# The same, where one file alone has such a lemma.
LEMMAS_OF = {("crates/runs/specs/RunsLaws.antt", "to-come")}


def snake(name):
    if name in LEMMAS:
        return name.replace("-", "_") + "_lem"
    return spelt(name)


def spelt(name):
    parts = []
    for part in re.split(r"-", name):
        part = re.sub(r"([a-z0-9])([A-Z])", r"\1_\2", part)
        parts.append(part.lower() if part[:1].islower() else part)
    return "_".join(parts)


def humps(name):
    return bool(re.match(r"[a-z]", name)) and bool(re.search(r"[a-z0-9][A-Z]|[a-zA-Z0-9]-[a-zA-Z]", name)) and bool(re.fullmatch(r"[A-Za-z0-9_'₀-₉-]+", name))


def antt_files():
    return sorted(glob.glob("crates/*/specs/**/*.antt", recursive=True) + glob.glob("crates/*/proofs/**/*.antt", recursive=True))


def own_crates():
    return {f.split("/")[1] for f in antt_files()} | {f.split("/")[1] for f in glob.glob("crates/*/src/*.rt")}


def code(line):
    at = line.find("--")
    while at > 0 and not line[at - 1].isspace():
        at = line.find("--", at + 1)
    return (line, "") if at < 0 else (line[:at], line[at:])


def declared():
    names = collections.defaultdict(set)
    for f in antt_files():
        with open(f) as it:
            for line in it:
                m = DECL.match(code(line)[0])
                if m:
                    names[m.group(3)].add(f)
    return names


def imports(text, own):
    """The names that a file takes from the kit."""
    kit = set()
    for m in USE.finditer(text):
        parts = m.group(1).split(".")
        ours = parts[0] == "Rattle" and len(parts) > 1 and parts[1] in own
        if not ours:
            for n in (m.group(2) or "").split(","):
                kit.add(n.split(" as ")[-1].strip())
                kit.add(n.split(" as ")[0].strip())
    return kit


def turned(text, own, names, kit, path):
    """A line of antt, no comment in it: each own name after a dot, each name with a hump elsewhere."""

    def one(m):
        word = m.group(0)
        before = text[: m.start()]
        if before.endswith("."):
            return spelt(word) if word in names and humps(word) else word
        if word in kit:
            return word
        if (path, word) in LEMMAS_OF:
            return spelt(word) + "_lem"
        return snake(word) if humps(word) or word in LEMMAS else word

    return WORD.sub(one, text)


def prose(text, names):
    text = re.sub(r"`([^`\s]+)`", lambda m: "`" + ".".join(snake(p) if p in names and humps(p) else p for p in m.group(1).split(".")) + "`", text)
    return re.sub(r"(?<![\w'-])[a-z][A-Za-z0-9]*[a-z0-9][A-Z]\w*(?![\w'-])", lambda m: snake(m.group(0)) if m.group(0) in names else m.group(0), text)


def antt(path, own, names):
    with open(path) as it:
        text = it.read()
    kit = imports(text, own)
    out = []
    for line in text.split("\n"):
        a, b = code(line)
        out.append(turned(a, own, names, kit, path) + prose(b, names))
    return text, "\n".join(out)


def source(path, own, names):
    """Of a source file the clauses and ghost items alone, and names in comments."""
    with open(path) as it:
        text = it.read()
    kit = imports(text, own)
    out, depth, ghost = [], 0, False
    for line in text.split("\n"):
        if re.match(r"\s*//", line):
            out.append(prose(line, names))
            continue
        if depth == 0 and not ghost:
            ghost = bool(re.match(r"\s*(ghost|requires|ensures|also_owns|also_shares|invariant)\b", line))
        if ghost or depth:
            depth += line.count("{") - line.count("}")
            out.append(turned(line, own, names, kit, path))
            if depth <= 0:
                depth, ghost = 0, False
        else:
            out.append(line)
    return text, "\n".join(out)


def main():
    own, names = own_crates(), declared()
    if "--list" in sys.argv:
        to = collections.defaultdict(set)
        for n in names:
            to[snake(n) if humps(n) or n in LEMMAS else n].add(n)
        for new, olds in sorted(to.items()):
            for o in sorted(olds):
                if o != new:
                    print(o, new)
        for new, olds in sorted(to.items()):
            if len(olds) > 1:
                print("together:", new, {o: sorted(names[o]) for o in olds})
        return
    for path in antt_files() + sorted(glob.glob("crates/*/src/**/*.rt", recursive=True)):
        old, new = (antt if path.endswith(".antt") else source)(path, own, names)
        if new != old:
            with open(path, "w") as it:
                it.write(new)


main()
