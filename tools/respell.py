#!/usr/bin/env python3
"""Spells the repository's own definitions and lemmas in snake case, as the kit's library spells its own.

usage: tools/respell.py            at the top of the repository, once, on what the kit's port.py has made of it

Turned are the names that files of specs/ and proofs/ declare and that begin with a small letter: `slotPriors` and
`slot-priors` become `slot_priors`. Where two names would fall together, or a file that has the old name has the new word
already, the lemma gets `_lem`. Types, modules, functions of src/, strings and exported names stay. In src/ only clauses,
`ghost use` items and code spans of comments are read.
"""

import collections
import glob
import re

WORD = re.compile(r'[^\s(){}.;,@"«»]+')
BARE = re.compile(r'(?<![^\s(){};,@"«»])[^\s(){}.;,@"«»]+')
DECLARED = re.compile(r"(?m)^ *(?:abbrev |unfoldable |pub |let )*([^\s(){}.;,@\"«»:]+)(?: +[^\s(){}.;,@\"«»:]+)*(?: \{[^{}\n]*\})* :(?=\s)")
BINDER = re.compile(r"(?m)^ *(?:abbrev |unfoldable |pub )*((?:[^\s(){}.;,@\"«»:]+ )+):(?=\s)")
PLAIN = re.compile(r"[a-z][A-Za-z0-9_'₀-₉-]*")
COMMENT = re.compile(r"(?m)(?<![^\s(){}.;,@\"«»])--[^\n]*")
SPAN = re.compile(r"`[^`\n]*`")
GHOST_USE = re.compile(r"ghost\s+use\b[^;]*;")
CLAUSE = re.compile(r"\b(?:requires|ensures)\b\*?\s*(?:\w+\s*)?\{|\bghost\s*(?:\w+\s*(?::\s*|=\s*))?\{")
# Names of the old proofs' goals: their last words say nothing of a lemma.
KEYWORDS = set("abbrev unfoldable pub use mod module where let in record data open syntax infixl infixr infix elim rw simp cc omega search grind".split())


def snake(name):
    return re.sub(r"(?<=[a-z0-9'])[A-Z]", lambda m: "_" + m[0].lower(), name).replace("-", "_")


def files(kind):
    return sorted(f for f in glob.glob(f"crates/*/**/*.{kind}", recursive=True) if "/out/" not in f)


def uncommented(text):
    return COMMENT.sub("", text)


def declared(path, text):
    """The names that a file declares; of a proof of a function only its own lemmas."""
    found = set()
    for names in BINDER.findall(uncommented(text)):
        found.update(names.split())
    if path.endswith("/Proof.antt"):
        found = {n for n in found if not re.search(rf"(?m)^ *(?:abbrev )?(?:pub )?{re.escape(n)} : (?:tie\.|\{{M : )", text)}
    return (found | aliases(text)) - KEYWORDS


def aliases(text):
    """The names under which a file imports others."""
    lists = re.findall(r"\buse [^\s;{]+\{([^}]*)\}", text)
    return {alias for items in lists for alias in re.findall(r" as ([^\s,]+)", items)}


def table():
    texts = {f: open(f, encoding="utf-8").read() for f in files("antt")}
    names = set().union(*(declared(f, t) for f, t in texts.items()))
    turned = {n: snake(n) for n in names if PLAIN.fullmatch(n) and snake(n) != n}
    # The words that a turned name must not meet: all of a file of definitions or proofs; of src/ what is bound there.
    words = {f: set(BARE.findall(uncommented(t))) for f, t in texts.items()}
    for f in files("rt"):
        text = open(f, encoding="utf-8").read()
        for n in aliases(text):
            if PLAIN.fullmatch(n) and snake(n) != n:
                turned[n] = snake(n)
        bound = re.findall(r"\b(\w+)\s*:(?!:)|\blet (?:mut )?(\w+)", text)
        words[f] = {n for pair in bound for n in pair} | set(WORD.findall(text)) & turned.keys()
    holders = collections.defaultdict(list)
    for f, ws in words.items():
        for n in ws & turned.keys():
            holders[n].append(f)
    by_new = collections.defaultdict(list)
    for old, new in turned.items():
        by_new[new].append(old)
    said = []
    for new, olds in sorted(by_new.items()):
        dashed = [o for o in olds if "-" in o]
        others = [o for o in olds if "-" not in o]
        met = new in names or any(new in words[f] for o in olds for f in holders[o])
        if len(olds) == 1 and not met:
            continue
        for o in dashed if (others or met) else dashed[1:]:
            turned[o] = new + "_lem"
            said.append(f"{o} -> {turned[o]}")
        if met and others and new in names:
            turned[new] = new + "_lem"
            said.append(f"{new} -> {turned[new]}")
        elif met and others:
            said.append(f"{others[0]} -> {new}, which some file has already")
    return turned, said


def in_antt(text, turned, is_proof):
    def word(m):
        new = turned.get(m[0], m[0])
        # Behind a dot a proof of a function names a step of its code, which is spelled as the code is.
        if new.endswith("_lem") and m.string[m.start() - 1 : m.start()] == "." and (is_proof or "-" not in m[0]):
            return snake(m[0])
        return new

    def words(part):
        return WORD.sub(word, part)

    done, at = [], 0
    for m in re.finditer(r"\"(?:[^\"\\\n]|\\.)*\"|" + COMMENT.pattern[4:], text):
        done.append(words(text[at : m.start()]))
        done.append(m[0] if m[0][0] == '"' else SPAN.sub(lambda s: words(s[0]), m[0]))
        at = m.end()
    return "".join(done) + words(text[at:])


def closing(text, at):
    depth = 0
    for i in range(at, len(text)):
        depth += (text[i] == "{") - (text[i] == "}")
        if not depth:
            return i + 1
    raise ValueError("an open brace")


def in_rt(text, turned):
    def words(part):
        return WORD.sub(lambda m: turned.get(m[0], m[0]), part)

    done, at = [], 0
    for m in re.finditer(r"//[^\n]*|" + GHOST_USE.pattern + "|" + CLAUSE.pattern, text):
        if m.start() < at:
            continue
        done.append(text[at : m.start()])
        if m[0].startswith("//"):
            done.append(SPAN.sub(lambda s: "`" + words(s[0][1:-1]) + "`", m[0]))
            at = m.end()
        elif m[0].endswith("{"):
            at = closing(text, m.end() - 1)
            done.append(words(text[m.start() : at]))
        else:
            done.append(words(m[0]))
            at = m.end()
    return "".join(done) + text[at:]


def main():
    turned, said = table()
    for f in files("antt") + files("rt"):
        text = open(f, encoding="utf-8").read()
        new = in_antt(text, turned, f.endswith("/Proof.antt")) if f.endswith(".antt") else in_rt(text, turned)
        if new != text:
            open(f, "w", encoding="utf-8").write(new)
    print(f"{len(turned)} names turned")
    for line in said:
        print("apart:", line)


if __name__ == "__main__":
    main()
