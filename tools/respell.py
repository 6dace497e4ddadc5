#!/usr/bin/env python3
"""Turns the repository's own definitions and lemmas to snake case, and its own facts to upper camel case.

Run once, at the top of the repository, after /opt/rattle/port/port.py:

    python3 tools/respell.py

A name of ours is one that a file of specs/ or proofs/ declares (`name : ..`), a record's field or a constructor. `same-rows`
becomes `same_rows`, `Same-rows` becomes `SameRows`. What Rattle makes (goals, and the steps of a path `c.STEP`) keeps its
dashes, and so does what comes from std. Functions of src/, strings and comments are not turned, but for a name in backquotes.
It prints the names that would fall together.
"""
import collections
import glob
import re
import sys

WORD = r"[^\s(){}\[\].,;:`\"\\|]+"
DECLARED = re.compile(r"^\s*(?:abbrev |unfoldable |opaque |instance )*(?:pub )?(?:abbrev |unfoldable |opaque )*(" + WORD + r") :(?!:)(.*)$")
TYPED = re.compile(r"^\s*(?:pub )?(?:data|record|module) (" + WORD + r")")
ALIAS = re.compile(r"\bas (" + WORD + r")")
# Facts that were spelled as words.
FACTS = {
    "same-but-parity": "SameButParity",
    "no-judgement": "NoJudgement",
    "all-unbroken": "AllUnbroken",
}
# Names of ours that began as a word of std's, which has another name now.
RENAMED = {
    "getD-xors": "get_or_xors",
    "getD-both": "get_or_both",
    "getD-shifted": "get_or_shifted",
    "getD-bits": "get_or_bits",
    "getD_bits": "get_or_bits",
}


def antt_files():
    return sorted(
        f
        for pattern in ("crates/*/specs/**/*.antt", "crates/*/proofs/**/*.antt")
        for f in glob.glob(pattern, recursive=True)
    )


def code_files():
    return sorted(glob.glob("crates/*/src/**/*.rt", recursive=True))


def turned(name):
    if name in FACTS:
        return FACTS[name]
    if name in RENAMED:
        return RENAMED[name]
    if name[0].isupper():
        parts = name.split("-")
        return "".join(p[:1].upper() + p[1:] for p in parts)
    return name.replace("-", "_")


def names_of_ours(files):
    ours = set()
    foreign = set()
    for f in files:
        text = open(f, encoding="utf-8").read()
        for line in text.split("\n"):
            code = line.split("-- ")[0]
            m = DECLARED.match(code)
            if m and not re.match(r"\s*goal\.", m.group(2)) and m.group(1) not in ("let", "in"):
                ours.add(m.group(1))
            m = TYPED.match(code)
            if m:
                ours.add(m.group(1))
            if re.match(r"^\s*(pub )?use ", code):
                for a in ALIAS.findall(code):
                    ours.add(a)
        for path, items in re.findall(r"^\s*(?:pub )?use ([^\s{]+?)\.?\{([^}]*)\}", text, re.M):
            if not path.startswith("Rattle.") or re.match(r"Rattle\.(std|core)\b", path):
                for item in items.split(","):
                    foreign.add(item.strip().split(" as ")[0].strip())
    both = {n for n in ours & foreign if "-" in n}
    if both:
        print("std's too, so left:", ", ".join(sorted(both)))
    return {n for n in ours if ("-" in n or n in FACTS or n in RENAMED) and n not in foreign} - {"-"}


def turn_tokens(text, table):
    def one(m):
        word = m.group(0)
        return table.get(word, word)

    return re.sub(WORD, one, text)


def turn_comment(text, table):
    return re.sub(r"`([^`]+)`", lambda m: "`" + turn_tokens(m.group(1), table) + "`", text)


def turn_antt(text, table):
    out = []
    for line in text.split("\n"):
        m = re.match(r"^(.*?)((?:^|\s)--(?:\s.*|))$", line)
        if m:
            out.append(turn_tokens(m.group(1), table) + turn_comment(m.group(2), table))
        else:
            out.append(turn_tokens(line, table))
    return "\n".join(out)


def turn_code(text, table):
    out = []
    for line in text.split("\n"):
        m = re.match(r"^((?:[^\"/]|\"(?:[^\"\\]|\\.)*\"|/(?!/))*)(//.*)$", line)
        code, comment = (m.group(1), m.group(2)) if m else (line, "")
        parts = re.split(r"(\"(?:[^\"\\]|\\.)*\")", code)
        parts = [p if i % 2 else turn_tokens(p, table) for i, p in enumerate(parts)]
        out.append("".join(parts) + turn_comment(comment, table))
    return "\n".join(out)


def main():
    files = antt_files()
    names = names_of_ours(files)
    table = {n: turned(n) for n in names}
    table = {a: b for a, b in table.items() if a != b}
    taken = collections.Counter()
    for f in files:
        taken.update(set(re.findall(WORD, open(f, encoding="utf-8").read())))
    back = collections.defaultdict(set)
    for a, b in table.items():
        back[b].add(a)
        if b in taken:
            back[b].add(b)
    for b, old in sorted(back.items()):
        if len(old) > 1:
            print("falls together:", b, "<-", ", ".join(sorted(old)))
    if "--list" in sys.argv:
        for a, b in sorted(table.items()):
            print(a, b)
        return
    for f, turn in [(f, turn_antt) for f in files] + [(f, turn_code) for f in code_files()]:
        old = open(f, encoding="utf-8").read()
        new = turn(old, table)
        if new != old:
            open(f, "w", encoding="utf-8").write(new)
    print(len(table), "names turned")


main()
