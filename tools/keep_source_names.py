#!/usr/bin/env python3
"""In the answers to goals, spells a name of the source as the source does: `c.copy-from-slice` becomes `c.copy_from_slice`.

    python3 tools/keep_source_names.py [CRATE..]

A goal or a step that Rattle makes joins names of the source by dashes, and keeps their underscores.
"""
import glob
import os
import re
import sys

WORDS = ["slice_bounds", "overflow_add", "overflow_sub", "overflow_mul", "overflow_cast", "overflow_shl", "overflow_shr", "nonzero_div", "nonzero_rem", "type_inv", "invariant_of", "offset_bounds", "overflow_step", "in_ok", "in_err", "in_default"]
TOKEN = re.compile(r"[^\s(){}\[\],;:`\"\\|]+")
GENERATED = re.compile(r"\.Goals|\.Given")


def names_of(crate):
    found = set(WORDS)
    for f in glob.glob(f"crates/{crate}/src/**/*.rt", recursive=True):
        text = re.sub(r"//.*", "", open(f, encoding="utf-8").read())
        found.update(w for w in re.findall(r"\b[A-Za-z]\w*_\w+\b", text))
    return sorted(found, key=lambda w: (-len(w), w))


def main():
    crates = sys.argv[1:] or sorted(os.listdir("crates"))
    for crate in crates:
        names = names_of(crate)
        pattern = re.compile(r"(?<![A-Za-z0-9_])(" + "|".join(re.escape(n.replace("_", "-")) for n in names) + r")(?![A-Za-z0-9_'])")
        back = {n.replace("_", "-"): n for n in names}
        files = glob.glob(f"crates/{crate}/proofs/**/Answers.antt", recursive=True) + glob.glob(f"crates/{crate}/proofs/**/Invariants.antt", recursive=True)
        for f in files:
            text = open(f, encoding="utf-8").read()
            imported = set()
            for path, items in re.findall(r"^\s*(?:pub )?use ([^\s{]+?)\.?\{([^}]*)\}", text, re.M):
                if not GENERATED.search(path):
                    imported.update(i.strip().split(" as ")[-1].strip() for i in items.split(","))

            def turn(m):
                token = m.group(0)
                if token in imported:
                    return token
                parts = token.split(".")
                return ".".join(p if p in imported and i == 0 else pattern.sub(lambda n: back[n.group(1)], p) for i, p in enumerate(parts))

            out = []
            for line in text.split("\n"):
                if re.match(r"^\s*(pub )?use ", line) and not GENERATED.search(line):
                    out.append(line)
                else:
                    out.append(TOKEN.sub(turn, line))
            new = "\n".join(out)
            if new != text:
                open(f, "w", encoding="utf-8").write(new)


main()
