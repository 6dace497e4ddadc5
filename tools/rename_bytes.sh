#!/usr/bin/env bash
# Renames our crate `bytes`, whose name a library of the kit has, to `byte_lists`. Run once, at the top of the repository, after
# tools/respell.py.
set -euo pipefail
mv crates/bytes crates/byte_lists
find crates -name '*.antt' -o -name '*.rt' | xargs sed -i -E 's/\bRattle\.bytes\./Rattle.byte_lists./g; s/^(\s*(pub )?use )bytes::/\1byte_lists::/'
find crates -name '*.edit' | xargs sed -i -E 's/^((old|new): *(pub )?use )bytes::/\1byte_lists::/'
sed -i -E 's/^bytes:/byte_lists:/; s/ bytes\b/ byte_lists/g' crates.txt
