#!/usr/bin/env bash
# Names that tools/respell.py passed over: names local to a definition, and three that the kit's script had turned to something
# else. Run once, at the top of the repository, after tools/rename_bytes.sh.
set -euo pipefail
turn() { # FILE OLD NEW: the name OLD becomes NEW in FILE, if that is there
    [ ! -f "$1" ] || sed -i -E "s/(^|[^A-Za-z0-9_'-])$2([^A-Za-z0-9_'-]|\$)/\1$3\2/g; s/(^|[^A-Za-z0-9_'-])$2([^A-Za-z0-9_'-]|\$)/\1$3\2/g" "$1"
}
for name in ref weak masters connections transactions; do
    turn crates/personalise/specs/Load.antt "from-$name" "from_$name"
    turn crates/personalise/proofs/OnlyWritten.antt "from-$name" "from_$name"
done
turn crates/law/specs/Laws.antt value-sent value_sent
turn crates/law/specs/Ruled.antt In-order InOrder
turn crates/law/specs/Held.antt get_or slice_index_or
sed -i "s/map, slice_index_or, Some, None, Option, slice_index_or}/map, Some, None, Option, slice_index_or}/" crates/law/specs/Held.antt
turn crates/pair/proofs/Continued.antt came-left came_left
turn crates/pair/proofs/Continued.antt came-right came_right
turn crates/sha256/proofs/Taking.antt Goes_on GoesOn
turn crates/des_tables/proofs/Bits.antt get_d_bits get_or_bits
turn crates/des/proofs/Choosing.antt get_d_bits get_or_bits
turn crates/byte_lists/specs/Bytes.antt get_or slice_index
