#!/usr/bin/env bash
# Counts, in the sources of all crates, the places that docs/DESIGN-PASS.md speaks of, point by point.
# Run at the top of the repository; with `-l` it lists the lines instead. A count is of places to look at: the page says which stay.
set -u
cd "$(dirname "$0")/.." || exit 1
list=${1:-}

# A label, then the lines that the rest of the arguments print.
show() {
    local label=$1
    shift
    if [ "$list" = "-l" ]; then
        echo "== $label"
        "$@"
    else
        printf '%5d  %s\n' "$("$@" | wc -l)" "$label"
    fi
}

in_src() { grep -rnE "$1" crates/*/src --include=*.rt; }
none_by_hand() { grep -rnE -A1 'let (Some|Ok)\(.*else \{' crates/*/src --include=*.rt | grep -E 'return (None|Err\(e)' ; }
indexed() { in_src '^\s*for \w+ in [0-9a-zA-Z_.]+\.\.|^\s*while |\.enumerate\(\)'; }
blanks() { in_src 'fn (blank\w*|work_area|\w+_room)\(\)'; }
# Facts of a `requires` that stand three times or more.
repeated() {
    grep -rhE '^\s+requires' crates/*/src --include=*.rt | sed -E 's/^\s+requires( \w+)? \{ (.*) \}/\2/; s/×/\n/g' |
        sed -E 's/^[ (]+//; s/[ )]+$//' | sort | uniq -c | sort -rn | awk '$1 >= 3'
}
repeated_places() { repeated | awk '{ for (i = 0; i < $1; i++) print }'; }

show '1 enums of our own' in_src '^\s*(pub )?enum '
show '1 functions that answer a bool' in_src '\) -> (bool|anyhow::Result<bool>)'
show '1 numbers in place of cases: number, byte, p1, of' in_src 'fn (number|byte|p1|of|load_number)\('
show '1 a number alone as an answer' in_src '^\s+(return )?[0-9]+;?$'
show '1 None handed on by let-else' none_by_hand
show '2 rooms of zeros, one for each length' blanks
show '2 arrays copied out of slices by hand' in_src 'fn (sixteen\w*|forty|cut|mac_part|keys_part|des_at|aes_at|aes_of|word_at|amount_in|exactly)\b'
show '2 look-ups, one for each type or constant' in_src 'fn (key|master|connection)_(named|at)\(|fn free_(key|master|connection)\(|fn (masters|connections|transactions)_line\(|fn (two|three)_key\('
show '2 the same type again' in_src '(struct Paid|enum Kind|enum Way|fn suite_of|fn same_bytes|fn is_same|fn (data|le)_alone)\b'
show '3 loops that count an index, or take one beside the item' indexed
show '3 other loops' in_src '^\s*for (\w+|\(.*\)) in [^.]*$|^\s*for .* in .*\(\)? \{'
show '4 conversions by hand' in_src 'fn (read|named|of|byte|bytes|number|words|p1|same)\('
show '4 match on every case for a bool' in_src '(Body|Talk)::\w+(\(_(, _)?\))? => (false|None|&\[\]),'
show '5 facts in three requires or more, each place' repeated_places
show '5 parameters on lines of their own, in long signatures' in_src '^    (&self|&mut self|self|\w+: &?(mut )?[A-Z&].*),$'
show '6 a length, a count or a place beside a fixed buffer' in_src '^\s+(pub(\(crate\))? )?(len|filled|count|at|given): usize,'
show '7 a switch on which step, a table of tests' in_src 'enum (Way|Order)\b|trait Stays|match way|match order'
