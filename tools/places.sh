#!/bin/sh
# Lists the places in crates/*/src that docs/DESIGN-PASS.md counts, point by point, each with a count. Run at the top of a checkout.
# A line is a place to look at, not a verdict.
show() { # TITLE PATTERN..: the lines of the sources, without comments, that match the pattern
    title=$1; shift
    echo "== $title"
    grep -rnE "$@" crates/*/src --include='*.rt' | grep -vE '^[^:]*:[0-9]+:\s*//' | tee /tmp/places.$$
    echo "-- $(wc -l < /tmp/places.$$)"
    rm -f /tmp/places.$$
}

show '1a enums' '^\s*pub (\(crate\) )?enum |^enum '
show '1b flags in structs' '^\s+(pub )?[a-z_]+: bool,$'
show '1c numbers for refusals and kinds' 'Result<[^<>]*, u(8|16|32|64|size)>|: u8 = |"[0-9]" =>|\[[0-9]+, \.\.\]'
show '1d an Option inside a Result' 'Result<Option<'
echo '== 2a functions of one shape'
python3 "$(dirname "$0")/twins.py" 8
echo '== 2b names that two crates define in specs/'
grep -roE '^(abbrev |unfoldable )?pub [A-Za-z_]+ :' crates/*/specs --include='*.antt' | sed -E 's/^crates\/([a-z_]+)\/.*pub ([A-Za-z_]+) :$/\2 \1/' | sort -u \
    | awk '{ n[$1]++; at[$1] = at[$1] " " $2 } END { for (w in n) if (n[w] > 1) { print w ":" at[w]; k++ } print "-- " k + 0 }'
show '3 loops over an index, and while' 'for [a-z_]+ in .*\.\.|\bwhile '
show '4a printing by hand' 'fn (push_[a-z_]+|render)\b'
show '4b conversions by as' ' as (char|u8|u16|u32|u64|u128|usize)\b'
show '4c conversions and comparisons by hand' '^fn (larger|numbered|refusal_of|verb_of|digit|hex_digit|two_bytes|cut|append|all_zero)\b'
echo '== 5 clauses that stand in three functions or more'
grep -rhoE '(requires|ensures)( [a-z_]+)? \{.*' crates/*/src --include='*.rt' | sort | uniq -c | awk '$1 >= 3 { print; k++ } END { print "-- " k + 0 }'
show '6 a length or a count beside bytes, rows of lengths' '^\s+(pub )?(len|count|[a-z]+_length): (u8|usize),|Vec<[A-Za-z]*Row>'
show '7 a parameter that says which step to run' '\b(part: Part|question: Question|verb: Verb)\b'
echo '== 8 proofs'
for crate in crates/*; do
    echo "$(basename "$crate") $(find "$crate/proofs" -name '*.antt' 2>/dev/null | xargs -r cat | wc -l) lines, $(find "$crate/proofs" -name Answers.antt 2>/dev/null | wc -l) files of answers"
done
echo "-- $(find crates/*/proofs -name '*.antt' | xargs cat | wc -l) lines, $(find crates/*/proofs -name Answers.antt | wc -l) files of answers"
