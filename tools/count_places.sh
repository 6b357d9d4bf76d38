#!/bin/sh
# Counts, in the sources of a checkout, the places that docs/DESIGN-PASS.md speaks of, a line for each count.
# Run it at the top of the checkout. What a pattern finds is read before it is called a place.
show() { printf '%-36s %s\n' "$1" "$(printf '%s' "$2" | grep -c .)"; }
src() { grep -rnE "$1" crates/*/src --include='*.rt'; }

show '1 errors matched to be passed on' "$(src 'Err\([a-z]+\) => (return )?Err\([a-z]+\)')"
show '1 options matched to be rebuilt' "$(src 'None => None')"
show '1 cell tests written out' "$(src 'return Err\(Refusal::NoCell\)')"
show '1 own enums' "$(src '^(pub(\(crate\))? )?enum ')"
show '2 names of more than one function' "$(grep -rhoE '^ *(pub(\(crate\))? )?fn [a-z_]+' crates/*/src --include='*.rt' | sed 's/.*fn //' | sort | uniq -d)"
show '3 loops' "$(src '^ *(for|while|loop) ')"
show '3 counters moved by hand' "$(src '[a-z_]+ (\+|-)= 1;')"
show '4 conversions and names by hand' "$(src 'fn (number|name|status|of|stored|is_above|is_pending)\b|fn print_')"
show '4 types that derive only Copy' "$(src '^#\[derive\(Clone, Copy\)\]')"
show '5 requires that stand thrice or more' "$(grep -rhoE 'requires( [a-z]+)? \{.*\}' crates/*/src --include='*.rt' | sed -E 's/requires( [a-z]+)? //' | sort | uniq -c | awk '$1 >= 3')"
show '5 clauses that hold such a fact' "$(grep -rhoE 'requires( [a-z]+)? \{.*\}' crates/*/src --include='*.rt' | sed -E 's/requires( [a-z]+)? //' | sort | uniq -c | awk '$1 >= 3 { for (i = 0; i < $1; i++) print i }')"
show '5 records and first travelling' "$(src 'records: &\[Record\], *first|^ *records: &\[Record\],$')"
show '5 seats travelling' "$(src 'seat: Seat')"
show '6 fields len, used, count' "$(src '^ *(pub(\(crate\))? )?(len|cells|used|count|free_count): u')"
show '7 matches on a call beside a state' "$(src 'match \(self')"
show '8 answers' "$(grep -rhE '^pub ' crates/*/proofs --include='Answers.antt')"
show '8 lines of proofs, none blank' "$(find crates/*/proofs -name '*.antt' -exec cat {} +)"
show '8 lines of src, none blank' "$(find crates/*/src -name '*.rt' -exec cat {} +)"
