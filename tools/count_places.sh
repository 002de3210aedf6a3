#!/bin/sh
# Counts the places that the design pass looks at, point by point; `-l` lists them too.
# To count another commit: `git worktree add /tmp/then COMMIT`, copy this file there, and run it.
cd "$(dirname "$0")/.." || exit 1
list=$1
src=$(ls crates/*/src/*.rt)

count() {
    name=$1
    found=$(cat)
    printf '%s: %s\n' "$name" "$(printf '%s' "$found" | grep -c .)"
    if [ "$list" = -l ]; then printf '%s\n' "$found"; fi
}

grep -nE '^\s*(pub(\(crate\))? )?enum ' $src | count '1 own enums'
grep -nE 'Result<.*, (u8|u16|u32|u64|usize|bool)>' $src | count '1 numbers as errors'
grep -nE 'Result<.*, \(' $src | count '1 pairs as errors'
grep -nE -e '-> Option<Reason>' $src | count '1 refusals by Option'
grep -nE 'Err\(\w+\) => (return )?Err\(' $src | count '1 errors passed on by hand'
grep -nE '(match self\.number\(\)|Answer::Refused)' $src | count '1 numbers in place of kinds, an enum with a case for its error'
grep -ohE '\bfn \w+' $(ls $src | grep -v tests.rt) | sort | uniq -d | count '2 function names with more than one body'
grep -nE '\[[^]]+; (MOST_CLAIMANTS|ROOMS)\]' $src | count '2 blank arrays that differ in a type'
grep -nE '\.enumerate\(\)' $src | count '3 indices by enumerate'
grep -nE '^\s*(while|loop)\b' $src | count '3 while and loop'
grep -nE '^\s*(count|next|line|room) (\+= 1;|= \w+\.saturating_add\(1\))' $src | count '3 counters of loops'
grep -nE '^\s*(sum|value|left|passed|found\.\w+) ([-+]=|= \w+(\.saturating_add\(| \* 10))' $src | count '3 sums by hand'
grep -nE '^\s*impl(<[^>]*>)? (fmt::)?(PartialEq|Eq|PartialOrd|Ord|Clone|Copy|From<[^>]+>|TryFrom<[^>]+>|Display|Debug|Drop) for ' $src | count '4 impls of the common traits'
grep -nE '\bas (u8|u16|u32|u64|u128|i64|usize)\b' $src | count '4 conversions by as'
grep -nE 'fn put_\w+' $(ls $src | grep paper_text) | count '4 functions that put text by hand'
grep -noE '\b(table_items|plan_of|state_of|period_of|spot_of)\b' $src | count '5 views written out'
grep -hoE '^\s*(requires|ensures) .*' $src | sed 's/^ *//' | sort | uniq -c | awk '$1 > 2' | count '5 clauses that stand three times or more'
grep -nE '(place|buffer|answers): &mut \[' $src | count '6 slices that are written beside what is written'
grep -nE '^\s*(let \w+ = )?match \(?(self\.)?(tables\.)?(method|stage|call|event|ending)\b' $src | count '7 matches on what to run'
find crates -path '*/proofs/*' -name Answers.antt | grep -v /out/ | count '8 files of answers'
cat $(find crates -path '*/proofs/*' -name Answers.antt | grep -v /out/) | grep -E '^pub [^ ]+ :' | count '8 answers'
cat $(find crates -path '*/proofs/*' -name '*.antt' | grep -v /out/) | count '8 lines of proofs'
