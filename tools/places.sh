#!/bin/sh
# Lists, at a commit (HEAD if none is named), the places in src/ at which docs/DESIGN-PASS.md counts: a heading for each kind with the number of its lines, then the lines.
# Run at the top of the repository. With -c it prints the headings alone.
only_counts=no
if [ "$1" = "-c" ]; then
    only_counts=yes
    shift
fi
at=${1:-HEAD}

# kind, then a pattern of git grep -E over the sources
show() {
    lines=$(git grep -nE "$2" "$at" -- 'crates/*/src/*.rt' | sed "s,^$at:crates/,,")
    count=$(printf '%s' "$lines" | grep -c '')
    echo "$1: $count"
    if [ "$only_counts" = no ] && [ "$count" -gt 0 ]; then
        printf '%s\n' "$lines" | sed 's/^/    /'
    fi
}

show '1a cases of own enums that say yes, no or nothing' '^ *(Free|Done|Accepted|Refused\(.*\)|NotUnderstood),$'
show '1b numbers for kinds or refusals' 'fn (number|number_of|state)\('
show '1c flags in a struct' '^ +(pub |pub\(crate\) )?[a-z_]+: bool,$'
show '1d changes that answer a bool' 'fn [a-z_0-9]+(<.*>)?\(.*&mut .*\) -> bool|^\) -> bool$'
show '1e outcomes handed on by a match' 'Some\([a-z]+\) => (return |apply\()|(None|Some\([a-z]+\)|Err\([a-z_]+\)|Ok\([a-z_]+\)) => Err\(|None => None'
show '1f outcomes handed on by a let with an else' 'let (Some|Ok)\(.*else \{$'
show '3a loops over a range' '^ *for .* in .*\.\.'
show '3b searches and counts written as a loop over a list' '^ *for (label|entry|version|call|\(call, answer\)|\(rank, walls\)) in (labels|entries|row|calls)'
show '3c counters' '\+= 1;'
show '4a comparisons written by hand' 'impl (PartialEq|Eq|PartialOrd|Ord) for|fn stands_before'
show '4b matches on a state of two cases' 'match .*state \{'
show '4c fields copied one by one' '^ +(number|stamp|mark|state|value): version\.'
show '4d conversions and texts in a function of another name' 'fn (entry_of|reason|print_version|number|number_of|state)\('
show '5a level and number of a transaction as parameters' 'level: u8, number: u32'
show '5b the fact that bytes are an image' 'requires.*\{ IsImage bytes'
show '5c the fact that a list has its length' '(requires|ensures) full '
show '5d number, stamp and value of a write as parameters' 'number: u32, stamp: u32, value: u64|^ +stamp: u32,$'
show '6 arrays with a length beside' '^ +(pub |pub\((crate|super)\) )?(count|used): (u8|u32|usize),$'
show '7 tests and steps told by a value' '^(pub )?enum (Reach|Wanted|End) |^trait Test |^struct (Single|Pair|Triple) '
