#!/usr/bin/env bash
# Counts, in crates/*/src at a commit, the places that today's forms could take: tools/count_forms.sh COMMIT [list]
# With "list" it prints the places too. A line that is found is not always a place: docs/DESIGN-PASS.md says which are.
cd "$(dirname "$0")/.." || exit 1
commit=${1:-HEAD}
src='crates/*/src/*.rt'
places() { # NAME PATTERN
    local found
    found=$(git grep -nE "$2" "$commit" -- "$src" | sed -E 's/^[^:]*:crates\///')
    printf '%-62s %s\n' "$1" "$(printf '%s' "$found" | grep -c '')"
    if [ "$mode" = list ] && [ -n "$found" ]; then printf '%s\n' "$found" | sed 's/^/    /'; fi
}
twice() { # NAME PATTERN
    local found
    found=$(git grep -hoE "$2" "$commit" -- "$src" | sed -E 's/.* //' | sort | uniq -d | tr '\n' ' ')
    printf '%-62s %s: %s\n' "$1" "$(printf '%s' "$found" | wc -w)" "$found"
}
mode=$2
places "1 a kind told by a number, or a tuple of bare numbers" 'kind: u32|kind\(booking: Booking\) -> u32|\(u32, u32, u32\)'
places "1 a refusal as two numbers" 'detail: u32|Refused \{ number|Refused\(Refusal \{'
places "1 a refusal or a fault handed on by a match" 'Err\([a-z_]+\) => (Err|.*Refused)'
places "1 a variant or a flag that says none" 'Command::Unclear|Word::Other|io::Result<bool>|Result<Result'
printf '%-62s %s\n' "1 a let-else that only returns" "$(git grep -hE -A1 'else \{$' "$commit" -- "$src" | grep -cE 'return (None|Err\(|Ok\(false|Reply::NotUnderstood|Command::Unclear|Ok\(Command::Unclear)')"
twice "2 functions that stand twice, by name" '^ *(pub(\([a-z]+\))? )?fn [a-z_0-9]+'
twice "2 types that stand twice, by name" '^(pub(\([a-z]+\))? )?(struct|enum) [A-Za-z0-9]+'
places "3 a loop over a range of numbers" 'for [a-z_]+ in [0-9a-z_.()]+\.\.'
places "3 a while over an index" '^ *while [a-z_.]+ <'
places "4 equality written by hand" '^impl.* (PartialEq|Eq|Clone|Default|Ord|PartialOrd) for'
places "4 a conversion as a function of its own" 'fn (of_[a-z]+|refusal|told|refused)\('
places "4 a cast" ' as (u8|u16|u32|u64|usize)([^a-z0-9_]|$)'
printf '%s\n' "5 facts that stand in three contracts or more"
git grep -hoE 'requires ([a-z_]+ )?\{[^}]*\}' "$commit" -- "$src" | sed -E 's/requires ([a-z_]+ )?//' | sort | uniq -c | sort -rn | awk '$1 >= 3'
places "6 an array of fixed size in a struct" '^ +(pub )?[a-z_]+: \[[A-Za-z<>:]+; [0-9A-Z_]+\],'
places "7 a closure, or a function that takes one" '\|[a-z_, &()]*\| |F: Fn'
printf '%-62s %s\n' "8 files of answers" "$(git ls-tree -r --name-only "$commit" -- crates | grep -c 'Answers.antt')"
printf '%-62s %s\n' "8 lines of proofs" "$(git grep -h '' "$commit" -- 'crates/*/proofs/*' | wc -l)"
printf '%-62s %s\n' "  lines of src" "$(git grep -h '' "$commit" -- "$src" | wc -l)"
printf '%-62s %s\n' "  lines of specs" "$(git grep -h '' "$commit" -- 'crates/*/specs/*' | wc -l)"
