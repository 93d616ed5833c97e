#!/usr/bin/env bash
# Counts, in the sources of a commit (default HEAD), the lines of which docs/DESIGN-PASS.md speaks.
#   tools/count_places.sh [COMMIT]          the counts
#   tools/count_places.sh COMMIT NAME       the lines of one of them
set -euo pipefail
cd "$(dirname "$0")/.."
commit=${1:-HEAD}
src='crates/*/src/*.rt'
proofs='crates/*/proofs/*.antt'

names=(enums kinds_by_number names_used_twice counted_loops hand_equality requires sheet_lent caller_models slices_by_index tables_and_counts answers)
declare -A pattern=(
    [enums]='^ *(pub )?enum '
    [kinds_by_number]='(^|\| ) *[0-9]+ =>|(kind|sub|mark) (==|<=) [0-9]+'
    [counted_loops]='while |for [a-z_]+ in [^{]*\.\.'
    [hand_equality]='fn (is_punct|is_mark|is_minus|is_spelled|view_at|delimiter_of|part_of|char_of|literal_of|token_of)\b|TextPart \{$'
    [requires]='^ +requires '
    [sheet_lent]='sheet: &Sheet'
    [caller_models]='model C\.Caller'
    [slices_by_index]='[a-z]\[[a-z0-9_.]+( [-+*] [0-9a-z]+)?\]'
    [tables_and_counts]='count: usize, (table|names)|count: usize,$|names: &'"'"'?[a-z]* ?\[u8\]'
    [answers]='^pub [a-z].* : goal\.'
)

lines() {
    case $1 in
        names_used_twice) git grep -hoE 'fn [a-z_0-9]+' "$commit" -- "$src" ':!crates/*_tests/*' | sort | uniq -d ;;
        answers) git grep -nE "${pattern[$1]}" "$commit" -- "$proofs" ;;
        *) git grep -nE "${pattern[$1]}" "$commit" -- "$src" ;;
    esac
}

if [ $# -ge 2 ]; then
    lines "$2"
else
    for name in "${names[@]}"; do
        printf '%-18s %s\n' "$name" "$(lines "$name" | wc -l)"
    done
fi
