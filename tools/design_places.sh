#!/usr/bin/env bash
# Lists the places of src/ that docs/DESIGN-PASS.md judges, by its points, each with its count. With a commit as the
# argument it reads that commit, else the files as they stand.
set -u
cd "$(dirname "$0")/.." || exit 2
at=${1:-}

# The lines of src/ that fit one of the patterns, without comments and imports.
lines() {
    local patterns=()
    for pattern; do patterns+=(-e "$pattern"); done
    git grep -nE "${patterns[@]}" ${at:+"$at"} -- 'crates/*/src/*.rt' |
        sed -E 's/^([0-9a-f]{7,40}:)?crates\///' | grep -vE '\.rt:[0-9]+: *(//|ghost use |use )'
}

show() {
    local title=$1 found
    shift
    found=$("$@")
    printf '== %s: %s\n' "$title" "$(printf '%s' "$found" | grep -c '')"
    [ -z "$found" ] || printf '%s\n' "$found"
}

# The names of functions that are written in more than one file, with the files.
names_twice() {
    lines '\bfn [a-z_0-9]+' | sed -E 's/^([^:]*):[0-9]+:.*\bfn ([a-z_0-9]+).*/\2 \1/' | sort -u |
        awk '{files[$1] = files[$1] " " $2; n[$1]++} END {for (f in n) if (n[f] > 1) print f ":" files[f]}' | sort
}

# The facts that stand in the contracts of three and more functions of a crate, with how many times.
facts() {
    lines '^ *(requires|ensures)' | sed -E 's/^([^\/]*)\/[^ ]* *(requires|ensures) ?[a-z_0-9]* *\{ *(.*) \}$/\1\t\3/' |
        awk -F'\t' '{k = split($2, part, / (→|×) /); for (i = 1; i < k + (k == 1); i++) {gsub(/[()]/, "", part[i]); print $1 ": " part[i]}}' |
        grep -v ' : ' | sort | uniq -c | awk '$1 >= 3' | sort -rn
}

show '1 numbers and flags in place of types' lines \
    '^ *pub fn .*-> u8$' '\b(layer|class|last|wanted|kind|sealed|is_over|minus): (u8|u32|bool)' \
    'fn (class|number_of|pivot_row|eliminate_column|eliminate_all|attempt|tree_mark|row_alone|placed_on|accepted|at_card|at_sheet|replay_call)\b' \
    'usize::MAX' '^const [A-Z]+: u(8|32) = [0-9];' '\bNeither\b,'
show '2 names of functions written in two files' names_twice
show '3 while loops, counters by hand and loops over a range' lines \
    'while ' '[+-]= [12];' '(saturating|wrapping)_add\(1\)' '\bfor .* in .*\.\.'
show '3 loops that look for, count, fill or compare' lines \
    '^ *if .*\b(is_entry|is_digit|stop|LINE_END|has\(word, k\)|may_divide)\b.*\{$' '^ *\*(row|place|label) = ' '^ *[a-z]+\[[a-z]+( as usize)?\] = '
show '4 equality, order, copying, conversion and printing by hand' lines \
    'fn (number|letter|numbered|lettered|same|is_same_row|are_same|turn|digit|is_marked|is_minus|code|is_digit|lesser_of|greater_of)\b' \
    'let number = .*\.number\(\)' '(members|value): (0|zero),$'
show '5 facts that stand in three and more contracts' facts
show '5 parameters that travel together' lines 'heap: Global, text: &mut String|^    heap: Global,$|frame: &Frame, area|^    frame: &Frame,$|work: &(mut )?\[N\], unknowns|currents: &\[N\], voltages'
show '6 arrays of a fixed size' lines '\[[^]]*; ([0-9]{2,3}|[A-Z_]{4,})\]'
show '7 closures and function types' lines '\bFn(Mut|Once)?\(' '\bdyn '
printf '== 8 lines of proofs: %s\n' "$(for f in $(git ls-tree -r --name-only "${at:-HEAD}" crates | grep '/proofs/.*\.antt$'); do git show "${at:-HEAD}:$f"; done | wc -l)"
