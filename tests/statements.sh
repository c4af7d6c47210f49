#!/usr/bin/env bash
# Holds what is proved, and by which kit, against what is on file:
#   the kit is the one that .ci/kit names;
#   the record Demands of format/specs/Demands has just the fields of statements.txt, each theorem of its own type;
#   format/proofs/Demands gives one value of that record, of that type;
#   the files of values.txt give a value of the type beside them, which is of the specs of their crate.
# A proved crate says that its declarations have their types; that they are these declarations is said here. The last line is 'N passed, M failed'.
set -u
cd "$(dirname "$0")/.."
passed=0 failed=0
specs=crates/format/specs/Demands.antt proofs=crates/format/proofs/Demands.antt

expect() {
    if [ "$2" = "$3" ]; then
        passed=$((passed + 1))
    else
        printf '%s: not as on file\n%s\n' "$1" "$(diff <(echo "$2") <(echo "$3"))"
        failed=$((failed + 1))
    fi
}

# The fields of the record Demands, a line 'NAME : TYPE' for each.
fields() {
    awk '/^pub record Demands /  { inside = 1; next } inside && !/^  pub / { inside = 0 } inside { sub(/^  pub /, ""); print }' "$specs"
}

# The lines of the proof that speak of the record: its import and the declaration of its value.
value() {
    grep -E '(^| )Demands|[{,]Demands' "$proofs" | grep -v '^--'
}

# The declarations of other values on file, each with the import of its type.
values() {
    while read -r file type; do
        printf '%s %s\n' "$file" "$type"
        grep -qE "^use Rattle\.$(cut -d / -f 2 <<<"$file")\.specs\.[A-Z][A-Za-z]*\.\{(.*, )?$type(,.*)?\}\$" "$file" || echo "$file does not import $type from the specs of its crate"
        grep -qE "^pub [a-z_]+ :.*(^|[^A-Za-z_])$type( |\$)" "$file" || grep -qE "^    → $type " "$file" || echo "$file has no value of $type"
    done < tests/values.txt
}

expect "the kit" "$(cat .ci/kit)" "$(rt version)"
expect "$specs: the record Demands" "$(cat tests/statements.txt)" "$(fields)"
expect "$proofs: the value of Demands" "use Rattle.format.specs.Demands.{Demands}
pub demands : Demands" "$(value)"
expect "the agreements, what checking hands out, and the cases that pin" "$(cat tests/values.txt)" "$(values)"

echo "$passed passed, $failed failed"
[ "$failed" -eq 0 ]
