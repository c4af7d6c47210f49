#!/usr/bin/env bash
# Counts what must not become fewer and holds it against the numbers on file in tests/floors.tsv: the vectors of each operation (the lines of
# expected.tsv at all levels), those of buffer sizes, the starred cases, those of Sums and Joins of equations, those of extended constraints, the computed cores,
# the computed normal forms, the cases that pin and the edits that must fail. The last line is 'N passed, M failed'.
set -u
cd "$(dirname "$0")/.."
passed=0 failed=0
declare -A found least

# A line 'OPERATION COUNT' for each folder's operation. base holds tickets itself, and two levels hold pairs of them in two folders.
vectors() {
    find tests/vectors -name expected.tsv -print0 | xargs -0 awk '
        /\t/ {
            depth = split(FILENAME, part, "/")
            folder = part[depth - 1]
            count[folder ~ /^(base|first|second|before|after)$/ ? "check" : folder]++
        }
        END { for (name in count) print name, count[name] }'
}

# The entries of a list of cases, each of which begins a line with its constructor, and the parts of its proof, which the prover takes only when
# there is one for each entry. The smaller number counts.
cases() {
    local entries proofs
    entries=$(awk -v list="$1" '$0 == list " =" { inside = 1; next } !/^    / { inside = 0 } inside && /^    (∷ )?(checking|closing|writing|before|adding|judged)( |$)/ { n++ } END { print n + 0 }' crates/format/specs/Cases.antt)
    proofs=$(awk -v proof="$2" 'index($0, proof " =") == 1 { inside = 1 } /^$/ { inside = 0 } inside { n += gsub(/\(refl, /, "") } END { print n + 0 }' crates/*/proofs/Cases.antt)
    echo $((entries < proofs ? entries : proofs))
}

while read -r name count; do found[$name]=$count; done < <(
    vectors
    echo "buffers $(grep -c '	' tests/vectors/base/buffers.tsv)"
    echo "starred $(cases starred starred_hold)"
    echo "equations $(cases equation_cases equations_hold)"
    echo "extended $(cases extended_cases extended_hold)"
    echo "cores $(grep -c ' = refl$' crates/calculus/proofs/CoreCases.antt)"
    echo "normal-forms $(grep -c ' = refl$' crates/calculus/proofs/SameCases.antt)"
    echo "pinned $(grep -o 'refl, ' crates/pinned/proofs/Cases.antt | wc -l)"
    echo "must-fail $(find crates -path '*/must-fail/*.edit' | wc -l)"
)

while IFS=$'\t' read -r name count; do
    least[$name]=$count
    if [ "${found[$name]:-0}" -lt "$count" ]; then
        echo "$name: ${found[$name]:-0}, and $count are on file"
        failed=$((failed + 1))
    else
        [ "${found[$name]}" -eq "$count" ] || echo "$name: ${found[$name]}, more than the $count on file: the number can rise"
        passed=$((passed + 1))
    fi
done <tests/floors.tsv

for name in "${!found[@]}"; do
    if [ -z "${least[$name]-}" ]; then
        echo "$name: ${found[$name]}, and no number is on file"
        failed=$((failed + 1))
    fi
done

echo "$passed passed, $failed failed"
[ "$failed" -eq 0 ]
