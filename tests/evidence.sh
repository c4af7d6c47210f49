#!/usr/bin/env bash
# Checks docs/EVIDENCE.md: every place that an entry names is there, of the kind that stands before it, and what stands in backquotes is declared there.
# Places are separated by semicolons. A place is one of
#   KIND FILE `name`, ..     KIND is DEF, EQ, THM, RUN, DOC, SRC or GATE. A file of tests/, docs/, examples/, include/, tools/ or .ci/, Makefile and crates.txt
#                            stand as they are written, any other below crates/, with .antt where it has no ending; a folder ends in a slash
#   case WORDS               the entry under this comment in crates/format/specs/Cases.antt
#   must-fail CRATE/EDIT
# An entry of a later request says so and is counted apart. The last line is 'N passed, M failed'.
set -u
cd "$(dirname "$0")/.."
passed=0 failed=0 later=0
declare -A declared seen

# The names that files declare, a line 'FILE NAME' for each: in .antt what stands before the first ' : ' of a line, and the fields that a record's value gives;
# in .rt and .rs items, their public fields and variants; in .md headings.
declarations() {
    find crates tests docs \( -name '*.antt' -o -name '*.rt' -o -name '*.rs' -o -name '*.md' \) -print0 | xargs -0 awk '
        FILENAME ~ /\.md$/ { if (sub(/^#+ /, "")) print FILENAME " " $0; next }
        /^ *(--|\/\/)/ { next }
        FILENAME ~ /\.r[ts]$/ {
            if (match($0, /(fn|struct|enum|const) [A-Za-z0-9_]+/) || match($0, /^ *pub [a-z0-9_]+:/)) {
                split(substr($0, RSTART, RLENGTH), item, /[ :]+/)
                print FILENAME " " (item[1] == "" ? item[3] : item[2])
            } else if (variants && match($0, /^ *[A-Z][A-Za-z0-9]*/)) {
                print FILENAME " " substr($0, RSTART + 4, RLENGTH - 4)
            }
            variants = /enum / || variants && !/}/
            next
        }
        /^  [^ ]+ = .*;$/ { print FILENAME " " $1 }
        !/ : / { next }
        {
            before = substr($0, 1, index($0, " : ") - 1)
            if (before ~ /=|→ |∷|λ/) next
            count = split(before, word, " ")
            for (i = 1; i <= count && word[i] !~ /^[({]/; i++) if (word[i] !~ /^(abbrev|unfoldable|pub|data|record)$/) print FILENAME " " word[i]
        }'
}

# The file that a place names.
file_of() {
    case $1 in
    tests/* | docs/* | examples/* | include/* | tools/* | .ci/* | Makefile | crates.txt) echo "$1" ;;
    *.rt | */ | verdict/std*) echo "crates/$1" ;;
    *) echo "crates/$1.antt" ;;
    esac
}

# May a file be evidence of a kind?
kind_fits() {
    case "$1 $2" in
    "DEF crates/"*/specs/*.antt | "THM crates/"*/proofs/*.antt | "EQ crates/"*/specs/*.antt | "EQ crates/"*/src/*.rt) ;;
    "RUN tests/"* | "RUN examples/"* | "RUN crates/verdict/std"* | "DOC docs/"* | "DOC include/"* | SRC\ * | GATE\ *) ;;
    *) return 1 ;;
    esac
}

# Is a vector among those that are run?
is_run() {
    local name=${1##*/}
    [[ $1 == tests/vectors/* ]] || return 0
    [[ $1 =~ \.(question|first)$ ]] && name=${name%.*}
    grep -q "^$name	" "${1%/*}/expected.tsv"
}

# Is a name declared in a file, or, in a file of another language, does it stand there as a word?
has_name() {
    case $1 in
    *.antt | *.rt | *.rs | *.md) [ -n "${declared["$1 $2"]-}" ] ;;
    *) grep -qwF -- "$2" "$1" ;;
    esac
}

place_stands() {
    local kind path file name
    if [[ $1 =~ ^must-fail\ ([a-z_]+)/([a-z0-9_]+)$ ]]; then
        [ -f "crates/${BASH_REMATCH[1]}/must-fail/${BASH_REMATCH[2]}.edit" ]
        return
    fi
    if [[ $1 == "case "* ]]; then
        grep -qxF -- "    -- ${1#case }" crates/format/specs/Cases.antt
        return
    fi
    read -r kind path _ <<<"$1"
    file=$(file_of "$path")
    [ -e "$file" ] && kind_fits "$kind" "$file" && is_run "$file" || return 1
    while read -r name; do
        has_name "$file" "$name" || return 1
    done < <(grep -o '`[^`]*`' <<<"$1" | tr -d '`')
}

while read -r line; do declared["$line"]=1; done < <(declarations)

while IFS='|' read -r _ id _ places _; do
    id=${id// /}
    [[ $id =~ ^[A-Z][A-Za-z0-9]*(-[A-Z]+)?-[0-9]+$ ]] || continue
    bad=""
    [ -z "${seen[$id]-}" ] || bad=" a second time"
    seen[$id]=1
    if [[ -z $bad && $places == *"later request"* ]]; then
        later=$((later + 1))
        continue
    fi
    [ -n "${places// /}" ] || bad="$bad no place"
    while read -r place; do
        [ -z "$place" ] || place_stands "$place" || bad="$bad [$place]"
    done < <(tr ';' '\n' <<<"$places")
    if [ -z "$bad" ]; then
        passed=$((passed + 1))
    else
        echo "$id: not so:$bad"
        failed=$((failed + 1))
    fi
done < <(sed 's/\\|/¦/g' docs/EVIDENCE.md)

echo "evidence: $later entries belong to later requests and are not counted"
echo "$passed passed, $failed failed"
[ "$failed" -eq 0 ]
