#!/usr/bin/env bash
# Runs the host program of examples/host.c, whose path is the argument: on every example, some answers, some tickets and some pairs of questions, against the
# words on file, on every vector that has a core on file, against the constraints that took part, on every pair of questions on file, against what is expected,
# and under valgrind on vectors whose bytes are cut, damaged or too long, of which a part is shown, that need the most, or that are compared, where a read outside
# ticket, question or answer is an error. A run of the host that fails fails the test, whatever it printed. The last line is 'N passed, M failed'.
set -uo pipefail
host=$(realpath "$1")
cd "$(dirname "$0")/.."

# What the host says of every example, of answers, of tickets and of pairs of questions.
if tests/host/words.sh "$host" | diff tests/host/expected.txt -; then
    passed=1 failed=0
else
    passed=0 failed=1
fi

# Holds what the host says against the tables: reads lines of a path and what is expected of it. Given are what is held, how many at the least, and the function
# that puts what the host says of a path in the words of the table.
hold() {
    local what=$1 least=$2 said_of=$3 held=0 path expected said
    while IFS=$'\t' read -r path expected; do
        said=$("$said_of" "$path") || said="exit status $?"
        held=$((held + 1))
        if [ "$said" = "$expected" ]; then
            passed=$((passed + 1))
        else
            echo "$path: the host says '$said', expected is '$expected'"
            failed=$((failed + 1))
        fi
    done
    if [ "$held" -lt "$least" ]; then
        echo "$held $what are held, and $least are due"
        failed=$((failed + 1))
    fi
}

# The vectors with a core on file, each with its path and the core: that of the last changed.tsv that names it, else of its own expected.tsv.
cores() {
    find tests/vectors -name expected.tsv -o -name changed.tsv | sort -V | xargs awk -F '\t' '
        FILENAME ~ /expected\.tsv$/ && $1 ~ /\.ticket$/ && $4 ~ /^core/ { path = FILENAME; sub(/expected\.tsv$/, $1, path); core[path] = $4 }
        FILENAME ~ /changed\.tsv$/ && $1 == "check" && $5 ~ /^core/ { core["tests/vectors/" $2] = $5 }
        END { for (path in core) print path "\t" core[path] }' | sort
}

# The core is empty where the host names no constraints.
said_of_core() {
    "$host" "$1" | awk 'sub(/^constraints that took part:/, "") { core = $0 } END { print "core" core }'
}

# The pairs of questions on file, each with its path and what is expected: by the last changed.tsv that names it, else by its own expected.tsv.
pairs() {
    find tests/vectors -path '*/same/expected.tsv' -o -name changed.tsv | sort -V | xargs awk -F '\t' '
        FILENAME ~ /expected\.tsv$/ { path = FILENAME; sub(/expected\.tsv$/, $1, path); expected[path] = $2 }
        FILENAME ~ /changed\.tsv$/ && $1 == "same" { expected["tests/vectors/" $2] = $3 }
        END { for (path in expected) print path "\t" expected[path] }' | sort
}

said_of_pair() {
    "$host" same "$1.first" "$1.second" | sed -E '
        s/^the same question: .*/same/
        s/^not the same question$/different/
        s/^the (first|second) question is refused at record ([0-9]+): .*\(([0-9]+)\)$/refused \3 at \2 of \1/'
}

hold cores 50 said_of_core < <(cores)
hold pairs 80 said_of_pair < <(pairs)

# What the host is run on under valgrind, a line of arguments for each run.
runs() {
    # Checking and counting of needs: the vectors that are refused with 2 or 3, and every fifteenth of those that are refused with 4 to 6 or bring strings.
    find tests/vectors -name expected.tsv | sort | xargs awk -F '\t' '
        $1 !~ /\.ticket$/ { next }
        { path = FILENAME; sub(/expected\.tsv$/, $1, path) }
        $2 ~ /^refused [23] / { print path }
        $2 ~ /^refused [4-6] / || $2 ~ /^verdict strings/ { if (n++ % 15 == 0) print path }'

    # Counting of needs: the vectors with the most steps, facts and pending splits.
    printf '%s\n' tests/vectors/L2/need/the-most-*-that-a-ticket-holds.ticket

    # Judging: every sixth of the vectors of which some bytes are shown.
    find tests/vectors -path '*/judge/expected.tsv' | sort | xargs awk -F '\t' '
        $3 != "" { path = FILENAME; sub(/expected\.tsv$/, $1, path); if (n++ % 6 == 0) print path ".question", path ".answer" }'

    # Sameness: the pairs that are refused, the largest ones, and every sixth of the others.
    pairs | awk -F '\t' '$2 ~ /^refused/ || $1 ~ /\/(109|128)-/ || n++ % 6 == 0 { print "same", $1 ".first", $1 ".second" }'
}

# Reads such lines and runs the host on every core; a line for each run whose memory is in order.
in_bounds() {
    xargs -P "$(nproc)" -L 1 sh -c 'valgrind --quiet --error-exitcode=9 "$0" "$@" >/dev/null && echo in bounds' "$host"
}

asked=$(runs | wc -l)
kept=$(runs | in_bounds | wc -l)
passed=$((passed + kept)) failed=$((failed + asked - kept))

echo "$passed passed, $failed failed"
[ "$failed" -eq 0 ]
