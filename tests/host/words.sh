#!/usr/bin/env bash
# What the host program named by the argument says of every example, of some answers on file, those to questions with kind 11 last, of some tickets that need
# more than checking takes or are refused, and of some pairs of questions: expected.txt has it on file.
set -eu
host=$(realpath "$1")
cd "$(dirname "$0")/../../examples"
find . -name '*.ticket' -printf '%P\n' | LC_ALL=C sort | while read -r ticket; do
    echo "${ticket%.ticket}:"
    "$host" "$ticket"
done
cd ../tests/vectors/L1/judge
for name in all-met-shows-an-empty-part-of-the-question question-refusal-shows-nothing lowest-unmet-and-its-record unmet-arithmetic-behind-met-constraints \
    15-shows-the-whole-answer 15-with-an-empty-answer 16-shows-the-answer-s-record 16-shows-the-integers-record; do
    echo "$name:"
    "$host" "$name.question" "$name.answer"
done
cd ../../L3/judge
for name in upper leading-zero 64-digits unmet-behind-literals-and-all-kinds 4-kind-4-after-kind-11; do
    echo "$name:"
    "$host" "$name.question" "$name.answer"
done
echo "checking-refuses-kind-11-with-4:"
"$host" ../check/checking-refuses-kind-11-with-4.ticket
cd ../../L2/need
for name in 65-pending-splits 129-constraints-never-give-10 claim-2-closing-rules-close-nothing step-after-the-last-branch-closed 2; do
    echo "$name:"
    "$host" "$name.ticket"
done
cd ../../L6/same
for name in order x-eq-y-is-y-eq-x literals-by-characters divided-by-the-gcd repeat-written-in-other-ways records-behind-the-claim-do-not-count n-differs \
    second-has-one-more ge-is-not-turned kind-11-order-is-not-symmetric first-refusal-first second-refusal-though-heads-differ 2-in-the-second; do
    echo "$name:"
    "$host" same "$name.first" "$name.second"
done
