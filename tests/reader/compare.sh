#!/usr/bin/env bash
# compare.sh PROGRAM SEED COUNT
#
# Asks PROGRAM, an executable that answers the requests of README.md on
# standard input and output, COUNT generated requests, and compares its answers
# with those of the reader. Prints the first difference with its request, or
# `no difference in COUNT requests`. The status is 0 without a difference, 1
# with one, 2 when nothing could be compared.
#
# The requests are made in batches of 20,000, with seeds SEED, SEED + 1, ...
# READER may name a reader that is already built.

set -u

if [ $# -ne 3 ]; then
    echo "usage: compare.sh PROGRAM SEED COUNT" >&2
    exit 2
fi
program=$1
seed=$2
count=$3
batch=20000
here=$(cd "$(dirname "$0")" && pwd) || exit 2
work=$(mktemp -d) || exit 2
trap 'rm -rf "$work"' EXIT
trap 'exit 2' INT TERM

reader=${READER:-$work/reader}
if [ -z "${READER:-}" ]; then
    rustc -O --edition 2021 -o "$reader" "$here/src/main.rs" || exit 2
fi

asked=0
while [ "$asked" -lt "$count" ]; do
    size=$((count - asked))
    if [ "$size" -gt "$batch" ]; then
        size=$batch
    fi
    "$reader" generate "$seed" "$size" >"$work/requests" || exit 2
    "$program" <"$work/requests" >"$work/answers"
    status=$?
    "$reader" compare "$work/requests" "$work/answers" >"$work/difference"
    compared=$?
    if [ "$compared" -ne 0 ] || [ "$status" -ne 0 ]; then
        echo "seed $seed, $size requests; the program's status is $status"
        cat "$work/difference"
        exit "$((compared > 1 ? 2 : 1))"
    fi
    asked=$((asked + size))
    seed=$((seed + 1))
done
echo "no difference in $count requests"
