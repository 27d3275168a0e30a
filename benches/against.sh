#!/bin/sh
# The time of `load --rounds 3000` by two builds of hdt in turn, and the median of each: against.sh OLD NEW
set -e
runs=25
times=$(mktemp -d)
trap 'rm -r "$times"' EXIT
took() {
    start=$(date +%s%N)
    "$1" load --rounds 3000 > /dev/null
    end=$(date +%s%N)
    echo $(((end - start) / 1000)) >> "$times/$2"
}
for _run in $(seq $runs); do
    took "$1" old
    took "$2" new
done
for build in old new; do
    echo "$build: $(sort -n "$times/$build" | sed -n "$(((runs + 1) / 2))p") us"
done
