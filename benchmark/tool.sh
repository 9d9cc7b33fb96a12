#!/bin/sh
# benchmark/tool.sh TOOL FOLDER: opens the same capsules of mceliece8192128 on one thread and on two, in turns.
# Prints the least wall times of five runs each, and how many times faster two are. FOLDER has key.bin and capsules.
set -eu
tool=$1
cd "$2"
count=$(($(wc -c <capsules) / 208))

# Milliseconds of a run on $1 threads.
run() {
    from=$(date +%s%N)
    "$tool" open --quiet --jobs "$1" key.bin capsules >"lines.$1"
    to=$(date +%s%N)
    echo $(((to - from) / 1000000))
}

least() {
    if [ "$1" -eq 0 ] || [ "$2" -lt "$1" ]; then echo "$2"; else echo "$1"; fi
}

one=0
two=0
for _ in 1 2 3 4 5; do
    one=$(least "$one" "$(run 1)")
    two=$(least "$two" "$(run 2)")
done
cmp lines.1 lines.2
if [ "$(grep -c ' open ' lines.1)" -ne "$count" ]; then
    echo "tool.sh: not every capsule was opened" >&2
    exit 1
fi
awk -v count="$count" -v one="$one" -v two="$two" 'BEGIN {
    print count " capsules of mceliece8192128, wall times, least of 5 runs in turns, with start and publish"
    printf "open --jobs 1  %6.3f s\nopen --jobs 2  %6.3f s\nratio          %6.2f\n", one / 1000, two / 1000, one / two
}'
