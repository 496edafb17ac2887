#!/usr/bin/env bash
# Counts the instructions of each workload of crate `speed`, beside those of the same workloads in C, and prints a table.
# Needs valgrind, gcc, objdump and python3. On one machine with one kit counts repeat to a few tenths of a percent.
set -euo pipefail
cd "$(dirname "$0")/.."
work=$(mktemp -d)
trap 'rm -rf "$work"' EXIT

# A long copy is counted by the vectors that it moves: as one instruction that repeats it would count for each byte.
export GLIBC_TUNABLES=glibc.cpu.hwcaps=-ERMS

# The program is proved and built, and then run once on small counts.
(cd crates/speed && rt run > "$work/said" 2>&1) || { tail -20 "$work/said" >&2; exit 1; }
cp crates/speed/out/speed "$work/rattle"
gcc -O3 -fno-tree-vectorize -Wall -Wextra tools/baseline/main.c -o "$work/c"

# Both do the same: equal operations, sector writes, barriers and cards. Sector reads are each program's own.
same() {
    local told
    told=$("$work/rattle" "$@" | sed 's/, [0-9]* sector reads//')
    [ "$told" = "$("$work/c" "$@" | sed 's/, [0-9]* sector reads//')" ] || { echo "the programs differ: $*" >&2; exit 1; }
    echo "$told"
}

# Instructions of a whole run, or of the calls of one function in it.
count() {
    valgrind --tool=callgrind --callgrind-out-file=/dev/null "$@" 2>&1 > /dev/null | awk '/Collected/ {print $4}'
}

inside() {
    local function=$1
    shift
    count "--toggle-collect=*$function*" "$@"
}

row() {
    echo "| $1 | $2 | $3 | $(awk "BEGIN {printf \"%.2f\", $3 / $2}") |"
}

# Instructions per operation, as the difference of runs of n and 2n operations: what comes before them cancels.
by_difference() {
    local title=$1 n=$2 name=$3 each=()
    shift 3
    same "$name" "$n" "$@" > /dev/null
    for program in "$work/c" "$work/rattle"; do
        local once twice
        once=$(count "$program" "$name" "$n" "$@")
        twice=$(count "$program" "$name" $((2 * n)) "$@")
        each+=($(((twice - once) / n)))
    done
    row "$title" "${each[@]}"
}

# Instructions of the calls alone, of one function.
by_calls() {
    local title=$1 n=$2 function=$3 name=$4 each=()
    shift 4
    same "$name" "$n" "$@" > /dev/null
    for program in "$work/c" "$work/rattle"; do
        each+=($(($(inside "$function" "$program" "$name" "$n" "$@") / n)))
    done
    row "$title" "${each[@]}"
}

echo "$(rt version); $(gcc --version | head -1)"
echo
for task in "commits 10000 768" "commits 10000 12" "spooled 10000 768" "spooled 10000 12" "visits 10000" "openings 5 1024 1024" "truncations 200 64 64"; do
    # shellcheck disable=SC2086
    same $task | sed 's/^/    /'
done
echo
echo "| Instructions for one | C | this store | ratio |"
echo "|---|--:|--:|--:|"
by_difference "8-byte commit with flush, over the whole memory" 10000 commits 768
by_difference "the same, in page 0" 10000 commits 12
by_difference "8-byte commit to the spool, each eighth flushed, over the whole memory" 10000 spooled 768
by_difference "the same, in page 0" 10000 spooled 12
by_calls "visit with flush, truncations included" 10000 visit_once visits
for places in 160 320 640 1024; do
    for commits in $((places / 10 - 1)) $((places / 2 - 1)) "$places"; do
        live=$((commits == places ? places - 65 : commits + 1))
        by_difference "opening, $places log sectors, $live records live" 10 openings "$places" "$commits"
    done
done
for task in "1 1" "1 94" "8 8" "8 94" "64 64" "64 94"; do
    # shellcheck disable=SC2086
    by_calls "truncation, ${task% *} dirty pages, none covered, $((${task#* } + 1)) records live" 100 truncate_once truncations $task
done
row "stack of an opening, bytes" "$(python3 tools/stack.py "$work/c" open_once)" "$(python3 tools/stack.py "$work/rattle" open_once)"
