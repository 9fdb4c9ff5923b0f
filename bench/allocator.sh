#!/bin/bash
# Measures blocks of memory of which ranges are taken: random allocations and frees of mixed sizes in
# one block of 16 MiB, by two-level lists and by linear blocks, with 10,000 and with 100,000 ranges
# live. Each row comes in two sizes, of which the second is twice the first (bench/common.sh).
#
# The program is `allocator_steps`. A row has its time, that of its draws alone, which keep the list
# of live ranges too, and the millions of steps a second without the draws. Rows `links` are a plain
# C loop, compiled here where there is a compiler: nodes of 64 bytes, as many as ranges are live, each
# step taking a random one out of a list and putting it in elsewhere. They say what the machine gives.
# The rows `full` aren't about speed as the others: the block is full, so that most requests need a
# walk of all lists, or find no room.
#
# The second table is of an allocation alone, in nanoseconds: with so many ranges live, random ones are
# given back, 256 at a time, and then as many are allocated, over and over, and the program says how
# long either took, by the clock. From both the time of the draws is taken away. Below two rows is the
# ratio of the second to the first. In the rows `walk` the block is full: the last of each run of
# requests finds no room, after a walk of all ranges. Their draws are left in: no block, no full one.
#
# The third table has the same steps on a virtual block of VMA beside ours (bench/beside_vma.sh).
top=$(cd "$(dirname "${BASH_SOURCE[0]}")/.." && pwd)
if [ -z "${PROGRAM:-}" ]; then
    PROGRAM=$top/crates/allocator_steps/out/allocator_steps
    (cd "$top/crates/allocator_steps" && rt run -- tlsf time --steps 1) >/dev/null || exit 1
fi
. "$top/bench/common.sh"
. "$top/bench/beside_vma.sh"

block=16777216

# COMMAND..: sets `best` to the microseconds of the fastest run, `processor` to the fewest of the
# processor, and `answer`, `ended` and `peak`.
fastest() {
    local run from
    best=
    processor=
    for run in $(seq "$runs"); do
        local started=()
        [ "$run" -ne 1 ] || started=(with_peak "$folder/peak")
        now
        from=$moment
        "${started[@]}" "${taking[@]}" "$@" >"$folder/answer" 2>"$folder/complaint"
        ended=$?
        now
        spend processor
        if [ -z "$best" ] || [ $((moment - from)) -lt "$best" ]; then
            best=$((moment - from))
        fi
    done
    answer=$(cat "$folder/answer")
    peak=$(mebibytes "$(tail -n 1 "$folder/peak")")
}

# STEPS MICROSECONDS: millions of steps a second.
rate() {
    awk -v n="$1" -v us="$2" 'BEGIN { if (us > 0) printf "%.1f", n / us; else print "-" }'
}

print_steps() {
    printf '%-28s %10s %10s %10s %14s %7s %10s  %s\n' "$@"
}

# STEPS LIVE RETURNS: how many requests are answered where each has room.
answered() {
    local n=$1 live=$2 returns=$3
    local fill=$((n < live ? n : live)) rest round
    rest=$((n - fill))
    round=$((rest / (2 * returns)))
    rest=$((rest - 2 * returns * round))
    echo $((fill + returns * round + (rest > returns ? rest - returns : 0)))
}

# NAME STEPS ANSWERED KIND OPTION..: a row. ANSWERED is how many requests are answered, or '-' where
# some find no room.
steps_row() {
    local name=$1 n=$2 wanted=$3 kind=$4 draws drawn wrong_with=
    shift 4
    fastest "$PROGRAM" "$kind" draw --size "$block" --steps "$n" "$@"
    draws=$best
    drawn=${processor:-$best}
    fastest "$PROGRAM" "$kind" time --size "$block" --steps "$n" "$@"
    if [ "$ended" -ne 0 ]; then
        wrong_with="WRONG: status $ended: $(head -n 1 "$folder/complaint" | head -c 60)"
    elif ! awk -v n="$n" -v wanted="$wanted" '
        { right = $1 == "answered" && $3 == "refused" && $5 == "free" && $7 == "sum" &&
              $2 + $4 + $6 == n && (wanted == "-" || $2 == wanted && $4 == 0) }
        END { exit !(NR == 1 && right) }' <<<"$answer"; then
        wrong_with="WRONG: $answer, and $wanted wanted"
    fi
    [ -z "$wrong_with" ] || wrong=$((wrong + 1))
    to_half "$name $n" $((${processor:-$best} - drawn))
    print_steps "$name" "$n" "$(milliseconds "$best")" "$(milliseconds "$draws")" \
        "$(rate "$n" $((best - draws)))" "$ratio" "$peak" "${wrong_with:-as wanted}"
}

# NAME STEPS LIVE: a row of the plain C loop.
links_row() {
    [ -x "$folder/links" ] || return 0
    fastest "$folder/links" "$2" "$3"
    to_half "$1 $2" "${processor:-$best}"
    print_steps "$1" "$2" "$(milliseconds "$best")" - "$(rate "$2" "$best")" "$ratio" "$peak" "$answer"
}

compiler=$(command -v cc || command -v gcc || command -v clang)
if [ -n "$compiler" ]; then
    "$compiler" -O2 -x c -o "$folder/links" - <<'END' || exit 1
#include <stdint.h>
#include <stdio.h>
#include <stdlib.h>

struct node {
    uint64_t start, size;
    struct node *before, *after;
    uint64_t more[4];
};

static uint64_t state = 1;

static uint32_t word(void) {
    state = state * 6364136223846793005u + 1442695040888963407u;
    return (uint32_t)(state >> 33);
}

int main(int count, char **arguments) {
    if (count != 3) return 2;
    uint64_t steps = strtoull(arguments[1], 0, 10), live = strtoull(arguments[2], 0, 10);
    struct node *nodes = calloc(live, sizeof *nodes);
    if (!nodes || live < 3) return 1;
    for (uint64_t i = 0; i < live; i++) {
        nodes[i].start = i;
        nodes[i].before = &nodes[(i + live - 1) % live];
        nodes[i].after = &nodes[(i + 1) % live];
    }
    uint64_t sum = 0;
    for (uint64_t i = 0; i < steps; i++) {
        struct node *one = &nodes[word() % live], *other = &nodes[word() % live];
        if (one == other) continue;
        one->before->after = one->after;
        one->after->before = one->before;
        one->before = other;
        one->after = other->after;
        other->after->before = one;
        other->after = one;
        sum = sum * 31 + one->before->start + one->after->start;
    }
    printf("%llu\n", (unsigned long long)sum);
}
END
fi

# NAME STEPS LIVE KIND ORDER RETURNS: a row of small requests, of which each finds room.
small_row() {
    steps_row "$1" "$2" "$(answered "$2" "$3" "$6")" "$4" --live "$3" --order "$5" --returns "$6" \
        --largest 160 --align 16
}

print_steps block steps "best of $runs" "draws, ms" "millions a s" "to half" "peak, MiB" ""
for n in 100000 1000000 2000000; do
    steps_row "lists_mixed_sizes" "$n" "$(answered "$n" 2000 1)" tlsf --live 2000 --order any \
        --returns 1 --largest 4096 --align 16
done
for live in 10000 100000; do
    for n in 1000000 2000000; do
        small_row "lists_${live}_live" "$n" "$live" tlsf any 1
    done
done
for live in 10000 100000; do
    for n in 2000000 4000000; do
        small_row "stack_${live}_live" "$n" "$live" stack last "$live"
        small_row "stack_any_order_${live}_live" "$n" "$live" stack any "$live"
        small_row "double_${live}_live" "$n" "$live" double last "$live"
    done
done
for live in 10000 100000; do
    for n in 2000000 4000000; do
        small_row "ring_${live}_live" "$n" "$live" ring first 1
    done
done
for n in 20000 40000; do
    steps_row "lists_full" "$n" - tlsf --live 1000000 --order any --returns 2 --largest 4096
done
for live in 10000 100000; do
    for n in 1000000 2000000; do
        links_row "links_$live" "$n" "$live"
    done
done

# How many ranges are given back at a time.
batch=256

# LIVE: sets `steps`, `wanted` and `options` for so many ranges that are live beside as many bytes free.
with_room() {
    steps=$(($1 + 2 * batch * 4000))
    wanted=$(answered "$steps" "$1" "$batch")
    options=(--live "$1" --largest 160)
}

# LIVE: the same for about so many ranges that fill the block, where some requests find no room.
without_room() {
    steps=$(($1 + 10000))
    wanted=-
    options=(--live 1000000 --largest $((33440000 / $1 / 16 * 16)))
}

# FILE MODE: one run with the clock; what it prints goes to the end of the file.
clocked() {
    "$PROGRAM" tlsf "$2" --clock --size "$block" --steps "$steps" --order any --align 16 \
        --returns "$batch" "${options[@]}" >>"$1" 2>>"$folder/complaint" || echo >>"$1"
}

# FILE: sets `request` and `return` to the nanoseconds that each took in the fastest run.
per_call() {
    read -r request return < <(awk '
        { a = $12 / ($10 + 0 ? $10 : 1); b = $17 / ($15 + 0 ? $15 : 1) }
        NR == 1 || a < request { request = a }
        NR == 1 || b < back { back = b }
        END { printf "%.1f %.1f\n", request, back }' "$1")
}

print_alone() {
    printf '%-28s %10s %12s %10s %15s %11s  %s\n' "$@"
}

# NAME: a row of an allocation alone from what runs wrote, and `allocation` set to its nanoseconds.
alone_row() {
    local drawn_request=0 drawn_return=0 wrong_with=
    if [ -s "$folder/draws" ]; then
        per_call "$folder/draws"
        drawn_request=$request
        drawn_return=$return
    fi
    per_call "$folder/steps"
    answer=$(cut -d ' ' -f 1-8 "$folder/steps" | sort -u)
    if ! awk -v n="$steps" -v wanted="$wanted" '
        { right = $2 + $4 + $6 == n && (wanted == "-" || $2 == wanted && $4 == 0) }
        END { exit !(NR == 1 && right) }' <<<"$answer"; then
        wrong_with="WRONG: $answer, and $wanted wanted; $(head -c 60 "$folder/complaint")"
        wrong=$((wrong + 1))
    fi
    allocation=$(awk -v all="$request" -v draw="$drawn_request" 'BEGIN { printf "%.1f", all - draw }')
    print_alone "$1" "$steps" "$request" "$drawn_request" "$allocation" \
        "$(awk -v all="$return" -v draw="$drawn_return" 'BEGIN { printf "%.1f", all - draw }')" \
        "${wrong_with:-as wanted}"
}

# NAME ROOM: two rows, whose runs take turns so that a busy machine slows both, and their ratio.
alone_rows() {
    local name=$1 run live first
    rm -f "$folder"/{draws,steps}.*
    : >"$folder/complaint"
    for run in $(seq "$runs"); do
        for live in 10000 100000; do
            "$2" "$live"
            clocked "$folder/steps.$live" time
            [ "$wanted" = - ] || clocked "$folder/draws.$live" draw
        done
    done
    for live in 10000 100000; do
        "$2" "$live"
        mv "$folder/steps.$live" "$folder/steps"
        mv "$folder/draws.$live" "$folder/draws" 2>/dev/null || : >"$folder/draws"
        alone_row "${name}_${live}_live"
        [ "$live" -ne 10000 ] || first=$allocation
    done
    print_alone "${name}_ratio" "" "" "" \
        "$(awk -v a="$first" -v b="$allocation" 'BEGIN { if (a > 0) printf "%.2f", b / a }')" "" ""
}

echo
print_alone "alone, best of $runs" steps "request, ns" "draw, ns" "allocation, ns" "return, ns" ""
alone_rows alone with_room
alone_rows walk without_room

echo
if [ "${#taking[@]}" -ne 0 ] && compile_vma; then
    stay_on_one_core
    print_beside "beside VMA, best of $runs" steps "ours, ns a step" "VMA, ns a step" ratio ""
    for n in 100000 1000000; do
        beside_row lists_mixed_sizes "$n" 1 tlsf --order any --align 16
        beside_row lists_mixed_alignments "$n" 1 tlsf --order any --align drawn
        beside_row stack_mixed_sizes "$n" 2000 stack --order last --align 16
        beside_row stack_any_order "$n" 2000 stack --order any --align 16
        beside_row double_mixed_sizes "$n" 2000 double --order last --align 16
        beside_row ring_mixed_sizes "$n" 1 ring --order first --align 16
    done
else
    echo "Left out: rows beside VMA. They need compilers of C and C++ and vk_mem_alloc.h, which Debian has in" \
        "libvulkan-memory-allocator-dev, with vulkan/vulkan.h of libvulkan-dev."
fi
finish
