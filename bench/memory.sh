#!/bin/bash
# Measures the program on traces that move bytes through memory objects: uploads through a staging
# buffer, host accesses with and without a cache, small copies, a ring of slots whose dependencies
# are limited to a slot, buffers that come and go, and a copy of many regions. Each is measured in
# two sizes, of which the second is twice the first (bench/common.sh).
#
# Then come ratios, each of two times that were taken in this run, in turns and on one core. They need
# a C compiler. STEPS is the program `memory_steps`; where it isn't set, the repository's own.
# - What a trace's bytes cost: 127 times 64 KiB, the most that fits into a trace, are written into a
#   staging buffer, copied to the device and back, and read, all of them or 4 bytes. This is compared
#   with reading the same bytes and moving as many: the program is given the same trace behind an
#   entry that is refused, so that it reads all of it and does nothing, and memcpy moves the bytes
#   four times, as into the staging buffer, to the device, back, and to the host. What is written of
#   the bytes that were read is not in the second. Time is that of the processor.
# - What a small copy with its barrier costs, one of 10,000: all of it, to read its text, which is
#   found in the same way, and the rest, which is to judge the two commands and to run them.
# - What an entry costs that makes or ends memory which isn't used: all of it, to read its text, and the
#   rest, which is found in the same way.
# - What moves cost: `memory_steps` makes turns on two regions, bytes of the host and a cache, and a
#   plain C program the same with memcpy and memset, between buffers of as many bytes. Either looks at
#   the clock before and after each turn; the shortest turns of all runs are compared. Copies, fills,
#   writes and reads of a region have so many times memcpy's or memset's speed, and those through the
#   host's cache take so many times as long as a copy.
. "$(dirname "${BASH_SOURCE[0]}")/common.sh"
STEPS=${STEPS:-}
if [ -z "$STEPS" ]; then
    STEPS=$top/crates/memory_steps/out/memory_steps
    (cd "$top/crates/memory_steps" && rt run -- copy --turns 1) >/dev/null || exit 1
fi

# A barrier that orders transfers, and makes what they wrote visible to transfers.
between='["barrier",[[4096,4096,4096,6144]],[],[]]'

# N [BYTES [ENTRY]]: N times 64 KiB: the host writes as much, a copy takes it to the device and
# another one back, and the host reads the last 4 or BYTES of it. The entry stands before all others.
staging() {
    awk -v n="$1" -v back="${2:-4}" -v first="${3:-}" -v to_host="$to_host" -v between="$between" 'BEGIN {
        size = n * 65536
        printf "[%s[\"memory\",1,1,%d],", first, 2 * size
        printf "[\"buffer\",2,%d,1,\"exclusive\",[\"memory\",1,0]],", size
        printf "[\"buffer\",3,%d,3,\"exclusive\",[\"dedicated\",0]],", size
        printf "[\"buffer\",4,%d,2,\"exclusive\",[\"memory\",1,%d]],", size, size
        printf "[\"semaphore\",5,0],[\"map\",2],"
        bytes = "01020304"
        while (length(bytes) < 131072) bytes = bytes bytes
        for (i = 0; i < n; i++) printf "[\"write\",2,%d,\"%s\"],", i * 65536, bytes
        printf "[\"submit\",0,[[[],[[\"copy\",2,3,[[0,0,%d]]],%s,", size, between
        printf "[\"copy\",3,4,[[0,0,%d]]],%s],[[5,1,65536]]]]],", size, to_host
        printf "[\"wait\",[[5,1]]],[\"read\",4,%d,%d]]\n", size - back, back
    }'
}

staging_answer() {
    answers "$((8 + $1))" 67305985
}

# N [ENTRY]: N buffers of 256 to 65,536 bytes that are made and destroyed, one at a time, in a pool of one
# block of 16 MiB, which is given back whenever it is empty. The entry stands before all others.
churn_in_a_pool() {
    awk -v n="$1" -v first="${2:-}" 'BEGIN {
        printf "[%s[\"pool\",1,\"tlsf\",1,16777216,1]", first
        for (i = 0; i < n; i++) {
            printf ",[\"buffer\",%d,%d,3,\"exclusive\",[\"pool\",1]]", i + 2, 256 + i * 2477 % 65281
            printf ",[\"destroy\",%d]", i + 2
        }
        print "]"
    }'
}

# N [ENTRY]: N memory objects of 4 MiB that are made and freed, one at a time.
churn_of_memory() {
    awk -v n="$1" -v first="${2:-}" 'BEGIN {
        printf "[%s[\"semaphore\",1,0]", first
        for (i = 0; i < n; i++) printf ",[\"memory\",%d,1,4194304],[\"free\",%d]", i + 2, i + 2
        print "]"
    }'
}

# TYPE N: N times 64 KiB that the host writes, flushes, invalidates and reads again, in memory of
# this type.
host_accesses() {
    awk -v type="$1" -v n="$2" 'BEGIN {
        printf "[[\"buffer\",1,%d,3,\"exclusive\",[\"dedicated\",%d]],[\"map\",1]", n * 65536, type
        bytes = "01020304"
        while (length(bytes) < 131072) bytes = bytes bytes
        for (i = 0; i < n; i++) printf ",[\"write\",1,%d,\"%s\"]", i * 65536, bytes
        printf ",[\"flush\",1,0,\"whole\"],[\"invalidate\",1,0,\"whole\"],[\"read\",1,0,4]]\n"
    }'
}

host_accesses_answer() {
    answers "$((4 + $1))" 67305985
}

# N copies of 16 bytes, each after a barrier.
small_copies() {
    awk -v n="$1" -v to_host="$to_host" -v between="$between" 'BEGIN {
        printf "[[\"buffer\",1,4096,3,\"exclusive\",[\"dedicated\",0]],"
        printf "[\"buffer\",2,4096,3,\"exclusive\",[\"dedicated\",1]],[\"semaphore\",3,0],"
        printf "[\"submit\",0,[[[],[[\"fill\",1,0,\"whole\",67305985],"
        for (i = 0; i < n; i++) printf "%s,[\"copy\",1,2,[[%d,%d,16]]],", between, i * 16 % 4096, i * 48 % 4096
        printf "%s],[[3,1,65536]]]]],[\"wait\",[[3,1]]],[\"map\",2],[\"read\",2,0,4]]\n", to_host
    }'
}

small_copies_answer() {
    answers 6 67305985
}

# ROUNDS: so often a fill of each of 1,000 slots of a buffer, each with a dependency that is limited
# to its slot.
ring() {
    awk -v rounds="$1" -v to_host="$to_host" 'BEGIN {
        printf "[[\"buffer\",1,16000,3,\"exclusive\",[\"dedicated\",1]],[\"semaphore\",2,0],[\"submit\",0,[[[],["
        for (r = 0; r < rounds; r++)
            for (i = 0; i < 1000; i++)
                printf "[\"fill\",1,%d,16,%d],[\"barrier\",[],[[4096,4096,4096,4096,0,0,1,%d,16]],[]],", 16 * i, r, 16 * i
        printf "%s],[[2,1,65536]]]]],[\"wait\",[[2,1]]],[\"map\",1],[\"read\",1,15984,4]]\n", to_host
    }'
}

ring_answer() {
    answers 5 "$(($1 - 1))"
}

# N buffers in one memory object, each written by the host, copied from and destroyed.
buffers() {
    awk -v n="$1" -v to_host="$to_host" 'BEGIN {
        printf "[[\"memory\",1,1,%d],[\"buffer\",2,%d,2,\"exclusive\",[\"dedicated\",1]],[\"semaphore\",3,0],", 16 * n, 16 * n
        for (i = 0; i < n; i++) printf "[\"buffer\",%d,16,1,\"exclusive\",[\"memory\",1,%d]],", i + 4, 16 * i
        printf "[\"map\",4],"
        for (i = 0; i < n; i++) printf "[\"write\",%d,0,\"01020304\"],", i + 4
        printf "[\"submit\",0,[[[],["
        for (i = 0; i < n; i++) printf "[\"copy\",%d,2,[[0,%d,4]]],", i + 4, 16 * i
        printf "%s],[[3,1,65536]]]]],[\"wait\",[[3,1]]],[\"unmap\",4],[\"map\",2],[\"read\",2,%d,4]", to_host, 16 * (n - 1)
        for (i = 0; i < n; i++) printf ",[\"destroy\",%d]", i + 4
        printf ",[\"free\",1]]\n"
    }'
}

buffers_answer() {
    answers "$((8 + 2 * $1))" 67305985
}

# N regions of one copy, of 4 bytes each, in an order that jumps about.
regions() {
    awk -v n="$1" -v to_host="$to_host" -v between="$between" 'BEGIN {
        printf "[[\"buffer\",1,%d,3,\"exclusive\",[\"dedicated\",0]],", 4 * n
        printf "[\"buffer\",2,%d,2,\"exclusive\",[\"dedicated\",1]],[\"semaphore\",3,0],", 4 * n
        printf "[\"submit\",0,[[[],[[\"fill\",1,0,\"whole\",67305985],%s,[\"copy\",1,2,[", between
        for (i = 0; i < n; i++) {
            at = i * 7919 % n * 4
            printf "%s[%d,%d,4]", (i ? "," : ""), at, at
        }
        printf "]],%s],[[3,1,65536]]]]],[\"wait\",[[3,1]]],[\"map\",2],[\"read\",2,0,4]]\n", to_host
    }'
}

regions_answer() {
    answers 6 67305985
}

compiler=$(command -v cc || command -v gcc || command -v clang)
if [ -n "$compiler" ]; then
    "$compiler" -O2 -x c -o "$folder/moves" - <<'END' || exit 1
#define _POSIX_C_SOURCE 200809L
#include <stdint.h>
#include <stdio.h>
#include <stdlib.h>
#include <string.h>
#include <time.h>

// The compiler has to take the bytes for read and written here.
static void use(void *bytes) {
    __asm__ volatile("" : : "r"(bytes) : "memory");
}

static uint64_t now(void) {
    struct timespec time;
    clock_gettime(CLOCK_MONOTONIC, &time);
    return (uint64_t)time.tv_sec * 1000000000u + (uint64_t)time.tv_nsec;
}

int main(int count, char **arguments) {
    if (count != 4) return 2;
    size_t bytes = strtoull(arguments[2], 0, 10), turns = strtoull(arguments[3], 0, 10);
    int fills = !strcmp(arguments[1], "fill"), within = !strcmp(arguments[1], "within");
    unsigned char *from = malloc(bytes), *other = malloc(bytes);
    if (!from || !other || bytes < 8) return 1;
    memset(from, 0xcd, bytes);
    memset(other, 0xcd, bytes);
    size_t moved = within ? bytes / 2 : bytes;
    unsigned char *into = within ? from + moved : other;
    uint64_t all = 0, least = UINT64_MAX, sum = 0;
    for (uint32_t turn = 0; turn < turns; turn++) {
        memcpy(from, &turn, sizeof turn);
        use(from);
        use(into);
        uint64_t then = now();
        if (fills) memset(into, (int)turn, moved);
        else memcpy(into, from, moved);
        use(into);
        uint64_t time = now() - then;
        all += time;
        if (time < least) least = time;
    }
    for (size_t i = 0; i < moved; i++) sum += into[i];
    printf("%s %zu of %zu sum %llu in %llu ns least %llu ns\n", arguments[1], turns, bytes,
        (unsigned long long)sum, (unsigned long long)all, (unsigned long long)least);
}
END
fi

# FILE: sets `least` to the fewest nanoseconds of a turn that are printed there.
least_of() {
    least=$(awk '$10 == "least" && (!some++ || $11 < least) { least = $11 } END { print least }' "$1")
}

# WORK BYTES TURNS: sets `ours` and `theirs` to the nanoseconds of the shortest turn of the program,
# and of the C program at the work that is like it; and `wrong_with` where the program's answers differ.
shortest_turns() {
    local run plain=copy
    case $1 in
    fill | within) plain=$1 ;;
    esac
    : >"$folder/ours"
    : >"$folder/theirs"
    for run in $(seq "$runs"); do
        "$STEPS" "$1" --bytes "$2" --turns "$3" --clock >>"$folder/ours" 2>&1
        "$folder/moves" "$plain" "$2" "$3" >>"$folder/theirs"
    done
    wrong_with=
    if [ "$(cut -d ' ' -f 1-6 "$folder/ours" | sort | uniq -c | wc -l)" -ne 1 ] ||
        ! grep -q "^$1 $3 of $2 sum [0-9]* in " "$folder/ours"; then
        wrong_with="WRONG: $(head -n 1 "$folder/ours")"
        wrong=$((wrong + 1))
    fi
    least_of "$folder/ours"
    ours=$least
    least_of "$folder/theirs"
    theirs=$least
}

print_moves() {
    printf '%-28s %10s %14s %14s %7s  %s\n' "$@"
}

# The rows of what moves cost, for so many bytes.
moves_rows() {
    local bytes=$1 turns=$((268435456 / $1)) work ours theirs wrong_with together=0
    for work in copy fill write read; do
        shortest_turns "$work" "$bytes" "$turns"
        print_moves "$work" "$bytes" "$ours" "$theirs" "$(quotient "$theirs" "$ours")" \
            "${wrong_with:-of the speed of $([ "$work" = fill ] && echo memset || echo memcpy)}"
    done
    shortest_turns within $((2 * bytes)) "$turns"
    print_moves within "$bytes" "$ours" "$theirs" "$(quotient "$theirs" "$ours")" \
        "${wrong_with:-of the speed of memcpy}"
    for work in cache-write cache-flush cache-read; do
        shortest_turns "$work" "$bytes" $((turns / 8 + 1))
        print_moves "$work" "$bytes" "$ours" "$theirs" "$(quotient "$ours" "$theirs")" \
            "${wrong_with:-times as long as memcpy}"
        together=$((together + ours))
    done
    print_moves "the three together" "$bytes" "$together" "$theirs" \
        "$(quotient "$together" "$theirs")" "times as long as one memcpy"
}

# NAME BYTES: the row of what a trace's bytes cost, of which so many are read back.
trace_row() {
    local n=127 run all= alone= wrong_with= moved
    staging "$n" "$2" >"$folder/trace"
    staging "$n" "$2" '["unmap",2],' >"$folder/refused"
    : >"$folder/theirs"
    for run in $(seq "$runs"); do
        took all "$PROGRAM" "${ARGUMENTS[@]}" <"$folder/trace"
        if [ "$ended" -ne 0 ] || ! staged_answer "$n" "$2" | cmp -s - "$folder/answer"; then
            wrong_with="WRONG: status $ended, $(head -c 60 "$folder/answer")"
        fi
        took alone "$PROGRAM" "${ARGUMENTS[@]}" <"$folder/refused"
        [ "$(cat "$folder/answer")" = "refused 0 LIVE_ID" ] || wrong_with="WRONG: $(head -c 60 "$folder/answer")"
        "$folder/moves" copy $((n * 65536)) 16 >>"$folder/theirs"
    done
    [ -z "$wrong_with" ] || wrong=$((wrong + 1))
    least_of "$folder/theirs"
    moved=$((4 * least / 1000))
    print_trace "$1" "$(wc -c <"$folder/trace")" "$(milliseconds "$all")" "$(milliseconds "$alone")" \
        "$(milliseconds "$moved")" "$(quotient "$all" $((alone + moved)))" "${wrong_with:-as wanted}"
}

# N: the row of what a small copy with its barrier costs, where there are so many.
copies_row() {
    local run all= alone= wrong_with=
    small_copies "$1" >"$folder/trace"
    { printf '[["unmap",2],'; tail -c +2 "$folder/trace"; } >"$folder/refused"
    for run in $(seq "$runs"); do
        took all "$PROGRAM" "${ARGUMENTS[@]}" <"$folder/trace"
        if [ "$ended" -ne 0 ] || ! small_copies_answer | cmp -s - "$folder/answer"; then
            wrong_with="WRONG: status $ended, $(head -c 60 "$folder/answer")"
        fi
        took alone "$PROGRAM" "${ARGUMENTS[@]}" <"$folder/refused"
        [ "$(cat "$folder/answer")" = "refused 0 LIVE_ID" ] || wrong_with="WRONG: $(head -c 60 "$folder/answer")"
    done
    [ -z "$wrong_with" ] || wrong=$((wrong + 1))
    print_copies "one of $1" "$(wc -c <"$folder/trace")" "$(quotient "$all" "$1")" \
        "$(quotient "$alone" "$1")" "$(quotient $((all - alone)) "$1")" "${wrong_with:-as wanted}"
}

# NAME N: the row of what N objects cost that are made and end, by the trace of this name.
churn_row() {
    local run all= alone= wrong_with=
    "$1" "$2" >"$folder/trace"
    "$1" "$2" '["unmap",1],' >"$folder/refused"
    for run in $(seq "$runs"); do
        took all "$PROGRAM" "${ARGUMENTS[@]}" <"$folder/trace"
        if [ "$ended" -ne 0 ] || [ -s "$folder/answer" ]; then
            wrong_with="WRONG: status $ended, $(head -c 60 "$folder/answer")"
        fi
        took alone "$PROGRAM" "${ARGUMENTS[@]}" <"$folder/refused"
        [ "$(cat "$folder/answer")" = "refused 0 LIVE_ID" ] || wrong_with="WRONG: $(head -c 60 "$folder/answer")"
    done
    [ -z "$wrong_with" ] || wrong=$((wrong + 1))
    print_copies "$1, $2" "$(wc -c <"$folder/trace")" "$(quotient "$all" $((2 * $2)))" \
        "$(quotient "$alone" $((2 * $2)))" "$(quotient $((all - alone)) $((2 * $2)))" "${wrong_with:-as wanted}"
}

# N BYTES: what is written where so many bytes are read back.
staged_answer() {
    awk -v entry="$((8 + $1))" -v bytes="$2" 'BEGIN {
        text = "01020304"
        while (length(text) < 131072) text = text text
        printf "%d ", entry
        for (; bytes >= 65536; bytes -= 65536) printf "%s", text
        printf "%s\n", substr(text, 1, 2 * bytes)
    }'
}

print_copies() {
    printf '%-28s %10s %10s %12s %14s  %s\n' "$@"
}

print_trace() {
    printf '%-28s %10s %10s %12s %10s %7s  %s\n' "$@"
}

ARGUMENTS=(--heap0 67108864 --heap1 67108864)
heading
for n in 50 100; do
    row "staging_$((n / 16))_MiB" 0 "staging_answer $n" staging "$n"
done
for n in 8 16; do
    row "host_accesses_${n}x64_KiB" 0 "host_accesses_answer $n" host_accesses 1 "$n"
    row "cached_accesses_${n}x64_KiB" 0 "host_accesses_answer $n" host_accesses 2 "$n"
done
for n in 5000 10000; do
    row "small_copies_$n" 0 "small_copies_answer" small_copies "$n"
done
for n in 30 60; do
    row "ring_of_1000_slots_x$n" 0 "ring_answer $n" ring "$n"
done
for n in 2048 4096; do
    row "buffers_$n" 0 "buffers_answer $n" buffers "$n"
done
for n in 100000 200000; do
    row "regions_of_a_copy_$n" 0 regions_answer regions "$n"
done
if [ -z "$compiler" ]; then
    echo "Left out: ratios. They need a C compiler."
    finish
fi
stay_on_one_core
echo
print_trace "trace, best of $runs" bytes "all, ms" "reading, ms" "moving, ms" ratio ""
trace_row staged_and_4_bytes_read 4
trace_row staged_and_all_read $((127 * 65536))
echo
print_copies "small copies, best of $runs" bytes "all, us" "reading, us" "the rest, us" ""
copies_row 10000
copies_row 20000
echo
print_copies "made and ended, best of $runs" bytes "all, us" "reading, us" "the rest, us" "by entry"
for n in 30000 60000; do
    churn_row churn_in_a_pool "$n"
    churn_row churn_of_memory "$n"
done
echo
print_moves "shortest turns, $runs runs" bytes "ours, ns" "plain C, ns" ratio ""
for bytes in 65536 1048576 16777216; do
    moves_rows "$bytes"
done
finish
