#!/bin/bash
# Measures passes of defragmentations. What they take is the difference of two traces, with them and
# without, of which each is run in turns with the other, and whose other entries are the same; where
# that is known, time is that of the processor (bench/common.sh). Where nothing moves, a trace has ten
# passes, and a tenth is printed. Each trace reads a buffer at its end,
# and then makes memory objects of the size of a block until none has room, which says how many blocks
# its pools have.
#
# - Passes over many resources, in two sizes, of which the second is twice the first: as many as
#   131,072 entries allow, so 100,000 buffers where every fourth is destroyed, and 80,000 where every
#   second one is. Where there are several blocks there are fewer: each request walks over all ranges of
#   a block that is full. Two rows aren't linear: as many passes as resources, each of which looks at
#   all of them; and resources of which each is smaller than all above it, so
#   that each search walks over all holes.
# - Moves: what passes take that move so many bytes each, beside memcpy of as many, as often. Moves of 16
#   bytes say what one takes without its bytes. A resource asks for half a block at most, so no move has
#   more than 8 MiB.
# - Defragmentations without limits beside VMA's full algorithm, of the same allocations, until nothing
#   moves any more: passes, moves and bytes moved, the blocks before and after, and the time, copies
#   included. Our moves are counted by bench/defragmentation_moves.py, and VMA's by VMA, which
#   bench/defragmentation_vma.cpp runs over the host's memory; VMA_INCLUDE names the folder of its header
#   where the compiler doesn't know it. Places differ before and after: VMA picks blocks in another order.
#   VMA keeps one block that is empty, which is marked by `+1`, and isn't counted.
. "$(dirname "${BASH_SOURCE[0]}")/common.sh"
heap=67108864
ARGUMENTS=(--heap0 "$heap" --heap1 "$heap")

# N BLOCK BYTES FREED BLOCKS PASSES [LISTED]: N buffers in a pool of blocks of so many bytes. Buffer i,
# counted from 0, has so many bytes as the expression BYTES says, and is destroyed where FREED holds;
# the last one stays, and is written before and read after a defragmentation of so many passes. At the
# end of each, where LISTED is 1, the lower half of the buffers is listed as staying, and the upper one but
# for the last buffer as destroyed. The pool has BLOCKS blocks then. What is to be answered goes to
# the file `wanted`.
pool_trace() {
    awk -v n="$1" -v block="$2" -v blocks="$5" -v passes="$6" -v listed="${7:-0}" \
        -v heap="$heap" -v wanted="$folder/wanted" 'BEGIN {
        printf "[[\"pool\",1,\"tlsf\",1,%d,64]", block
        for (i = 0; i < n; i++) printf ",[\"buffer\",%d,%d,3,\"exclusive\",[\"pool\",1]]", i + 2, '"$3"'
        printf ",[\"map\",%d],[\"write\",%d,0,\"01020304\"]", n + 1, n + 1
        entries = n + 3
        for (i = 0; i < n; i++) if ('"$4"') {
            printf ",[\"destroy\",%d]", i + 2
            entries++
        }
        if (passes) {
            printf ",[\"defrag\",%d,1,0,0]", n + 2
            for (k = 0; k < passes; k++) {
                printf ",[\"pass\",%d],[\"end_pass\",%d,[", n + 2, n + 2
                for (i = 0; listed && i < n - 1; i++) printf "%s%d", i == n / 2 ? "],[" : i ? "," : "", i + 2
                printf "%s", listed ? "]]" : "],[]]"
            }
            printf ",[\"end_defrag\",%d]", n + 2
            entries += 2 + 2 * passes
        }
        printf ",[\"read\",%d,0,4]", n + 1
        printf "%d 01020304\nstopped %d NO_ROOM\n", entries, entries + 1 + int(heap / block) - blocks >wanted
        for (i = int(heap / block) - blocks; i >= 0; i--) printf ",[\"memory\",%d,1,%d]", n + 3 + i, block
        print "]"
    }'
}

# N PASSES: N fills of a buffer of a pool, one behind another, and so many passes.
filled_trace() {
    awk -v n="$1" -v passes="$2" -v wanted="$folder/wanted" 'BEGIN {
        printf "[[\"pool\",1,\"tlsf\",1,4096,1],[\"buffer\",2,1024,3,\"exclusive\",[\"pool\",1]],[\"semaphore\",3,0]"
        printf ",[\"submit\",0,[[[],["
        for (i = 0; i < n; i++) printf "[\"fill\",2,0,\"whole\",67305985],[\"barrier\",[[4096,4096,4096,4096]],[],[]],"
        printf "[\"barrier\",[[4096,4096,16384,8192]],[],[]]],[[3,1,65536]]]]],[\"wait\",[[3,1]]],[\"defrag\",4,1,0,0]"
        for (i = 0; i < passes; i++) printf ",[\"pass\",4],[\"end_pass\",4,[],[]]"
        print ",[\"map\",2],[\"read\",2,0,4]]"
        print 7 + 2 * passes, "01020304" >wanted
    }'
}

# STATUS OPTION..: runs the program on `trace`, and sets `wrong_with` where it ends or answers otherwise
# than `wanted` has it. Its time goes to the variable that TIME names.
replayed() {
    took "$TIME" "$PROGRAM" "${ARGUMENTS[@]}" "${@:2}" <"$folder/$TIME.trace"
    if [ "$ended" -ne "$1" ] || ! cmp -s "$folder/$TIME.wanted" "$folder/answer"; then
        wrong_with="WRONG: status $ended, $(head -n 2 "$folder/answer" | tr '\n' ' ' | head -c 60)"
    fi
}

# VARIABLE COMMAND..: has the command make `VARIABLE.trace`, and keeps what is to be answered to it.
make_trace() {
    "${@:2}" >"$folder/$1.trace"
    mv "$folder/wanted" "$folder/$1.wanted"
}

# STATUS OPTION..: runs `all.trace` and `alone.trace` in turns, and sets `all`, `alone` and `rest`, which
# is their difference, to microseconds.
measure() {
    local run
    all= alone= wrong_with=
    for run in $(seq "$runs"); do
        TIME=alone replayed "$@"
        TIME=all replayed "$@"
    done
    rest=$((all - alone))
    [ -z "$wrong_with" ] || wrong=$((wrong + 1))
}

print_pass() {
    printf '%-30s %10s %10s %12s %7s %13s %7s  %s\n' "$@"
}

# NAME PASSES: the row of what `measure` found, for so many passes.
pass_row() {
    to_half "$1" "$rest"
    print_pass "$1" "$(wc -c <"$folder/all.trace")" "$(milliseconds "$all")" "$(milliseconds "$alone")" "$2" \
        "$(milliseconds $((rest / $2)))" "$ratio" "${wrong_with:-as wanted}"
}

# NAME N BLOCK BYTES FREED BEFORE AFTER [PASSES [LISTED]]: a row of so many passes, 1 where nothing is said.
# The pool has BEFORE blocks without them, and AFTER with them.
pool_row() {
    make_trace alone pool_trace "$2" "$3" "$4" "$5" "$6" 0
    make_trace all pool_trace "$2" "$3" "$4" "$5" "$7" "${8:-1}" "${9:-0}"
    measure 3
    pass_row "$1" "${8:-1}"
}

# N: the row of N passes after as many fills.
filled_row() {
    make_trace alone filled_trace "$1" 0
    make_trace all filled_trace "$1" "$1"
    measure 0
    pass_row "passes_after_$1_fills" "$1"
}

# The rows of passes over many resources.
pass_rows() {
    local n most=16777216
    for n in 50000 100000; do
        pool_row "every_fourth_freed_$n" "$n" "$most" 16 'i % 4 == 0' 1 1
    done
    for n in 40000 80000; do
        pool_row "every_second_freed_$n" "$n" "$most" 16 'i % 2 == 0' 1 1
    done
    for n in 40000 80000; do
        pool_row "holes_of_16_bytes_$n" "$n" "$most" 'i % 2 ? 32 : 16' 'i % 2 == 0' 1 1 10
    done
    for n in 50000 100000; do
        pool_row "full_block_$n" "$n" $((n * 160 / 1024 * 1024 + 1024)) \
            'i < n - 1 ? 160 : block - 160 * (n - 1)' 0 1 1 10
    done
    for n in 2048 4096; do
        pool_row "several_full_blocks_$n" "$n" $((n * 64)) 1024 0 16 16 10
        pool_row "several_blocks_$n" "$n" $((n * 64)) 1024 'i % 2 == 0' 16 8
    done
    for n in 30000 60000; do
        pool_row "kept_and_destroyed_$n" "$n" "$most" 16 0 1 1 1 1
    done
    for n in 10000 20000; do
        filled_row "$n"
    done
    for n in 1000 2000; do
        pool_row "as_many_passes_$n" "$n" "$most" 16 0 1 1 "$n"
    done
    # (each of the last n / 80 is smaller than those above it, and has no room in any hole)
    for n in 40000 80000; do
        pool_row "holes_and_falling_sizes_$n" "$n" "$most" \
            'i % 2 ? (i < n - n / 40 ? 32 : 32 + 8 * (i - n + n / 40)) : 16' 'i % 2 == 0' 1 1 1
    done
}

# N BYTES ROUNDS PASSES: a pool of one block that 2 N buffers of so many bytes fill, of which the lower half
# is destroyed. In each round there is a pass, if PASSES isn't 0, which moves the others down; then come
# as many new ones, and the others are destroyed.
rounds_trace() {
    awk -v n="$1" -v bytes="$2" -v rounds="$3" -v passes="$4" -v wanted="$folder/wanted" '
        function make(from) {
            for (i = 0; i < n; i++) printf ",[\"buffer\",%d,%d,3,\"exclusive\",[\"pool\",1]]", from + i, bytes
        }
        function destroy(from) { for (i = 0; i < n; i++) printf ",[\"destroy\",%d]", from + i }
        BEGIN {
            printf "[[\"pool\",1,\"tlsf\",1,%d,1]", 2 * n * bytes
            make(2)
            make(n + 2)
            destroy(2)
            if (passes) printf ",[\"defrag\",0,1,0,0]"
            for (r = 1; r <= rounds; r++) {
                last = (r + 1) * n + 1
                printf ",[\"map\",%d],[\"write\",%d,%d,\"%08x\"]", last, last, bytes - 4, r
                if (passes) printf ",[\"pass\",0],[\"end_pass\",0,[],[]]"
                printf ",[\"read\",%d,%d,4],[\"unmap\",%d]", last, bytes - 4, last
                each = 2 * n + 4 + 2 * passes
                printf "%d %08x\n", 3 * n + 1 + passes + (r - 1) * each + 2 + 2 * passes, r >wanted
                make(last + 1)
                destroy(last - n + 1)
            }
            print "]"
        }'
}

compile_copies() {
    local compiler
    compiler=$(command -v cc || command -v gcc || command -v clang) || return 1
    "$compiler" -O2 -x c -o "$folder/copies" - <<'END'
#define _POSIX_C_SOURCE 200809L
#include <stdint.h>
#include <stdio.h>
#include <stdlib.h>
#include <string.h>
#include <time.h>

// The compiler has to take the bytes for read and written here.
static void use(void *bytes) {
    __asm__ volatile("" : : "r"(bytes) : "memory");
}

static uint64_t now(void) {
    struct timespec time;
    clock_gettime(CLOCK_PROCESS_CPUTIME_ID, &time);
    return (uint64_t)time.tv_sec * 1000000000u + (uint64_t)time.tv_nsec;
}

// COUNT BYTES ROUNDS: so many moves of so many bytes, from the last one down, so often. Prints the
// microseconds that they took.
int main(int count, char **arguments) {
    if (count != 4) return 2;
    size_t moves = strtoull(arguments[1], 0, 10), bytes = strtoull(arguments[2], 0, 10);
    size_t rounds = strtoull(arguments[3], 0, 10);
    unsigned char *to = malloc(moves * bytes), *from = malloc(moves * bytes);
    if (!to || !from) return 1;
    memset(to, 0xcd, moves * bytes);
    memset(from, 0xcd, moves * bytes);
    use(to);
    use(from);
    uint64_t then = now();
    for (size_t round = 0; round < rounds; round++) {
        for (size_t i = 0; i < moves; i++) memcpy(to + i * bytes, from + (moves - 1 - i) * bytes, bytes);
        use(to);
    }
    printf("%llu\n", (unsigned long long)(now() - then) / 1000);
}
END
}

print_copies() {
    printf '%-28s %10s %14s %14s %7s  %s\n' "$@"
}

# NAME N BYTES ROUNDS: a row of passes that move N buffers of so many bytes each.
copies_row() {
    local run theirs moves=$(($2 * $4))
    make_trace alone rounds_trace "$2" "$3" "$4" 0
    make_trace all rounds_trace "$2" "$3" "$4" 1
    measure 0
    theirs=$(for run in $(seq "$runs"); do "$folder/copies" "$2" "$3" "$4"; done | sort -n | head -n 1)
    print_copies "$1" "$moves" "$(quotient $((1000 * rest)) "$moves")" \
        "$(quotient $((1000 * theirs)) "$moves")" "$(quotient "$rest" "$theirs")" "${wrong_with:-as wanted}"
}

# N LARGEST KEPT: steps: N buffers of up to so many bytes, and the ends of those that aren't among so many
# of a hundred.
drawn_steps() {
    awk -v n="$1" -v largest="$2" -v kept="$3" '
        function draw() { state = (state * 1103515245 + 12345) % 2147483648; return int(state / 65536) }
        BEGIN {
            state = 1
            for (i = 0; i < n; i++) print "a", i + 2, 16 * (1 + draw() % (largest / 16))
            for (i = 0; i < n - 1; i++) if (draw() % 100 >= kept) print "f", i + 2
        }'
}

# BLOCK BLOCKS PASSES: the trace of the file `steps`.
steps_trace() {
    awk -v block="$1" -v blocks="$2" -v passes="$3" -v heap="$heap" -v wanted="$folder/wanted" '
        BEGIN { printf "[[\"pool\",1,\"tlsf\",1,%d,64]", block }
        $1 == "a" { printf ",[\"buffer\",%d,%d,3,\"exclusive\",[\"pool\",1]]", $2, $3; last = $2 }
        $1 == "f" && !writes++ { printf ",[\"map\",%d],[\"write\",%d,0,\"01020304\"]", last, last }
        $1 == "f" { printf ",[\"destroy\",%d]", $2 }
        END {
            entries = NR + 3
            if (passes) printf ",[\"defrag\",%d,1,0,0]", last + 1
            for (i = 0; i < passes; i++) printf ",[\"pass\",%d],[\"end_pass\",%d,[],[]]", last + 1, last + 1
            if (passes) { printf ",[\"end_defrag\",%d]", last + 1; entries += 2 + 2 * passes }
            printf ",[\"read\",%d,0,4]", last
            free = int(heap / block) - blocks
            printf "%d 01020304\nstopped %d NO_ROOM\n", entries, entries + 1 + free >wanted
            for (i = free; i >= 0; i--) printf ",[\"memory\",%d,1,%d]", last + 2 + i, block
            print "]"
        }' "$folder/steps"
}

cpp=$(command -v "${CXX:-c++}" || command -v g++ || command -v clang++)
compile_vma() {
    local flags=(-std=c++17 -O2 -DNDEBUG -w ${VMA_INCLUDE:+-I"$VMA_INCLUDE"})
    [ -n "$cpp" ] && command -v python3 >/dev/null || return 1
    echo '#include <vk_mem_alloc.h>' | "$cpp" "${flags[@]}" -x c++ -E - >/dev/null 2>&1 || return 1
    "$cpp" "${flags[@]}" -o "$folder/vma" "$top/bench/defragmentation_vma.cpp" || exit 1
}

print_beside() {
    printf '%-24s %6s %15s %15s %9s %13s %15s %17s %7s  %s\n' "$@"
}

# NAME N LARGEST KEPT BLOCK: a row of ours beside VMA's.
beside_row() {
    local passes moves bytes before after their_passes their_moves their_bytes their_before their_after
    local empty theirs copies run
    drawn_steps "$2" "$3" "$4" >"$folder/steps"
    read -r passes moves bytes before after < <(
        python3 "$top/bench/defragmentation_moves.py" "$5" <"$folder/steps"
    )
    make_trace alone steps_trace "$5" "$before" 0
    # (the last pass finds no move, as VMA's does)
    make_trace all steps_trace "$5" "$after" $((passes + 1))
    measure 3
    read -r their_passes their_moves their_bytes their_before their_after empty theirs copies < <(
        "$folder/vma" "$runs" "$5" 64 <"$folder/steps" || echo 0 0 0 0 0 0 0 0
    )
    if [ "$their_before" -eq 0 ]; then
        wrong_with="WRONG: VMA's program failed"
        wrong=$((wrong + 1))
    fi
    print_beside "$1" "$2" "$before, $their_before" \
        "$after, $((their_after - empty))$([ "$empty" -eq 0 ] || echo +1)" "$passes, $their_passes" \
        "$moves, $their_moves" "$((bytes / 1024)), $((their_bytes / 1024))" "$rest, $((theirs / 1000))" \
        "$(quotient "$rest" $((theirs / 1000)))" "${wrong_with:-as wanted}"
}

print_pass "passes, best of $runs" bytes "with, ms" "without, ms" passes "one pass, ms" "to half" ""
stay_on_one_core
pass_rows
echo
if compile_copies; then
    print_copies "moves, best of $runs" moves "ours, ns each" "memcpy, ns" ratio ""
    copies_row moves_of_16_bytes 2048 16 12
    copies_row moves_of_4_KiB 2048 4096 12
    copies_row moves_of_64_KiB 128 65536 12
    copies_row moves_of_8_MiB 1 8388608 32
else
    echo "Left out: copies. They need a C compiler."
fi
echo
if compile_vma; then
    print_beside "beside VMA, best of $runs" number "blocks" "blocks left" passes moves "KiB moved" \
        "time, us" ratio ""
    beside_row quarter_kept 4000 1024 25 65536
    beside_row half_kept 4000 1024 50 65536
    beside_row most_kept 4000 1024 80 65536
    beside_row half_of_16000_kept 16000 128 50 65536
    beside_row half_of_large_kept 500 32768 50 262144
else
    echo "Left out: rows beside VMA. They need python3, a compiler of C++ and vk_mem_alloc.h, which Debian has in" \
        "libvulkan-memory-allocator-dev, with vulkan/vulkan.h of libvulkan-dev."
fi
finish
