#!/bin/bash
# Measures the program on traces near its limits that are about order: queues that wait for each
# other, batches that wait for one signal, barriers of many elements, events, fills with barriers, and
# fills side by side that the host reads as often. Each comes in two sizes, so that a reader sees how
# the time grows (bench/common.sh).
. "$(dirname "${BASH_SOURCE[0]}")/common.sh"
. "$(dirname "${BASH_SOURCE[0]}")/fills.sh"

# The entries that wait until semaphore 3 has value 1, and read the first word of buffer 1.
read_word='["wait",[[3,1]]],["map",1],["read",1,0,4]]'

# ENTRIES: the beginning of a trace with a buffer, semaphores 2 and 3, and these entries.
beginning() {
    printf '[["buffer",1,16,3,"concurrent",["dedicated",1]],["semaphore",2,0],["semaphore",3,0],%s' "$1"
}

# N batches, a multiple of 4, that each fill the same word, on the four queues in turn: each waits for
# the one before it. Of each four the last is submitted first.
ring() {
    beginning ""
    awk -v n="$1" -v to_host="$to_host" 'BEGIN {
        for (j = 0; j < n; j++) {
            i = j + 3 - 2 * (j % 4)
            wait = i == 0 ? "" : sprintf("[2,%d,4096]", i)
            commands = sprintf("[\"fill\",1,0,4,%d]", i)
            if (i == n - 1) commands = commands "," to_host
            signals = sprintf("[2,%d,4096]", i + 1)
            if (i == n - 1) signals = signals ",[3,1,65536]"
            printf "[\"submit\",%d,[[[%s],[%s],[%s]]]],", i % 4, wait, commands, signals
        }
    }'
    echo "$read_word"
}

ring_answer() {
    answers "$((3 + $1 + 2))" "$(($1 - 1))"
}

# N batches without commands that wait for one signal of the host, and one with a fill behind them.
host_signal() {
    beginning '["submit",0,['
    awk -v n="$1" -v to_host="$to_host" 'BEGIN {
        for (i = 0; i < n; i++) printf "[[[2,1,4096]],[],[]],"
        printf "[[],[[\"fill\",1,0,16,67305985],%s],[[3,1,65536]]]]],[\"signal\",2,1],", to_host
    }'
    echo "$read_word"
}

host_signal_answer() {
    answers 7 67305985
}

# A fill, and a barrier of N elements.
wide_barrier() {
    beginning '["submit",0,[[[],[["fill",1,0,16,67305985],["barrier",['
    awk -v n="$1" 'BEGIN {
        for (i = 0; i < n; i++) printf "%s[4096,4096,16384,8192]", i ? "," : ""
        printf "],[],[]]],[[3,1,65536]]]]],"
    }'
    echo "$read_word"
}

wide_barrier_answer() {
    answers 6 67305985
}

# N events, each set after a fill of a word and awaited before the next fill of that word.
events() {
    beginning ""
    awk -v n="$1" -v to_host="$to_host" 'BEGIN {
        for (i = 0; i < n; i++) printf "[\"event\",%d],", i + 4
        printf "[\"submit\",0,[[[],["
        for (i = 0; i < n; i++) {
            printf "[\"fill\",1,0,4,%d],", i
            printf "[\"set\",%d,[[4096,4096,4096,4096]]],", i + 4
            printf "[\"await\",%d,[[4096,4096,4096,4096]]],", i + 4
        }
        printf "%s],[[3,1,65536]]]]],", to_host
    }'
    echo "$read_word"
}

events_answer() {
    answers "$((3 + $1 + 3))" "$(($1 - 1))"
}

heading
for n in 16000 32000; do
    row "ring_$n" 0 "ring_answer $n" ring "$n"
done
for n in 50000 100000; do
    row "host_signal_$n" 0 host_signal_answer host_signal "$n"
done
for n in 100000 200000; do
    row "wide_barrier_$n" 0 wide_barrier_answer wide_barrier "$n"
done
for n in 5000 10000; do
    row "events_$n" 0 "events_answer $n" events "$n"
done
for n in 32500 65000; do
    row "ordered_fills_$n" 0 "ordered_fills_answer $n" ordered_fills "$n"
done
for n in 2000 4000; do
    row "side_by_side_$n" 0 "side_by_side_answer $n" side_by_side "$n"
done
finish
