#!/bin/bash
# Measures the program on traces near its limits: the best time of some runs, and the peak of
# memory. How long a row takes is for a reader to judge; that it ends as it must, with the right
# answer, is checked (bench/common.sh).
. "$(dirname "${BASH_SOURCE[0]}")/common.sh"
. "$(dirname "${BASH_SOURCE[0]}")/fills.sh"

# N semaphores.
semaphores() {
    awk -v n="$1" 'BEGIN {
        printf "["
        for (i = 0; i < n; i++) printf "%s[\"semaphore\",%d,0]", i ? "," : "", i
        print "]"
    }'
}

# N fills of a word, spread over a buffer of 4 MiB so that no two meet.
scattered_fills() {
    awk -v n="$1" 'BEGIN {
        printf "[[\"buffer\",1,4194304,3,\"exclusive\",[\"dedicated\",1]],[\"submit\",0,[[[],["
        for (i = 0; i < n; i++)
            printf "%s[\"fill\",1,%d,4,%d]", i ? "," : "", i * 7919 % 1048576 * 4, i
        printf "],[]]]]]"
    }'
}

# N COUNT OFFSET BYTES: N fills of 4 MiB with a barrier between each two, and COUNT reads. Fill K,
# counted from 1, has K in each byte.
whole_fills() {
    awk -v n="$1" -v barrier="$make_available" 'BEGIN {
        for (k = 1; k <= n; k++) {
            if (k > 1) printf "%s,", barrier
            printf "[\"fill\",1,0,\"whole\",%d],", k * 16843009
        }
    }' | fill_and_read 4194304 "$2" "$3" "$4"
}

# N COUNT BYTES: what COUNT reads of BYTES bytes, 4 times a power of 2, answer after N such fills.
whole_fills_answer() {
    awk -v n="$1" -v count="$2" -v bytes="$3" "$helpers"' BEGIN {
        line = hex(n * 16843009)
        for (size = 4; size < bytes; size *= 2) line = line line
        reads(count, line)
    }'
}

# An array of N objects without a member.
small_objects() {
    awk -v n="$1" 'BEGIN {
        printf "["
        for (i = 0; i < n; i++) printf i ? ",{}" : "{}"
        print "]"
    }'
}

# An array of objects nested DEPTH deep, each the only member of the one around it, by the empty
# name: as many as fit into 16,777,216 bytes. Of the shapes that were tried it costs most memory.
nested_objects() {
    awk -v depth="$1" 'BEGIN {
        for (i = 0; i < depth; i++) { opened = opened "{\"\":"; closed = closed "}" }
        one = opened "0" closed
        count = int((16777216 - 2) / (length(one) + 1))
        printf "["
        for (i = 0; i < count; i++) printf "%s%s", i ? "," : "", one
        print "]"
    }'
}

heading
row first_upload 0 "echo 5 01020304" cat "$top/examples/first_upload.json"
row semaphores_131072 0 true semaphores 131072
row semaphores_131073 1 "echo refused 131072 LIMIT" semaphores 131073
for n in 10000 20000 65000; do
    row "ordered_fills_$n" 0 "ordered_fills_answer $n" ordered_fills "$n"
done
row scattered_fills_131000 0 true scattered_fills 131000
row fill_of_4_MiB 0 "whole_fills_answer 1 1 4" whole_fills 1 1 4194300 4
row 16_ordered_fills_of_4_MiB 0 "whole_fills_answer 16 1 4" whole_fills 16 1 4194300 4
row 50_reads_of_4_MiB 0 "whole_fills_answer 1 50 4194304" whole_fills 1 50 0 4194304
for n in 1000 2000 4000; do
    row "side_by_side_$n" 0 "side_by_side_answer $n" side_by_side "$n"
done
row a_million_small_objects 2 true small_objects 1000000
row objects_nested_125_deep 2 true nested_objects 125
finish
