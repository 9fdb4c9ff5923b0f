#!/bin/bash
# Measures the program on traces whose commands need no order, under each order that it can be asked
# for: many fills of a word, of which all may run next at once, in two sizes, and one fill of many
# pieces; and the same where queues have caches (bench/common.sh).
. "$(dirname "${BASH_SOURCE[0]}")/common.sh"

# SIZE: the beginning of a trace that fills a buffer of this size on memory type 1.
beginning() {
    printf '[["buffer",1,%d,3,"exclusive",["dedicated",1]],["semaphore",2,0],' "$1"
    printf '["submit",0,[[[],['
}

# OFFSET: its end, after the fills: it waits for them, and reads the word at this offset in entry 5.
end() {
    printf '%s],[[2,1,65536]]]]],["wait",[[2,1]]],["map",1],["read",1,%d,4]]\n' "$to_host" "$1"
}

# N fills of a word each, of which no two meet.
fills() {
    beginning "$((4 * $1))"
    awk -v n="$1" 'BEGIN { for (i = 0; i < n; i++) printf "[\"fill\",1,%d,4,%d],", 4 * i, i }'
    end "$((4 * ($1 - 1)))"
}

fills_answer() {
    answers 5 "$(($1 - 1))"
}

# One fill of a buffer of this size.
large_fill() {
    beginning "$1"
    printf '["fill",1,0,"whole",67305985],'
    end "$(($1 - 4))"
}

large_fill_answer() {
    answers 5 67305985
}

# NAME ARGUMENT..: the rows under an order, which the arguments ask for.
rows() {
    local name=$1 n
    shift
    ARGUMENTS=("$@")
    for n in 50000 100000; do
        row "fills_${n}_$name" 0 "fills_answer $n" fills "$n"
    done
    ARGUMENTS+=(--heap1 67108864)
    row "large_fill_$name" 0 large_fill_answer large_fill 67108864
}

heading
rows first --order first
rows last --order last
rows seed_1 --order seed --seed 1
rows last_cached --order last --caches
rows seed_1_cached --order seed --seed 1 --caches
finish
