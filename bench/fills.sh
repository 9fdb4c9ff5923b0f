# Traces of fills on one queue, for more than one of the benchmark scripts; these source common.sh
# first.

make_available='["barrier",[[4096,4096,4096,4096]],[],[]]'

# SIZE COUNT OFFSET BYTES: a trace that submits the commands of standard input, each of which has a
# comma after it, on a buffer of SIZE bytes, waits, and reads COUNT times so many bytes from there.
fill_and_read() {
    printf '[["buffer",1,%d,3,"exclusive",["dedicated",1]],["semaphore",2,0],' "$1"
    printf '["submit",0,[[[],['
    cat
    printf '["barrier",[[4096,4096,16384,8192]],[],[]]],[[2,1,65536]]]]],["wait",[[2,1]]],["map",1]'
    awk -v count="$2" -v offset="$3" -v bytes="$4" 'BEGIN {
        for (i = 0; i < count; i++) printf ",[\"read\",1,%d,%d]", offset, bytes
        print "]"
    }'
}

# Helpers of awk: the bytes of a word, little-endian, in hex; and the answers of N reads of a line.
helpers='
    function hex(word) {
        return sprintf("%02x%02x%02x%02x", word % 256, int(word / 256) % 256,
            int(word / 65536) % 256, int(word / 16777216))
    }
    function reads(n, line, i) { for (i = 0; i < n; i++) print 5 + i, line }
'

# N fills of a word that go round a buffer of 4,096 bytes, with a barrier after each, and a read of
# the first word.
ordered_fills() {
    awk -v n="$1" -v barrier="$make_available" 'BEGIN {
        for (i = 0; i < n; i++) printf "[\"fill\",1,%d,4,%d],%s,", i * 4 % 4096, i, barrier
    }' | fill_and_read 4096 1 0 4
}

# The first word is that of the last fill whose number is a multiple of 1,024.
ordered_fills_answer() {
    awk -v n="$1" "$helpers"' BEGIN { reads(1, hex(int((n - 1) / 1024) * 1024)) }'
}

# N fills of a word side by side, and N reads of all N words.
side_by_side() {
    awk -v n="$1" 'BEGIN { for (i = 0; i < n; i++) printf "[\"fill\",1,%d,4,%d],", i * 4, i }' |
        fill_and_read "$((4 * $1))" "$1" 0 "$((4 * $1))"
}

side_by_side_answer() {
    awk -v n="$1" "$helpers"' BEGIN {
        for (i = 0; i < n; i++) line = line hex(i)
        reads(n, line)
    }'
}
