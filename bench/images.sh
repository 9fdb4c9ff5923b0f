#!/bin/bash
# Measures the program on traces of images: uploads into an image whose texels lie in tiles and back,
# beside the same bytes between buffers, which memcpy moves; copies of regions between images;
# transitions of single levels and layers, and of a whole image of many. Each is measured in two
# sizes, of which the second is twice the first (bench/common.sh).
. "$(dirname "${BASH_SOURCE[0]}")/common.sh"

# A barrier that orders transfers, and makes what they wrote visible to transfers.
between='["barrier",[[4096,4096,4096,6144]],[],[]]'

# N times 4 MiB from a buffer to an image of 1,024 by 1,024 texels and back.
image_rounds() {
    awk -v n="$1" -v to_host="$to_host" -v between="$between" 'BEGIN {
        region = "[[0,0,0,0,0,1,0,0,1024,1024]]"
        printf "[[\"buffer\",1,4194304,3,\"exclusive\",[\"dedicated\",1]],"
        printf "[\"image\",2,\"R8G8B8A8_UINT\",1024,1024,1,1,\"optimal\",3,\"exclusive\",[\"dedicated\",0]],"
        printf "[\"semaphore\",3,0],[\"submit\",0,[[[],[[\"fill\",1,0,\"whole\",67305985],"
        printf "[\"barrier\",[],[],[[0,0,4096,6144,0,0,2,0,1,[0,1,0,1]]]],"
        for (i = 0; i < n; i++) {
            printf "%s,[\"copy_in\",1,2,1,%s],", between, region
            printf "%s,[\"copy_out\",2,1,1,%s],", between, region
        }
        printf "%s],[[3,1,65536]]]]],[\"wait\",[[3,1]]],[\"map\",1],[\"read\",1,4194300,4]]\n", to_host
    }'
}

# N times 4 MiB from a buffer to another one and back.
buffer_rounds() {
    awk -v n="$1" -v to_host="$to_host" -v between="$between" 'BEGIN {
        printf "[[\"buffer\",1,4194304,3,\"exclusive\",[\"dedicated\",1]],"
        printf "[\"buffer\",2,4194304,3,\"exclusive\",[\"dedicated\",0]],"
        printf "[\"semaphore\",3,0],[\"submit\",0,[[[],[[\"fill\",1,0,\"whole\",67305985],"
        for (i = 0; i < n; i++) {
            printf "%s,[\"copy\",1,2,[[0,0,4194304]]],%s,[\"copy\",2,1,[[0,0,4194304]]],", between, between
        }
        printf "%s],[[3,1,65536]]]]],[\"wait\",[[3,1]]],[\"map\",1],[\"read\",1,4194300,4]]\n", to_host
    }'
}

rounds_answer() {
    answers 6 67305985
}

# N copies of 64 by 64 texels from an image to another one.
region_copies() {
    awk -v n="$1" -v to_host="$to_host" -v between="$between" 'BEGIN {
        printf "[[\"buffer\",1,4,3,\"exclusive\",[\"dedicated\",1]]"
        for (i = 2; i < 4; i++) printf ",[\"image\",%d,\"R32_UINT\",256,256,1,1,\"optimal\",3,\"exclusive\",[\"dedicated\",0]]", i
        printf ",[\"semaphore\",4,0],[\"submit\",0,[[[],[[\"barrier\",[],[],["
        printf "[0,0,4096,6144,0,0,2,0,1,[0,1,0,1]],[0,0,4096,6144,0,0,3,0,1,[0,1,0,1]]]],"
        printf "[\"clear\",2,1,[67305985,0,0,0],[[0,1,0,1]]],"
        for (i = 0; i < n; i++) {
            printf "%s,[\"copy_image\",2,1,3,1,[[0,0,0,0,1,%d,%d,%d,%d,64,64]]],", between,
                i * 64 % 256, i * 16 % 192, i * 32 % 192, i * 64 % 256
        }
        printf "%s,[\"copy_out\",3,1,1,[[0,0,0,0,0,1,0,0,1,1]]],", between
        printf "%s],[[4,1,65536]]]]],[\"wait\",[[4,1]]],[\"map\",1],[\"read\",1,0,4]]\n", to_host
    }'
}

# N transitions of single levels of single layers, each between GENERAL and TRANSFER_DST_OPTIMAL.
transitions() {
    awk -v n="$1" -v to_host="$to_host" 'BEGIN {
        both = "65536,65536,65536,98304,0,0"
        printf "[[\"buffer\",1,4,3,\"exclusive\",[\"dedicated\",1]],"
        printf "[\"image\",2,\"R32_UINT\",64,64,5,8,\"optimal\",3,\"exclusive\",[\"dedicated\",0]],"
        printf "[\"semaphore\",3,0],[\"submit\",0,[[[],[[\"barrier\",[],[],[[%s,2,0,1,[0,5,0,8]]]],", both
        printf "[\"clear\",2,1,[67305985,0,0,0],[[0,5,0,8]]],"
        for (i = 0; i < n; i++) {
            to_dst = int(i / 40) % 2 == 0
            printf "[\"barrier\",[],[],[[%s,2,%d,%d,[%d,1,%d,1]]]],", both, to_dst ? 1 : 7, to_dst ? 7 : 1, i % 5, int(i / 5) % 8
        }
        printf "[\"barrier\",[],[],[[%s,2,%d,6,[0,1,0,1]]]],", both, int((n + 39) / 40) % 2 == 0 ? 1 : 7
        printf "[\"copy_out\",2,6,1,[[0,0,0,0,0,1,0,0,1,1]]],"
        printf "%s],[[3,1,65536]]]]],[\"wait\",[[3,1]]],[\"map\",1],[\"read\",1,0,4]]\n", to_host
    }'
}

# N transitions of all of an image of 13 levels of 256 layers.
whole_transitions() {
    awk -v n="$1" -v to_host="$to_host" 'BEGIN {
        both = "65536,65536,65536,98304,0,0"
        printf "[[\"buffer\",1,4,3,\"exclusive\",[\"dedicated\",1]],"
        printf "[\"image\",2,\"R8_UINT\",4096,1,13,256,\"optimal\",3,\"exclusive\",[\"dedicated\",0]],"
        printf "[\"semaphore\",3,0],[\"submit\",0,[[[],[[\"barrier\",[],[],[[%s,2,0,1,[0,13,0,256]]]],", both
        printf "[\"clear\",2,1,[1,0,0,0],[[0,1,0,1]]],"
        for (i = 0; i < n; i++) {
            printf "[\"barrier\",[],[],[[%s,2,%d,%d,[0,13,0,256]]]],", both, i % 2 ? 7 : 1, i % 2 ? 1 : 7
        }
        printf "[\"barrier\",[],[],[[%s,2,%d,6,[0,13,0,256]]]],", both, n % 2 ? 7 : 1
        printf "[\"copy_out\",2,6,1,[[0,0,0,0,0,1,0,0,4,1]]],"
        printf "%s],[[3,1,65536]]]]],[\"wait\",[[3,1]]],[\"map\",1],[\"read\",1,0,4]]\n", to_host
    }'
}

# N regions of a copy to a buffer, each a column of 16 texels, whose rows interleave there.
columns() {
    awk -v n="$1" -v to_host="$to_host" 'BEGIN {
        both = "4294967295,4294967295"
        printf "[[\"buffer\",1,%d,3,\"exclusive\",[\"dedicated\",1]],", 64 * n
        printf "[\"image\",2,\"R32_UINT\",4096,16,1,1,\"optimal\",3,\"exclusive\",[\"dedicated\",0]],"
        printf "[\"semaphore\",3,0],[\"submit\",0,[[[],[[\"barrier\",[],[],[[0,0,4096,4096,%s,2,0,7,[0,1,0,1]]]],", both
        printf "[\"clear\",2,7,[67305985,0,0,0],[[0,1,0,1]]],"
        printf "[\"barrier\",[],[],[[4096,4096,4096,2048,%s,2,7,6,[0,1,0,1]]]],", both
        printf "[\"copy_out\",2,6,1,["
        for (i = 0; i < n; i++) printf "%s[%d,%d,0,0,0,1,%d,0,1,16]", (i ? "," : ""), 4 * i, n, i % 4096
        printf "]],%s],[[3,1,65536]]]]],[\"wait\",[[3,1]]],[\"map\",1],[\"read\",1,0,4]]\n", to_host
    }'
}

whole_answer() {
    answers 6 16843009
}

columns_answer() {
    answers 6 67305985
}

copies_answer() {
    answers 7 67305985
}

ARGUMENTS=(--heap0 67108864 --heap1 67108864)
heading
for n in 8 16; do
    row "image_rounds_$n" 0 rounds_answer image_rounds "$n"
    row "buffer_rounds_$n" 0 rounds_answer buffer_rounds "$n"
done
for n in 10000 20000; do
    row "region_copies_$n" 0 copies_answer region_copies "$n"
done
for n in 25000 50000; do
    row "transitions_$n" 0 rounds_answer transitions "$n"
done
for n in 5000 10000; do
    row "whole_transitions_$n" 0 whole_answer whole_transitions "$n"
done
for n in 4000 8000; do
    row "columns_of_a_copy_$n" 0 columns_answer columns "$n"
done
finish
