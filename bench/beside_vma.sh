# The program that makes steps on a virtual block of VMA, and its rows beside ours, for allocator.sh,
# which sources common.sh first and has the lengths of the steps.
#
# The same steps are made on a virtual block of VMA and on ours (vmaCreateVirtualBlock: by
# two-level lists, its default, and linear). They are read from what `print` writes, and made by a
# C++ program that is compiled here with VMA's header, without its assertions, where both are found:
# CXX names the compiler, and VMA_INCLUDE the header's folder where the compiler doesn't know it.
# What is compared are the calls alone, from the making of the block to its end. Of ours the time of
# the draws is taken away, as above. VMA's program has read all steps before it looks at the clock; it
# goes through them once without a call, as the draws are made without a block, and that time is taken
# away: what is left of either loop is the calls. Both have the live ranges in an array that holds as
# many as are live, and give a range back by what they got for it, VMA by a handle and we by a start.
# All stays on one core, the runs of the two take turns, and time is that of the processor, in which
# other programs have less part. A ratio of 1 or less says that ours is at least as fast. Both answer
# as many requests; their places differ, and aren't compared.

cpp=$(command -v "${CXX:-c++}" || command -v g++ || command -v clang++)
cpp_flags=(-std=c++17 -O2 -DNDEBUG -w ${VMA_INCLUDE:+-I"$VMA_INCLUDE"} -x c++)

# Compiles the program that makes steps on a virtual block of VMA, or answers 1 where it can't be had.
compile_vma() {
    [ -n "$cpp" ] || return 1
    echo '#include <vk_mem_alloc.h>' | "$cpp" "${cpp_flags[@]}" -E - >/dev/null 2>&1 || return 1
    "$cpp" "${cpp_flags[@]}" -o "$folder/vma_steps" - <<'END' || exit 1
#define VMA_IMPLEMENTATION
#define VMA_STATIC_VULKAN_FUNCTIONS 0
#define VMA_DYNAMIC_VULKAN_FUNCTIONS 0
#include <vk_mem_alloc.h>

#include <time.h>

#include <cstdio>
#include <cstdlib>
#include <cstring>
#include <unordered_map>
#include <vector>

// A request, or the return of a range where it asks for no bytes. Live ranges have places.
struct Step {
    uint32_t bytes, align, flags, place;
};

struct Answers {
    uint64_t answered = 0, refused = 0, given_back = 0, sum = 0;
};

static std::vector<Step> steps;
static std::vector<VmaVirtualAllocation> live;

// Reads steps as `allocator_steps .. print` writes them.
static bool read_steps() {
    // (they stay, so that the block gets memory that nothing was in, as ours does)
    static std::unordered_map<uint64_t, uint32_t> place_of;
    static std::vector<uint32_t> spare;
    uint32_t places = 0;
    char line[128];
    while (fgets(line, sizeof line, stdin)) {
        char *rest = strchr(line, ' ');
        const bool lower = !strncmp(line, "allocate ", 9), upper = !strncmp(line, "upper ", 6);
        if (lower || upper) {
            Step step;
            step.bytes = strtoul(rest, &rest, 10);
            step.align = strtoul(rest, &rest, 10);
            step.flags = upper ? VMA_VIRTUAL_ALLOCATION_CREATE_UPPER_ADDRESS_BIT : 0;
            if (spare.empty()) spare.push_back(places++);
            step.place = spare.back();
            spare.pop_back();
            steps.push_back(step);
            rest = strrchr(line, ' ');
            if (strncmp(rest, " none", 5)) place_of[strtoull(rest, 0, 10)] = step.place;
            else spare.push_back(step.place);
        } else if (!strncmp(line, "free ", 5)) {
            auto found = place_of.find(strtoull(rest, 0, 10));
            if (found == place_of.end()) return false;
            steps.push_back({0, 0, 0, found->second});
            spare.push_back(found->second);
            place_of.erase(found);
        }
    }
    live.resize(places);
    return true;
}

// The nanoseconds of processor that this program has taken.
static uint64_t now() {
    timespec time;
    clock_gettime(CLOCK_PROCESS_CPUTIME_ID, &time);
    return (uint64_t)time.tv_sec * 1000000000 + (uint64_t)time.tv_nsec;
}

// Makes the steps, or goes through them without a call, and answers the nanoseconds.
template <bool calls> static uint64_t make_steps(VmaVirtualBlockCreateInfo how, Answers &answers) {
    const uint64_t from = now();
    VmaVirtualBlock block = nullptr;
    if (calls && vmaCreateVirtualBlock(&how, &block) != VK_SUCCESS) exit(1);
    for (const Step &step : steps) {
        VmaVirtualAllocation &range = live[step.place];
        if (step.bytes == 0) {
            if (calls) vmaVirtualFree(block, range);
            else answers.sum += (uint64_t)range;
            answers.given_back++;
            continue;
        }
        VkDeviceSize start = step.bytes;
        if (calls) {
            VmaVirtualAllocationCreateInfo asked = {};
            asked.size = step.bytes;
            asked.alignment = step.align;
            asked.flags = step.flags;
            if (vmaVirtualAllocate(block, &asked, &range, &start) != VK_SUCCESS) {
                answers.refused++;
                continue;
            }
        } else {
            range = (VmaVirtualAllocation)start;
        }
        answers.answered++;
        answers.sum = answers.sum * 31 + start;
    }
    if (calls) {
        vmaClearVirtualBlock(block);
        vmaDestroyVirtualBlock(block);
    }
    return now() - from;
}

int main(int count, char **arguments) {
    if (count != 3 || !read_steps()) return 2;
    VmaVirtualBlockCreateInfo how = {};
    how.size = strtoull(arguments[2], 0, 10);
    if (strcmp(arguments[1], "tlsf")) how.flags = VMA_VIRTUAL_BLOCK_CREATE_LINEAR_ALGORITHM_BIT;
    Answers bare, answers;
    const uint64_t loop = make_steps<false>(how, bare), all = make_steps<true>(how, answers);
    printf("answered %llu refused %llu free %llu sum %llu in %llu %llu %llu\n",
        (unsigned long long)answers.answered, (unsigned long long)answers.refused,
        (unsigned long long)answers.given_back, (unsigned long long)answers.sum,
        (unsigned long long)all, (unsigned long long)loop, (unsigned long long)bare.sum);
}
END
}

print_beside() {
    printf '%-28s %10s %14s %14s %7s  %s\n' "$@"
}

# NAME STEPS RETURNS KIND OPTION..: a row of ours and VMA's, with 2,000 ranges live.
beside_row() {
    local name=$1 n=$2 wanted kind=$4 run all= draws= theirs wrong_with=
    wanted=$(answered "$n" 2000 "$3")
    local plan=(--size "$block" --steps "$n" --live 2000 --returns "$3" --largest 4096 "${@:5}")
    "$PROGRAM" "$kind" print "${plan[@]}" >"$folder/steps" || wrong_with="WRONG: no steps"
    : >"$folder/theirs"
    for run in $(seq "$runs"); do
        took draws "$PROGRAM" "$kind" draw "${plan[@]}"
        took all "$PROGRAM" "$kind" time "${plan[@]}"
        cut -d ' ' -f 1-6 "$folder/answer" >>"$folder/ours"
        "$folder/vma_steps" "$kind" "$block" <"$folder/steps" >>"$folder/theirs"
    done
    answer=$({ cat "$folder/ours"; cut -d ' ' -f 1-6 "$folder/theirs"; } | sort -u)
    rm "$folder/ours"
    [ "$answer" = "answered $wanted refused 0 free $((n - wanted))" ] || wrong_with="WRONG: $answer, and $wanted wanted"
    [ -z "$wrong_with" ] || wrong=$((wrong + 1))
    theirs=$(awk 'NR == 1 || $10 < all { all = $10 } NR == 1 || $11 < loop { loop = $11 }
        END { print all - loop }' "$folder/theirs")
    all=$((1000 * (all - draws)))
    print_beside "$name" "$n" "$(quotient "$all" "$n")" "$(quotient "$theirs" "$n")" \
        "$(quotient "$all" "$theirs")" "${wrong_with:-as many answered}"
}
