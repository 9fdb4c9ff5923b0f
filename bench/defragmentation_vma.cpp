// The same allocations in a custom pool of VMA as a trace has in a pool, and a defragmentation of it
// by VMA's full algorithm, for defragmentation.sh. There is no device behind VMA's calls: memory is
// the host's, and moves are made by memcpy.
//
// ROUNDS BLOCK LIMIT: reads from standard input lines 'a NUMBER BYTES' and 'f NUMBER', and prints the
// passes, the moves, the bytes moved, the blocks before and after, whether one of these is empty, and
// the nanoseconds of processor of the defragmentation, of which those of memcpy: the least of so many
// rounds.
#define VMA_IMPLEMENTATION
#define VMA_STATIC_VULKAN_FUNCTIONS 0
#define VMA_DYNAMIC_VULKAN_FUNCTIONS 0
#define VMA_VULKAN_VERSION 1000000
#define VMA_DEDICATED_ALLOCATION 0
#define VMA_BIND_MEMORY2 0
#define VMA_MEMORY_BUDGET 0
#include <vk_mem_alloc.h>

#include <time.h>

#include <cstdio>
#include <cstdlib>
#include <cstring>
#include <vector>

// An allocation of so many bytes, or its end where it has none.
struct Step {
    uint32_t number;
    VkDeviceSize bytes;
};

static std::vector<Step> steps;

static uint64_t now() {
    timespec time;
    clock_gettime(CLOCK_PROCESS_CPUTIME_ID, &time);
    return (uint64_t)time.tv_sec * 1000000000 + (uint64_t)time.tv_nsec;
}

static void properties(VkPhysicalDevice, VkPhysicalDeviceProperties *its) {
    *its = {};
    its->limits.bufferImageGranularity = 1;
    its->limits.nonCoherentAtomSize = 64;
    its->limits.maxMemoryAllocationCount = 4096;
}

static void memory_properties(VkPhysicalDevice, VkPhysicalDeviceMemoryProperties *its) {
    *its = {};
    its->memoryTypeCount = its->memoryHeapCount = 1;
    its->memoryHeaps[0].size = 1ull << 30;
    its->memoryTypes[0].propertyFlags =
        VK_MEMORY_PROPERTY_HOST_VISIBLE_BIT | VK_MEMORY_PROPERTY_HOST_COHERENT_BIT;
}

static VkResult allocate(
    VkDevice, const VkMemoryAllocateInfo *info, const VkAllocationCallbacks *, VkDeviceMemory *memory) {
    void *bytes = malloc(info->allocationSize);
    if (!bytes) return VK_ERROR_OUT_OF_HOST_MEMORY;
    memset(bytes, 0xcd, info->allocationSize);
    *memory = (VkDeviceMemory)bytes;
    return VK_SUCCESS;
}

static void give_back(VkDevice, VkDeviceMemory memory, const VkAllocationCallbacks *) {
    free((void *)memory);
}

static VmaAllocator allocator() {
    VmaVulkanFunctions calls = {};
    calls.vkGetPhysicalDeviceProperties = properties;
    calls.vkGetPhysicalDeviceMemoryProperties = memory_properties;
    calls.vkAllocateMemory = allocate;
    calls.vkFreeMemory = give_back;
    VmaAllocatorCreateInfo how = {};
    how.physicalDevice = (VkPhysicalDevice)1;
    how.device = (VkDevice)1;
    how.instance = (VkInstance)1;
    how.pVulkanFunctions = &calls;
    VmaAllocator made;
    if (vmaCreateAllocator(&how, &made) != VK_SUCCESS) exit(1);
    return made;
}

static char *bytes_of(VmaAllocator vma, VmaAllocation one, VkDeviceSize *size) {
    VmaAllocationInfo info;
    vmaGetAllocationInfo(vma, one, &info);
    if (size) *size = info.size;
    return (char *)info.deviceMemory + info.offset;
}

// How many blocks a pool has, and, if asked, whether one of them is empty: VMA keeps one such block.
static uint32_t blocks_of(VmaAllocator vma, VmaPool pool, bool *is_one_empty, VkDeviceSize block) {
    VmaDetailedStatistics statistics;
    vmaCalculatePoolStatistics(vma, pool, &statistics);
    if (is_one_empty) *is_one_empty = statistics.unusedRangeSizeMax == block;
    return statistics.statistics.blockCount;
}

struct Answers {
    unsigned passes = 0;
    uint64_t all = 0, copies = 0;
    VmaDefragmentationStats stats = {};
};

// A defragmentation without limits, until no more moves are possible.
static Answers defragment(VmaAllocator vma, VmaPool pool) {
    Answers answers;
    VmaDefragmentationInfo how = {};
    how.flags = VMA_DEFRAGMENTATION_FLAG_ALGORITHM_FULL_BIT;
    how.pool = pool;
    VmaDefragmentationContext context;
    VmaDefragmentationPassMoveInfo pass;
    const uint64_t from = now();
    if (vmaBeginDefragmentation(vma, &how, &context) != VK_SUCCESS) exit(1);
    while (vmaBeginDefragmentationPass(vma, context, &pass) == VK_INCOMPLETE) {
        answers.passes++;
        const uint64_t then = now();
        for (uint32_t i = 0; i < pass.moveCount; i++) {
            VkDeviceSize size;
            const char *source = bytes_of(vma, pass.pMoves[i].srcAllocation, &size);
            memcpy(bytes_of(vma, pass.pMoves[i].dstTmpAllocation, nullptr), source, size);
        }
        answers.copies += now() - then;
        if (vmaEndDefragmentationPass(vma, context, &pass) == VK_SUCCESS) break;
    }
    vmaEndDefragmentation(vma, context, &answers.stats);
    answers.all = now() - from;
    return answers;
}

int main(int count, char **arguments) {
    if (count != 4) return 2;
    char what;
    unsigned number, most = 0;
    unsigned long long bytes;
    while (scanf(" %c %u", &what, &number) == 2) {
        if (what != 'a') bytes = 0;
        else if (scanf("%llu", &bytes) != 1) return 2;
        steps.push_back({number, bytes});
        if (number > most) most = number;
    }
    Answers least;
    uint32_t before = 0, after = 0;
    bool is_one_empty = false;
    for (int round = 0; round < atoi(arguments[1]); round++) {
        VmaAllocator vma = allocator();
        VmaPoolCreateInfo how = {};
        how.flags = VMA_POOL_CREATE_IGNORE_BUFFER_IMAGE_GRANULARITY_BIT;
        how.blockSize = strtoull(arguments[2], 0, 10);
        how.maxBlockCount = strtoull(arguments[3], 0, 10);
        VmaPool pool;
        if (vmaCreatePool(vma, &how, &pool) != VK_SUCCESS) return 1;
        std::vector<VmaAllocation> live(most + 1);
        VmaAllocationCreateInfo in_pool = {};
        in_pool.pool = pool;
        for (const Step &step : steps) {
            if (step.bytes == 0) {
                vmaFreeMemory(vma, live[step.number]);
                live[step.number] = nullptr;
                continue;
            }
            VkMemoryRequirements needs = {(step.bytes + 15) / 16 * 16, 16, 1};
            if (vmaAllocateMemory(vma, &needs, &in_pool, &live[step.number], nullptr) != VK_SUCCESS) return 3;
            VkDeviceSize size;
            memset(bytes_of(vma, live[step.number], &size), (int)step.number, step.bytes);
        }
        before = blocks_of(vma, pool, nullptr, how.blockSize);
        const Answers answers = defragment(vma, pool);
        after = blocks_of(vma, pool, &is_one_empty, how.blockSize);
        if (round == 0 || answers.all < least.all) least = answers;
        for (uint32_t number = 0; number <= most; number++) {
            if (!live[number]) continue;
            VkDeviceSize size;
            if (*bytes_of(vma, live[number], &size) != (char)number) return 4;
            vmaFreeMemory(vma, live[number]);
        }
        vmaDestroyPool(vma, pool);
        vmaDestroyAllocator(vma);
    }
    printf("%u %u %llu %u %u %u %llu %llu\n", least.passes, least.stats.allocationsMoved,
        (unsigned long long)least.stats.bytesMoved, before, after, is_one_empty, (unsigned long long)least.all,
        (unsigned long long)least.copies);
}
