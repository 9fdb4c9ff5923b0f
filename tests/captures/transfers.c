/* Copies 256 bytes to a buffer, to another one, and reads them back: the program of the captures here.
 *
 *     cc transfers.c -lvulkan -o transfers
 *     ./transfers CASE
 *
 * The case is what it does otherwise than it should: no_flush, no_barrier, no_host_barrier, no_wait,
 * write_in_use, no_invalidation or destroyed_in_use (which may crash). `second_generation` is right,
 * with synchronization2, an update and a fill. `ring` has two frames in flight, and `ring_no_wait`
 * writes slots that are in use. Any other word is right.
 */
#include <stdio.h>
#include <stdlib.h>
#include <string.h>
#include <vulkan/vulkan.h>

#define SIZE 256
#define NEED(call) \
    do { \
        VkResult result = (call); \
        if (result != VK_SUCCESS) { \
            fprintf(stderr, "%s: %d\n", #call, result); \
            exit(1); \
        } \
    } while (0)

static VkPhysicalDevice gpu;
static VkDevice device;
static VkQueue queue;
static VkCommandPool pool;
static VkCommandBuffer commands;

typedef struct {
    VkBuffer handle;
    VkDeviceMemory memory;
} Buffer;

static void open_device(int is_second_generation) {
    VkApplicationInfo app = {VK_STRUCTURE_TYPE_APPLICATION_INFO, .apiVersion = VK_API_VERSION_1_3};
    VkInstanceCreateInfo of_instance = {
        VK_STRUCTURE_TYPE_INSTANCE_CREATE_INFO, .pApplicationInfo = &app};
    VkInstance instance;
    NEED(vkCreateInstance(&of_instance, NULL, &instance));
    uint32_t count = 1;
    if (vkEnumeratePhysicalDevices(instance, &count, &gpu) < 0 || count == 0) exit(2);
    float priority = 1;
    VkDeviceQueueCreateInfo of_queue = {
        VK_STRUCTURE_TYPE_DEVICE_QUEUE_CREATE_INFO, .queueCount = 1, .pQueuePriorities = &priority};
    VkPhysicalDeviceVulkan13Features features = {
        VK_STRUCTURE_TYPE_PHYSICAL_DEVICE_VULKAN_1_3_FEATURES,
        .synchronization2 = is_second_generation};
    VkDeviceCreateInfo of_device = {VK_STRUCTURE_TYPE_DEVICE_CREATE_INFO, .pNext = &features,
        .queueCreateInfoCount = 1, .pQueueCreateInfos = &of_queue};
    NEED(vkCreateDevice(gpu, &of_device, NULL, &device));
    vkGetDeviceQueue(device, 0, 0, &queue);
    VkPhysicalDeviceMemoryProperties properties;
    vkGetPhysicalDeviceMemoryProperties(gpu, &properties);
    VkCommandPoolCreateInfo of_pool = {VK_STRUCTURE_TYPE_COMMAND_POOL_CREATE_INFO};
    NEED(vkCreateCommandPool(device, &of_pool, NULL, &pool));
    VkCommandBufferAllocateInfo of_commands = {VK_STRUCTURE_TYPE_COMMAND_BUFFER_ALLOCATE_INFO,
        .commandPool = pool, .commandBufferCount = 1};
    NEED(vkAllocateCommandBuffers(device, &of_commands, &commands));
}

static Buffer make_buffer(void) {
    Buffer made;
    VkBufferCreateInfo of_buffer = {VK_STRUCTURE_TYPE_BUFFER_CREATE_INFO, .size = SIZE,
        .usage = VK_BUFFER_USAGE_TRANSFER_SRC_BIT | VK_BUFFER_USAGE_TRANSFER_DST_BIT};
    NEED(vkCreateBuffer(device, &of_buffer, NULL, &made.handle));
    VkMemoryAllocateInfo of_memory = {
        VK_STRUCTURE_TYPE_MEMORY_ALLOCATE_INFO, .allocationSize = SIZE};
    NEED(vkAllocateMemory(device, &of_memory, NULL, &made.memory));
    NEED(vkBindBufferMemory(device, made.handle, made.memory, 0));
    return made;
}

static void *map(Buffer buffer) {
    void *bytes;
    NEED(vkMapMemory(device, buffer.memory, 0, VK_WHOLE_SIZE, 0, &bytes));
    return bytes;
}

static void barrier(int is_second, int stage, int access) {
    VkMemoryBarrier2 second = {VK_STRUCTURE_TYPE_MEMORY_BARRIER_2,
        .srcStageMask = VK_PIPELINE_STAGE_2_COPY_BIT,
        .srcAccessMask = VK_ACCESS_2_TRANSFER_WRITE_BIT,
        .dstStageMask = stage, .dstAccessMask = access};
    VkDependencyInfo dependency = {
        VK_STRUCTURE_TYPE_DEPENDENCY_INFO, .memoryBarrierCount = 1, .pMemoryBarriers = &second};
    VkMemoryBarrier first = {VK_STRUCTURE_TYPE_MEMORY_BARRIER,
        .srcAccessMask = VK_ACCESS_TRANSFER_WRITE_BIT, .dstAccessMask = access};
    if (is_second)
        vkCmdPipelineBarrier2(commands, &dependency);
    else
        vkCmdPipelineBarrier(
            commands, VK_PIPELINE_STAGE_TRANSFER_BIT, stage, 0, 1, &first, 0, NULL, 0, NULL);
}

static void submit(int is_second, VkFence fence) {
    VkCommandBufferSubmitInfo part = {
        VK_STRUCTURE_TYPE_COMMAND_BUFFER_SUBMIT_INFO, .commandBuffer = commands};
    VkSubmitInfo2 second = {VK_STRUCTURE_TYPE_SUBMIT_INFO_2, .commandBufferInfoCount = 1,
        .pCommandBufferInfos = &part};
    VkSubmitInfo first = {
        VK_STRUCTURE_TYPE_SUBMIT_INFO, .commandBufferCount = 1, .pCommandBuffers = &commands};
    NEED(is_second ? vkQueueSubmit2(queue, 1, &second, fence)
                   : vkQueueSubmit(queue, 1, &first, fence));
}

/* Two slots of one buffer that stays mapped, in the same page, for six frames: the host writes one
 * while the commands of the frame before copy the other. */
static void ring(int is_waited) {
    Buffer slots = make_buffer(), to = make_buffer();
    unsigned char *bytes = map(slots);
    VkFenceCreateInfo of_fence = {
        VK_STRUCTURE_TYPE_FENCE_CREATE_INFO, .flags = VK_FENCE_CREATE_SIGNALED_BIT};
    VkCommandBuffer frames[6];
    VkCommandBufferAllocateInfo of_frames = {VK_STRUCTURE_TYPE_COMMAND_BUFFER_ALLOCATE_INFO,
        .commandPool = pool, .commandBufferCount = 6};
    NEED(vkAllocateCommandBuffers(device, &of_frames, frames));
    VkFence fences[2];
    for (int i = 0; i < 2; i++) NEED(vkCreateFence(device, &of_fence, NULL, &fences[i]));
    for (int frame = 0; frame < 6; frame++) {
        int slot = frame % 2, offset = slot * SIZE / 2;
        if (is_waited) NEED(vkWaitForFences(device, 1, &fences[slot], 1, UINT64_MAX));
        memset(bytes + offset, 16 * frame + 1, SIZE / 2);
        if (is_waited) NEED(vkResetFences(device, 1, &fences[slot]));
        commands = frames[frame];
        VkCommandBufferBeginInfo begin = {VK_STRUCTURE_TYPE_COMMAND_BUFFER_BEGIN_INFO};
        NEED(vkBeginCommandBuffer(commands, &begin));
        VkBufferCopy part = {offset, offset, SIZE / 2};
        barrier(0, VK_PIPELINE_STAGE_TRANSFER_BIT, VK_ACCESS_TRANSFER_WRITE_BIT);
        vkCmdCopyBuffer(commands, slots.handle, to.handle, 1, &part);
        barrier(0, VK_PIPELINE_STAGE_HOST_BIT, VK_ACCESS_HOST_READ_BIT);
        NEED(vkEndCommandBuffer(commands));
        submit(0, is_waited ? fences[slot] : VK_NULL_HANDLE);
    }
    NEED(vkDeviceWaitIdle(device));
    unsigned char *read = map(to);
    printf("%02x %02x\n", read[0], read[SIZE / 2]);
    vkUnmapMemory(device, to.memory);
    vkUnmapMemory(device, slots.memory);
}

int main(int count, char **words) {
    const char *word = count > 1 ? words[1] : "";
#define IS(text) (strcmp(word, text) == 0)
    int is_second = IS("second_generation");
    open_device(is_second);
    if (IS("ring") || IS("ring_no_wait")) {
        ring(IS("ring"));
        return 0;
    }
    Buffer from = make_buffer(), between = make_buffer(), to = make_buffer();
    unsigned char *bytes = map(from);
    for (int i = 0; i < SIZE; i++) bytes[i] = i;
    VkMappedMemoryRange range = {
        VK_STRUCTURE_TYPE_MAPPED_MEMORY_RANGE, .memory = from.memory, .size = VK_WHOLE_SIZE};
    if (!IS("no_flush")) NEED(vkFlushMappedMemoryRanges(device, 1, &range));

    VkCommandBufferBeginInfo begin = {VK_STRUCTURE_TYPE_COMMAND_BUFFER_BEGIN_INFO};
    NEED(vkBeginCommandBuffer(commands, &begin));
    VkBufferCopy all = {0, 0, SIZE};
    vkCmdCopyBuffer(commands, from.handle, between.handle, 1, &all);
    if (!IS("no_barrier"))
        barrier(is_second, VK_PIPELINE_STAGE_TRANSFER_BIT, VK_ACCESS_TRANSFER_READ_BIT);
    vkCmdCopyBuffer(commands, between.handle, to.handle, 1, &all);
    unsigned char four[4] = {9, 8, 7, 6};
    if (is_second) {
        barrier(1, VK_PIPELINE_STAGE_TRANSFER_BIT, VK_ACCESS_TRANSFER_WRITE_BIT);
        vkCmdUpdateBuffer(commands, to.handle, 8, 4, four);
        barrier(1, VK_PIPELINE_STAGE_TRANSFER_BIT, VK_ACCESS_TRANSFER_WRITE_BIT);
        vkCmdFillBuffer(commands, to.handle, 16, 8, 0x01020304);
    }
    if (!IS("no_host_barrier"))
        barrier(0, VK_PIPELINE_STAGE_HOST_BIT, VK_ACCESS_HOST_READ_BIT);
    NEED(vkEndCommandBuffer(commands));

    VkFenceCreateInfo of_fence = {VK_STRUCTURE_TYPE_FENCE_CREATE_INFO};
    VkFence fence;
    NEED(vkCreateFence(device, &of_fence, NULL, &fence));
    submit(is_second, fence);
    if (IS("write_in_use")) {
        bytes[0] = 99;
        NEED(vkFlushMappedMemoryRanges(device, 1, &range));
    }
    if (!IS("no_wait") && !IS("destroyed_in_use")) NEED(vkWaitForFences(device, 1, &fence, 1, UINT64_MAX));
    if (!IS("destroyed_in_use")) {
        unsigned char *read = map(to);
        range.memory = to.memory;
        if (!IS("no_invalidation")) NEED(vkInvalidateMappedMemoryRanges(device, 1, &range));
        for (int i = 0; i < SIZE; i++) printf("%02x", read[i]);
        printf("\n");
        vkUnmapMemory(device, to.memory);
        NEED(vkDeviceWaitIdle(device));
    }
    vkDestroyBuffer(device, from.handle, NULL);
    vkDestroyBuffer(device, between.handle, NULL);
    vkDestroyBuffer(device, to.handle, NULL);
    vkDeviceWaitIdle(device);
    return 0;
}
