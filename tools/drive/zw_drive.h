// Makes the calls of a table on a Vulkan device of this machine, and compares the bytes that the host reads
// with those that it has to read. It needs C99 and the Vulkan loader.
//
// The table is a trace of Vulkan transfers, written by the program `emit` of Zorthewin: a row for each entry of
// the trace, and a batch of commands where its waits are met, so that no call comes before one that it needs.
// Below are, in this order: the rows; the device, with its queues and memory types for those of the trace; what
// can't be done there; the calls; what was read. main is at the end of the table's file.
#include <stdint.h>
#include <stdio.h>
#include <stdlib.h>
#include <string.h>
#define VK_ENABLE_BETA_EXTENSIONS // (for drivers over Metal)
#include <vulkan/vulkan.h>

// ---- rows: the kind of a row, its numbers, and then its items

typedef uint64_t ZwWord;

enum ZwKind {
    ZW_END, ZW_MEMORY, ZW_FREE, ZW_POOL, ZW_DROP_POOL, ZW_BUFFER, ZW_IMAGE, ZW_DESTROY, ZW_SEMAPHORE, ZW_EVENT,
    ZW_MAP, ZW_UNMAP, ZW_WRITE, ZW_READ, ZW_FLUSH, ZW_INVALIDATE, ZW_SIGNAL, ZW_WAIT, ZW_SUBMIT, ZW_DEFRAG, ZW_PASS,
    ZW_END_PASS, ZW_END_DEFRAG, ZW_BATCH, ZW_BATCH_WAIT, ZW_BATCH_SIGNAL, ZW_END_BATCH, ZW_FILL, ZW_UPDATE, ZW_COPY,
    ZW_CLEAR, ZW_COPY_IN, ZW_COPY_OUT, ZW_COPY_IMAGE, ZW_BARRIER, ZW_SET, ZW_AWAIT
};

enum ZwPlace { ZW_DEDICATED, ZW_IN_MEMORY, ZW_IN_POOL, ZW_IN_POOL_UPPER };

// How many words a row has.
static size_t zw_length(const ZwWord *r) {
    static const unsigned char fixed[] = {1, 4, 2, 6, 2, 8, 13, 2, 3, 2, 2, 2, 4, 4, 4, 4, 3, 2, 3, 5, 2, 4, 2, 4, 4, 4,
                                          1, 5, 4, 4, 8, 5, 5, 6, 4, 3, 3};
    size_t n = fixed[r[0]];
    switch (r[0]) {
    case ZW_WAIT: return n + 2 * r[1];
    case ZW_END_PASS: return n + r[2] + r[3];
    case ZW_COPY: return n + 3 * r[3];
    case ZW_CLEAR: return n + 4 * r[7];
    case ZW_COPY_IN: case ZW_COPY_OUT: return n + 10 * r[4];
    case ZW_COPY_IMAGE: return n + 11 * r[5];
    case ZW_BARRIER: return n + 4 * r[1] + 9 * r[2] + 13 * r[3];
    case ZW_SET: case ZW_AWAIT: return n + 4 * r[2];
    default: return n;
    }
}

// A walk over the table: `for (ZwWalk w = zw_walk(); zw_next(&w);)`.
typedef struct {
    const ZwWord *row;   // its kind and its numbers
    size_t number;       // of the row
    size_t data;         // how many rows with bytes came before it
    ZwWord entry;        // of the trace, from 0 on; of a batch the entry that submits it
    ZwWord batch, queue; // of the batch that is open
    ZwWord place;        // of the command in it
    ZwWord entries;      // how many entries have come
    int open;            // whether a batch is
} ZwWalk;

static const ZwWord *zw_table;
static ZwWalk zw_walk(void) { ZwWalk w = {0}; return w; }

static int zw_has_data(const ZwWord *r) { return r[0] == ZW_WRITE || r[0] == ZW_READ || r[0] == ZW_UPDATE; }

static int zw_next(ZwWalk *w) {
    if (w->row) {
        w->data += (size_t)zw_has_data(w->row);
        w->place += w->row[0] > ZW_END_BATCH;
        if (w->row[0] == ZW_END_BATCH) w->open = 0;
        w->number++;
        w->row += zw_length(w->row);
    } else w->row = zw_table;
    if (w->row[0] == ZW_BATCH) {
        w->open = 1;
        w->entry = w->row[1]; w->batch = w->row[2]; w->queue = w->row[3];
        w->place = 0;
    } else if (!w->open) w->entry = w->entries++;
    return w->row[0] != ZW_END;
}

// The name of a point of the trace: `2` for an entry, `2.0.1` for a command, `2.0` for a batch.
static const char *zw_point(const ZwWalk *w) {
    static char text[2][64];
    static int turn;
    char *t = text[turn ^= 1];
    if (!w->open) snprintf(t, sizeof text[0], "%llu", (unsigned long long)w->entry);
    else if (w->row[0] <= ZW_END_BATCH)
        snprintf(t, sizeof text[0], "%llu.%llu", (unsigned long long)w->entry, (unsigned long long)w->batch);
    else snprintf(t, sizeof text[0], "%llu.%llu.%llu", (unsigned long long)w->entry, (unsigned long long)w->batch,
                  (unsigned long long)w->place);
    return t;
}

// ---- the end of the program: 4 where a wait doesn't end, 5 where the device can't, 6 where there is none

static const char *zw_at = "the device"; // what is done

static const char *zw_result(VkResult r) {
    static char number[32];
    switch (r) {
    case VK_ERROR_OUT_OF_HOST_MEMORY: return "VK_ERROR_OUT_OF_HOST_MEMORY";
    case VK_ERROR_OUT_OF_DEVICE_MEMORY: return "VK_ERROR_OUT_OF_DEVICE_MEMORY";
    case VK_ERROR_INITIALIZATION_FAILED: return "VK_ERROR_INITIALIZATION_FAILED";
    case VK_ERROR_DEVICE_LOST: return "VK_ERROR_DEVICE_LOST";
    case VK_ERROR_MEMORY_MAP_FAILED: return "VK_ERROR_MEMORY_MAP_FAILED";
    case VK_ERROR_LAYER_NOT_PRESENT: return "VK_ERROR_LAYER_NOT_PRESENT";
    case VK_ERROR_INCOMPATIBLE_DRIVER: return "VK_ERROR_INCOMPATIBLE_DRIVER";
    case VK_ERROR_TOO_MANY_OBJECTS: return "VK_ERROR_TOO_MANY_OBJECTS";
    default: snprintf(number, sizeof number, "VkResult %d", (int)r); return number;
    }
}
static void zw_end(int status, const char *text, const char *why) {
    printf("%s at %s: %s%s%s\n", status == 4 ? "no end" : "can't be done", zw_at, text, *why ? ": " : "", why);
    fflush(stdout);
    _Exit(status);
}
#define ZW(call) do { VkResult r_ = (call); if (r_ < 0) zw_end(5, #call, zw_result(r_)); } while (0)

static void *zw_room(size_t count, size_t size) {
    void *p = calloc(count ? count : 1, size);
    if (!p) zw_end(5, "no memory", "");
    return p;
}

// ---- the device

static VkInstance zw_instance;
static VkPhysicalDevice zw_phys;
static VkDevice zw_device;
static VkPhysicalDeviceProperties zw_props;
static VkPhysicalDeviceMemoryProperties zw_memory;
static VkQueueFamilyProperties zw_family[64];
static uint32_t zw_families;
static uint32_t zw_family_of[2];        // of the trace's families
static VkQueue zw_queue[4];             // of the trace's queues
static uint32_t zw_queue_index[4];      // in their families
static VkCommandPool zw_pool[4];
static int zw_has_events = 1;
static uint64_t zw_farthest = UINT64_MAX; // by how much a signal may be ahead of its semaphore
static VkDeviceSize zw_atom = 64;       // bytes that are flushed together; those of the trace are 64

// A family that has all of these and none of those; -1 where none is.
static int zw_find_family(VkQueueFlags with, VkQueueFlags without) {
    for (uint32_t k = 0; k < zw_families; k++)
        if ((zw_family[k].queueFlags & with) == with && !(zw_family[k].queueFlags & without)) return (int)k;
    return -1;
}

// The family of the trace's queues 2 and 3: for transfers alone, of single texels, if there is one.
static int zw_transfer_family(int otherwise) {
    int f = zw_find_family(VK_QUEUE_TRANSFER_BIT, VK_QUEUE_GRAPHICS_BIT | VK_QUEUE_COMPUTE_BIT);
    if (f >= 0) {
        VkExtent3D g = zw_family[f].minImageTransferGranularity;
        if (g.width == 1 && g.height == 1 && g.depth == 1) return f;
    }
    f = zw_find_family(VK_QUEUE_COMPUTE_BIT, VK_QUEUE_GRAPHICS_BIT);
    return f >= 0 ? f : otherwise;
}

static VkMemoryPropertyFlags zw_flags(uint32_t k) { return zw_memory.memoryTypes[k].propertyFlags; }

// The best of the device's memory types for one of the trace, among those that are allowed; -1 where none is.
static int zw_type(ZwWord type, uint32_t allowed) {
    int best = -1, most = -100;
    for (uint32_t k = 0; k < zw_memory.memoryTypeCount; k++) {
        VkMemoryPropertyFlags f = zw_flags(k);
        int local = !!(f & VK_MEMORY_PROPERTY_DEVICE_LOCAL_BIT), seen = !!(f & VK_MEMORY_PROPERTY_HOST_VISIBLE_BIT);
        int coherent = !!(f & VK_MEMORY_PROPERTY_HOST_COHERENT_BIT), points;
        int cached = !!(f & VK_MEMORY_PROPERTY_HOST_CACHED_BIT);
        if (!(allowed >> k & 1) || f & ~(VkMemoryPropertyFlags)0xf) continue; // (protected, lazy and the like)
        if ((type > 0 && !seen) || (type == 1 && !coherent)) continue;
        if (type == 0) points = 4 * local - 2 * seen;
        else if (type == 1) points = -2 * cached - local;
        else points = 4 * cached - 8 * coherent - local;
        if (points > most) { most = points; best = (int)k; }
    }
    return best;
}

static const char *zw_device_kind(VkPhysicalDeviceType t) {
    static const char *const names[] = {"other", "integrated GPU", "discrete GPU", "virtual GPU", "CPU"};
    return (unsigned)t < 5 ? names[t] : names[0];
}

static int zw_has_extension(const VkExtensionProperties *all, uint32_t n, const char *name) {
    for (uint32_t k = 0; k < n; k++) if (!strcmp(all[k].extensionName, name)) return 1;
    return 0;
}

static void zw_open_instance(void) {
    static const char *const portable[] = {VK_KHR_PORTABILITY_ENUMERATION_EXTENSION_NAME};
    VkApplicationInfo app = {VK_STRUCTURE_TYPE_APPLICATION_INFO};
    VkInstanceCreateInfo i = {VK_STRUCTURE_TYPE_INSTANCE_CREATE_INFO};
    uint32_t n = 0;
    VkResult r;
    app.apiVersion = VK_API_VERSION_1_3;
    i.pApplicationInfo = &app;
    vkEnumerateInstanceExtensionProperties(0, &n, 0);
    VkExtensionProperties *all = zw_room(n, sizeof *all);
    vkEnumerateInstanceExtensionProperties(0, &n, all);
    if (zw_has_extension(all, n, portable[0])) {
        i.flags = VK_INSTANCE_CREATE_ENUMERATE_PORTABILITY_BIT_KHR;
        i.enabledExtensionCount = 1;
        i.ppEnabledExtensionNames = portable;
    }
    free(all);
    r = vkCreateInstance(&i, 0, &zw_instance);
    if (r < 0) zw_end(6, "vkCreateInstance", zw_result(r));
}

// Finds the first device with Vulkan 1.3 whose name has the text, or whose number in the list it is.
static void zw_find_device(const char *wanted, int list) {
    uint32_t n = 0, k;
    char number[16];
    vkEnumeratePhysicalDevices(zw_instance, &n, 0);
    VkPhysicalDevice *all = zw_room(n, sizeof *all);
    vkEnumeratePhysicalDevices(zw_instance, &n, all);
    for (k = 0; k < n; k++) {
        vkGetPhysicalDeviceProperties(all[k], &zw_props);
        snprintf(number, sizeof number, "%u", k);
        if (list)
            printf("%u: %s (%s), Vulkan %u.%u\n", k, zw_props.deviceName, zw_device_kind(zw_props.deviceType),
                   VK_API_VERSION_MAJOR(zw_props.apiVersion), VK_API_VERSION_MINOR(zw_props.apiVersion));
        else if (zw_props.apiVersion >= VK_API_VERSION_1_3 &&
                 (!wanted || !strcmp(wanted, number) || strstr(zw_props.deviceName, wanted))) {
            zw_phys = all[k];
            break;
        }
    }
    free(all);
    if (!list && !zw_phys) zw_end(6, "no device with Vulkan 1.3 has this name", wanted ? wanted : "");
    if (list && !n) zw_end(6, "there is no Vulkan device", "");
}

static void zw_choose_queues(uint32_t *counts) {
    int f0 = zw_find_family(VK_QUEUE_GRAPHICS_BIT, 0);
    if (f0 < 0) f0 = zw_find_family(VK_QUEUE_COMPUTE_BIT, 0);
    if (f0 < 0) zw_end(5, "no queue has clears", "");
    zw_family_of[0] = (uint32_t)f0;
    zw_family_of[1] = (uint32_t)zw_transfer_family(f0);
    for (int k = 0; k < 4; k++) {
        uint32_t f = zw_family_of[k / 2];
        if (counts[f] < zw_family[f].queueCount) zw_queue_index[k] = counts[f]++;
        else zw_queue_index[k] = (uint32_t)(k % 2) % counts[f];
    }
}

static void zw_open_device(void) {
    uint32_t counts[64] = {0}, n = 0, two;
    const float one[4] = {1, 1, 1, 1};
    static const char *subset = "VK_KHR_portability_subset";
    VkDeviceQueueCreateInfo q[2];
    VkPhysicalDeviceTimelineSemaphoreProperties timeline = {
        VK_STRUCTURE_TYPE_PHYSICAL_DEVICE_TIMELINE_SEMAPHORE_PROPERTIES};
    VkPhysicalDeviceProperties2 properties = {VK_STRUCTURE_TYPE_PHYSICAL_DEVICE_PROPERTIES_2};
    VkPhysicalDevicePortabilitySubsetFeaturesKHR portable = {
        VK_STRUCTURE_TYPE_PHYSICAL_DEVICE_PORTABILITY_SUBSET_FEATURES_KHR};
    VkPhysicalDeviceVulkan13Features f13 = {VK_STRUCTURE_TYPE_PHYSICAL_DEVICE_VULKAN_1_3_FEATURES};
    VkPhysicalDeviceVulkan12Features f12 = {VK_STRUCTURE_TYPE_PHYSICAL_DEVICE_VULKAN_1_2_FEATURES};
    VkPhysicalDeviceFeatures2 features = {VK_STRUCTURE_TYPE_PHYSICAL_DEVICE_FEATURES_2};
    VkDeviceCreateInfo i = {VK_STRUCTURE_TYPE_DEVICE_CREATE_INFO};
    properties.pNext = &timeline;
    vkGetPhysicalDeviceProperties2(zw_phys, &properties);
    zw_farthest = timeline.maxTimelineSemaphoreValueDifference;
    if (zw_props.limits.nonCoherentAtomSize > zw_atom) zw_atom = zw_props.limits.nonCoherentAtomSize;
    vkGetPhysicalDeviceMemoryProperties(zw_phys, &zw_memory);
    zw_families = 64;
    vkGetPhysicalDeviceQueueFamilyProperties(zw_phys, &zw_families, zw_family);
    zw_choose_queues(counts);
    two = zw_family_of[0] != zw_family_of[1];
    memset(q, 0, sizeof q);
    for (uint32_t k = 0; k <= two; k++) {
        q[k].sType = VK_STRUCTURE_TYPE_DEVICE_QUEUE_CREATE_INFO;
        q[k].queueFamilyIndex = zw_family_of[k];
        q[k].queueCount = counts[zw_family_of[k]];
        q[k].pQueuePriorities = one;
    }
    f13.synchronization2 = f13.maintenance4 = VK_TRUE;
    f12.timelineSemaphore = VK_TRUE;
    f12.pNext = &f13;
    i.pNext = &f12;
    vkEnumerateDeviceExtensionProperties(zw_phys, 0, &n, 0);
    VkExtensionProperties *all = zw_room(n, sizeof *all);
    vkEnumerateDeviceExtensionProperties(zw_phys, 0, &n, all);
    if (zw_has_extension(all, n, subset)) {
        features.pNext = &portable;
        vkGetPhysicalDeviceFeatures2(zw_phys, &features);
        zw_has_events = portable.events == VK_TRUE;
        portable.pNext = 0;
        f13.pNext = &portable;
        i.enabledExtensionCount = 1;
        i.ppEnabledExtensionNames = &subset;
    }
    free(all);
    i.queueCreateInfoCount = two + 1;
    i.pQueueCreateInfos = q;
    ZW(vkCreateDevice(zw_phys, &i, 0, &zw_device));
    for (int k = 0; k < 4; k++) vkGetDeviceQueue(zw_device, zw_family_of[k / 2], zw_queue_index[k], &zw_queue[k]);
}

// Whether two queues of the trace are one on the device.
static int zw_same_queue(int j, int k) {
    return zw_family_of[j / 2] == zw_family_of[k / 2] && zw_queue_index[j] == zw_queue_index[k];
}

static void zw_say_device(void) {
    uint32_t v = zw_props.apiVersion;
    int shared = 0, coherent;
    printf("device: %s (%s), Vulkan %u.%u.%u, driver 0x%x\n", zw_props.deviceName, zw_device_kind(zw_props.deviceType),
           VK_API_VERSION_MAJOR(v), VK_API_VERSION_MINOR(v), VK_API_VERSION_PATCH(v), zw_props.driverVersion);
    for (int k = 0; k < 4; k++) {
        printf("queue %d: queue %u of family %u\n", k, zw_queue_index[k], zw_family_of[k / 2]);
        for (int j = 0; j < k; j++) shared |= zw_same_queue(j, k);
    }
    for (int k = 0; k < 3; k++) {
        int t = zw_type((ZwWord)k, ~0u);
        if (t < 0) { printf("memory type %d: none of the device\n", k); continue; }
        VkMemoryPropertyFlags f = zw_flags((uint32_t)t);
        printf("memory type %d: type %d,%s%s%s%s\n", k, t, f & 1 ? " DEVICE_LOCAL" : "", f & 2 ? " HOST_VISIBLE" : "",
               f & 4 ? " HOST_COHERENT" : "", f & 8 ? " HOST_CACHED" : "");
    }
    coherent = zw_type(2, ~0u) >= 0 && zw_flags((uint32_t)zw_type(2, ~0u)) & VK_MEMORY_PROPERTY_HOST_COHERENT_BIT;
    if (zw_family_of[0] == zw_family_of[1])
        printf("note: families 0 and 1 are one: ownership transfers and concurrent sharing do nothing\n");
    if (shared) printf("note: some queues are one: their batches come in the order in which they can start\n");
    if (coherent) printf("note: memory type 2 is coherent: what flushes and invalidations do doesn't show\n");
    if (zw_atom > 64) printf("note: atoms have %llu bytes: flushes and invalidations are widened from 64\n",
                             (unsigned long long)zw_atom);
}

// ---- objects of the trace

typedef struct ZwObject {
    ZwWord id;
    const ZwWord *row;       // that makes it
    struct ZwObject *memory; // whose memory it lies in: its own, or a memory object of the trace
    ZwWord type;             // the trace's memory type
    VkDeviceSize size;       // bytes of a buffer
    // what is known before anything runs
    int live, maps, device_type;
    uint32_t allowed;        // memory types of the device, for all that lies in the memory
    VkDeviceSize offset, total;
    ZwWord value;            // of a semaphore
    uint32_t set;            // the queues on which an event was set
    const ZwWord *odd;       // a clear by a component above its format that its bytes may come from
    unsigned char *dirty;    // atoms of 64 bytes that the host wrote and hasn't flushed
    // while it runs
    VkBuffer buffer;
    VkImage image;
    VkDeviceMemory device_memory;
    VkSemaphore semaphore;
    VkEvent event;
    int mapped;
    char *bytes;
} ZwObject;

static ZwObject *zw_objects; // by their ids
static size_t zw_count;

static int zw_by_id(const void *a, const void *b) {
    ZwWord x = ((const ZwObject *)a)->id, y = ((const ZwObject *)b)->id;
    return (x > y) - (x < y);
}
static ZwObject *zw_find(ZwWord id) {
    size_t low = 0, high = zw_count;
    while (low < high) {
        size_t k = low + (high - low) / 2;
        if (zw_objects[k].id < id) low = k + 1; else high = k;
    }
    return low < zw_count && zw_objects[low].id == id ? &zw_objects[low] : 0;
}
static int zw_makes(const ZwWord *r) {
    switch (r[0]) {
    case ZW_MEMORY: case ZW_POOL: case ZW_BUFFER: case ZW_IMAGE: case ZW_SEMAPHORE: case ZW_EVENT: case ZW_DEFRAG:
        return 1;
    default: return 0;
    }
}
// A live object of one of two kinds, or none.
static ZwObject *zw_live(ZwWord id, ZwWord kind, ZwWord other) {
    ZwObject *o = zw_find(id);
    return o && o->live && (o->row[0] == kind || o->row[0] == other) ? o : 0;
}
static const ZwWord *zw_place(const ZwObject *o) { return o->row + (o->row[0] == ZW_BUFFER ? 5 : 10); }

static void zw_collect(void) {
    size_t n = 0, kept = 0;
    for (ZwWalk w = zw_walk(); zw_next(&w);) n += (size_t)zw_makes(w.row);
    zw_objects = zw_room(n, sizeof *zw_objects);
    for (ZwWalk w = zw_walk(); zw_next(&w);) {
        if (!zw_makes(w.row)) continue;
        zw_objects[zw_count].id = w.row[1];
        zw_objects[zw_count].allowed = ~0u;
        zw_objects[zw_count++].row = w.row;
    }
    // (an id is made once, but where the trace breaks a rule: the first counts)
    qsort(zw_objects, zw_count, sizeof *zw_objects, zw_by_id);
    for (size_t k = 0; k < zw_count; k++) {
        if (kept && zw_objects[kept - 1].id == zw_objects[k].id) {
            if (zw_objects[k].row < zw_objects[kept - 1].row) zw_objects[kept - 1] = zw_objects[k];
        } else zw_objects[kept++] = zw_objects[k];
    }
    zw_count = kept;
}

static uint32_t zw_texel(ZwWord format) {
    switch (format) {
    case VK_FORMAT_R8_UINT: return 1;
    case VK_FORMAT_R8G8_UINT: case VK_FORMAT_R16_UINT: return 2;
    case VK_FORMAT_R32G32_UINT: return 8;
    case VK_FORMAT_R32G32B32A32_UINT: return 16;
    default: return 4;
    }
}
static uint32_t zw_bits(ZwWord format) {
    switch (format) {
    case VK_FORMAT_R8_UINT: case VK_FORMAT_R8G8_UINT: case VK_FORMAT_R8G8B8A8_UINT: return 8;
    case VK_FORMAT_R16_UINT: return 16;
    default: return 32;
    }
}
static uint32_t zw_components(ZwWord format) { return zw_texel(format) * 8 / zw_bits(format); }

static uint32_t zw_sharing(ZwWord concurrent, uint32_t *count, const uint32_t **list) {
    if (!concurrent || zw_family_of[0] == zw_family_of[1]) return VK_SHARING_MODE_EXCLUSIVE;
    *count = 2; *list = zw_family_of;
    return VK_SHARING_MODE_CONCURRENT;
}
static VkBufferCreateInfo zw_buffer_info(const ZwWord *r) {
    VkBufferCreateInfo i = {VK_STRUCTURE_TYPE_BUFFER_CREATE_INFO};
    i.size = r[2];
    i.usage = (VkBufferUsageFlags)r[3];
    i.sharingMode = zw_sharing(r[4], &i.queueFamilyIndexCount, &i.pQueueFamilyIndices);
    return i;
}
static VkImageCreateInfo zw_image_info(const ZwWord *r) {
    VkImageCreateInfo i = {VK_STRUCTURE_TYPE_IMAGE_CREATE_INFO};
    i.imageType = VK_IMAGE_TYPE_2D;
    i.format = (VkFormat)r[2];
    i.extent.width = (uint32_t)r[3]; i.extent.height = (uint32_t)r[4]; i.extent.depth = 1;
    i.mipLevels = (uint32_t)r[5];
    i.arrayLayers = (uint32_t)r[6];
    i.samples = VK_SAMPLE_COUNT_1_BIT;
    i.tiling = r[7] ? VK_IMAGE_TILING_OPTIMAL : VK_IMAGE_TILING_LINEAR;
    i.usage = (VkImageUsageFlags)r[8];
    i.sharingMode = zw_sharing(r[9], &i.queueFamilyIndexCount, &i.pQueueFamilyIndices);
    return i;
}

// ---- what can't be done, row by row, before anything runs

static const char **zw_skipped; // why a row isn't performed, or 0
static size_t zw_allocations;   // that are live

static VkDeviceSize zw_up(VkDeviceSize n, VkDeviceSize to) { return (n + to - 1) / to * to; }

// Where a resource goes in the memory of its place: behind what came before, by the device's own sizes. What offset
// it has, and what lies beside it, is seen by no entry.
static const char *zw_put(ZwObject *o, VkMemoryRequirements need) {
    const ZwWord *place = zw_place(o);
    VkDeviceSize align = need.alignment > zw_atom ? need.alignment : zw_atom;
    VkDeviceSize page = zw_props.limits.bufferImageGranularity;
    ZwObject *m = o;
    if (place[0] == ZW_IN_MEMORY && !(m = zw_live(place[1], ZW_MEMORY, ZW_MEMORY))) return "its memory isn't live";
    if (place[0] >= ZW_IN_POOL && !zw_live(place[1], ZW_POOL, ZW_POOL)) return "its pool isn't live";
    o->type = place[0] == ZW_DEDICATED ? place[1] : place[0] == ZW_IN_MEMORY ? m->row[2] : zw_find(place[1])->row[3];
    if (o->type > 2) return "there is no such memory type";
    if (page > align) align = page;
    if (zw_type(o->type, m->allowed & need.memoryTypeBits) < 0) return "no memory type of the device fits";
    m->allowed &= need.memoryTypeBits;
    o->memory = m;
    o->offset = zw_up(m->total, align);
    m->total = o->offset + zw_up(need.size, align);
    if (m == o) zw_allocations++;
    return zw_allocations > zw_props.limits.maxMemoryAllocationCount ? "maxMemoryAllocationCount is passed" : 0;
}
static const char *zw_cannot_buffer(ZwObject *o) {
    VkBufferCreateInfo i = zw_buffer_info(o->row);
    VkDeviceBufferMemoryRequirements of = {VK_STRUCTURE_TYPE_DEVICE_BUFFER_MEMORY_REQUIREMENTS};
    VkMemoryRequirements2 need = {VK_STRUCTURE_TYPE_MEMORY_REQUIREMENTS_2};
    if (!i.size || i.size > 1 << 26) return "it has no byte, or too many";
    if (!i.usage || i.usage > 3) return "its usage isn't one of transfers";
    of.pCreateInfo = &i;
    vkGetDeviceBufferMemoryRequirements(zw_device, &of, &need);
    o->size = i.size;
    return zw_put(o, need.memoryRequirements);
}
static const char *zw_cannot_image(ZwObject *o) {
    VkImageCreateInfo i = zw_image_info(o->row);
    VkDeviceImageMemoryRequirements of = {VK_STRUCTURE_TYPE_DEVICE_IMAGE_MEMORY_REQUIREMENTS};
    VkMemoryRequirements2 need = {VK_STRUCTURE_TYPE_MEMORY_REQUIREMENTS_2};
    VkImageFormatProperties can;
    const ZwWord *r = o->row;
    if (!r[3] || !r[4] || !r[5] || !r[6] || r[3] > 4096 || r[4] > 4096 || r[5] > 13 || r[6] > 256)
        return "its sides, levels or layers are outside of the limits";
    if ((r[3] > r[4] ? r[3] : r[4]) >> (r[5] - 1) == 0) return "it has too many levels";
    if (r[3] * r[4] * r[6] * zw_texel(r[2]) > 1 << 26) return "it has too many bytes";
    if (!i.usage || i.usage > 3) return "its usage isn't one of transfers";
    VkResult result =
        vkGetPhysicalDeviceImageFormatProperties(zw_phys, i.format, i.imageType, i.tiling, i.usage, 0, &can);
    if (result < 0 || r[3] > can.maxExtent.width || r[4] > can.maxExtent.height || r[5] > can.maxMipLevels ||
        r[6] > can.maxArrayLayers) return "the device has no such image";
    of.pCreateInfo = &i;
    vkGetDeviceImageMemoryRequirements(zw_device, &of, &need);
    return zw_put(o, need.memoryRequirements);
}

// An entry that makes an object.
static const char *zw_cannot_make(const ZwWord *r) {
    ZwObject *o = zw_find(r[1]);
    const char *why = 0;
    if (o->row != r) return "its id was made before";
    if (r[0] == ZW_BUFFER) why = zw_cannot_buffer(o);
    else if (r[0] == ZW_IMAGE) why = zw_cannot_image(o);
    else if (r[0] == ZW_MEMORY) {
        if (r[2] > 2) return "there is no such memory type";
        if (!r[3] || r[3] > 1 << 26) return "it has no byte, or too many";
        o->type = r[2];
        if (++zw_allocations > zw_props.limits.maxMemoryAllocationCount) why = "maxMemoryAllocationCount is passed";
    } else if (r[0] == ZW_SEMAPHORE) o->value = r[2];
    else if (r[0] == ZW_EVENT && !zw_has_events) why = "the device has no events";
    else if (r[0] == ZW_DEFRAG && !zw_live(r[2], ZW_POOL, ZW_POOL)) why = "its pool isn't live";
    o->live = !why;
    return why;
}
static const char *zw_cannot_end(ZwObject *o) {
    if (!o) return "there is no such object";
    if (o->memory == o || o->row[0] == ZW_MEMORY) zw_allocations--;
    o->live = 0;
    return 0;
}

static void zw_mark(ZwObject *o, VkDeviceSize from, VkDeviceSize to, unsigned char mark) {
    if (!o->dirty) o->dirty = zw_room((size_t)(o->size / 64 + 1), 1);
    for (VkDeviceSize k = from / 64; k * 64 < to && k * 64 < o->size; k++) o->dirty[k] = mark;
}
// A flush or an invalidation, which reaches whole atoms. Atoms of the device that are wider than those of the trace
// must not lose what the host has written beside it.
static const char *zw_cannot_range(ZwObject *o, const ZwWord *r) {
    VkDeviceSize from = r[2], to = r[3] == VK_WHOLE_SIZE ? o->size : r[2] + r[3];
    zw_mark(o, from, to, 0);
    if (r[0] == ZW_INVALIDATE)
        for (VkDeviceSize k = from / zw_atom * zw_atom; k < zw_up(to, zw_atom) && k < o->size; k += 64)
            if (o->dirty[k / 64]) return "the device's wider atom has bytes that the host wrote and didn't flush";
    return 0;
}
static const char *zw_cannot_access(const ZwWord *r) {
    ZwObject *o = zw_live(r[1], ZW_BUFFER, ZW_BUFFER);
    if (!o) return "there is no such buffer";
    if (r[0] == ZW_MAP) {
        if (!(zw_flags((uint32_t)zw_type(o->type, o->memory->allowed)) & VK_MEMORY_PROPERTY_HOST_VISIBLE_BIT))
            return "its memory isn't visible to the host";
        o->memory->maps++;
        return 0;
    }
    if (!o->memory->maps) return "its memory isn't mapped";
    if (r[0] == ZW_UNMAP) { o->memory->maps--; return 0; }
    if (!r[3] || r[2] >= o->size || (r[3] != VK_WHOLE_SIZE && r[3] > o->size - r[2]))
        return "it is outside of the buffer";
    if (r[0] == ZW_FLUSH || r[0] == ZW_INVALIDATE) return o->type == 2 ? zw_cannot_range(o, r) : 0;
    if (r[0] == ZW_WRITE && o->type == 2) zw_mark(o, r[2], r[2] + r[3], 1);
    return 0;
}
static const char *zw_cannot_signal(ZwWord id, ZwWord value) {
    ZwObject *o = zw_live(id, ZW_SEMAPHORE, ZW_SEMAPHORE);
    if (!o) return "there is no such semaphore";
    if (value <= o->value) return "the semaphore has this value or a greater one";
    if (value - o->value > zw_farthest) return "maxTimelineSemaphoreValueDifference is passed";
    o->value = value;
    return 0;
}
static const char *zw_cannot_wait(ZwWord id, ZwWord value) {
    ZwObject *o = zw_live(id, ZW_SEMAPHORE, ZW_SEMAPHORE);
    if (!o) return "there is no such semaphore";
    return value > o->value ? "nothing that was submitted signals this value" : 0;
}

// The sides of a level.
static ZwWord zw_side(ZwWord side, ZwWord level) { return side >> level ? side >> level : 1; }
static int zw_outside(const ZwWord *image, ZwWord level, ZwWord layer, ZwWord layers, ZwWord x, ZwWord y, ZwWord width,
                      ZwWord height) {
    return level >= image[5] || !layers || layer >= image[6] || layers > image[6] - layer || !width || !height ||
           x + width > zw_side(image[3], level) || y + height > zw_side(image[4], level);
}
// The bytes of a row, and of a layer, that a region has in its buffer.
static void zw_pitch(const ZwWord *g, ZwWord format, ZwWord *row, ZwWord *layer) {
    *row = (g[1] ? g[1] : g[8]) * zw_texel(format);
    *layer = *row * (g[2] ? g[2] : g[9]);
}
static const char *zw_cannot_region(const ZwWord *image, ZwObject *buffer, const ZwWord *g) {
    ZwWord row, layer, end;
    if (zw_outside(image, g[3], g[4], g[5], g[6], g[7], g[8], g[9])) return "a region is outside of the image";
    if ((g[1] && g[1] < g[8]) || (g[2] && g[2] < g[9])) return "a region's rows overlap";
    if (g[1] > 1 << 26 || g[2] > 1 << 26 || g[0] > buffer->size || g[0] % zw_texel(image[2]))
        return "a region is outside of the buffer";
    zw_pitch(g, image[2], &row, &layer);
    end = g[0] + (g[5] - 1) * layer + (g[9] - 1) * row + g[8] * zw_texel(image[2]);
    return end > buffer->size ? "a region is outside of the buffer" : 0;
}
static int zw_is_layout(ZwWord layout) {
    return layout == VK_IMAGE_LAYOUT_GENERAL || layout == VK_IMAGE_LAYOUT_TRANSFER_SRC_OPTIMAL ||
           layout == VK_IMAGE_LAYOUT_TRANSFER_DST_OPTIMAL;
}
static int zw_has_clears(ZwWord queue) {
    return !!(zw_family[zw_family_of[queue / 2]].queueFlags & (VK_QUEUE_GRAPHICS_BIT | VK_QUEUE_COMPUTE_BIT));
}
// Whether the families of an element are some; where they are equal nothing is transferred, whichever they are.
static int zw_are_families(ZwWord f, ZwWord g) {
    return f == g || ((f < 2 || f == VK_QUEUE_FAMILY_IGNORED) && (g < 2 || g == VK_QUEUE_FAMILY_IGNORED));
}
// An element on an image that is no transition, in a layout that no command knows: of it the dependency is left. A
// transfer of ownership to a family of its own is left out where the image is undefined, and so its contents are.
static int zw_is_bare(const ZwWord *v) {
    if (v[7] != v[8] || zw_is_layout(v[8])) return 0;
    return v[4] == v[5] || zw_family_of[0] == zw_family_of[1] || v[8] == VK_IMAGE_LAYOUT_UNDEFINED;
}

// Whether levels or layers are none, or outside of an image.
static int zw_beyond(const ZwWord *g, const ZwWord *image) {
    return !g[1] || g[0] >= image[5] || g[1] > image[5] - g[0] || !g[3] || g[2] >= image[6] || g[3] > image[6] - g[2];
}
static const char *zw_cannot_barrier(const ZwWord *r) {
    const ZwWord *u = r + 4 + 4 * r[1], *v = u + 9 * r[2];
    for (ZwWord k = 0; k < r[2]; k++, u += 9) {
        ZwObject *o = zw_live(u[6], ZW_BUFFER, ZW_BUFFER);
        if (!o) return "there is no such buffer";
        if (!zw_are_families(u[4], u[5])) return "there is no such queue family";
        if (!u[8] || u[7] >= o->size || (u[8] != VK_WHOLE_SIZE && u[8] > o->size - u[7]))
            return "a range is outside of the buffer";
    }
    for (ZwWord k = 0; k < r[3]; k++, v += 13) {
        ZwObject *o = zw_live(v[6], ZW_IMAGE, ZW_IMAGE);
        if (!o) return "there is no such image";
        if (!zw_are_families(v[4], v[5])) return "there is no such queue family";
        if (!zw_is_bare(v) && ((v[7] && !zw_is_layout(v[7])) || !zw_is_layout(v[8])))
            return "a layout isn't one of transfers";
        if (zw_beyond(v + 9, o->row)) return "a range is outside of the image";
    }
    return 0;
}
static const char *zw_cannot_clear(const ZwWord *r, ZwWord queue) {
    ZwObject *o = zw_live(r[1], ZW_IMAGE, ZW_IMAGE);
    const ZwWord *g = r + 8;
    if (!o) return "there is no such image";
    if (!zw_has_clears(queue)) return "the queue has no clears";
    if (!zw_is_layout(r[2])) return "its layout isn't one of transfers";
    if (!r[7]) return "it has no range";
    for (ZwWord k = 0; k < r[7]; k++, g += 4)
        if (zw_beyond(g, o->row)) return "a range is outside of the image";
    for (uint32_t k = 0; k < zw_components(o->row[2]); k++)
        if (r[3 + k] >> zw_bits(o->row[2])) o->odd = r;
    return 0;
}
// A copy between images, between a buffer and an image, or between buffers; their bytes may come from an odd clear.
static const char *zw_cannot_copy(const ZwWord *r) {
    int from_image = r[0] == ZW_COPY_OUT || r[0] == ZW_COPY_IMAGE;
    int to_image = r[0] == ZW_COPY_IN || r[0] == ZW_COPY_IMAGE;
    ZwWord other = r[0] == ZW_COPY_OUT ? r[3] : r[0] == ZW_COPY_IMAGE ? r[3] : r[2];
    ZwObject *a = zw_live(r[1], from_image ? ZW_IMAGE : ZW_BUFFER, ZW_END);
    ZwObject *b = zw_live(other, to_image ? ZW_IMAGE : ZW_BUFFER, ZW_END);
    const ZwWord *g = r + (r[0] == ZW_COPY ? 4 : r[0] == ZW_COPY_IMAGE ? 6 : 5);
    ZwWord n = g[-1];
    const char *why = 0;
    if (!a || !b) return "there is no such resource";
    if (!n) return "it has no region";
    if (from_image && !zw_is_layout(r[2])) return "a layout isn't one of transfers";
    if (to_image && !zw_is_layout(r[0] == ZW_COPY_IN ? r[3] : r[4])) return "a layout isn't one of transfers";
    if (from_image && to_image && zw_texel(a->row[2]) != zw_texel(b->row[2])) return "the texels have different sizes";
    for (; n && !why; n--) {
        if (from_image && to_image) {
            if (zw_outside(a->row, g[0], g[1], g[4], g[5], g[6], g[9], g[10]) ||
                zw_outside(b->row, g[2], g[3], g[4], g[7], g[8], g[9], g[10])) why = "a region is outside of an image";
            g += 11;
        } else if (from_image || to_image) {
            why = zw_cannot_region(from_image ? a->row : b->row, from_image ? b : a, g);
            g += 10;
        } else {
            if (!g[2] || g[0] > a->size || g[2] > a->size - g[0] || g[1] > b->size || g[2] > b->size - g[1])
                why = "a region is outside of a buffer";
            g += 3;
        }
    }
    if (!why && a->odd) b->odd = a->odd;
    return why;
}
static const char *zw_cannot_event(const ZwWord *r, ZwWord queue) {
    ZwObject *o = zw_live(r[1], ZW_EVENT, ZW_EVENT);
    if (!o) return "there is no such event";
    if (!zw_has_clears(queue)) return "the queue has no events";
    if (r[0] == ZW_SET) o->set |= 1u << queue;
    else if (!(o->set >> queue & 1)) return "the event isn't set before on this queue";
    return 0;
}
static const char *zw_cannot_write(const ZwWord *r) {
    ZwObject *o = zw_live(r[1], ZW_BUFFER, ZW_BUFFER);
    if (!o) return "there is no such buffer";
    if (r[2] % 4 || r[2] >= o->size) return "it is outside of the buffer, or not in whole words";
    if (r[0] == ZW_FILL && r[3] == VK_WHOLE_SIZE) return o->size - r[2] < 4 ? "it has no word" : 0;
    if (!r[3] || r[3] % 4 || r[3] > o->size - r[2]) return "it is outside of the buffer, or not in whole words";
    return r[0] == ZW_UPDATE && r[3] > 65536 ? "it has more than 65,536 bytes" : 0;
}

// Why a row can't be performed, or 0; and what is known after it.
static const char *zw_cannot(const ZwWalk *w) {
    const ZwWord *r = w->row;
    const char *why = 0;
    if (w->open && w->queue > 3) return "there is no such queue";
    if (zw_makes(r)) return zw_cannot_make(r);
    switch (r[0]) {
    case ZW_FREE: return zw_cannot_end(zw_live(r[1], ZW_MEMORY, ZW_MEMORY));
    case ZW_DROP_POOL: return zw_cannot_end(zw_live(r[1], ZW_POOL, ZW_POOL));
    case ZW_DESTROY: return zw_cannot_end(zw_live(r[1], ZW_BUFFER, ZW_IMAGE));
    case ZW_END_PASS:
        for (ZwWord k = 0; k < r[3] && !why; k++) why = zw_cannot_end(zw_live(r[4 + r[2] + k], ZW_BUFFER, ZW_IMAGE));
        return why;
    case ZW_MAP: case ZW_UNMAP: case ZW_WRITE: case ZW_READ: case ZW_FLUSH: case ZW_INVALIDATE:
        return zw_cannot_access(r);
    case ZW_SIGNAL: case ZW_BATCH_SIGNAL: return zw_cannot_signal(r[1], r[2]);
    case ZW_BATCH_WAIT: return zw_cannot_wait(r[1], r[2]);
    case ZW_WAIT:
        for (ZwWord k = 0; k < r[1] && !why; k++) why = zw_cannot_wait(r[2 + 2 * k], r[3 + 2 * k]);
        return r[1] ? why : "it waits for nothing";
    case ZW_FILL: case ZW_UPDATE: return zw_cannot_write(r);
    case ZW_COPY: case ZW_COPY_IN: case ZW_COPY_OUT: case ZW_COPY_IMAGE: return zw_cannot_copy(r);
    case ZW_CLEAR: return zw_cannot_clear(r, w->queue);
    case ZW_BARRIER: return zw_cannot_barrier(r);
    case ZW_SET: case ZW_AWAIT: return zw_cannot_event(r, w->queue);
    default: return 0;
    }
}

// ---- the calls

static const unsigned char **zw_data; // the bytes of each row that has some, or 0
static const char *zw_fault;          // the first rule that the trace breaks, or 0
static VkSemaphoreSubmitInfo *zw_waits, *zw_signals;

static void zw_allocate(ZwObject *o) {
    VkMemoryAllocateInfo i = {VK_STRUCTURE_TYPE_MEMORY_ALLOCATE_INFO};
    i.allocationSize = o->total ? o->total : zw_up(o->row[3], zw_atom);
    i.memoryTypeIndex = (uint32_t)o->device_type;
    ZW(vkAllocateMemory(zw_device, &i, 0, &o->device_memory));
}
static void zw_make(ZwObject *o) {
    VkBufferCreateInfo b;
    VkImageCreateInfo v;
    VkSemaphoreTypeCreateInfo t = {VK_STRUCTURE_TYPE_SEMAPHORE_TYPE_CREATE_INFO};
    VkSemaphoreCreateInfo s = {VK_STRUCTURE_TYPE_SEMAPHORE_CREATE_INFO};
    VkEventCreateInfo e = {VK_STRUCTURE_TYPE_EVENT_CREATE_INFO};
    switch (o->row[0]) {
    case ZW_MEMORY: zw_allocate(o); break;
    case ZW_BUFFER:
        b = zw_buffer_info(o->row);
        ZW(vkCreateBuffer(zw_device, &b, 0, &o->buffer));
        if (o->memory == o) zw_allocate(o);
        ZW(vkBindBufferMemory(zw_device, o->buffer, o->memory->device_memory, o->offset));
        break;
    case ZW_IMAGE:
        v = zw_image_info(o->row);
        ZW(vkCreateImage(zw_device, &v, 0, &o->image));
        if (o->memory == o) zw_allocate(o);
        ZW(vkBindImageMemory(zw_device, o->image, o->memory->device_memory, o->offset));
        break;
    case ZW_SEMAPHORE:
        t.semaphoreType = VK_SEMAPHORE_TYPE_TIMELINE;
        t.initialValue = o->row[2];
        s.pNext = &t;
        ZW(vkCreateSemaphore(zw_device, &s, 0, &o->semaphore));
        break;
    case ZW_EVENT:
        e.flags = VK_EVENT_CREATE_DEVICE_ONLY_BIT;
        ZW(vkCreateEvent(zw_device, &e, 0, &o->event));
        break;
    default: break;
    }
}
static void zw_destroy(ZwObject *o) {
    vkDestroyBuffer(zw_device, o->buffer, 0);
    vkDestroyImage(zw_device, o->image, 0);
    vkDestroySemaphore(zw_device, o->semaphore, 0);
    vkDestroyEvent(zw_device, o->event, 0);
    vkFreeMemory(zw_device, o->device_memory, 0);
    o->buffer = VK_NULL_HANDLE; o->image = VK_NULL_HANDLE; o->semaphore = VK_NULL_HANDLE; o->event = VK_NULL_HANDLE;
    o->device_memory = VK_NULL_HANDLE;
    o->mapped = 0; o->bytes = 0;
}
// (what a refused trace ends may be in use: it stays until the run has ended)
static void zw_destroy_now(ZwObject *o) { if (!zw_fault) zw_destroy(o); }

// Memory that is mapped again stays as it is: a map of what a resource has to itself counts.
static void zw_map(ZwObject *m) {
    void *p = m->bytes;
    if (!m->mapped++) ZW(vkMapMemory(zw_device, m->device_memory, 0, VK_WHOLE_SIZE, 0, &p));
    m->bytes = p;
}
static void zw_unmap(ZwObject *m) {
    if (--m->mapped) return;
    vkUnmapMemory(zw_device, m->device_memory);
    m->bytes = 0;
}
// Where the bytes of a host access are.
static char *zw_seen(const ZwWord *r) {
    ZwObject *o = zw_find(r[1]);
    return o->memory->bytes + o->offset + r[2];
}
static void zw_range(ZwObject *o, const ZwWord *r) {
    VkMappedMemoryRange g = {VK_STRUCTURE_TYPE_MAPPED_MEMORY_RANGE};
    VkDeviceSize from = r[2] / zw_atom * zw_atom, to = r[3] == VK_WHOLE_SIZE ? o->size : r[2] + r[3];
    g.memory = o->memory->device_memory;
    g.offset = o->offset + from;
    g.size = zw_up(to, zw_atom) - from;
    if (r[0] == ZW_FLUSH) ZW(vkFlushMappedMemoryRanges(zw_device, 1, &g));
    else ZW(vkInvalidateMappedMemoryRanges(zw_device, 1, &g));
}
static void zw_signal(const ZwWord *r) {
    VkSemaphoreSignalInfo i = {VK_STRUCTURE_TYPE_SEMAPHORE_SIGNAL_INFO};
    i.semaphore = zw_find(r[1])->semaphore;
    i.value = r[2];
    ZW(vkSignalSemaphore(zw_device, &i));
}
#define ZW_TEN_SECONDS 10000000000ull
static void zw_wait(const ZwWord *r) {
    VkSemaphoreWaitInfo i = {VK_STRUCTURE_TYPE_SEMAPHORE_WAIT_INFO};
    VkSemaphore *s = zw_room((size_t)r[1], sizeof *s);
    uint64_t *v = zw_room((size_t)r[1], sizeof *v);
    VkResult result;
    for (ZwWord k = 0; k < r[1]; k++) s[k] = zw_find(r[2 + 2 * k])->semaphore, v[k] = r[3 + 2 * k];
    i.semaphoreCount = (uint32_t)r[1];
    i.pSemaphores = s;
    i.pValues = v;
    result = vkWaitSemaphores(zw_device, &i, ZW_TEN_SECONDS);
    if (result == VK_TIMEOUT) zw_end(4, "the wait took more than 10 s", "");
    if (result < 0) zw_end(5, "vkWaitSemaphores", zw_result(result));
    free(s);
    free(v);
}

static uint32_t zw_family_for(ZwWord source, ZwWord destination, ZwWord wanted) {
    if (source == destination || zw_family_of[0] == zw_family_of[1]) return VK_QUEUE_FAMILY_IGNORED;
    return wanted > 1 ? VK_QUEUE_FAMILY_IGNORED : zw_family_of[wanted];
}
static VkMemoryBarrier2 zw_memory_barrier(const ZwWord *m) {
    VkMemoryBarrier2 b = {VK_STRUCTURE_TYPE_MEMORY_BARRIER_2};
    b.srcStageMask = m[0]; b.srcAccessMask = m[1]; b.dstStageMask = m[2]; b.dstAccessMask = m[3];
    return b;
}
static VkBufferMemoryBarrier2 zw_buffer_barrier(const ZwWord *u) {
    VkBufferMemoryBarrier2 b = {VK_STRUCTURE_TYPE_BUFFER_MEMORY_BARRIER_2};
    b.srcStageMask = u[0]; b.srcAccessMask = u[1]; b.dstStageMask = u[2]; b.dstAccessMask = u[3];
    b.srcQueueFamilyIndex = zw_family_for(u[4], u[5], u[4]);
    b.dstQueueFamilyIndex = zw_family_for(u[4], u[5], u[5]);
    b.buffer = zw_find(u[6])->buffer;
    b.offset = u[7]; b.size = u[8];
    return b;
}
// (Where families are one, a release and its acquire are two barriers of one queue: the acquire has the transition.)
static VkImageMemoryBarrier2 zw_image_barrier(const ZwWord *v, ZwWord queue) {
    VkImageMemoryBarrier2 b = {VK_STRUCTURE_TYPE_IMAGE_MEMORY_BARRIER_2};
    int releases = v[4] != v[5] && zw_family_of[0] == zw_family_of[1] && v[4] == queue / 2 && v[7];
    b.srcStageMask = v[0]; b.srcAccessMask = v[1]; b.dstStageMask = v[2]; b.dstAccessMask = v[3];
    b.srcQueueFamilyIndex = zw_family_for(v[4], v[5], v[4]);
    b.dstQueueFamilyIndex = zw_family_for(v[4], v[5], v[5]);
    b.image = zw_find(v[6])->image;
    b.oldLayout = (VkImageLayout)v[7];
    b.newLayout = (VkImageLayout)(releases ? v[7] : v[8]);
    b.subresourceRange.aspectMask = VK_IMAGE_ASPECT_COLOR_BIT;
    b.subresourceRange.baseMipLevel = (uint32_t)v[9]; b.subresourceRange.levelCount = (uint32_t)v[10];
    b.subresourceRange.baseArrayLayer = (uint32_t)v[11]; b.subresourceRange.layerCount = (uint32_t)v[12];
    return b;
}
static void zw_dependency(VkCommandBuffer c, const ZwWord *r, ZwWord queue) {
    VkDependencyInfo d = {VK_STRUCTURE_TYPE_DEPENDENCY_INFO};
    int all = r[0] == ZW_BARRIER; // (those of events are on memory alone)
    ZwWord nm = all ? r[1] : r[2], nu = all ? r[2] : 0, nv = all ? r[3] : 0;
    const ZwWord *g = r + (all ? 4 : 3);
    VkMemoryBarrier2 *m = zw_room((size_t)(nm + nv), sizeof *m);
    VkBufferMemoryBarrier2 *u = zw_room((size_t)nu, sizeof *u);
    VkImageMemoryBarrier2 *v = zw_room((size_t)nv, sizeof *v);
    for (ZwWord k = 0; k < nm; k++, g += 4) m[k] = zw_memory_barrier(g);
    for (ZwWord k = 0; k < nu; k++, g += 9) u[k] = zw_buffer_barrier(g);
    for (ZwWord k = 0; k < nv; k++, g += 13)
        if (zw_is_bare(g)) m[nm++] = zw_memory_barrier(g);
        else v[d.imageMemoryBarrierCount++] = zw_image_barrier(g, queue);
    d.memoryBarrierCount = (uint32_t)nm; d.pMemoryBarriers = m;
    d.bufferMemoryBarrierCount = (uint32_t)nu; d.pBufferMemoryBarriers = u;
    d.pImageMemoryBarriers = v;
    if (r[0] == ZW_BARRIER) vkCmdPipelineBarrier2(c, &d);
    else if (r[0] == ZW_SET) vkCmdSetEvent2(c, zw_find(r[1])->event, &d);
    else vkCmdWaitEvents2(c, 1, &zw_find(r[1])->event, &d);
    free(m);
    free(u);
    free(v);
}

static VkImageSubresourceLayers zw_layers(ZwWord level, ZwWord first, ZwWord count) {
    VkImageSubresourceLayers l = {VK_IMAGE_ASPECT_COLOR_BIT, (uint32_t)level, (uint32_t)first, (uint32_t)count};
    return l;
}
static VkOffset3D zw_offset(ZwWord x, ZwWord y) { VkOffset3D o = {(int32_t)x, (int32_t)y, 0}; return o; }
static VkExtent3D zw_extent(ZwWord w, ZwWord h) { VkExtent3D e = {(uint32_t)w, (uint32_t)h, 1}; return e; }

static void zw_clear(VkCommandBuffer c, const ZwWord *r) {
    VkClearColorValue color;
    VkImageSubresourceRange *g = zw_room((size_t)r[7], sizeof *g);
    for (int k = 0; k < 4; k++) color.uint32[k] = (uint32_t)r[3 + k];
    for (ZwWord k = 0; k < r[7]; k++) {
        const ZwWord *x = r + 8 + 4 * k;
        g[k].aspectMask = VK_IMAGE_ASPECT_COLOR_BIT;
        g[k].baseMipLevel = (uint32_t)x[0]; g[k].levelCount = (uint32_t)x[1];
        g[k].baseArrayLayer = (uint32_t)x[2]; g[k].layerCount = (uint32_t)x[3];
    }
    vkCmdClearColorImage(c, zw_find(r[1])->image, (VkImageLayout)r[2], &color, (uint32_t)r[7], g);
    free(g);
}
static void zw_copy(VkCommandBuffer c, const ZwWord *r) {
    VkBufferCopy *g = zw_room((size_t)r[3], sizeof *g);
    for (ZwWord k = 0; k < r[3]; k++) {
        const ZwWord *x = r + 4 + 3 * k;
        g[k].srcOffset = x[0]; g[k].dstOffset = x[1]; g[k].size = x[2];
    }
    vkCmdCopyBuffer(c, zw_find(r[1])->buffer, zw_find(r[2])->buffer, (uint32_t)r[3], g);
    free(g);
}
static void zw_copy_between(VkCommandBuffer c, const ZwWord *r) {
    VkBufferImageCopy *g = zw_room((size_t)r[4], sizeof *g);
    for (ZwWord k = 0; k < r[4]; k++) {
        const ZwWord *x = r + 5 + 10 * k;
        g[k].bufferOffset = x[0]; g[k].bufferRowLength = (uint32_t)x[1]; g[k].bufferImageHeight = (uint32_t)x[2];
        g[k].imageSubresource = zw_layers(x[3], x[4], x[5]);
        g[k].imageOffset = zw_offset(x[6], x[7]);
        g[k].imageExtent = zw_extent(x[8], x[9]);
    }
    if (r[0] == ZW_COPY_IN)
        vkCmdCopyBufferToImage(c, zw_find(r[1])->buffer, zw_find(r[2])->image, (VkImageLayout)r[3], (uint32_t)r[4], g);
    else
        vkCmdCopyImageToBuffer(c, zw_find(r[1])->image, (VkImageLayout)r[2], zw_find(r[3])->buffer, (uint32_t)r[4], g);
    free(g);
}
static void zw_copy_image(VkCommandBuffer c, const ZwWord *r) {
    VkImageCopy *g = zw_room((size_t)r[5], sizeof *g);
    for (ZwWord k = 0; k < r[5]; k++) {
        const ZwWord *x = r + 6 + 11 * k;
        g[k].srcSubresource = zw_layers(x[0], x[1], x[4]); g[k].srcOffset = zw_offset(x[5], x[6]);
        g[k].dstSubresource = zw_layers(x[2], x[3], x[4]); g[k].dstOffset = zw_offset(x[7], x[8]);
        g[k].extent = zw_extent(x[9], x[10]);
    }
    vkCmdCopyImage(c, zw_find(r[1])->image, (VkImageLayout)r[2], zw_find(r[3])->image, (VkImageLayout)r[4],
                   (uint32_t)r[5], g);
    free(g);
}
static void zw_command(VkCommandBuffer c, const ZwWord *r, const unsigned char *data, ZwWord queue) {
    switch (r[0]) {
    case ZW_FILL: vkCmdFillBuffer(c, zw_find(r[1])->buffer, r[2], r[3], (uint32_t)r[4]); break;
    case ZW_UPDATE: vkCmdUpdateBuffer(c, zw_find(r[1])->buffer, r[2], r[3], data); break;
    case ZW_COPY: zw_copy(c, r); break;
    case ZW_CLEAR: zw_clear(c, r); break;
    case ZW_COPY_IN: case ZW_COPY_OUT: zw_copy_between(c, r); break;
    case ZW_COPY_IMAGE: zw_copy_image(c, r); break;
    default: zw_dependency(c, r, queue); break;
    }
}

static VkCommandBuffer zw_begin(ZwWord queue) {
    VkCommandBufferAllocateInfo i = {VK_STRUCTURE_TYPE_COMMAND_BUFFER_ALLOCATE_INFO};
    VkCommandBufferBeginInfo b = {VK_STRUCTURE_TYPE_COMMAND_BUFFER_BEGIN_INFO};
    VkCommandBuffer c;
    i.commandPool = zw_pool[queue];
    i.commandBufferCount = 1;
    b.flags = VK_COMMAND_BUFFER_USAGE_ONE_TIME_SUBMIT_BIT;
    ZW(vkAllocateCommandBuffers(zw_device, &i, &c));
    ZW(vkBeginCommandBuffer(c, &b));
    return c;
}
static VkSemaphoreSubmitInfo zw_submit_info(const ZwWord *r) {
    VkSemaphoreSubmitInfo s = {VK_STRUCTURE_TYPE_SEMAPHORE_SUBMIT_INFO};
    s.semaphore = zw_find(r[1])->semaphore;
    s.value = r[2];
    s.stageMask = r[3];
    return s;
}
static void zw_submit(ZwWord queue, VkCommandBuffer c, uint32_t waits, uint32_t signals) {
    VkCommandBufferSubmitInfo ci = {VK_STRUCTURE_TYPE_COMMAND_BUFFER_SUBMIT_INFO};
    VkSubmitInfo2 i = {VK_STRUCTURE_TYPE_SUBMIT_INFO_2};
    ZW(vkEndCommandBuffer(c));
    ci.commandBuffer = c;
    i.waitSemaphoreInfoCount = waits; i.pWaitSemaphoreInfos = zw_waits;
    i.commandBufferInfoCount = 1; i.pCommandBufferInfos = &ci;
    i.signalSemaphoreInfoCount = signals; i.pSignalSemaphoreInfos = zw_signals;
    ZW(vkQueueSubmit2(zw_queue[queue], 1, &i, VK_NULL_HANDLE));
}

// ---- what was read

typedef struct {
    const ZwWord *row;
    ZwWord entry;
    const unsigned char *promised; // or 0
    const ZwWord *odd;             // a clear that its bytes may come from, by a component above its format
    unsigned char *first;          // what the first run read
    unsigned wrong;                // runs with other bytes than those that are promised, or than in the first run
    size_t at;                     // the first such byte
    unsigned char got;
} ZwRead;
static ZwRead *zw_reads;
static size_t zw_read_count;

static void zw_read(ZwRead *d, const char *bytes) {
    size_t n = (size_t)d->row[3];
    int fresh = !d->first;
    const unsigned char *wanted;
    unsigned char *now = zw_room(n, 1);
    memcpy(now, bytes, n);
    if (fresh) d->first = now;
    wanted = d->promised ? d->promised : d->first;
    for (size_t k = 0; k < n; k++) {
        if (now[k] == wanted[k]) continue;
        if (!d->wrong++) d->at = k, d->got = now[k];
        break;
    }
    if (!fresh) free(now);
}

// Performs the rows once.
static void zw_perform(void) {
    VkCommandBuffer c = VK_NULL_HANDLE;
    uint32_t waits = 0, signals = 0;
    size_t reads = 0;
    for (ZwWalk w = zw_walk(); zw_next(&w);) {
        const ZwWord *r = w.row;
        if (r[0] == ZW_READ) reads++;
        if (zw_skipped[w.number]) continue;
        zw_at = zw_point(&w);
        if (zw_makes(r)) { zw_make(zw_find(r[1])); continue; }
        switch (r[0]) {
        case ZW_FREE: case ZW_DESTROY: zw_destroy_now(zw_find(r[1])); break;
        case ZW_END_PASS: for (ZwWord k = 0; k < r[3]; k++) zw_destroy_now(zw_find(r[4 + r[2] + k])); break;
        case ZW_MAP: zw_map(zw_find(r[1])->memory); break;
        case ZW_UNMAP: zw_unmap(zw_find(r[1])->memory); break;
        case ZW_WRITE: memcpy(zw_seen(r), zw_data[w.data], (size_t)r[3]); break;
        case ZW_READ: zw_read(&zw_reads[reads - 1], zw_seen(r)); break;
        case ZW_FLUSH: case ZW_INVALIDATE: zw_range(zw_find(r[1]), r); break;
        case ZW_SIGNAL: zw_signal(r); break;
        case ZW_WAIT: zw_wait(r); break;
        case ZW_BATCH: c = zw_begin(w.queue); waits = signals = 0; break;
        case ZW_BATCH_WAIT: zw_waits[waits++] = zw_submit_info(r); break;
        case ZW_BATCH_SIGNAL: zw_signals[signals++] = zw_submit_info(r); break;
        case ZW_END_BATCH: zw_submit(w.queue, c, waits, signals); break;
        default: if (w.open) zw_command(c, r, zw_has_data(r) ? zw_data[w.data] : 0, w.queue); break;
        }
    }
}

// Before and after each run.
static void zw_make_pools(void) {
    for (int k = 0; k < 4; k++) {
        VkCommandPoolCreateInfo i = {VK_STRUCTURE_TYPE_COMMAND_POOL_CREATE_INFO};
        i.queueFamilyIndex = zw_family_of[k / 2];
        ZW(vkCreateCommandPool(zw_device, &i, 0, &zw_pool[k]));
    }
}
static void zw_tidy(void) {
    VkFenceCreateInfo i = {VK_STRUCTURE_TYPE_FENCE_CREATE_INFO};
    zw_at = "the end";
    for (int k = 0; k < 4; k++) {
        VkFence fence;
        VkResult result;
        ZW(vkCreateFence(zw_device, &i, 0, &fence));
        ZW(vkQueueSubmit2(zw_queue[k], 0, 0, fence));
        result = vkWaitForFences(zw_device, 1, &fence, VK_TRUE, ZW_TEN_SECONDS);
        if (result == VK_TIMEOUT) zw_end(4, "a queue has work after 10 s", "");
        if (result < 0) zw_end(5, "vkWaitForFences", zw_result(result));
        vkDestroyFence(zw_device, fence, 0);
    }
    for (int k = 0; k < 4; k++) vkDestroyCommandPool(zw_device, zw_pool[k], 0);
    // (resources before the memory that they lie in)
    for (size_t k = 0; k < zw_count; k++) if (zw_objects[k].row[0] != ZW_MEMORY) zw_destroy(&zw_objects[k]);
    for (size_t k = 0; k < zw_count; k++) zw_destroy(&zw_objects[k]);
}

// Whether a row writes a byte of a buffer.
static int zw_writes(const ZwWord *r, ZwWord id, ZwWord byte) {
    ZwObject *o = zw_find(id);
    switch (r[0]) {
    case ZW_WRITE: case ZW_UPDATE: return r[1] == id && byte >= r[2] && byte - r[2] < r[3];
    case ZW_FILL:
        if (r[1] != id || byte < r[2]) return 0;
        return byte - r[2] < (r[3] == VK_WHOLE_SIZE ? (o->size - r[2]) / 4 * 4 : r[3]);
    case ZW_COPY:
        for (ZwWord k = 0; r[2] == id && k < r[3]; k++)
            if (byte >= r[5 + 3 * k] && byte - r[5 + 3 * k] < r[6 + 3 * k]) return 1;
        return 0;
    case ZW_COPY_OUT:
        for (ZwWord k = 0; r[3] == id && k < r[4]; k++) {
            const ZwWord *g = r + 5 + 10 * k;
            ZwWord format = zw_find(r[1])->row[2], row, layer, at;
            zw_pitch(g, format, &row, &layer);
            if (byte < g[0]) continue;
            at = byte - g[0];
            if (at / layer < g[5] && at % layer / row < g[9] && at % layer % row < g[8] * zw_texel(format)) return 1;
        }
        return 0;
    default: return 0;
    }
}
static const char *zw_last_write(const ZwRead *d, size_t byte) {
    static char text[64];
    *text = 0;
    for (ZwWalk w = zw_walk(); zw_next(&w) && w.row != d->row;)
        if (!zw_skipped[w.number] && zw_writes(w.row, d->row[1], d->row[2] + byte))
            snprintf(text, sizeof text, "%s", zw_point(&w));
    return text;
}
static const char *zw_point_of(const ZwWord *row) {
    for (ZwWalk w = zw_walk(); zw_next(&w);) if (w.row == row) return zw_point(&w);
    return "";
}

static void zw_say_bytes(const unsigned char *bytes, size_t n) {
    for (size_t k = 0; k < n && k < 32; k++) printf("%02x", bytes[k]);
    if (n > 32) printf("..");
}
// What came of a read in all runs; 1 where it isn't what is promised.
static int zw_say_read(const ZwRead *d, unsigned runs) {
    unsigned long long entry = d->entry, n = d->row[3];
    if (!d->first) return 0;
    if (!d->promised) {
        printf("%llu read ", entry);
        zw_say_bytes(d->first, (size_t)n);
        printf(" in %u of %u runs\n", runs - d->wrong, runs);
        return 0;
    }
    if (!d->wrong) {
        printf("%llu equal, %llu bytes, %u of %u runs\n", entry, n, runs, runs);
        return 0;
    }
    printf("%llu differs in %u of %u runs: byte %zu promised %02x, read %02x; written last by %s\n", entry, d->wrong,
           runs, d->at, d->promised[d->at], d->got, zw_last_write(d, d->at));
    if (d->odd)
        printf("  note: this may be the profile's choice: the clear %s has a component too large for its format, of "
               "which the profile takes the low bits\n", zw_point_of(d->odd));
    return 1;
}

// ---- the program

static unsigned char zw_digit(char c) { return (unsigned char)(c <= '9' ? c - '0' : c - 'a' + 10); }
static void zw_take_bytes(const char *const *texts) {
    size_t n = 0;
    for (ZwWalk w = zw_walk(); zw_next(&w);) n += (size_t)zw_has_data(w.row);
    zw_data = zw_room(n, sizeof *zw_data);
    for (size_t k = 0; k < n; k++) {
        size_t length = texts[k] ? strlen(texts[k]) / 2 : 0;
        unsigned char *bytes = texts[k] ? zw_room(length, 1) : 0;
        for (size_t j = 0; j < length; j++)
            bytes[j] = (unsigned char)(zw_digit(texts[k][2 * j]) << 4 | zw_digit(texts[k][2 * j + 1]));
        zw_data[k] = bytes;
    }
}

// Finds out what can't be performed, and says it. Of a trace that breaks no rule all has to be.
static void zw_prepare(void) {
    size_t rows = 0, reads = 0, bad = 0;
    ZwWord batches = 0, started = 0;
    const char *batch = 0;
    for (ZwWalk w = zw_walk(); zw_next(&w);) rows++;
    zw_skipped = zw_room(rows, sizeof *zw_skipped);
    zw_waits = zw_room(rows, sizeof *zw_waits);
    zw_signals = zw_room(rows, sizeof *zw_signals);
    zw_reads = zw_room(rows, sizeof *zw_reads);
    zw_collect();
    for (ZwWalk w = zw_walk(); zw_next(&w);) {
        const char *why = zw_skipped[w.number] = zw_cannot(&w);
        ZwObject *o = w.row[0] == ZW_READ ? zw_find(w.row[1]) : 0;
        if (w.row[0] == ZW_SUBMIT) batches += w.row[2];
        if (w.row[0] == ZW_BATCH) started++, batch = why;
        if (why && !(w.open && batch && w.row[0] != ZW_BATCH)) {
            printf("%s %s: %s\n", zw_fault ? "skipped" : "can't be done at", zw_point(&w), why);
            bad++;
        }
        if (w.row[0] == ZW_CLEAR && !why && zw_find(w.row[1])->odd == w.row)
            printf("note: %s clears by a component too large for its format: the profile takes the low bits\n",
                   zw_point(&w));
        if (w.row[0] != ZW_READ) continue;
        zw_reads[reads].row = w.row;
        zw_reads[reads].entry = w.entry;
        zw_reads[reads].promised = zw_data[w.data];
        zw_reads[reads++].odd = o ? o->odd : 0;
    }
    zw_read_count = reads;
    for (size_t k = 0; k < zw_count; k++)
        zw_objects[k].device_type = zw_type(zw_objects[k].type, zw_objects[k].allowed);
    if (started < batches) printf("note: %llu of %llu batches are never started: they aren't submitted\n",
                                  (unsigned long long)(batches - started), (unsigned long long)batches);
    fflush(stdout);
    if (bad && !zw_fault) _Exit(5);
}

static int zw_report(unsigned runs) {
    size_t wrong = 0;
    for (size_t k = 0; k < zw_read_count; k++) wrong += (size_t)zw_say_read(&zw_reads[k], runs);
    if (zw_fault) printf("refused %s: nothing is promised of these reads\n", zw_fault);
    else printf("%zu of %zu reads equal in %u runs\n", zw_read_count - wrong, zw_read_count, runs);
    return zw_fault ? 3 : wrong != 0;
}

static int zw_usage(int status) {
    printf("usage: [--runs N] [--device TEXT] [--list]\n"
           "Makes the calls of a trace N times, 1 by default, on the first device whose name has the text, or whose\n"
           "number it is. --list lists the devices. Status: 0 each read gave the promised bytes, 1 one didn't, 3 the\n"
           "trace breaks a rule, 4 a wait took more than 10 s, 5 the device can't, 6 there is no such device, or the\n"
           "command line is refused.\n");
    return status;
}

// Performs a table, with its bytes; fault is the first rule that it breaks, or 0.
static int zw_main(int argc, char **argv, const ZwWord *table, const char *const *bytes, const char *fault) {
    const char *device = 0;
    unsigned runs = 1;
    for (int k = 1; k < argc; k++) {
        if (!strcmp(argv[k], "--list")) { zw_open_instance(); zw_find_device(0, 1); return 0; }
        else if (!strcmp(argv[k], "--runs") && k + 1 < argc && (runs = (unsigned)atoi(argv[k + 1])) > 0) k++;
        else if (!strcmp(argv[k], "--device") && k + 1 < argc) device = argv[++k];
        else return zw_usage(strcmp(argv[k], "--help") ? 6 : 0);
    }
    zw_table = table;
    zw_fault = fault;
    zw_open_instance();
    zw_find_device(device, 0);
    zw_open_device();
    zw_say_device();
    zw_take_bytes(bytes);
    zw_prepare();
    for (unsigned k = 0; k < runs; k++) {
        zw_make_pools();
        zw_perform();
        zw_tidy();
    }
    vkDestroyDevice(zw_device, 0);
    vkDestroyInstance(zw_instance, 0);
    return zw_report(runs);
}

// ---- the words of the table

#define END_TRACE ZW_END
#define ALLOCATE_MEMORY(id, type, size) ZW_MEMORY, id, type, size,
#define FREE_MEMORY(id) ZW_FREE, id,
#define CREATE_POOL(id, algorithm, type, block_size, blocks) ZW_POOL, id, algorithm, type, block_size, blocks,
#define DESTROY_POOL(id) ZW_DROP_POOL, id,
#define CREATE_BUFFER(id, size, usage, sharing, place) ZW_BUFFER, id, size, usage, sharing, place,
#define CREATE_IMAGE(id, format, width, height, levels, layers, tiling, usage, sharing, place) \
    ZW_IMAGE, id, format, width, height, levels, layers, tiling, usage, sharing, place,
#define DEDICATED(type) ZW_DEDICATED, type, 0
#define IN_MEMORY(id, offset) ZW_IN_MEMORY, id, offset
#define IN_POOL(id) ZW_IN_POOL, id, 0
#define IN_POOL_UPPER(id) ZW_IN_POOL_UPPER, id, 0
#define DESTROY(id) ZW_DESTROY, id,
#define CREATE_SEMAPHORE(id, initial) ZW_SEMAPHORE, id, initial,
#define CREATE_EVENT(id) ZW_EVENT, id,
#define MAP_MEMORY(buffer) ZW_MAP, buffer,
#define UNMAP_MEMORY(buffer) ZW_UNMAP, buffer,
#define WRITE(buffer, offset, size) ZW_WRITE, buffer, offset, size,
#define READ(buffer, offset, size) ZW_READ, buffer, offset, size,
#define FLUSH(buffer, offset, size) ZW_FLUSH, buffer, offset, size,
#define INVALIDATE(buffer, offset, size) ZW_INVALIDATE, buffer, offset, size,
#define SIGNAL_SEMAPHORE(id, value) ZW_SIGNAL, id, value,
#define WAIT_SEMAPHORES(count) ZW_WAIT, count,
#define SEMAPHORE(id, value) id, value,
#define SUBMIT(queue, batches) ZW_SUBMIT, queue, batches,
#define BEGIN_DEFRAGMENTATION(id, pool, bytes, moves) ZW_DEFRAG, id, pool, bytes, moves,
#define BEGIN_PASS(id) ZW_PASS, id,
#define END_PASS(id, stay, end) ZW_END_PASS, id, stay, end,
#define ID(id) id,
#define END_DEFRAGMENTATION(id) ZW_END_DEFRAG, id,

#define BATCH(entry, batch, queue) ZW_BATCH, entry, batch, queue,
#define BATCH_WAIT(semaphore, value, stages) ZW_BATCH_WAIT, semaphore, value, stages,
#define BATCH_SIGNAL(semaphore, value, stages) ZW_BATCH_SIGNAL, semaphore, value, stages,
#define END_BATCH ZW_END_BATCH,
#define CMD_FILL_BUFFER(buffer, offset, size, word) ZW_FILL, buffer, offset, size, word,
#define CMD_UPDATE_BUFFER(buffer, offset, size) ZW_UPDATE, buffer, offset, size,
#define CMD_COPY_BUFFER(source, destination, regions) ZW_COPY, source, destination, regions,
#define COPY(source_offset, destination_offset, size) source_offset, destination_offset, size,
#define CMD_CLEAR_COLOR_IMAGE(image, layout, r, g, b, a, ranges) ZW_CLEAR, image, layout, r, g, b, a, ranges,
#define RANGE(level, levels, layer, layers) level, levels, layer, layers,
#define CMD_COPY_BUFFER_TO_IMAGE(buffer, image, layout, regions) ZW_COPY_IN, buffer, image, layout, regions,
#define CMD_COPY_IMAGE_TO_BUFFER(image, layout, buffer, regions) ZW_COPY_OUT, image, layout, buffer, regions,
#define BUFFER_IMAGE_COPY(offset, row_length, image_height, level, layer, layers, x, y, width, height) \
    offset, row_length, image_height, level, layer, layers, x, y, width, height,
#define CMD_COPY_IMAGE(source, layout, destination, to_layout, regions) \
    ZW_COPY_IMAGE, source, layout, destination, to_layout, regions,
#define IMAGE_COPY(level, layer, to_level, to_layer, layers, x, y, to_x, to_y, width, height) \
    level, layer, to_level, to_layer, layers, x, y, to_x, to_y, width, height,
#define CMD_PIPELINE_BARRIER(memory, buffers, images) ZW_BARRIER, memory, buffers, images,
#define CMD_SET_EVENT(event, count) ZW_SET, event, count,
#define CMD_WAIT_EVENT(event, count) ZW_AWAIT, event, count,
#define MEMORY_BARRIER(from, written, to, read) from, written, to, read,
#define BUFFER_BARRIER(from, written, to, read, family, to_family, buffer, offset, size) \
    from, written, to, read, family, to_family, buffer, offset, size,
#define IMAGE_BARRIER(from, written, to, read, family, to_family, image, layout, to_layout, range) \
    from, written, to, read, family, to_family, image, layout, to_layout, range

#define none 0
#define TRANSFER_SRC VK_BUFFER_USAGE_TRANSFER_SRC_BIT // (the bits of images are the same)
#define TRANSFER_DST VK_BUFFER_USAGE_TRANSFER_DST_BIT
#define EXCLUSIVE 0
#define CONCURRENT 1
#define LINEAR 0
#define OPTIMAL 1
#define TLSF 1
#define WHOLE VK_WHOLE_SIZE
#define IGNORED VK_QUEUE_FAMILY_IGNORED
#define TRANSFER VK_PIPELINE_STAGE_TRANSFER_BIT
#define HOST VK_PIPELINE_STAGE_HOST_BIT
#define ALL_COMMANDS VK_PIPELINE_STAGE_ALL_COMMANDS_BIT
#define TRANSFER_READ VK_ACCESS_TRANSFER_READ_BIT
#define TRANSFER_WRITE VK_ACCESS_TRANSFER_WRITE_BIT
#define HOST_READ VK_ACCESS_HOST_READ_BIT
#define HOST_WRITE VK_ACCESS_HOST_WRITE_BIT
#define MEMORY_READ VK_ACCESS_MEMORY_READ_BIT
#define MEMORY_WRITE VK_ACCESS_MEMORY_WRITE_BIT
#define UNDEFINED VK_IMAGE_LAYOUT_UNDEFINED
#define GENERAL VK_IMAGE_LAYOUT_GENERAL
#define TRANSFER_SRC_OPTIMAL VK_IMAGE_LAYOUT_TRANSFER_SRC_OPTIMAL
#define TRANSFER_DST_OPTIMAL VK_IMAGE_LAYOUT_TRANSFER_DST_OPTIMAL
#define R8_UINT VK_FORMAT_R8_UINT
#define R8G8_UINT VK_FORMAT_R8G8_UINT
#define R8G8B8A8_UINT VK_FORMAT_R8G8B8A8_UINT
#define R16_UINT VK_FORMAT_R16_UINT
#define R32_UINT VK_FORMAT_R32_UINT
#define R32G32_UINT VK_FORMAT_R32G32_UINT
#define R32G32B32A32_UINT VK_FORMAT_R32G32B32A32_UINT
