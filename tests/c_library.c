// Calls the C library as no example does: buffers without room, arguments that there aren't, allocations that are
// refused, and threads side by side on small stacks. Ends with 0, or with the number of what went wrong; it is
// linked with --wrap for malloc, realloc and free.
#include <pthread.h>
#include <stdlib.h>
#include <string.h>
#include <zorthewin.h>

static const uint8_t trace[] =
    "[[\"buffer\",1,16,3,\"exclusive\",[\"dedicated\",1]],[\"semaphore\",2,0],"
    "[\"submit\",0,[[[],[[\"fill\",1,0,16,67305985]],[[2,1,65536]]]]],[\"wait\",[[2,1]]],[\"map\",1],[\"read\",1,0,4]]";
static const char refused[] = "refused 5 HAZARD_RAW\n";
#define LEN (sizeof trace - 1)
#define HEAP ZW_LEAST_HEAP

// ---- memory that is refused

void *__real_malloc(size_t size);
void *__real_realloc(void *block, size_t size);
void __real_free(void *block);
static long left = -1, held; // so many allocations are left, or no limit; so many blocks are held

static int is_given(void) { return left < 0 || left-- > 0; }

void *__wrap_malloc(size_t size) {
    void *block = is_given() ? __real_malloc(size) : NULL;
    __atomic_add_fetch(&held, block != NULL, __ATOMIC_SEQ_CST);
    return block;
}

void *__wrap_realloc(void *block, size_t size) {
    void *other = is_given() ? __real_realloc(block, size) : NULL;
    __atomic_add_fetch(&held, !block && other, __ATOMIC_SEQ_CST);
    return other;
}

void __wrap_free(void *block) {
    __atomic_sub_fetch(&held, block != NULL, __ATOMIC_SEQ_CST);
    __real_free(block);
}

// Calls with ever more allocations until one call has enough: each other one says so, and has written nothing.
static int refuses(int is_replay) {
    for (long most = 0; most < 100000; most++) {
        uint8_t out[] = "........";
        size_t length = 99;
        uint32_t status;
        left = most;
        status = is_replay ? zw_replay(trace, LEN, ZW_FIRST, 0, HEAP, HEAP, out, 8, &length)
                           : zw_explain(trace, LEN, ZW_JSON, out, 8, &length);
        left = -1;
        if (held)
            return 20;
        if (status == ZW_REFUSED)
            return most > 3 && length > 8 && !memchr(out, '.', 8) ? 0 : 21;
        if (status != ZW_NO_MEMORY || length || memcmp(out, "........", 8))
            return 22;
    }
    return 23;
}

// ---- buffers and arguments

static int edges(void) {
    uint8_t out[] = "........", *none = out + 8;
    size_t length = 99;
    if (zw_replay(trace, LEN, ZW_FIRST, 0, HEAP, HEAP, none, 0, &length) != ZW_REFUSED || length != strlen(refused))
        return 1;
    if (zw_replay(trace, LEN, ZW_FIRST, 0, HEAP, HEAP, out, 4, &length) != ZW_REFUSED || memcmp(out, "refu....", 8))
        return 2;
    for (unsigned order = 3; order < 256; order++)
        if (zw_replay(trace, LEN, (uint8_t)order, 0, HEAP, HEAP, out, 8, &length) != ZW_NO_ARGUMENT || length)
            return 3;
    for (unsigned form = 4; form < 256; form++)
        if (zw_explain(trace, LEN, (uint8_t)form, out, 8, &length) != ZW_NO_ARGUMENT || length)
            return 4;
    static const uint64_t sizes[] = {0, HEAP - 1, ZW_GREATEST_HEAP + 1ull, UINT64_MAX};
    for (int k = 0; k < 4; k++)
        if (zw_replay(trace, LEN, ZW_FIRST, 0, sizes[k], HEAP, out, 8, &length) != ZW_NO_ARGUMENT || length ||
            zw_replay(trace, LEN, ZW_FIRST, 0, HEAP, sizes[k], out, 8, &length) != ZW_NO_ARGUMENT || length)
            return 5;
    if (zw_replay(trace, LEN, ZW_SEED, UINT64_MAX, ZW_GREATEST_HEAP, HEAP, out, 8, &length) != ZW_REFUSED)
        return 6;
    memcpy(out, "........", 8);
    length = 99;
    if (zw_replay(trace, 3, ZW_FIRST, 0, HEAP, HEAP, out, 8, &length) != ZW_NO_TRACE || length ||
        memcmp(out, "........", 8))
        return 7;
    if (zw_explain(trace, 0, ZW_TEXT, out, 8, &length) != ZW_NO_TRACE || length < 9 || memcmp(out, "no trace", 8))
        return 8;
    return 0;
}

// ---- threads

static void *often(void *bad) {
    for (int k = 0; k < 500; k++) {
        uint8_t out[32], text[4096];
        size_t length = 0, whole = 0;
        if (zw_replay(trace, LEN, (uint8_t)(k % 3), 7, HEAP, HEAP, out, sizeof out, &length) != ZW_REFUSED ||
            length != strlen(refused) || memcmp(out, refused, length) ||
            zw_explain(trace, LEN, (uint8_t)(k % 2), text, sizeof text, &whole) != ZW_REFUSED || whole < length)
            *(int *)bad = 1;
    }
    return NULL;
}

static int side_by_side(void) {
    int bad[4] = {0};
    pthread_t threads[4];
    pthread_attr_t small;
    if (pthread_attr_init(&small) || pthread_attr_setstacksize(&small, 65536))
        return 30;
    for (int k = 0; k < 4; k++)
        if (pthread_create(&threads[k], &small, often, &bad[k]))
            return 31;
    for (int k = 0; k < 4; k++)
        pthread_join(threads[k], NULL);
    return bad[0] | bad[1] | bad[2] | bad[3] ? 32 : 0;
}

int main(void) {
    int wrong = edges();
    if (!wrong)
        wrong = refuses(1);
    if (!wrong)
        wrong = refuses(0);
    return wrong ? wrong : side_by_side();
}
