/* zorthewin.h - judge and replay traces of Vulkan uploads, copies and read-backs.
 *
 * A trace is the text of docs/FORMAT.md, JSON in UTF-8. Each call takes its bytes and a buffer of the caller's, writes
 * there as much of the answer as there is room for, and sets *length to how long the whole answer is, as snprintf does:
 * where *length is greater than room, call again with more. The answer isn't ended by a null byte. Where there is no
 * answer (ZW_NO_MEMORY, ZW_NO_ARGUMENT, and for zw_replay ZW_NO_TRACE) *length is 0 and the buffer stays as it was.
 *
 * The calls keep nothing between them, so threads may call side by side. They use malloc, realloc and free, so they
 * aren't for signal handlers. `trace`, `out` and `length` aren't null, also where len or room is 0; `out` and `length`
 * share no byte with each other or with the trace. A trace has at most 16,777,216 bytes for the programs; the calls set
 * no limit.
 */
#ifndef ZORTHEWIN_H
#define ZORTHEWIN_H

#include <stddef.h>
#include <stdint.h>

#ifdef __cplusplus
extern "C" {
#endif

/* What a call answers: the exit statuses of the programs. */
enum zw_status {
    ZW_GOOD = 0,       /* the trace was replayed, or is accepted */
    ZW_REFUSED = 1,    /* a point breaks a rule */
    ZW_NO_TRACE = 2,   /* the bytes are no trace */
    ZW_STOPPED = 3,    /* an allocation found no room: the answer has the reads before it, and where it stopped */
    ZW_NO_MEMORY = 4,  /* there is no memory left */
    ZW_NO_ARGUMENT = 6 /* an order, a form or a heap size isn't one that there is */
};

/* Which piece of a command runs next, where several may. What is read doesn't depend on it. */
enum zw_order { ZW_FIRST = 0, ZW_LAST = 1, ZW_SEED = 2 };

/* What zw_explain writes. */
enum zw_form {
    ZW_TEXT = 0,     /* lines for people, the verdict first */
    ZW_JSON = 1,     /* an object */
    ZW_REPAIRED = 2, /* the trace after repairs; the status is the verdict on that one */
    ZW_JSON_REPAIRED = 3 /* the object, with each repair and the trace after them; the status is the verdict on the
                          * given one */
};

/* The least, the default and the greatest size of a heap in bytes. */
#define ZW_LEAST_HEAP 65536u
#define ZW_DEFAULT_HEAP 4194304u
#define ZW_GREATEST_HEAP 67108864u

/* Replays a trace on heaps of these sizes: a line `ENTRY BYTES` for each read, or the refusal. `seed` is used with
 * ZW_SEED alone. */
uint32_t zw_replay(const uint8_t *trace, size_t len, uint8_t order, uint64_t seed, uint64_t heap0, uint64_t heap1,
                   uint8_t *out, size_t room, size_t *length);

/* Explains a trace: why and where it is refused and how to mend it, or what an accepted one has, or why the bytes are
 * no trace. Nothing is run. */
uint32_t zw_explain(const uint8_t *trace, size_t len, uint8_t form, uint8_t *out, size_t room, size_t *length);

#ifdef __cplusplus
}
#endif

#endif
