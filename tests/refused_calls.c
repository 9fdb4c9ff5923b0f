/* Refuses what a program asks of the C library, one call after another. It is loaded before the
   program (LD_PRELOAD).

   Before `main` it starts a child for k = 1, 2, .. that runs the program on the file REFUSALS_INPUT.
   REFUSALS_KIND says what the child is refused:

     once    the k-th allocation alone
     later   the k-th allocation and all that come later
     room    what needs more than k pages of address space beyond those that it began with
     read    the k-th read of standard input
     write   the k-th write to standard output, of which each takes three bytes at most

   The last child is the first one that is refused nothing. Of each child a line is written to the
   file REFUSALS_REPORT: k; its exit status, or a signal as a number below 0; how often it was refused
   something; and how many bytes it wrote to standard output and to standard error. Those bytes
   follow. A child that takes longer than REFUSALS_SECONDS is ended by SIGALRM. */

#define _GNU_SOURCE
#include <dlfcn.h>
#include <errno.h>
#include <fcntl.h>
#include <stdio.h>
#include <stdlib.h>
#include <string.h>
#include <sys/mman.h>
#include <sys/resource.h>
#include <sys/wait.h>
#include <unistd.h>

/* The most bytes that a write takes where writes are refused. */
enum { TAKEN = 3 };

/* What a child shares with the one that started it. */
static volatile unsigned long *refused;

/* What the child is refused, and how many such calls it has made; those from `first` to `last` fail. */
enum call { NONE, ALLOCATIONS, READS, WRITES };
static enum call refusing;
static unsigned long calls, first, last;

static void broken(const char *what) {
    perror(what);
    _exit(70);
}

/* ---- the calls */

/* The next library's function of a name. */
#define NEXT(type, name, ...)                                         \
    static type (*next)(__VA_ARGS__);                                 \
    if (!next) *(void **)&next = dlsym(RTLD_NEXT, name)

/* Whether a call that comes now is refused. */
static int is_refused(enum call kind) {
    if (refusing != kind) return 0;
    calls++;
    return first <= calls && calls <= last;
}

/* Counts what is refused, and answers -1. */
static int failed(int error) {
    (*refused)++;
    errno = error;
    return -1;
}

/* Counts an allocation that isn't given, and answers it. */
static void *counted(void *given) {
    if (!given && refused) failed(ENOMEM);
    return given;
}

void *malloc(size_t size) {
    NEXT(void *, "malloc", size_t);
    return counted(is_refused(ALLOCATIONS) ? NULL : next(size));
}

void *calloc(size_t count, size_t size) {
    NEXT(void *, "calloc", size_t, size_t);
    return counted(is_refused(ALLOCATIONS) ? NULL : next(count, size));
}

void *realloc(void *old, size_t size) {
    NEXT(void *, "realloc", void *, size_t);
    return counted(is_refused(ALLOCATIONS) ? NULL : next(old, size));
}

void *aligned_alloc(size_t alignment, size_t size) {
    NEXT(void *, "aligned_alloc", size_t, size_t);
    return counted(is_refused(ALLOCATIONS) ? NULL : next(alignment, size));
}

int posix_memalign(void **place, size_t alignment, size_t size) {
    NEXT(int, "posix_memalign", void **, size_t, size_t);
    int error = is_refused(ALLOCATIONS) ? ENOMEM : next(place, alignment, size);
    if (error) counted(NULL);
    return error;
}

ssize_t read(int file, void *bytes, size_t size) {
    NEXT(ssize_t, "read", int, void *, size_t);
    return file == STDIN_FILENO && is_refused(READS) ? failed(EIO) : next(file, bytes, size);
}

ssize_t write(int file, const void *bytes, size_t size) {
    NEXT(ssize_t, "write", int, const void *, size_t);
    if (refusing != WRITES || file != STDOUT_FILENO) return next(file, bytes, size);
    return is_refused(WRITES) ? failed(EIO) : next(file, bytes, size < TAKEN ? size : TAKEN);
}

ssize_t __write(int file, const void *bytes, size_t size) {
    return write(file, bytes, size);
}

/* ---- the children */

static const char *setting(const char *name) {
    const char *value = getenv(name);
    if (!value) broken(name);
    return value;
}

/* The bytes of address space that are in use. */
static unsigned long address_space(void) {
    char text[64] = "";
    int file = open("/proc/self/statm", O_RDONLY);
    if (file < 0 || read(file, text, sizeof text - 1) < 0) broken("/proc/self/statm");
    close(file);
    return strtoul(text, NULL, 10) * (unsigned long)sysconf(_SC_PAGESIZE);
}

static void replace(int stream, int file) {
    if (file < 0 || dup2(file, stream) < 0) broken("dup2");
    close(file);
}

/* Makes this process the child of the number k, which goes on to `main`. */
static void begin(unsigned long k, const char *kind, int output, int error) {
    replace(STDIN_FILENO, open(setting("REFUSALS_INPUT"), O_RDONLY));
    replace(STDOUT_FILENO, output);
    replace(STDERR_FILENO, error);
    alarm((unsigned)atoi(setting("REFUSALS_SECONDS")));
    if (strcmp(kind, "room") == 0) {
        unsigned long bytes = address_space() + k * (unsigned long)sysconf(_SC_PAGESIZE);
        struct rlimit limit = {bytes, bytes};
        if (setrlimit(RLIMIT_AS, &limit)) broken("setrlimit");
        return;
    }
    int is_later = strcmp(kind, "later") == 0, is_once = strcmp(kind, "once") == 0;
    refusing = is_later || is_once ? ALLOCATIONS : strcmp(kind, "read") == 0 ? READS : WRITES;
    first = k;
    last = is_later ? -1ul : k;
}

/* Appends to the report what a child wrote. */
static void append(int report, int file) {
    char bytes[4096];
    ssize_t length;
    lseek(file, 0, SEEK_SET);
    while ((length = read(file, bytes, sizeof bytes)) > 0)
        if (write(report, bytes, (size_t)length) != length) broken("REFUSALS_REPORT");
    close(file);
}

static void note(int report, unsigned long k, int ended, int output, int error) {
    int status = WIFEXITED(ended) ? WEXITSTATUS(ended) : -WTERMSIG(ended);
    dprintf(report, "%lu %d %lu %ld %ld\n", k, status, *refused, (long)lseek(output, 0, SEEK_END),
            (long)lseek(error, 0, SEEK_END));
    append(report, output);
    append(report, error);
}

__attribute__((constructor)) static void run_all(void) {
    const char *kind = setting("REFUSALS_KIND");
    int report = open(setting("REFUSALS_REPORT"), O_WRONLY | O_CREAT | O_TRUNC | O_CLOEXEC, 0600);
    int sharing = MAP_SHARED | MAP_ANONYMOUS;
    refused = mmap(NULL, sizeof *refused, PROT_READ | PROT_WRITE, sharing, -1, 0);
    if (report < 0 || refused == MAP_FAILED) broken("REFUSALS_REPORT");
    unsigned long k = 0;
    do {
        int output = memfd_create("output", MFD_CLOEXEC), error = memfd_create("error", MFD_CLOEXEC);
        int ended;
        *refused = 0;
        pid_t child = fork();
        if (child == 0) {
            begin(k + 1, kind, output, error);
            return;
        }
        if (child < 0 || waitpid(child, &ended, 0) != child) broken("a child");
        note(report, ++k, ended, output, error);
    } while (*refused);
    _exit(0);
}
