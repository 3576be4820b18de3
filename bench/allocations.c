/* Stands before the C library's allocator in a process: counts what is asked of it, refuses the numbers from FIRST to
   LAST of the environment, and writes to the file that TRACE names, for each, a line of its number, its size and the
   places in the program that its caller and the callers above may return to. Calls that reach the system are lines
   between them. allocations.py compiles it and loads it.

   The program has no tables for walking its stack. So each word of the stack, from the top to the bottom, that points
   behind a call in the program's code is such a place: every caller is among them, and perhaps some that returned. */
#define _GNU_SOURCE
#include <dlfcn.h>
#include <errno.h>
#include <fcntl.h>
#include <link.h>
#include <pthread.h>
#include <stdatomic.h>
#include <stdint.h>
#include <stdio.h>
#include <stdlib.h>
#include <string.h>
#include <sys/socket.h>
#include <sys/syscall.h>
#include <sys/uio.h>
#include <unistd.h>

extern void *__libc_malloc(size_t), *__libc_calloc(size_t, size_t);
extern void *__libc_realloc(void *, size_t), *__libc_memalign(size_t, size_t);

static atomic_long asked;
static long first_refused, last_refused;
static int trace = -1;
static _Thread_local int inside;
static uintptr_t program, code, code_end;

/* The program is the first object; its code is what may be executed. */
static int find_program(struct dl_phdr_info *object, size_t size, void *unused)
{
    program = object->dlpi_addr;
    for (int k = 0; k < object->dlpi_phnum; k++)
        if (object->dlpi_phdr[k].p_type == PT_LOAD && object->dlpi_phdr[k].p_flags & PF_X) {
            code = program + object->dlpi_phdr[k].p_vaddr;
            code_end = code + object->dlpi_phdr[k].p_memsz;
        }
    return size && !unused;
}

__attribute__((constructor)) static void begin(void)
{
    const char *first = getenv("FIRST"), *last = getenv("LAST"), *file = getenv("TRACE");
    inside = 1;
    dl_iterate_phdr(find_program, NULL);
    if (file)
        trace = syscall(SYS_openat, AT_FDCWD, file, O_WRONLY | O_CREAT | O_APPEND, 0600);
    if (first && last) {
        first_refused = atol(first);
        last_refused = atol(last);
    }
    inside = 0;
    atomic_store(&asked, 0);
}

static void note(const char *line, size_t length)
{
    if (trace >= 0 && syscall(SYS_write, trace, line, length) != (long)length)
        _exit(121);
}

/* Whether a call stands before this place of the code. */
static int is_behind_call(uintptr_t place)
{
    const unsigned char *at = (const unsigned char *)place;
    if (place < code + 7 || place >= code_end)
        return 0;
    for (int length = 2; length <= 7; length++)
        if (at[-length] == 0xff && (at[1 - length] & 0x38) == 0x10)
            return 1;
    return at[-5] == 0xe8;
}

static uintptr_t end_of_stack(void)
{
    pthread_attr_t stack;
    void *first = NULL;
    size_t size = 0;
    if (!pthread_getattr_np(pthread_self(), &stack)) {
        pthread_attr_getstack(&stack, &first, &size);
        pthread_attr_destroy(&stack);
    }
    return (uintptr_t)first + size;
}

/* Counts an allocation, and tells whether it is to be refused. */
static int is_refused(size_t size)
{
    static _Thread_local uintptr_t end;
    static _Thread_local char line[65536];
    if (inside)
        return 0;
    long number = atomic_fetch_add(&asked, 1) + 1;
    int refused = first_refused <= number && number <= last_refused;
    if (trace >= 0) {
        inside = 1;
        if (!end)
            end = end_of_stack();
        size_t length = sprintf(line, "%s %ld %zu", refused ? "refused" : "asked", number, size);
        uintptr_t *at = __builtin_frame_address(0);
        for (; (uintptr_t)(at + 1) <= end && length < sizeof line - 40; at++)
            if (is_behind_call(*at))
                length += sprintf(line + length, " %lx", (unsigned long)(*at - program));
        line[length++] = '\n';
        note(line, length);
        inside = 0;
    }
    if (refused)
        errno = ENOMEM;
    return refused;
}

void *malloc(size_t size) { return is_refused(size) ? NULL : __libc_malloc(size); }
void *calloc(size_t count, size_t size) { return is_refused(count * size) ? NULL : __libc_calloc(count, size); }
void *realloc(void *old, size_t size) { return is_refused(size) ? NULL : __libc_realloc(old, size); }
void *memalign(size_t to, size_t size) { return is_refused(size) ? NULL : __libc_memalign(to, size); }
void *aligned_alloc(size_t to, size_t size) { return is_refused(size) ? NULL : __libc_memalign(to, size); }
int posix_memalign(void **place, size_t to, size_t size)
{
    if (is_refused(size))
        return ENOMEM;
    *place = __libc_memalign(to, size);
    return *place ? 0 : ENOMEM;
}

/* The calls that show how far the program is. */
static long passed(const char *name, int file, long value)
{
    int kept = errno;
    char line[100];
    note(line, snprintf(line, sizeof line, "%s %d %ld\n", name, file, value));
    errno = kept;
    return value;
}

#define PASS(name, type, given, ...)                                   \
    type name given                                                    \
    {                                                                  \
        static type(*next) given;                                      \
        if (!next)                                                     \
            next = (type(*) given)dlsym(RTLD_NEXT, #name);             \
        return passed(#name, file, next(__VA_ARGS__));                 \
    }
PASS(read, ssize_t, (int file, void *bytes, size_t count), file, bytes, count)
PASS(write, ssize_t, (int file, const void *bytes, size_t count), file, bytes, count)
PASS(writev, ssize_t, (int file, const struct iovec *parts, int count), file, parts, count)
PASS(pwrite, ssize_t, (int file, const void *bytes, size_t count, off_t at), file, bytes, count, at)
PASS(pwrite64, ssize_t, (int file, const void *bytes, size_t count, off64_t at), file, bytes, count, at)
PASS(fsync, int, (int file), file)
PASS(fdatasync, int, (int file), file)
PASS(recv, ssize_t, (int file, void *bytes, size_t count, int how), file, bytes, count, how)
PASS(send, ssize_t, (int file, const void *bytes, size_t count, int how), file, bytes, count, how)
PASS(accept, int, (int file, struct sockaddr *who, socklen_t *length), file, who, length)
PASS(accept4, int, (int file, struct sockaddr *who, socklen_t *length, int how), file, who, length, how)
