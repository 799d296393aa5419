/* Refuses one call that takes memory: the one whose number REFUSED_CALL names, counted from 1.
 * It then makes the file that REFUSED_FILE names. At the end it writes into the file that SPAN_FILE
 * names how many such calls were made before the first read of a folder, and how many before the
 * last write to standard output. */
#include <errno.h>
#include <fcntl.h>
#include <stddef.h>
#include <stdio.h>
#include <stdlib.h>
#include <sys/syscall.h>
#include <sys/types.h>
#include <unistd.h>

void *__libc_malloc(size_t);
void *__libc_calloc(size_t, size_t);
void *__libc_realloc(void *, size_t);
void *__libc_memalign(size_t, size_t);

static long left = -1, made, listed = -1, written = -1;

__attribute__((constructor)) static void begin(void)
{
    const char *number = getenv("REFUSED_CALL");
    left = number ? atol(number) : 0;
}

__attribute__((destructor)) static void end(void)
{
    const char *name = getenv("SPAN_FILE");
    int file = name ? open(name, O_WRONLY | O_CREAT | O_TRUNC, 0600) : -1;
    if (file < 0)
        return;
    dprintf(file, "%ld %ld\n", listed, written);
    close(file);
}

ssize_t getdents64(int folder, void *entries, size_t size)
{
    if (listed < 0)
        listed = made;
    return syscall(SYS_getdents64, folder, entries, size);
}

ssize_t write(int file, const void *bytes, size_t size)
{
    if (file == STDOUT_FILENO)
        written = made;
    return syscall(SYS_write, file, bytes, size);
}

static int is_refused(void)
{
    made++;
    if (left <= 0 || --left > 0)
        return 0;
    const char *name = getenv("REFUSED_FILE");
    int file = name ? open(name, O_WRONLY | O_CREAT, 0600) : -1;
    if (file >= 0)
        close(file);
    errno = ENOMEM;
    return 1;
}

void *malloc(size_t size)
{
    return is_refused() ? NULL : __libc_malloc(size);
}

void *calloc(size_t count, size_t size)
{
    return is_refused() ? NULL : __libc_calloc(count, size);
}

void *realloc(void *old, size_t size)
{
    return is_refused() ? NULL : __libc_realloc(old, size);
}

void *aligned_alloc(size_t align, size_t size)
{
    return is_refused() ? NULL : __libc_memalign(align, size);
}

int posix_memalign(void **made, size_t align, size_t size)
{
    if (is_refused())
        return ENOMEM;
    *made = __libc_memalign(align, size);
    return *made ? 0 : ENOMEM;
}
