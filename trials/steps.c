/* A clock of the day of which each reading is CLOCK_STEP seconds after the one before, from
   CLOCK_START on. It appends each reading to the file CLOCK_SEEN. */
#define _GNU_SOURCE
#include <fcntl.h>
#include <stdio.h>
#include <stdlib.h>
#include <sys/syscall.h>
#include <time.h>
#include <unistd.h>

static long number(const char *name)
{
    const char *text = getenv(name);

    return text ? atol(text) : 0;
}

static void note(long seconds)
{
    char line[32];
    int length = snprintf(line, sizeof line, "%ld\n", seconds);
    int file = (int)syscall(SYS_openat, AT_FDCWD, getenv("CLOCK_SEEN"),
                            O_WRONLY | O_APPEND | O_CREAT | O_CLOEXEC, 0600);

    syscall(SYS_write, file, line, (size_t)length);
    syscall(SYS_close, file);
}

int clock_gettime(clockid_t clock, struct timespec *now)
{
    static long readings;

    if (clock != CLOCK_REALTIME)
        return (int)syscall(SYS_clock_gettime, clock, now);
    now->tv_sec = number("CLOCK_START") + number("CLOCK_STEP") * readings++;
    now->tv_nsec = 0;
    note(now->tv_sec);
    return 0;
}
