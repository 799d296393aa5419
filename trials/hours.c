/* A clock of which each reading is an hour after the one before. */
#include <sys/syscall.h>
#include <time.h>
#include <unistd.h>

int clock_gettime(clockid_t clock, struct timespec *now)
{
    static long hours;

    if (clock != CLOCK_MONOTONIC)
        return (int)syscall(SYS_clock_gettime, clock, now);
    now->tv_sec = 3600 * ++hours;
    now->tv_nsec = 0;
    return 0;
}
