// A clock that is told: it begins at a full minute, the next one or that after second FROM, and a rest does not wait but makes
// it as much later. Each look at it takes up to 0.1 s, as on a machine that does other work.
#define _GNU_SOURCE
#include <sys/syscall.h>
#include <time.h>
#include <unistd.h>

enum { SECOND = 1000000000, MINUTE = 60, MOST_TAKEN = 100000000 };

// What it shows, in nanoseconds since 1970; 0 until it is first looked at.
static long long shown;
static unsigned long long drawn = 1;

int clock_gettime(clockid_t clock, struct timespec *at)
{
    int status = (int)syscall(SYS_clock_gettime, clock, at);
    if (status != 0 || clock != CLOCK_REALTIME)
        return status;
#ifdef FROM
    if (shown == 0)
        at->tv_sec = FROM;
#endif
    if (shown == 0)
        shown = (at->tv_sec / MINUTE + 1) * MINUTE * SECOND;
    drawn = drawn * 6364136223846793005ULL + 1442695040888963407ULL;
    shown += (long long)(drawn >> 33) % MOST_TAKEN;
    at->tv_sec = (time_t)(shown / SECOND);
    at->tv_nsec = (long)(shown % SECOND);
    return 0;
}

int nanosleep(const struct timespec *rest, struct timespec *left)
{
    const struct timespec moment = {0, 1000000};
    (void)left;
    shown += (long long)rest->tv_sec * SECOND + rest->tv_nsec;
    // (a child that was started may end)
    syscall(SYS_nanosleep, &moment, NULL);
    return 0;
}
