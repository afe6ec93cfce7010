// A planted fault: syncs of `files`, of `names` (those of folders), or of both, as NO_SYNC says, do nothing and succeed.
#define _GNU_SOURCE
#include <stdlib.h>
#include <string.h>
#include <sys/stat.h>
#include <sys/syscall.h>
#include <unistd.h>

static int is_left_out(int descriptor)
{
    const char *what = getenv("NO_SYNC");
    struct stat found;
    if (what == NULL || fstat(descriptor, &found) != 0)
        return 0;
    return strcmp(what, "syncs") == 0 || strcmp(what, S_ISDIR(found.st_mode) ? "names" : "files") == 0;
}

int fsync(int descriptor)
{
    return is_left_out(descriptor) ? 0 : (int)syscall(SYS_fsync, descriptor);
}

int fdatasync(int descriptor)
{
    return is_left_out(descriptor) ? 0 : (int)syscall(SYS_fdatasync, descriptor);
}
