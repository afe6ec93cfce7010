/* The system calls that our tools make, by a C program that does nothing else: what no tool with these promises can be
 * faster than.
 *
 *   floor submit SPOOL [SYNCS]
 *                          the calls of one submission, with all its syncs. With 3, a crash can leave the job and take
 *                          its number back; with 2, the number is not even synced: what fewer syncs would save.
 *   floor list SPOOL       the calls of one listing
 *   floor remove SPOOL N   the calls of one removal, with all its syncs
 *   floor none             nothing */
#define _GNU_SOURCE
#include <dirent.h>
#include <errno.h>
#include <fcntl.h>
#include <stdio.h>
#include <stdlib.h>
#include <string.h>
#include <sys/file.h>
#include <sys/stat.h>
#include <unistd.h>

static void check(int holds, const char *what) {
    if (!holds) {
        perror(what);
        exit(1);
    }
}

static int folder, lock;

static void begin(const char *spool) {
    char path[4096];
    snprintf(path, sizeof path, "%s.lock", spool);
    lock = open(path, O_RDWR | O_CREAT | O_CLOEXEC, 0600);
    check(lock >= 0, path);
    check(flock(lock, LOCK_EX) == 0, "flock");
    char byte = 0;
    check(pread(lock, &byte, 1, 0) >= 0, "pread");
    folder = open(spool, O_RDONLY | O_DIRECTORY | O_CLOEXEC);
    check(folder >= 0, spool);
}

static void tell(char byte) { check(pwrite(lock, &byte, 1, 0) == 1, "pwrite"); }

static void end(void) {
    tell('c');
    close(folder);
    close(lock);
}

/* Reads all of the small files and the first bytes of each job. */
static long survey(void) {
    long jobs = 0;
    DIR *dir = fdopendir(dup(folder));
    check(dir != NULL, "fdopendir");
    struct dirent *entry;
    while ((entry = readdir(dir)) != NULL) {
        struct stat found;
        check(fstatat(folder, entry->d_name, &found, AT_SYMLINK_NOFOLLOW) == 0, entry->d_name);
        if (!S_ISREG(found.st_mode)) continue;
        int file = openat(folder, entry->d_name, O_RDONLY | O_CLOEXEC);
        char bytes[8192];
        size_t most = entry->d_name[0] == '.' ? sizeof bytes : 60;
        check(file >= 0 && pread(file, bytes, most, 0) >= 0, entry->d_name);
        close(file);
        jobs++;
    }
    closedir(dir);
    return jobs;
}

static void place(const char *name, const char *bytes, size_t count, int sync_bytes, int sync_names) {
    int file = openat(folder, ".TMP", O_WRONLY | O_CREAT | O_EXCL | O_CLOEXEC, 0600);
    check(file >= 0, ".TMP");
    check(write(file, bytes, count) == (ssize_t)count, "write");
    if (sync_bytes) check(fsync(file) == 0, "fsync");
    close(file);
    check(renameat(folder, ".TMP", folder, name) == 0, name);
    if (sync_names) check(fsync(folder) == 0, "fsync");
}

static void submit(const char *spool, int syncs) {
    begin(spool);
    survey();
    char sequence[16] = "00000000\n", name[32], text[512];
    int file = openat(folder, ".SEQ", O_RDONLY | O_CLOEXEC);
    if (file >= 0) {
        check(read(file, sequence, 9) == 9, ".SEQ");
        close(file);
    }
    unsigned long number = strtoul(sequence, NULL, 16) + 1;
    snprintf(sequence, sizeof sequence, "%08lx\n", number);
    snprintf(name, sizeof name, "a%08lx01b968a0", number);
    int count = snprintf(text, sizeof text, "#!/bin/sh\n# at user=root mail=0\numask 0022\ncd '/' || {\n\techo 'Execution directory inaccessible' >&2\n\texit 1\n}\necho hi\n");
    tell('u');
    place(".SEQ", sequence, 9, syncs >= 3, syncs >= 4);
    place(name, text, (size_t)count, 1, 1);
    end();
}

/* The mark of the removal in the journal, its gate, and the file. */
static void take_away(const char *spool, unsigned long number) {
    begin(spool);
    survey();
    tell('u');
    char mark[40], name[32];
    snprintf(mark, sizeof mark, "-R%08lx--000000000000000000.\n", number);
    snprintf(name, sizeof name, "a%08lx0fffffff", number);
    int file = openat(folder, ".JRN", O_RDWR | O_CREAT | O_CLOEXEC, 0600);
    check(file >= 0, ".JRN");
    struct stat found;
    check(fstat(file, &found) == 0, ".JRN");
    check(pwrite(file, mark, 32, found.st_size) == 32, ".JRN");
    check(fsync(file) == 0, "fsync");
    check(pwrite(file, "+", 1, found.st_size) == 1, ".JRN");
    check(fsync(file) == 0, "fsync");
    close(file);
    check(unlinkat(folder, name, 0) == 0, name);
    check(fsync(folder) == 0, "fsync");
    end();
}

static void list(const char *spool) {
    begin(spool);
    survey();
    end();
}

int main(int count, char **words) {
    if ((count == 3 || count == 4) && strcmp(words[1], "submit") == 0) submit(words[2], count == 4 ? atoi(words[3]) : 4);
    else if (count == 3 && strcmp(words[1], "list") == 0) list(words[2]);
    else if (count == 4 && strcmp(words[1], "remove") == 0) take_away(words[2], strtoul(words[3], NULL, 10));
    else if (!(count == 2 && strcmp(words[1], "none") == 0)) return 2;
    return 0;
}
