// The system calls of a submission over the real host, in C: it makes one and prints its microseconds.
#define _GNU_SOURCE
#include <dirent.h>
#include <fcntl.h>
#include <stdio.h>
#include <stdlib.h>
#include <string.h>
#include <sys/file.h>
#include <sys/stat.h>
#include <time.h>
#include <unistd.h>

static const char script[] = "#!/bin/sh\n# at user=ann mail=0\ncd /tmp || exit 1\necho hi\n";
static char folder[512], outputs[520], lock_path[520], temp[600], sequence[600], job[600];

static void must(int holds, const char *what) {
  if (!holds) {
    perror(what);
    exit(1);
  }
}

static void make_folder(const char *path) {
  struct stat found;
  if (stat(path, &found) != 0) must(mkdir(path, 0700) == 0, path);
}

static void sync_path(const char *path) {
  int file = open(path, O_RDONLY | O_CLOEXEC);
  must(file >= 0, path);
  must(fsync(file) == 0, "fsync");
  close(file);
}

static void list(void) {
  struct stat found;
  DIR *names = opendir(folder);
  must(names != NULL, folder);
  for (struct dirent *entry = readdir(names); entry != NULL; entry = readdir(names))
    if (entry->d_name[0] != '.' || strlen(entry->d_name) > 2)
      must(fstatat(dirfd(names), entry->d_name, &found, AT_SYMLINK_NOFOLLOW) == 0, entry->d_name);
  closedir(names);
}

static void place(const char *target, const char *bytes, size_t count) {
  struct stat found;
  int file = open(temp, O_WRONLY | O_CREAT | O_EXCL | O_CLOEXEC, 0600);
  must(file >= 0, temp);
  must(write(file, bytes, count) == (ssize_t)count, "write");
  close(file);
  must(lstat(temp, &found) == 0, temp);
  sync_path(temp);
  must(rename(temp, target) == 0, "rename");
  sync_path(folder);
}

static void submit(unsigned number) {
  char byte, last[16];
  make_folder(folder);
  make_folder(outputs);
  int lock = open(lock_path, O_RDWR | O_CREAT | O_CLOEXEC, 0600);
  must(lock >= 0 && flock(lock, LOCK_EX | LOCK_NB) == 0, "lock");
  must(pread(lock, &byte, 1, 0) >= 0, "byte");
  list();
  must(pwrite(lock, "a", 1, 0) == 1, "byte");
  snprintf(last, sizeof last, "%05x\n", number);
  place(sequence, last, 6);
  place(job, script, sizeof script - 1);
  must(pwrite(lock, "c", 1, 0) == 1, "byte");
  flock(lock, LOCK_UN);
  close(lock);
}

int main(int count, char **words) {
  struct timespec start, end;
  must(count == 3, "floor FOLDER NUMBER");
  unsigned number = strtoul(words[2], NULL, 10);
  snprintf(folder, sizeof folder, "%s", words[1]);
  snprintf(outputs, sizeof outputs, "%s.out", folder);
  snprintf(lock_path, sizeof lock_path, "%s.lock", folder);
  snprintf(temp, sizeof temp, "%s/.TMP", folder);
  snprintf(sequence, sizeof sequence, "%s/.SEQ", folder);
  snprintf(job, sizeof job, "%s/a%05x01b968a0", folder, number);
  clock_gettime(CLOCK_MONOTONIC, &start);
  submit(number);
  clock_gettime(CLOCK_MONOTONIC, &end);
  printf("%ld\n", (end.tv_sec - start.tv_sec) * 1000000 + (end.tv_nsec - start.tv_nsec) / 1000);
  return 0;
}
