/* Runs commands so many times, one of each in a round, in an order drawn anew for each round, and writes what each run took.
 *
 *   measure COUNT FIRST INPUT WORD .. [-- WORD .. [-- ..]]
 *
 * Standard input comes from INPUT, what is printed is thrown away, and nothing is in the environment but PATH and the
 * variables that the tools read. A word % is the number of the round, from FIRST on. A line for each run: the place of its
 * command, and its wall and its processor time in microseconds. A command that ends with a status other than 0 or 1 ends
 * the whole. */
#define _GNU_SOURCE
#include <fcntl.h>
#include <stdio.h>
#include <stdlib.h>
#include <string.h>
#include <sys/resource.h>
#include <sys/wait.h>
#include <time.h>
#include <unistd.h>

static double micros(struct timeval at) { return (double)at.tv_sec * 1e6 + (double)at.tv_usec; }

static char *environment[8];

/* The variables that are handed on. */
static void settle_environment(void) {
    static const char *const names[] = {"PATH", "ATSPOOL", "LOGNAME", "HOME", "PWD", "TZ"};
    int kept = 0;
    for (size_t n = 0; n < sizeof names / sizeof *names; n++) {
        const char *value = getenv(names[n]);
        if (value && asprintf(&environment[kept], "%s=%s", names[n], value) > 0) kept++;
    }
    environment[kept] = NULL;
}

/* One run: its wall and processor time. The status tells whether it may count. */
static int run(char **words, const char *input, double *wall, double *cpu) {
    struct timespec before, after;
    struct rusage used;
    int status;
    clock_gettime(CLOCK_MONOTONIC, &before);
    pid_t child = vfork();
    if (child == 0) {
        int in = open(input, O_RDONLY), out = open("/dev/null", O_WRONLY);
        dup2(in, 0);
        dup2(out, 1);
        dup2(out, 2);
        close(in);
        close(out);
        execve(words[0], words, environment);
        _exit(127);
    }
    if (child < 0 || wait4(child, &status, 0, &used) != child) return -1;
    clock_gettime(CLOCK_MONOTONIC, &after);
    *wall = (double)(after.tv_sec - before.tv_sec) * 1e6 + (double)(after.tv_nsec - before.tv_nsec) / 1e3;
    *cpu = micros(used.ru_utime) + micros(used.ru_stime);
    return WIFEXITED(status) ? WEXITSTATUS(status) : 128 + WTERMSIG(status);
}

enum { MOST_WORDS = 64, MOST_COMMANDS = 16 };

/* Runs the command that begins at this word, in the round of this number. Whether it may count. */
static int sample(char **words, int count, int from, int place, char *number) {
    char *command[MOST_WORDS];
    int length = 0;
    for (; from < count && strcmp(words[from], "--") != 0 && length < MOST_WORDS - 1; from++)
        command[length++] = strcmp(words[from], "%") == 0 ? number : words[from];
    command[length] = NULL;
    double wall, cpu;
    int status = run(command, words[3], &wall, &cpu);
    if (status != 0 && status != 1) {
        fprintf(stderr, "measure: %s ended with %d\n", command[0], status);
        return 0;
    }
    printf("%d %.0f %.0f\n", place, wall, cpu);
    return 1;
}

int main(int count, char **words) {
    if (count < 5) return 2;
    int times = atoi(words[1]), first = atoi(words[2]);
    int begins[MOST_COMMANDS] = {4}, order[MOST_COMMANDS] = {0}, commands = 1;
    for (int word = 4; word < count; word++)
        if (strcmp(words[word], "--") == 0 && commands < MOST_COMMANDS) {
            order[commands] = commands;
            begins[commands++] = word + 1;
        }
    settle_environment();
    srandom((unsigned)time(NULL) ^ (unsigned)getpid());
    for (int round = 0; round < times; round++) {
        char number[16];
        snprintf(number, sizeof number, "%d", first + round);
        for (int left = commands; left > 1; left--) {
            int taken = (int)(random() % left), kept = order[left - 1];
            order[left - 1] = order[taken];
            order[taken] = kept;
        }
        for (int turn = 0; turn < commands; turn++)
            if (!sample(words, count, begins[order[turn]], order[turn], number)) return 1;
    }
    return 0;
}
