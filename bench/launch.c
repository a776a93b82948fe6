/*
 * Launches programs by turns and tells how long each takes from launch to end, and its peak memory.
 *
 *     launch ROUNDS INPUT OUTPUT PROGRAM...
 *
 * INPUT is a file for standard input. OUTPUT is `null`, or `pipe`: then this program reads all that is written. Each round launches
 * every program once. Times are in microseconds, median and quartiles; ratios to the first program are taken round by round. This is
 * a small program by itself because a launched process is charged with the memory of its launcher until its own is there.
 */
#define _GNU_SOURCE
#include <fcntl.h>
#include <spawn.h>
#include <stdio.h>
#include <stdlib.h>
#include <string.h>
#include <sys/resource.h>
#include <sys/wait.h>
#include <time.h>
#include <unistd.h>

enum { MOST_ROUNDS = 4000, MOST_PROGRAMS = 4, WARM_UP = 10 };

static double times[MOST_PROGRAMS][MOST_ROUNDS];
static double figures[MOST_ROUNDS];
static long peaks[MOST_PROGRAMS];
static char buffer[65536];
extern char **environ;

static void fail(const char *what)
{
    fprintf(stderr, "launch: %s\n", what);
    exit(2);
}

static double now(void)
{
    struct timespec t;
    clock_gettime(CLOCK_MONOTONIC, &t);
    return t.tv_sec * 1e6 + t.tv_nsec / 1e3;
}

/* Launches a program, waits for its end, and gives the microseconds; its peak in kilobytes goes to *peak. */
static double launch(const char *program, const char *input, int piped, long *peak)
{
    char *arguments[] = {(char *)program, NULL};
    posix_spawn_file_actions_t actions;
    int ends[2];
    double start = now();
    posix_spawn_file_actions_init(&actions);
    posix_spawn_file_actions_addopen(&actions, 0, input, O_RDONLY, 0);
    if (piped) {
        if (pipe2(ends, O_CLOEXEC) != 0)
            fail("no pipe");
        posix_spawn_file_actions_adddup2(&actions, ends[1], 1);
    } else {
        posix_spawn_file_actions_addopen(&actions, 1, "/dev/null", O_WRONLY, 0);
    }
    pid_t child;
    if (posix_spawn(&child, program, &actions, NULL, arguments, environ) != 0)
        fail("a program can't be launched");
    if (piped) {
        close(ends[1]);
        while (read(ends[0], buffer, sizeof buffer) > 0) {
        }
        close(ends[0]);
    }
    int status;
    struct rusage usage;
    if (wait4(child, &status, 0, &usage) != child)
        fail("a program is lost");
    double spent = now() - start;
    posix_spawn_file_actions_destroy(&actions);
    if (!WIFEXITED(status) || WEXITSTATUS(status) != 0)
        fail("a program didn't end well");
    *peak = usage.ru_maxrss;
    return spent;
}

static int order(const void *a, const void *b)
{
    double x = *(const double *)a, y = *(const double *)b;
    return (x > y) - (x < y);
}

int main(int count, char **words)
{
    if (count < 5 || count > 4 + MOST_PROGRAMS)
        fail("usage: launch ROUNDS INPUT null|pipe PROGRAM...");
    int rounds = atoi(words[1]), programs = count - 4, piped = strcmp(words[3], "pipe") == 0;
    if (rounds < 1 || rounds > MOST_ROUNDS)
        fail("ROUNDS is 1 to 4000");
    for (int round = -WARM_UP; round < rounds; round++)
        for (int turn = 0; turn < programs; turn++) {
            int which = (turn + round + WARM_UP) % programs;
            long peak;
            double spent = launch(words[4 + which], words[2], piped, &peak);
            if (round >= 0)
                times[which][round] = spent;
            if (peak > peaks[which])
                peaks[which] = peak;
        }
    for (int which = 0; which < programs; which++) {
        double low, median, high, ratio;
        for (int round = 0; round < rounds; round++)
            figures[round] = times[which][round] / times[0][round];
        qsort(figures, rounds, sizeof figures[0], order);
        ratio = figures[rounds / 2];
        memcpy(figures, times[which], rounds * sizeof figures[0]);
        qsort(figures, rounds, sizeof figures[0], order);
        low = figures[rounds / 4];
        median = figures[rounds / 2];
        high = figures[3 * rounds / 4];
        const char *slash = strrchr(words[4 + which], '/');
        printf("| %s | %.0f | %.0f to %.0f | %.2f | %ld |\n", slash ? slash + 1 : words[4 + which], median, low, high, ratio,
               peaks[which]);
    }
    struct rusage own;
    getrusage(RUSAGE_SELF, &own);
    printf("\nThe launcher's own peak, below which no peak can be seen, is %ld kB.\n", own.ru_maxrss);
    return 0;
}
