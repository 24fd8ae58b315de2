/* Times 2,000 durable sets of the program on real folders, beside a yardstick that makes the same four writes and two syncs
 * a set and does nothing else. Both run in turn, nine times, in the folder that it is started in, so start it on the file
 * system that counts. The ratio is the median of the nine, since a sync waits for whatever else the machine writes.
 *
 *     cc -O2 -o durable_sets bench/durable_sets.c && ./durable_sets ./pebble_cli
 */
#define _GNU_SOURCE
#include <fcntl.h>
#include <limits.h>
#include <stdio.h>
#include <stdlib.h>
#include <string.h>
#include <sys/stat.h>
#include <sys/wait.h>
#include <time.h>
#include <unistd.h>

enum { SETS = 2000, ROUNDS = 9, VALUE = 48 };

static void stop(const char *what) {
    perror(what);
    exit(1);
}

static double now(void) {
    struct timespec time;
    clock_gettime(CLOCK_MONOTONIC, &time);
    return (double)time.tv_sec + (double)time.tv_nsec / 1e9;
}

/* A payload is a count, the byte 1, a key of 5 bytes and a value, each behind its length. */
static size_t payload_length(int set) {
    return (set < 128 ? 1 : 2) + 1 + (1 + 5) + (1 + VALUE);
}

static void write_script(void) {
    char value[VALUE + 1];
    memset(value, 'v', VALUE);
    value[VALUE] = 0;
    FILE *script = fopen("sets.script", "w");
    if (!script) stop("sets.script");
    fprintf(script, "open A\n");
    for (int set = 1; set <= SETS; set++) fprintf(script, "A set k%04d %s\n", set, value);
    if (fclose(script)) stop("sets.script");
}

static double time_program(const char *program) {
    double start = now();
    pid_t child = fork();
    if (child < 0) stop("fork");
    if (child == 0) {
        int in = open("sets.script", O_RDONLY), out = open("sets.out", O_WRONLY | O_CREAT | O_TRUNC, 0666);
        if (in < 0 || out < 0 || dup2(in, 0) < 0 || dup2(out, 1) < 0) stop("streams");
        execl(program, program, "run", (char *)NULL);
        stop(program);
    }
    int status;
    if (waitpid(child, &status, 0) < 0) stop("waitpid");
    double time = now() - start;
    if (!WIFEXITED(status) || WEXITSTATUS(status) != 0) {
        fprintf(stderr, "%s ended with status %d\n", program, WEXITSTATUS(status));
        exit(1);
    }
    return time;
}

static void put(int file, const void *bytes, size_t length, off_t at) {
    if (pwrite(file, bytes, length, at) != (ssize_t)length) stop("pwrite");
}

static void sync_file(int file) {
    if (fsync(file)) stop("fsync");
}

static double time_yardstick(void) {
    char payload[VALUE + 16];
    memset(payload, 'v', sizeof payload);
    double start = now();
    int file = open("yardstick.log", O_RDWR | O_CREAT | O_TRUNC, 0666);
    if (file < 0) stop("yardstick.log");
    off_t gate = 0;
    put(file, "\0", 1, gate);
    sync_file(file);
    for (int set = 1; set <= SETS; set++) {
        size_t length = payload_length(set);
        unsigned char be32[4] = {0, 0, (unsigned char)(length >> 8), (unsigned char)length};
        off_t next = gate + 5 + (off_t)length;
        put(file, be32, 4, gate + 1);
        put(file, payload, length, gate + 5);
        put(file, "\0", 1, next);
        sync_file(file);
        put(file, "\1", 1, gate);
        sync_file(file);
        gate = next;
    }
    if (close(file)) stop("close");
    return now() - start;
}

static int compare(const void *a, const void *b) {
    double x = *(const double *)a, y = *(const double *)b;
    return (x > y) - (x < y);
}

/* The middle one of the rounds' numbers, which it sorts. */
static double median(double *numbers) {
    qsort(numbers, ROUNDS, sizeof *numbers, compare);
    return numbers[ROUNDS / 2];
}

static void remove_all(void) {
    if (system("rm -rf stores sets.script sets.out yardstick.log")) exit(1);
}

int main(int words, char **word) {
    char program[PATH_MAX], folder[] = "durable_sets.XXXXXX";
    if (words != 2 || !realpath(word[1], program)) {
        fprintf(stderr, "usage: durable_sets PROGRAM\n");
        return 2;
    }
    if (!mkdtemp(folder) || chdir(folder)) stop(folder);
    double runs[ROUNDS], yardsticks[ROUNDS], ratios[ROUNDS];
    for (int round = 0; round < ROUNDS; round++) {
        remove_all();
        write_script();
        yardsticks[round] = time_yardstick();
        runs[round] = time_program(program);
        ratios[round] = runs[round] / yardsticks[round];
        printf("round %d: program %.3f s, yardstick %.3f s, ratio %.3f\n", round + 1, runs[round], yardsticks[round], ratios[round]);
    }
    printf("%d sets, medians: program %.3f s, yardstick %.3f s, ratio %.3f\n", SETS, median(runs), median(yardsticks), median(ratios));
    remove_all();
    if (chdir("..") || rmdir(folder)) stop(folder);
    return 0;
}
