/* Times 1,000 puts of objects of 64 KiB by the program bucket_calls on a real folder, and 1,000 of a yardstick that makes the same
 * writes, renames and syncs and does nothing else. They put in turn, one object each, since a sync waits for whatever else the
 * machine writes. Start it on the file system that counts: it works in a folder of its own there.
 *
 *     cc -O2 -o put_objects bench/put_objects.c && ./put_objects crates/bucket_calls/out/bucket_calls
 */
#define _GNU_SOURCE
#include <fcntl.h>
#include <limits.h>
#include <stdio.h>
#include <stdlib.h>
#include <string.h>
#include <sys/stat.h>
#include <sys/wait.h>
#include <time.h>
#include <unistd.h>

enum { PUTS = 1000, SIZE = 65536 };

static void stop(const char *what) {
    perror(what);
    exit(1);
}

static double now(void) {
    struct timespec time;
    clock_gettime(CLOCK_MONOTONIC, &time);
    return (double)time.tv_sec + (double)time.tv_nsec / 1e9;
}

static void make_folder(const char *path) {
    if (mkdir(path, 0777)) stop(path);
}

/* Both put into a folder that stands. */
static void make_folders(void) {
    make_folder("bucket");
    make_folder("bucket/obj");
    make_folder("bucket/obj/1");
    make_folder("bucket/tmp");
    make_folder("yardstick");
    make_folder("yardstick/tmp");
}

/* The program's standard streams, from this side. */
static FILE *lines, *answers;

static pid_t start_program(const char *program) {
    int in[2], out[2];
    if (pipe(in) || pipe(out)) stop("pipe");
    pid_t child = fork();
    if (child < 0) stop("fork");
    if (child == 0) {
        if (dup2(in[0], 0) < 0 || dup2(out[1], 1) < 0) stop("streams");
        close(in[0]), close(in[1]), close(out[0]), close(out[1]);
        execl(program, program, (char *)NULL);
        stop(program);
    }
    close(in[0]), close(out[1]);
    lines = fdopen(in[1], "w"), answers = fdopen(out[0], "r");
    if (!lines || !answers) stop("fdopen");
    return child;
}

static void ask(const char *line, int call) {
    char answer[128], wanted[128];
    fprintf(lines, "%s\n", line);
    if (fflush(lines) || !fgets(answer, sizeof answer, answers)) stop("the program");
    snprintf(wanted, sizeof wanted, "ok; calls %d; faults 0\n", call);
    if (strcmp(answer, wanted)) {
        fprintf(stderr, "%s: %s", line, answer);
        exit(1);
    }
}

static void end_program(pid_t child) {
    int status;
    fclose(lines);
    if (waitpid(child, &status, 0) < 0) stop("waitpid");
    if (!WIFEXITED(status) || WEXITSTATUS(status) != 0) {
        fprintf(stderr, "the program ended with status %d\n", WEXITSTATUS(status));
        exit(1);
    }
}

static void sync_and_close(int file, const char *path) {
    if (fsync(file) || close(file)) stop(path);
}

static void put_object(const char *bytes, int number) {
    char spare[64], name[64];
    snprintf(spare, sizeof spare, "yardstick/tmp/%d", number);
    snprintf(name, sizeof name, "yardstick/%d", number);
    int file = open(spare, O_WRONLY | O_CREAT | O_EXCL, 0666);
    if (file < 0) stop(spare);
    if (write(file, bytes, SIZE) != SIZE) stop(spare);
    sync_and_close(file, spare);
    if (rename(spare, name)) stop(name);
    int folder = open("yardstick", O_RDONLY);
    if (folder < 0) stop("yardstick");
    sync_and_close(folder, "yardstick");
}

static int compare(const void *a, const void *b) {
    double x = *(const double *)a, y = *(const double *)b;
    return (x > y) - (x < y);
}

static double sum(const double *times) {
    double all = 0;
    for (int put = 0; put < PUTS; put++) all += times[put];
    return all;
}

/* The middle one of the times, which it sorts. */
static double median(double *times) {
    qsort(times, PUTS, sizeof *times, compare);
    return times[PUTS / 2];
}

int main(int words, char **word) {
    static char bytes[SIZE];
    static double program[PUTS], yardstick[PUTS];
    char path[PATH_MAX], line[64], folder[] = "put_objects.XXXXXX";
    if (words != 2 || !realpath(word[1], path)) {
        fprintf(stderr, "usage: put_objects PROGRAM\n");
        return 2;
    }
    if (!mkdtemp(folder) || chdir(folder)) stop(folder);
    make_folders();
    memset(bytes, 'v', SIZE);
    pid_t child = start_program(path);
    /* Its first call settles what stands there. */
    ask("delete obj/1/0", 1);
    for (int put = 0; put < PUTS; put++) {
        double start = now();
        put_object(bytes, put);
        double middle = now();
        snprintf(line, sizeof line, "put obj/1/%d %d", put, SIZE);
        ask(line, put + 2);
        yardstick[put] = middle - start, program[put] = now() - middle;
    }
    end_program(child);
    double all = sum(program), all_yardstick = sum(yardstick);
    printf("%d puts: program %.3f s, yardstick %.3f s, ratio %.3f\n", PUTS, all, all_yardstick, all / all_yardstick);
    double one = median(program), one_yardstick = median(yardstick);
    printf("median put: program %.3f ms, yardstick %.3f ms, ratio %.3f\n", one * 1e3, one_yardstick * 1e3, one / one_yardstick);
    if (system("rm -rf bucket yardstick") || chdir("..") || rmdir(folder)) stop(folder);
    return 0;
}
