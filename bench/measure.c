/* measure CARD LABEL=PROGRAM..: runs each program on the card, in turns, three times; PROGRAM may end in a space and an
 * argument. Prints two lines for each, its label with the least time in seconds and with the peak memory in KB. */
#include <fcntl.h>
#include <stdio.h>
#include <string.h>
#include <sys/resource.h>
#include <sys/wait.h>
#include <time.h>
#include <unistd.h>

enum { ROUNDS = 3, PROGRAMS = 16 };

struct program {
    char *label, *words[3];
    double least;
    long peak;
};

static double seconds(void) {
    struct timespec t;
    clock_gettime(CLOCK_MONOTONIC, &t);
    return t.tv_sec + t.tv_nsec * 1e-9;
}

static int run(const char *card, struct program *p) {
    double begin = seconds();
    pid_t child = fork();
    if (child == 0) {
        dup2(open(card, O_RDONLY), 0);
        dup2(open("/dev/null", O_WRONLY), 1);
        execv(p->words[0], p->words);
        _exit(127);
    }
    int status;
    struct rusage usage;
    if (wait4(child, &status, 0, &usage) < 0 || status) return 0;
    double took = seconds() - begin;
    if (took < p->least) p->least = took;
    if (usage.ru_maxrss > p->peak) p->peak = usage.ru_maxrss;
    return 1;
}

int main(int argc, char **argv) {
    static struct program programs[PROGRAMS];
    int count = argc - 2;
    if (count < 1 || PROGRAMS < count) return 2;
    for (int i = 0; i < count; i++) {
        struct program *p = programs + i;
        p->label = argv[i + 2], p->least = 1e9;
        char *path = strchr(p->label, '=');
        if (!path) return 2;
        *path++ = 0;
        p->words[0] = path;
        char *space = strchr(path, ' ');
        if (space) *space = 0, p->words[1] = space + 1;
    }
    for (int round = 0; round < ROUNDS; round++)
        for (int i = 0; i < count; i++)
            if (!run(argv[1], programs + i)) return fprintf(stderr, "%s failed\n", programs[i].words[0]), 1;
    for (int i = 0; i < count; i++)
        printf("%s, s\t%f\n%s, KB\t%ld\n", programs[i].label, programs[i].least, programs[i].label, programs[i].peak);
    return 0;
}
