/* process ROUNDS TEXT PROGRAM..: the programs on the text, in turn, so many rounds; prints the least processor time of each, in ms, that of starting it included. */
#include <fcntl.h>
#include <stdio.h>
#include <stdlib.h>
#include <sys/resource.h>
#include <sys/wait.h>
#include <unistd.h>

static double run(const char *program, const char *text) {
    struct rusage used;
    int status;
    pid_t child = fork();
    if (child == 0) {
        if (dup2(open(text, O_RDONLY), 0) < 0 || dup2(open("/dev/null", O_WRONLY), 1) < 0) _exit(126);
        execl(program, program, (char *)0);
        _exit(127);
    }
    if (child < 0 || wait4(child, &status, 0, &used) < 0 || status != 0) {
        fprintf(stderr, "%s fails on %s\n", program, text);
        exit(1);
    }
    return 1e3 * (double)(used.ru_utime.tv_sec + used.ru_stime.tv_sec) + 1e-3 * (double)(used.ru_utime.tv_usec + used.ru_stime.tv_usec);
}

int main(int count, char **words) {
    double least[16];
    if (count < 4 || count > 19) return 2;
    for (int round = 0; round < atoi(words[1]); round++)
        for (int i = 3; i < count; i++) {
            double time = run(words[i], words[2]);
            if (round == 0 || time < least[i - 3]) least[i - 3] = time;
        }
    for (int i = 3; i < count; i++) printf("%.3f%c", least[i - 3], i + 1 < count ? ' ' : '\n');
    return 0;
}
