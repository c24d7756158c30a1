/* The processor time of a command, for bench/solvers.
 *
 *     spent LIMIT OUTPUT COMMAND WORD...
 *
 * It runs the command, with what it prints in OUTPUT, and tells the microseconds, user and system, and the exit status; or
 * `limit`, if it took LIMIT seconds or more, whether it was ended then or not; or `signal` and its number. A short command is run
 * again, up to a hundred times or for half a second, and the least is told. */

#define _GNU_SOURCE
#include <fcntl.h>
#include <stdio.h>
#include <stdlib.h>
#include <sys/resource.h>
#include <sys/wait.h>
#include <unistd.h>

enum { MOST_RUNS = 100, ENOUGH = 500000 };

static void start(rlim_t seconds, const char *output, char **words)
{
    /* A second more than is looked at, since the system may count a little more than it tells. */
    struct rlimit limit = {seconds + 1, seconds + 2};
    int file = open(output, O_WRONLY | O_CREAT | O_TRUNC, 0666);
    if (file < 0 || setrlimit(RLIMIT_CPU, &limit))
        exit(126);
    dup2(file, 1);
    dup2(file, 2);
    execvp(words[0], words);
    exit(127);
}

static long microseconds(const struct rusage *use)
{
    return 1000000L * (use->ru_utime.tv_sec + use->ru_stime.tv_sec) + use->ru_utime.tv_usec + use->ru_stime.tv_usec;
}

int main(int count, char **words)
{
    long least = 0, sum = 0;
    int ended = 0;
    if (count < 4 || atol(words[1]) <= 0) {
        fprintf(stderr, "usage: spent LIMIT OUTPUT COMMAND WORD...\n");
        return 2;
    }
    for (int run = 0; run < MOST_RUNS && sum < ENOUGH; run++) {
        struct rusage use;
        pid_t child = fork();
        if (child == 0)
            start(atol(words[1]), words[2], words + 3);
        if (child < 0 || wait4(child, &ended, 0, &use) != child)
            return 1;
        long spent = microseconds(&use);
        sum += spent;
        if (run == 0 || spent < least)
            least = spent;
    }
    /* By the time and not by how it ended: some solvers catch the signal and end as if by themselves. */
    if (least >= 1000000 * atol(words[1]))
        printf("limit\n");
    else if (WIFEXITED(ended))
        printf("%ld %d\n", least, WEXITSTATUS(ended));
    else
        printf("signal %d\n", WTERMSIG(ended));
    return 0;
}
