/* Runs a program some times and prints the shortest processor time and the shortest time by the clock, in seconds:
       spend REPETITIONS INPUT OUTPUT COMMAND [WORDS...]
   INPUT is its standard input, and OUTPUT its standard output, written anew each time. */
#define _DEFAULT_SOURCE
#include <fcntl.h>
#include <stdio.h>
#include <stdlib.h>
#include <sys/resource.h>
#include <sys/wait.h>
#include <time.h>
#include <unistd.h>

static double seconds(struct timeval t)
{
    return t.tv_sec + t.tv_usec / 1e6;
}

static double now(void)
{
    struct timespec t;
    clock_gettime(CLOCK_MONOTONIC, &t);
    return t.tv_sec + t.tv_nsec / 1e9;
}

static void become(const char *input, const char *output, char **command)
{
    int in = open(input, O_RDONLY), out = open(output, O_WRONLY | O_CREAT | O_TRUNC, 0644);
    if (in < 0 || out < 0 || dup2(in, 0) < 0 || dup2(out, 1) < 0)
        _exit(126);
    execvp(command[0], command);
    _exit(127);
}

int main(int count, char **words)
{
    if (count < 5)
        return 2;
    double least = 1e9, shortest = 1e9;
    for (int n = atoi(words[1]); n > 0; n--) {
        struct rusage used;
        int status;
        double began = now();
        pid_t child = fork();
        if (child == 0)
            become(words[2], words[3], words + 4);
        if (child < 0 || wait4(child, &status, 0, &used) != child || !WIFEXITED(status) || WEXITSTATUS(status) >= 126) {
            fprintf(stderr, "spend: %s did not run to its end\n", words[4]);
            return 1;
        }
        double took = now() - began, spent = seconds(used.ru_utime) + seconds(used.ru_stime);
        least = spent < least ? spent : least;
        shortest = took < shortest ? took : shortest;
    }
    printf("%.6f %.6f\n", least, shortest);
    return 0;
}
