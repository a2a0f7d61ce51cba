/* measure NAME RUNS STATUS STDIN COMMAND..: runs the command RUNS times and prints one line:

       NAME  wall in seconds  user and system time in seconds  greatest memory in MB

   The least of the runs counts, each figure by itself. A wrong exit status ends the measurement. */
#include <fcntl.h>
#include <stdio.h>
#include <stdlib.h>
#include <sys/resource.h>
#include <sys/wait.h>
#include <time.h>
#include <unistd.h>

static double now(void) {
    struct timespec t;
    clock_gettime(CLOCK_MONOTONIC, &t);
    return t.tv_sec + t.tv_nsec / 1e9;
}

static double seconds(struct timeval t) { return t.tv_sec + t.tv_usec / 1e6; }

static void run(char *input, char **command) {
    if (dup2(open(input, O_RDONLY), 0) < 0 || dup2(open("/dev/null", O_WRONLY), 1) < 0) _exit(126);
    execvp(command[0], command);
    _exit(127);
}

int main(int count, char **words) {
    if (count < 6) {
        fprintf(stderr, "measure NAME RUNS STATUS STDIN COMMAND..\n");
        return 2;
    }
    double wall = 1e9, cpu = 1e9, memory = 1e9;
    for (int i = 0; i < atoi(words[2]); i++) {
        struct rusage usage;
        int status;
        double begin = now();
        pid_t child = fork();
        if (child == 0) run(words[4], words + 5);
        wait4(child, &status, 0, &usage);
        double took = now() - begin, spent = seconds(usage.ru_utime) + seconds(usage.ru_stime), most = usage.ru_maxrss / 1024.0;
        if (!WIFEXITED(status) || WEXITSTATUS(status) != atoi(words[3])) {
            fprintf(stderr, "%s ended with status %d in place of %s\n", words[5], WEXITSTATUS(status), words[3]);
            return 1;
        }
        if (took < wall) wall = took;
        if (spent < cpu) cpu = spent;
        if (most < memory) memory = most;
    }
    printf("%-10s wall %.3f s  cpu %.3f s  memory %.1f MB\n", words[1], wall, cpu, memory);
    return 0;
}
