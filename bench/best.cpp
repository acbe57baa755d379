// Runs a command several times and prints the least seconds: best TIMES OUTPUT COMMAND WORD..
//
// The line has three numbers: the least wall seconds of a run, the least processor seconds of a run and of
// all that it started, and the most memory that any of these held at a time, in KiB. What the last run wrote
// stands in OUTPUT. A run that fails ends it all.
#include <algorithm>
#include <chrono>
#include <cstdio>
#include <cstdlib>
#include <fcntl.h>
#include <sys/resource.h>
#include <sys/wait.h>
#include <unistd.h>

static double seconds(const timeval &time) { return time.tv_sec + time.tv_usec / 1e6; }

// What all children used that have ended.
static rusage children() {
    rusage usage{};
    getrusage(RUSAGE_CHILDREN, &usage);
    return usage;
}

static double processor_seconds(const rusage &usage) { return seconds(usage.ru_utime) + seconds(usage.ru_stime); }

static void become(const char *output, char **command) {
    const int file = open(output, O_WRONLY | O_CREAT | O_TRUNC, 0666);
    if (file < 0 || dup2(file, STDOUT_FILENO) < 0)
        std::perror(output);
    else {
        execvp(command[0], command);
        std::perror(command[0]);
    }
    _exit(127);
}

int main(int argc, char **argv) {
    const int times = argc > 3 ? std::atoi(argv[1]) : 0;
    if (times < 1) {
        std::fprintf(stderr, "usage: best TIMES OUTPUT COMMAND WORD..\n");
        return 1;
    }
    double wall = 1e9, processor = 1e9;
    for (int turn = 0; turn < times; turn++) {
        const double before = processor_seconds(children());
        const auto begun = std::chrono::steady_clock::now();
        const pid_t child = fork();
        if (child == 0)
            become(argv[2], argv + 3);
        int status = 0;
        if (child < 0 || waitpid(child, &status, 0) != child || status != 0) {
            std::fprintf(stderr, "best: %s failed\n", argv[3]);
            return 1;
        }
        const std::chrono::duration<double> spent = std::chrono::steady_clock::now() - begun;
        wall = std::min(wall, spent.count());
        processor = std::min(processor, processor_seconds(children()) - before);
    }
    std::printf("%.3f %.3f %ld\n", wall, processor, children().ru_maxrss);
    return 0;
}
