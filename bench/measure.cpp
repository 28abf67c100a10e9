// measure SECONDS INPUT OUTPUT COMMAND..
//
// Runs a command with these files as its standard input and output, for so many seconds at most, and prints its status, its
// processor time and its time on the clock in nanoseconds, and its peak memory in KB. That is done in a small process, since
// Linux counts for a program's peak memory also that of the process which it was forked from.
#include <chrono>
#include <cstdio>
#include <cstdlib>
#include <fcntl.h>
#include <sys/resource.h>
#include <sys/wait.h>
#include <unistd.h>

static long long nanoseconds(timeval t) { return (t.tv_sec * 1000000LL + t.tv_usec) * 1000; }

int main(int argc, char** argv) {
    if (argc < 5) return 2;
    auto start = std::chrono::steady_clock::now();
    pid_t child = fork();
    if (child == 0) {
        alarm(atoi(argv[1]));
        dup2(open(argv[2], O_RDONLY), 0);
        dup2(open(argv[3], O_WRONLY | O_CREAT | O_TRUNC, 0644), 1);
        execv(argv[4], argv + 4);
        _exit(127);
    }
    int status;
    rusage used;
    if (wait4(child, &status, 0, &used) != child) return 2;
    long long clock = std::chrono::nanoseconds(std::chrono::steady_clock::now() - start).count();
    long long spent = nanoseconds(used.ru_utime) + nanoseconds(used.ru_stime);
    printf("%d %lld %lld %ld\n", WIFEXITED(status) ? WEXITSTATUS(status) : 128, spent, clock, used.ru_maxrss);
}
