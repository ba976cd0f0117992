// measure OUTPUT PROGRAM WORD..: runs a program with its standard output to a file, and prints the microseconds of the
// processor that it took, the peak of its memory in bytes and its exit status. It is small, since the peak of a process is
// never below its parent's.
#include <cstdio>
#include <cstdlib>
#include <fcntl.h>
#include <sys/resource.h>
#include <sys/wait.h>
#include <unistd.h>

int main(int count, char **words) {
    if (count < 3) return std::fprintf(stderr, "usage: measure OUTPUT PROGRAM WORD..\n"), 2;
    const pid_t child = fork();
    if (child < 0) return 2;
    if (child == 0) {
        const int output = open(words[1], O_WRONLY | O_CREAT | O_TRUNC, 0666);
        if (output < 0 || dup2(output, STDOUT_FILENO) < 0) _exit(126);
        execv(words[2], words + 2);
        _exit(127);
    }
    int status = 0;
    rusage used{};
    if (wait4(child, &status, 0, &used) != child) return 2;
    const long long micros = (used.ru_utime.tv_sec + used.ru_stime.tv_sec) * 1000000LL + used.ru_utime.tv_usec + used.ru_stime.tv_usec;
    std::printf("%lld %lld %d\n", micros, used.ru_maxrss * 1024LL, WIFEXITED(status) ? WEXITSTATUS(status) : 128 + WTERMSIG(status));
    return 0;
}
