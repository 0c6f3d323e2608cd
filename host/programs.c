/* Runs programs that read standard input and write standard output. */
#define _POSIX_C_SOURCE 200809L

#include "programs.h"

#include <stdio.h>
#include <stdlib.h>
#include <sys/wait.h>
#include <unistd.h>

enum {
    TIME_LIMIT = 60,    /* seconds, after which a program is ended */
    NO_PROGRAM = 127    /* the status where there is none, as shells have it */
};

static void give_up(const char *what)
{
    perror(what);
    exit(EXIT_FAILURE);
}

int programs_file(void)
{
    FILE *file = tmpfile(); /* kept open until this program ends */

    if (file == NULL)
        give_up("no temporary file");
    return fileno(file);
}

void programs_fill(int file, const uint8_t *bytes, size_t length)
{
    if (ftruncate(file, 0) != 0 || pwrite(file, bytes, length, 0) != (ssize_t)length)
        give_up("a temporary file cannot be written");
}

/* In the child: becomes the program. The alarm outlives the change. */
static void become(const char *path, int input, int output)
{
    char *const arguments[] = {(char *)path, NULL};

    alarm(TIME_LIMIT);
    if (dup2(input, STDIN_FILENO) >= 0 && dup2(output, STDOUT_FILENO) >= 0)
        execv(path, arguments);
    _exit(NO_PROGRAM);
}

int programs_run(const char *path, int input, int output)
{
    int status;
    pid_t child;

    if (lseek(input, 0, SEEK_SET) != 0 || lseek(output, 0, SEEK_SET) != 0)
        give_up("a file has no beginning");
    child = fork();
    if (child < 0)
        give_up("no process");
    if (child == 0)
        become(path, input, output);
    if (waitpid(child, &status, 0) != child)
        give_up("a process is lost");
    return WIFEXITED(status) ? WEXITSTATUS(status) : PROGRAMS_KILLED;
}
