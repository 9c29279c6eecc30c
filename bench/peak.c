/* Runs a program, and adds the most memory that it had, in KiB, as a line to a file: peak FILE WORD .. The status is that
   of the program. It is small itself, since a program's memory is counted from that of the one which starts it. */

#include <stdio.h>
#include <sys/resource.h>
#include <sys/wait.h>
#include <unistd.h>

int main(int count, char **words) {
    if (count < 3)
        return 2;
    pid_t child = fork();
    if (child == 0) {
        execvp(words[2], words + 2);
        _exit(127);
    }
    int status;
    struct rusage used;
    if (child < 0 || wait4(child, &status, 0, &used) != child || !WIFEXITED(status))
        return 126;
    FILE *file = fopen(words[1], "a");
    if (file == NULL || fprintf(file, "%ld\n", used.ru_maxrss) < 0 || fclose(file) != 0)
        return 125;
    return WEXITSTATUS(status);
}
