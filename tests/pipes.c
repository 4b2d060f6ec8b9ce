/* Runs a command on pipes as they go wrong, and answers its exit status:
 *   pipes in FILE COMMAND..   standard input is a non-blocking pipe that has the first half of FILE; the second half comes later
 *   pipes slow COMMAND..      standard output is a non-blocking pipe of 4,096 bytes that is read once the command has ended
 *   pipes gone COMMAND..      standard output is a pipe that nobody reads any more */
#define _GNU_SOURCE
#include <fcntl.h>
#include <signal.h>
#include <string.h>
#include <sys/wait.h>
#include <unistd.h>

static char text[1 << 17];

static void move(int from, int to, size_t most) {
    ssize_t n;
    while (most && (n = read(from, text, most < sizeof text ? most : sizeof text)) > 0) {
        if (write(to, text, (size_t)n) != n)
            return;
        most -= (size_t)n;
    }
}

static pid_t start(int replaced, int by, int other, char **command) {
    pid_t child = fork();
    if (child == 0) {
        signal(SIGPIPE, SIG_DFL);
        dup2(by, replaced);
        close(by);
        if (other >= 0)
            close(other);
        execvp(command[0], command);
        _exit(98);
    }
    return child;
}

int main(int count, char **word) {
    int ends[2], status, file = -1;
    off_t half = 0;
    pid_t child;
    if (count < 3 || pipe(ends))
        return 97;
    signal(SIGPIPE, SIG_IGN);
    if (!strcmp(word[1], "in")) {
        file = open(word[2], O_RDONLY);
        half = lseek(file, 0, SEEK_END) / 2;
        lseek(file, 0, SEEK_SET);
        move(file, ends[1], (size_t)half);
        fcntl(ends[0], F_SETFL, O_NONBLOCK);
        child = start(0, ends[0], ends[1], word + 3);
        close(ends[0]);
        sleep(1);
        move(file, ends[1], sizeof text);
        close(ends[1]);
        waitpid(child, &status, 0);
    } else if (!strcmp(word[1], "slow")) {
        fcntl(ends[1], F_SETPIPE_SZ, 4096);
        fcntl(ends[1], F_SETFL, O_NONBLOCK);
        child = start(1, ends[1], ends[0], word + 2);
        close(ends[1]);
        waitpid(child, &status, 0);
        move(ends[0], 1, sizeof text);
    } else {
        close(ends[0]);
        child = start(1, ends[1], -1, word + 2);
        close(ends[1]);
        waitpid(child, &status, 0);
    }
    return WIFEXITED(status) ? WEXITSTATUS(status) : 128 + WTERMSIG(status);
}
