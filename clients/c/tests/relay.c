/* relay PATH PROGRAM ARGUMENT ..: listens on a Unix socket and serves each connection by a program of its own, as inetd does.
 *
 * It is killed by a signal; its programs end with their connections. It prints a line when it listens. */
#include <signal.h>
#include <stdio.h>
#include <string.h>
#include <sys/socket.h>
#include <sys/un.h>
#include <unistd.h>

static void serve(int connection, char **program) {
    dup2(connection, 0);
    dup2(connection, 1);
    close(connection);
    execv(program[0], program);
    _exit(127);
}

int main(int count, char **words) {
    struct sockaddr_un at = {.sun_family = AF_UNIX};
    if (count < 3 || strlen(words[1]) >= sizeof at.sun_path) {
        fputs("Usage: relay PATH PROGRAM ARGUMENT ..\n", stderr);
        return 2;
    }
    strcpy(at.sun_path, words[1]);
    unlink(at.sun_path);
    signal(SIGCHLD, SIG_IGN);
    int listener = socket(AF_UNIX, SOCK_STREAM | SOCK_CLOEXEC, 0);
    if (bind(listener, (struct sockaddr *)&at, sizeof at) != 0 || listen(listener, 100) != 0) {
        perror("relay");
        return 1;
    }
    puts("listening");
    fflush(stdout);
    for (;;) {
        int connection = accept(listener, NULL, NULL);
        if (connection < 0)
            continue;
        if (fork() == 0)
            serve(connection, words + 2);
        close(connection);
    }
}
