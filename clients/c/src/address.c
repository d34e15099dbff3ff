/* Reads addresses (exec:, unix:, tcp:). */
#include "address.h"

#include <errno.h>
#include <stdio.h>
#include <stdlib.h>
#include <string.h>
#include <sys/stat.h>
#include <sys/un.h>
#include <unistd.h>

extern char **environ;

/* The words of a command, separated by blanks. They point into `text`, which is changed. */
static char **words_of(char *text) {
    char **words = calloc(strlen(text) / 2 + 2, sizeof *words);
    size_t number = 0;
    char *rest = text;
    for (char *word; words && (word = strtok_r(rest, " \t", &rest));)
        words[number++] = word;
    return words;
}

/* Whether a file can be started, as far as a look at it tells: a folder may have the name, too. */
static bool is_program(const char *file) {
    struct stat status;
    return stat(file, &status) == 0 && S_ISREG(status.st_mode) && access(file, X_OK) == 0;
}

/* The file that a command's first word names: as it is where it has a slash, else the first that PATH has. Empty where PATH has none.
   Folders that are not absolute are passed over: they name another folder wherever the host is, and anybody may have written there. */
static char *program_file(const char *word) {
    if (strchr(word, '/'))
        return strdup(word);
    const char *path = getenv("PATH");
    if (!path || !*path)
        path = "/usr/local/bin:/usr/bin:/bin";
    char *file = malloc(strlen(path) + strlen(word) + 2);
    while (file && *path) {
        size_t length = strcspn(path, ":");
        memcpy(file, path, length);
        file[length] = '/';
        strcpy(file + length + 1, word);
        if (*path == '/' && is_program(file))
            return file;
        path += length + (path[length] == ':');
    }
    if (file)
        *file = 0;
    return file;
}

/* A copy of the environment, without what would load this library into the service. One block: pointers, then strings. */
static char **environment_copy(void) {
    size_t number = 0, bytes = 0;
    for (char **entry = environ; entry && *entry; entry++, number++)
        bytes += strlen(*entry) + 1;
    char **copy = malloc((number + 1) * sizeof *copy + bytes);
    if (!copy)
        return NULL;
    char *at = (char *)(copy + number + 1);
    size_t kept = 0;
    for (size_t i = 0; i < number; i++) {
        if (strncmp(environ[i], "LD_PRELOAD=", 11) == 0)
            continue;
        copy[kept++] = strcpy(at, environ[i]);
        at += strlen(at) + 1;
    }
    copy[kept] = NULL;
    return copy;
}

static iconvd_status read_exec(struct address *address) {
    address->argv = words_of(address->text);
    if (!address->argv)
        return ICONVD_ENOMEM;
    if (!address->argv[0])
        return ICONVD_BADADDRESS;
    address->program = program_file(address->argv[0]);
    address->environment = environment_copy();
    return address->program && address->environment ? ICONVD_OK : ICONVD_ENOMEM;
}

/* HOST:PORT, where a host with colons stands in brackets. */
static iconvd_status read_tcp(struct address *address) {
    char *colon = strrchr(address->text, ':');
    if (!colon || colon == address->text || !colon[1])
        return ICONVD_BADADDRESS;
    *colon = 0;
    address->port = colon + 1;
    size_t length = strlen(address->text);
    if (address->text[0] == '[' && address->text[length - 1] == ']') {
        memmove(address->text, address->text + 1, length - 2);
        address->text[length - 2] = 0;
    }
    return ICONVD_OK;
}

static iconvd_status read_unix(const struct address *address) {
    size_t length = strlen(address->text);
    return length > 0 && length < sizeof((struct sockaddr_un *)NULL)->sun_path ? ICONVD_OK : ICONVD_BADADDRESS;
}

iconvd_status address_read(struct address *address, const char *where) {
    *address = (struct address){.kind = ADDRESS_EXEC};
    const char *colon = strchr(where, ':');
    size_t length = colon ? (size_t)(colon - where) : 0;
    if (length == 4 && strncmp(where, "unix", 4) == 0)
        address->kind = ADDRESS_UNIX;
    else if (length == 3 && strncmp(where, "tcp", 3) == 0)
        address->kind = ADDRESS_TCP;
    else if (length != 4 || strncmp(where, "exec", 4) != 0)
        return ICONVD_BADADDRESS;
    address->where = strdup(where);
    address->text = strdup(colon + 1);
    iconvd_status status = !address->where || !address->text ? ICONVD_ENOMEM
                           : address->kind == ADDRESS_EXEC   ? read_exec(address)
                           : address->kind == ADDRESS_TCP    ? read_tcp(address)
                                                             : read_unix(address);
    if (status != ICONVD_OK)
        address_free(address);
    return status;
}

void address_free(struct address *address) {
    free(address->where);
    free(address->text);
    free(address->program);
    free(address->argv);
    free(address->environment);
    *address = (struct address){.kind = ADDRESS_EXEC};
}

/* What an error of connecting means. A connect() that has waited for its time limit says that it is under way. */
static const char *error_text(int error) {
    return error == EINPROGRESS || error == EAGAIN ? "it does not answer" : strerror(error);
}

void address_explain(const struct address *address, int error, char *text, size_t room) {
    const char *refused = address->kind == ADDRESS_EXEC ? spawn_refused() : NULL;
    if (refused || address->kind != ADDRESS_EXEC)
        snprintf(text, room, "%s: %s", address->where, refused ? refused : error_text(error));
    else if (!*address->program)
        snprintf(text, room, "%s: the program %s was not found in PATH", address->where, address->argv[0]);
    else
        snprintf(text, room, "%s: the program %s cannot be started: %s", address->where, address->program, strerror(error));
}
