/* What goes wrong is named: in the log the program that is not there, the address that nobody serves and the charmap that is missing; by
 * a status a policy that is none. And names are known, or none. */
#include <sys/stat.h>

#include "server.h"

/* The lines of the log, each ended by a line feed. */
static char lines[4000];
static int line_count;

static void keep_line(void *context, const char *line) {
    (void)context;
    snprintf(lines + strlen(lines), sizeof lines - strlen(lines), "%s\n", line);
    line_count++;
}

static const iconvd_options LOGGED = {.streams = 1, .timeout = 5000, .log = keep_line};

static void forget_lines(void) {
    lines[0] = 0;
    line_count = 0;
}

/* Addresses that cannot be connected to, and what the one line of the log has to say. */
struct absent {
    const char *where, *named;
};

static const struct absent ABSENT[] = {
    {"exec:no-such-iconvd pipe", "exec:no-such-iconvd pipe: the program no-such-iconvd was not found in PATH\n"},
    {"exec:/nonexistent/iconvd pipe", "the program /nonexistent/iconvd cannot be started: No such file or directory\n"},
    {"exec:/etc/passwd pipe", "the program /etc/passwd cannot be started: Permission denied\n"},
    {"exec:/etc pipe", "the program /etc cannot be started: Permission denied\n"},
    {"unix:/nonexistent/socket", "unix:/nonexistent/socket: No such file or directory\n"},
    {"tcp:127.0.0.1:1", "tcp:127.0.0.1:1: Connection refused\n"},
};

static void test_absent(const struct absent *absent) {
    iconvd_pool *pool = NULL;
    iconvd_cd *cd = NULL;
    forget_lines();
    iconvd_status status = iconvd_connect(absent->where, &LOGGED, &pool);
    if (status == ICONVD_OK)
        status = iconvd_open(pool, "UTF-8", "ASCII", ICONVD_STRICT, &cd);
    check(status == ICONVD_LOST, "%s: status %d", absent->where, status);
    check(line_count == 1 && strstr(lines, absent->named), "%s: %d lines: %s", absent->where, line_count, lines);
    iconvd_disconnect(pool);
}

/* A folder in PATH that has the name is no program, and one after it is looked into. */
static void test_path(void) {
    iconvd_pool *pool = NULL;
    char folder[] = "/tmp/iconvd-named-XXXXXX", path[100];
    char *saved = strdup(wanted("PATH"));
    if (!mkdtemp(folder))
        exit(2);
    snprintf(path, sizeof path, "%s/cat", folder);
    mkdir(path, 0700);
    snprintf(path, sizeof path, "%s:/usr/bin:/bin", folder);
    setenv("PATH", path, 1);
    forget_lines();
    check(iconvd_connect("exec:cat", &LOGGED, &pool) == ICONVD_OK && line_count == 0, "a folder of the name in PATH: %s", lines);
    iconvd_disconnect(pool);
    setenv("PATH", saved, 1);
    free(saved);
    snprintf(path, sizeof path, "%s/cat", folder);
    rmdir(path);
    rmdir(folder);
}

static int connections(void) {
    return __atomic_load_n(&plan.connections, __ATOMIC_SEQ_CST);
}

/* A pool of the tests' own server, which is wrong at the first request of so many connections, once that has taken the first one. */
static iconvd_pool *connect_server(const iconvd_options *options, int wrong) {
    iconvd_pool *pool = NULL;
    set_plan(CLOSE_AT_ONCE, 0, wrong);
    forget_lines();
    check(iconvd_connect(where, options, &pool) == ICONVD_OK, "the tests' own server");
    while (connections() < 1)
        usleep(1000);
    return pool;
}

/* Names whose charmap is not there, with what the log has to say; no line for a name that nobody has. */
struct missing {
    const char *folder, *from, *named;
};

static const struct missing MISSING[] = {
    {"/nonexistent/charmaps", "KOI8-R", "charmap KOI8-R: no charmap folder /nonexistent/charmaps was found; Debian's package locales has"},
    {"/", "cp1251", "charmap CP1251: no file //CP1251.gz can be read; Debian's package locales has"},
    {"/nonexistent/charmaps", "NOPE", ""},
};

static void test_missing(const struct missing *missing) {
    iconvd_options options = LOGGED;
    options.charmaps = missing->folder;
    iconvd_pool *pool = connect_server(&options, 0);
    iconvd_cd *cd = NULL;
    for (int side = 0; side < 2; side++) {
        iconvd_status status = iconvd_open(pool, side ? "UTF-8" : missing->from, side ? missing->from : "UTF-8", ICONVD_STRICT, &cd);
        check(status == ICONVD_UNSUPPORTED, "%s: status %d", missing->from, status);
        check(!iconvd_supports(pool, missing->from), "%s is supported", missing->from);
    }
    check(line_count == (*missing->named ? 2 : 0) && strstr(lines, missing->named) == lines, "%s: %s", missing->from, lines);
    iconvd_disconnect(pool);
}

/* Names, and whether they are known where the system's charmaps are. */
struct name {
    const char *name;
    int is_known;
};

static const struct name NAMES[] = {
    {"UTF-8", 1},        {"utf8", 1},          {"u8", 1},          {"cp65001", 1},       {"utf_16_be", 1},       {"UTF-8//IGNORE", 1},
    {"", 1},             {"1252", 1},          {"x-cp1252", 1},    {"mac_roman", 1},     {"x-mac-roman", 1},     {"ks_c_5601-1987", 1},
    {"KS_C_5601_1987", 1}, {"koi8_r", 1},      {"iso-ir-9-1", 1},  {"csISOLatin9", 1},   {"unicodefffe", 1},     {"L9", 1},
    {"iso2022_jp", 1},   {"HZ", 1},            {"hz-gb-2312", 1},  {"csJISEncoding", 1},  {"iso_2022_kr", 1},    {"windows-50221", 1},
    {"iso-ir-91", 0},    {"NOPE", 0},          {"-", 0},           {"8", 0},             {"utf", 1},             {"UTF-8-SIG", 0},
    {"x-user-defined", 1}, {"replacement", 1}, {"rot13", 0},       {"cp720", 1},         {"../../etc/passwd", 0}, {"UCS-2BE", 0},
};

static void test_name(iconvd_pool *pool, const struct name *name) {
    iconvd_cd *cd = NULL;
    check(iconvd_supports(pool, name->name) == name->is_known, "%s is supported: %d", name->name, !name->is_known);
    iconvd_status status = iconvd_open(pool, "UTF-8", name->name, ICONVD_STRICT, &cd);
    check(status == (name->is_known ? ICONVD_OK : ICONVD_UNSUPPORTED), "%s: status %d", name->name, status);
    iconvd_close(status == ICONVD_OK ? cd : NULL);
}

/* Each name that is listed, in lower case and with each `-` as `_`. */
static void test_spelling(iconvd_pool *pool, const char *name) {
    char spelling[130];
    size_t length = 0;
    for (; *name && length < sizeof spelling - 1; name++)
        spelling[length++] = (char)(*name == '-' ? '_' : *name >= 'A' && *name <= 'Z' ? *name + 'a' - 'A' : *name);
    spelling[length] = 0;
    check(iconvd_supports(pool, spelling) == 1, "%s is not supported", spelling);
}

/* A charmap of the program's own. Nothing is sent or logged for a name. */
static void test_names(void) {
    static const char TEXT[] = "<code_set_name> OWN\nCHARMAP\n<A> \\x41\n<question-mark> \\x3f\nEND CHARMAP\n";
    char long_name[300];
    iconvd_badmap bad;
    iconvd_counters before, after;
    iconvd_pool *pool = NULL;
    forget_lines();
    check(iconvd_connect(wanted("ICONVD"), &LOGGED, &pool) == ICONVD_OK, "the service");
    iconvd_count(pool, &before);
    memset(long_name, 'x', sizeof long_name - 1);
    long_name[sizeof long_name - 1] = 0;
    check(!iconvd_supports(pool, long_name) && !iconvd_supports(pool, "OWN"), "a long name, and one that is not there yet");
    for (size_t number = 0; iconvd_name(number); number++)
        test_spelling(pool, iconvd_name(number));
    iconvd_count(pool, &after);
    check(before.round_trips == after.round_trips && before.uploads == after.uploads && line_count == 0, "something was sent: %s", lines);
    check(iconvd_put_charmap(pool, "OWN", TEXT, sizeof TEXT - 1, &bad) == ICONVD_OK && iconvd_supports(pool, "own"), "a charmap of its own");
    for (size_t i = 0; i < sizeof NAMES / sizeof *NAMES; i++)
        test_name(pool, &NAMES[i]);
    iconvd_disconnect(pool);
}

struct policy {
    const char *to;
    int policy;
    iconvd_status status;
};

static const struct policy POLICIES[] = {
    {"UTF-8", 8, ICONVD_BADPOLICY},
    {"UTF-8", -1, ICONVD_BADPOLICY},
    {"UTF-8", ICONVD_IGNORE | 16, ICONVD_BADPOLICY},
    {"UTF-8", ICONVD_SUBSTITUTE | ICONVD_IGNORE, ICONVD_BADPOLICY},
    {"UTF-8", ICONVD_SUBSTITUTE | ICONVD_TRANSLIT, ICONVD_BADPOLICY},
    {"UTF-8//IGNORE", ICONVD_SUBSTITUTE, ICONVD_BADPOLICY},
    {"UTF-8//TRANSLIT", ICONVD_SUBSTITUTE, ICONVD_BADPOLICY},
    {"UTF-8", ICONVD_SUBSTITUTE, ICONVD_OK},
    {"UTF-8", ICONVD_IGNORE | ICONVD_TRANSLIT, ICONVD_OK},
    {"UTF-8//IGNORE", ICONVD_TRANSLIT, ICONVD_OK},
    {"UTF-8//IGNORE//TRANSLIT", ICONVD_STRICT, ICONVD_OK},
};

/* A policy that is none is refused before anything is sent: by a server that ends each connection at its first request. */
static void test_policy(const struct policy *policy) {
    iconvd_pool *pool = connect_server(&LOGGED, policy->status == ICONVD_OK ? 0 : ALL);
    iconvd_cd *cd = NULL;
    iconvd_status status = iconvd_open(pool, policy->to, "ASCII", policy->policy, &cd);
    check(status == policy->status, "%s with policy %d: status %d", policy->to, policy->policy, status);
    check(connections() == 1 && line_count == 0, "%s with policy %d: %d connections: %s", policy->to, policy->policy, connections(), lines);
    if (status == ICONVD_OK)
        iconvd_close(cd);
    iconvd_disconnect(pool);
}

/* A stream that ends before its first reply is told. */
static void test_lost(void) {
    iconvd_pool *pool = connect_server(&LOGGED, 1);
    iconvd_cd *cd = NULL;
    check(iconvd_open(pool, "UTF-8", "ASCII", ICONVD_STRICT, &cd) == ICONVD_OK, "by another connection");
    check(strstr(lines, ": the server closes new connections (full or draining); trying again\n") != NULL && line_count == 1, "%s", lines);
    iconvd_close(cd);
    iconvd_disconnect(pool);
}

int main(void) {
    start_server("named");
    for (size_t i = 0; i < sizeof ABSENT / sizeof *ABSENT; i++)
        test_absent(&ABSENT[i]);
    test_path();
    for (size_t i = 0; i < sizeof MISSING / sizeof *MISSING; i++)
        test_missing(&MISSING[i]);
    test_names();
    for (size_t i = 0; i < sizeof POLICIES / sizeof *POLICIES; i++)
        test_policy(&POLICIES[i]);
    test_lost();
    check(strstr(iconvd_status_text(ICONVD_BADPOLICY), "policy") != NULL, "%s", iconvd_status_text(ICONVD_BADPOLICY));
    unlink(socket_file);
    return checks_end("named");
}
