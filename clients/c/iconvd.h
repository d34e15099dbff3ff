/* iconvd.h: converts text by the service iconvd.
 *
 * Three layers, each usable without those above it:
 *
 *   1. frames: builds requests and reads replies in memory, without any I/O, for programs that have an event loop of their own;
 *   2. the pool: the connections of a process to one service, shared by its threads;
 *   3. conversions, which behave as iconv_open(), iconv() and iconv_close() do.
 *
 * Units. Every length and every count of input and output is in bytes, unless it says characters. Times are in milliseconds.
 *
 * Errors. A function that can fail returns an iconvd_status. Nothing is reported in errno, and nothing is printed.
 *
 * Ownership. The library copies strings and options that it keeps. It never keeps a pointer to input or output. The caller owns
 * what is returned by an iconvd_pool ** or iconvd_cd **, and frees it with iconvd_disconnect() or iconvd_close().
 *
 * Threads. Any number of threads may use one pool. One iconvd_cd is used by one thread at a time; it may move between threads.
 *
 * Cancellation. No function is a cancellation point.
 *
 * Signals. Writing to a service that has gone raises no SIGPIPE. A service that is started by "exec:" raises no SIGCHLD.
 */
#ifndef ICONVD_H
#define ICONVD_H

#include <stddef.h>
#include <stdint.h>

#ifdef __cplusplus
extern "C" {
#endif

#define ICONVD_API __attribute__((visibility("default")))

/* 0 to 15 are the numbers of the protocol. The library adds those from 64 on. */
typedef enum iconvd_status {
    ICONVD_OK = 0,
    ICONVD_E2BIG = 1,        /* the next character does not fit in the output's room */
    ICONVD_EILSEQ = 2,       /* the next bytes of the input are ill-formed */
    ICONVD_EINVAL = 3,       /* the input ends inside a character */
    ICONVD_EBADF = 4,        /* no such descriptor */
    ICONVD_EMFILE = 5,       /* the caller has 16 descriptors */
    ICONVD_ENOMEM = 6,       /* an allocation failed, here or in the service */
    ICONVD_UNSUPPORTED = 7,  /* no encoding has this name, or its charmap cannot be read */
    ICONVD_BADREQ = 8,       /* the service does not know the request */
    ICONVD_BADMAP = 9,       /* the text is not a charmap */
    ICONVD_EXISTS = 10,      /* an encoding has this name already */
    ICONVD_NONAME = 11,      /* no charmap has this name */
    ICONVD_BUSY = 12,        /* a descriptor uses the charmap */
    ICONVD_QUOTA = 13,       /* too many charmaps, mappings or bytes */
    ICONVD_ROOM = 14,        /* more than ICONVD_MAX_ROOM bytes of room */
    ICONVD_ENOCHAR = 15,     /* the target lacks the next character */
    ICONVD_LOST = 64,        /* the service cannot be reached, went away, did not answer in time, or sent a malformed reply */
    ICONVD_BADADDRESS = 65,  /* the address is not exec:, unix: or tcp: */
    ICONVD_BADPOLICY = 66    /* the policy has bits other than those below, or SUBSTITUTE with others */
} iconvd_status;

/* A short static text in English, such as "the target lacks the next character". There is one for any number. */
ICONVD_API const char *iconvd_status_text(iconvd_status status);

/* ---- 1. Frames ---------------------------------------------------------------------------------------------------------- */

enum {
    ICONVD_PUT = 1,
    ICONVD_DROP = 2,
    ICONVD_OPEN = 3,
    ICONVD_CONV = 4,
    ICONVD_RESET = 5,
    ICONVD_CLOSE = 6,
    ICONVD_BYE = 7,
    ICONVD_PART = 8
};

#define ICONVD_FRAME_HEAD 13u       /* length, caller, tag and op or status, before the body */
#define ICONVD_CONV_HEAD 21u        /* the same, and a CONV's descriptor and room, before the input */
#define ICONVD_OPEN_FRAME 526u      /* the longest OPEN: two names of 255 bytes, their lengths and the policy */
#define ICONVD_MAX_BODY 1048567u    /* of a request and of a reply */
#define ICONVD_MAX_INPUT 1048559u   /* of one CONV */
#define ICONVD_MAX_ROOM 1000000u    /* of one CONV or RESET */

/* The caller of a request, and the tag that its reply has. */
typedef struct iconvd_asker {
    uint32_t caller;
    uint32_t tag;
} iconvd_asker;

/* Each writes the first bytes of a request, and returns how many; 0 if the request fits no frame. Send the `body` or `input` bytes
   after them. `out` has the size of the macro above. */
ICONVD_API size_t iconvd_frame_head(unsigned char out[ICONVD_FRAME_HEAD], iconvd_asker asker, uint8_t op, size_t body);
ICONVD_API size_t iconvd_frame_conv(unsigned char out[ICONVD_CONV_HEAD], iconvd_asker asker, uint32_t descriptor, uint32_t room,
                                    size_t input);
ICONVD_API size_t iconvd_frame_reset(unsigned char out[ICONVD_CONV_HEAD], iconvd_asker asker, uint32_t descriptor,
                                     uint32_t room);
ICONVD_API size_t iconvd_frame_close(unsigned char out[ICONVD_CONV_HEAD], iconvd_asker asker, uint32_t descriptor);

/* A whole OPEN. If `strict` is not 0, the descriptor stops before a character that the target lacks, instead of writing `?`. */
ICONVD_API size_t iconvd_frame_open(unsigned char out[ICONVD_OPEN_FRAME], iconvd_asker asker, const char *to, const char *from,
                                    int strict);

/* A reply. `body` points into the bytes that were read. */
typedef struct iconvd_reply {
    uint32_t caller;
    uint32_t tag;
    uint8_t status;
    const unsigned char *body;
    size_t body_length;
} iconvd_reply;

typedef enum iconvd_framing {
    ICONVD_FRAME_WHOLE, /* a reply, and how many bytes it took */
    ICONVD_FRAME_MORE,  /* the bytes are the beginning of a reply: read more and ask again */
    ICONVD_FRAME_BAD    /* the bytes are not a reply: close the connection */
} iconvd_framing;

/* Reads the reply at the start of `bytes`. `reply` and `used` are set if it is whole. */
ICONVD_API iconvd_framing iconvd_frame_read(const unsigned char *bytes, size_t length, iconvd_reply *reply, size_t *used);

/* The body of a reply to CONV: how many bytes at the end of the input are left, for how many characters `?` was written, and the
   output. Returns 0 if the reply has no such body: it is a refusal, or malformed. */
typedef struct iconvd_converted {
    uint32_t left;
    uint32_t replaced;
    const unsigned char *output;
    size_t output_length;
} iconvd_converted;

ICONVD_API int iconvd_reply_converted(const iconvd_reply *reply, iconvd_converted *converted);

/* The number in a reply to OPEN (the descriptor), PUT (mappings) and PART (bytes held). Returns 0 if there is none. */
ICONVD_API int iconvd_reply_number(const iconvd_reply *reply, uint32_t *number);

/* A connected descriptor for an event loop. It is blocking and close-on-exec, and the caller closes it. `where` is as for
   iconvd_connect(). For "exec:" it is one end of a socket pair, and the program ends when it is closed. */
ICONVD_API iconvd_status iconvd_dial(const char *where, int timeout, int *descriptor);

/* ---- 2. The pool --------------------------------------------------------------------------------------------------------- */

typedef struct iconvd_pool iconvd_pool;

typedef struct iconvd_options {
    unsigned streams;     /* the most connections, 1 to 16; 0 is the number of processors that the process may use, but at least 4. A
                             connection is made when all others are in use */
    int timeout;          /* how long a call waits for the service, also for one that went away; 0 is 10,000, below 0 is no limit */
    const char *charmaps; /* the folder of charmap files, NAME.gz; NULL is /usr/share/i18n/charmaps */
    void (*log)(void *context, const char *line); /* called for lost connections, a service that cannot be reached, and charmaps that
                                                     are missing or refused; NULL: no log. Any thread may call it, and it must not
                                                     call the library */
    void *context;
} iconvd_options;

/* Connects to a service. `where` is one of
 *
 *   exec:PROGRAM ARGUMENT ..    starts a program that serves its standard input: "exec:iconvd pipe". Words are separated by
 *                               blanks. The program is searched in the absolute folders of PATH. It gets this process's
 *                               environment without LD_PRELOAD, and none of its descriptors. No program is started, and the
 *                               connection is LOST, in a process that runs with other rights than its caller's (set-user-ID,
 *                               set-group-ID, file capabilities), and in process 1 and subreapers, which would become the
 *                               program's parent
 *   unix:PATH                   a Unix socket
 *   tcp:HOST:PORT               TCP; a numeric IPv6 host is in brackets
 *
 * NULL options are the defaults. If it fails, with LOST, BADADDRESS or ENOMEM, nothing is left to free. If a program or server
 * does not exist, it is LOST at once, and the log names the program.
 *
 * If a server goes away later (unix:, tcp:), the requests that are lost with a connection are sent again, on another live
 * connection of the pool or on a new one. If there is no live one, and the server accepts none or ends each before its first
 * reply, as a full or stopping server does, the call waits. It tries again after 50 milliseconds, then after twice as long each
 * time, up to a second or half of `timeout`. If the host has several addresses and one ends the connection, the next address is
 * tried at once. One thread of the pool tries at a time: the others use live connections, or wait for it. When `timeout` is up
 * the call is LOST, and the log says "no connection to the service: WHERE: " and why:
 *
 *   an error of the system                                       nobody listens there
 *   the server closes new connections (full or draining)         it ended each of them
 *   no reply within S s (all places may be taken)                it took a connection and did not answer. For as long again calls are
 *                                                                LOST at once
 *
 * The call does not wait for a server to which no connection was ever made, nor for a program of exec:, of which up to
 * three are started. */
ICONVD_API iconvd_status iconvd_connect(const char *where, const iconvd_options *options, iconvd_pool **pool);

/* Reads the environment, for a program that lets its user choose the service. Returns ICONVD, and sets `timeout`, `streams` and
 * `charmaps` by ICONVD_TIMEOUT, ICONVD_STREAMS and ICONVD_CHARMAPS (iconvd-preload(7)). Options without a variable stay as they
 * are; the log reports invalid values. Without ICONVD it returns "exec:iconvd pipe", or "unix:/run/iconvd.sock" if no program is
 * started (above). A program that runs with other rights than its caller's ignores the variables. The strings are the
 * environment's. */
ICONVD_API const char *iconvd_environment(iconvd_options *options);

/* Closes all connections. Close every iconvd_cd of the pool before. NULL does nothing. */
ICONVD_API void iconvd_disconnect(iconvd_pool *pool);

/* After fork() the child makes connections of its own. If other threads may be inside a call at the time, call the first before
   fork() and one of the others after it, for instance by pthread_atfork(). A process of one thread needs none of them. */
ICONVD_API void iconvd_before_fork(iconvd_pool *pool);
ICONVD_API void iconvd_after_fork_in_parent(iconvd_pool *pool);
ICONVD_API void iconvd_after_fork_in_child(iconvd_pool *pool);

/* Adds a charmap of the caller's own, which lasts as long as the pool. `name` is the one in its <code_set_name>. The text is read
   as the service reads it (iconvd-protocol(5)). BADMAP: it is not a charmap, and `bad` has the line and the cause. EXISTS: the name
   is taken. NONAME: the text has another name. */
typedef struct iconvd_badmap {
    uint32_t line;
    unsigned cause;
} iconvd_badmap;

ICONVD_API iconvd_status iconvd_put_charmap(iconvd_pool *pool, const char *name, const void *text, size_t length,
                                            iconvd_badmap *bad);

/* What the pool has done so far. While other threads convert, the numbers may miss a call. */
typedef struct iconvd_counters {
    uint64_t conversions; /* calls of iconvd_convert() */
    uint64_t round_trips; /* pieces of text that were sent */
    uint64_t connections;
    uint64_t uploads; /* of charmaps */
} iconvd_counters;

ICONVD_API void iconvd_count(const iconvd_pool *pool, iconvd_counters *counters);

/* ---- 3. Conversions ------------------------------------------------------------------------------------------------------- */

typedef struct iconvd_cd iconvd_cd;

/* What to do with a character that the target lacks. IGNORE and TRANSLIT may be combined: TRANSLIT is tried first. Without any of
   these flags the conversion stops before the character, ENOCHAR. */
enum {
    ICONVD_STRICT = 0,
    ICONVD_IGNORE = 1,    /* leave it out, and also ill-formed bytes */
    ICONVD_TRANSLIT = 2,  /* write the first of its transliterations that the target has, else `?` */
    ICONVD_SUBSTITUTE = 4 /* the service writes `?`; not together with the others */
};

/* Opens a conversion. Names are those of iconv_open(), and those of WHATWG's Encoding standard, CPython and IANA: case does not matter,
   the empty name is the locale's encoding, and //TRANSLIT and //IGNORE after `to` are added to the policy. UNSUPPORTED: a name is
   unknown, or its charmap cannot be read, which is logged; or the source is UTF-7, and the policy IGNORE or TRANSLIT, or the target has
   shifts or composes; or the source has shifts, and the target composes. BADPOLICY: the policy has other bits, or SUBSTITUTE with others;
   nothing was sent. Also LOST, ENOMEM and QUOTA. */
ICONVD_API iconvd_status iconvd_open(iconvd_pool *pool, const char *to, const char *from, int policy, iconvd_cd **cd);

/* Why a conversion stopped, and what it has changed. */
typedef struct iconvd_stop {
    iconvd_status status;
    uint32_t character; /* ENOCHAR: the character that the target lacks */
    size_t length;      /* ENOCHAR, EILSEQ: how many bytes of the input to skip in order to go on. From WHATWG's `replacement`, of
                           which nothing is read, it is all of them, once for a text */
    size_t replaced;    /* characters for which others were written */
    size_t skipped;     /* what IGNORE left out: characters and ill-formed sequences, each counted once */
} iconvd_stop;

/* Converts from `*in`, `*in_left` bytes, to `*out`, `*out_left` bytes of room, and moves all four on, as iconv() does. Returns OK
   if all of the input is used; or E2BIG, EILSEQ, EINVAL or ENOCHAR as the service's CONV; or LOST or ENOMEM: what was converted
   before stays converted, and the same call may be made again. `stop` may be NULL. */
ICONVD_API iconvd_status iconvd_convert(iconvd_cd *cd, const char **in, size_t *in_left, char **out, size_t *out_left,
                                        iconvd_stop *stop);

/* Goes back to the start, as iconv() without input. It first writes the bytes that close the text to `out`: E2BIG if they do not fit,
   and nothing has changed; ENOCHAR if the target lacks a letter that was held. With `out` NULL it writes nothing. UTF-7, encodings with
   shifts and those that hold a letter back, since a mark may follow, have such bytes, four at most. */
ICONVD_API iconvd_status iconvd_reset(iconvd_cd *cd, char **out, size_t *out_left);

/* Frees the conversion. NULL does nothing. */
ICONVD_API void iconvd_close(iconvd_cd *cd);

/* Whether iconvd_open() knows a name: 1, or 0 if it would be UNSUPPORTED, since no encoding has the name, its charmap's file cannot be
   read, or the service has refused the charmap. Nothing is sent, read or logged, and the pool's own charmaps count. A charmap that the
   service has not seen yet may still be refused, or be more than fits. */
ICONVD_API int iconvd_supports(iconvd_pool *pool, const char *name);

/* The names that iconvd_open() knows, one for each number from 0 on, sorted; NULL after the last. A name that has the letters and digits
   of one of them, and where two digits are apart, is known too: koi8_r is KOI8-R. */
ICONVD_API const char *iconvd_name(size_t number);

#ifdef __cplusplus
}
#endif

#endif
