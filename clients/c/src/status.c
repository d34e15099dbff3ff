/* The texts of the statuses. */
#include "../iconvd.h"

const char *iconvd_status_text(iconvd_status status) {
    switch (status) {
    case ICONVD_OK: return "no error";
    case ICONVD_E2BIG: return "the output's room is full";
    case ICONVD_EILSEQ: return "the next bytes are no character";
    case ICONVD_EINVAL: return "the input ends inside a character";
    case ICONVD_EBADF: return "no such descriptor";
    case ICONVD_EMFILE: return "too many descriptors";
    case ICONVD_ENOMEM: return "out of memory";
    case ICONVD_UNSUPPORTED: return "no encoding has this name";
    case ICONVD_BADREQ: return "the service does not know the request";
    case ICONVD_BADMAP: return "the text is no charmap";
    case ICONVD_EXISTS: return "an encoding has this name already";
    case ICONVD_NONAME: return "no charmap has this name";
    case ICONVD_BUSY: return "a descriptor uses the charmap";
    case ICONVD_QUOTA: return "too many charmaps, mappings or bytes";
    case ICONVD_ROOM: return "too much room";
    case ICONVD_ENOCHAR: return "the target lacks the next character";
    case ICONVD_LOST: return "the service cannot be reached or did not answer";
    case ICONVD_BADADDRESS: return "the address is none of exec:, unix: and tcp:";
    case ICONVD_BADPOLICY: return "no such policy";
    }
    return "no status";
}
