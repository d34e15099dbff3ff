/* A program that links with the library. */
#include <iconvd.h>
#include <stdio.h>

int main(void) {
    iconvd_pool *pool = NULL;
    iconvd_cd *cd = NULL;
    const char *in = "\xc1\xc2";
    char text[9], *out = text;
    size_t in_left = 2, room = sizeof text;
    iconvd_status status = iconvd_connect("exec:iconvd pipe", NULL, &pool);
    if (status == ICONVD_OK)
        status = iconvd_open(pool, "UTF-8", "KOI8-R", ICONVD_STRICT, &cd);
    if (status == ICONVD_OK)
        status = iconvd_convert(cd, &in, &in_left, &out, &room, NULL);
    printf("%.*s: %s\n", (int)(out - text), text, iconvd_status_text(status));
    iconvd_close(cd);
    iconvd_disconnect(pool);
    return status != ICONVD_OK;
}
