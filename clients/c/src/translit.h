/* Transliterations of the locale C, read at build time. */
#ifndef ICONVD_TRANSLIT_H
#define ICONVD_TRANSLIT_H

#include <stddef.h>
#include <stdint.h>

/* How many characters have transliterations. */
size_t translit_count(void);

/* The number of a character among them; translit_count() for one that has none. */
size_t translit_number(uint32_t character);

/* The candidates of a number: texts in UTF-8, each ended by the byte ff, the last also by a zero byte. "" for translit_count(). */
const char *translit_candidates(size_t number);

#endif
