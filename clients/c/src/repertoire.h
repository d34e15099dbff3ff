/* Which characters an encoding has. */
#ifndef ICONVD_REPERTOIRE_H
#define ICONVD_REPERTOIRE_H

#include "pool.h"

/* To be called before repertoire_has() is asked of an encoding. ENOMEM, LOST. */
iconvd_status repertoire_prepare(struct iconvd_pool *pool, struct encoding *encoding);

bool repertoire_has(const struct encoding *encoding, uint32_t character);

#endif
