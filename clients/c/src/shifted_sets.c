/* The sets of encodings with shifts: which encoding of the service has them, and which characters each has. */
#include "shifted.h"

enum { LAST_CHARACTER = 0x30000 };

/* Sets the bits of the characters that are written by codes of a set. The first mapping of a character in a charmap is the one that is
   written. */
static bool find_bits(const struct shifted_set *set, struct set_map *map) {
    const struct buffer *text = &map->by->map.text;
    struct charmap_lines lines = charmap_lines(text->bytes, text->length);
    struct mapping mapping;
    unsigned char *seen = calloc(LAST_CHARACTER / 8, 1), bytes[8], code[2];
    while (seen && charmap_next(&lines, &mapping)) {
        if (mapping.is_named || mapping.points.decimal)
            continue;
        for (uint64_t i = 0; i < mapping.count && mapping.points.first + i < LAST_CHARACTER; i++) {
            uint64_t character = mapping.points.first + i, number = mapping.code + i;
            unsigned char bit = (unsigned char)(1u << character % 8);
            for (unsigned at = mapping.bytes; at > 0; at--, number >>= 8)
                bytes[at - 1] = (unsigned char)number;
            if (!(seen[character / 8] & bit) && set_from_service(set, bytes, mapping.bytes, code))
                map->bits[character / 8] |= bit;
            seen[character / 8] |= bit;
        }
    }
    free(seen);
    return seen != NULL;
}

void set_map_free(struct set_map *map) {
    if (!map)
        return;
    free(map->bits);
    free(map);
}

static iconvd_status make_map(struct iconvd_pool *pool, const struct shifted_set *set, struct set_map **made) {
    struct set_map *map = calloc(1, sizeof *map);
    iconvd_status status = map ? pool_find(pool, set->by, &map->by) : ICONVD_ENOMEM;
    if (status == ICONVD_OK && map->by->kind == BUILTIN_COUNT) {
        map->codes = encoding_codes(map->by);
        map->bits = calloc(LAST_CHARACTER / 8, 1);
        if (!map->codes || !map->bits || !find_bits(set, map))
            status = ICONVD_ENOMEM;
    }
    if (status == ICONVD_OK)
        *made = map;
    else
        set_map_free(map);
    return status;
}

/* What is known of a set, which is found out the first time. */
static iconvd_status find_map(struct iconvd_pool *pool, size_t number, const struct set_map **found) {
    struct set_map *_Atomic *place = &pool->encodings.set_maps[number];
    struct set_map *map = atomic_load_explicit(place, memory_order_acquire), *none = NULL;
    if (!map) {
        iconvd_status status = make_map(pool, shifted_set(number), &map);
        if (status != ICONVD_OK)
            return status;
        /* Another thread may have been faster. */
        if (!atomic_compare_exchange_strong(place, &none, map)) {
            set_map_free(map);
            map = none;
        }
    }
    *found = map;
    return atomic_load(&map->by->refused) ? ICONVD_UNSUPPORTED : ICONVD_OK;
}

/* Gives a set its group. */
static iconvd_status add_set(struct iconvd_pool *pool, struct shifter *shifter, unsigned char set, bool writes) {
    if (shifter->maps[set])
        return ICONVD_OK;
    iconvd_status status = find_map(pool, set, &shifter->maps[set]);
    shifter->group_of[set] = DIRECT;
    if (status != ICONVD_OK || shifter->maps[set]->by->kind != BUILTIN_COUNT)
        return status;
    struct encoding *by = shifter->maps[set]->by, *middle = encoding_builtin(UTF_16BE);
    size_t group = 0;
    while (group < shifter->group_count && shifter->groups[group] != by)
        group++;
    shifter->group_of[set] = (unsigned char)group;
    if (group < shifter->group_count)
        return ICONVD_OK;
    if (group == GROUPS)
        return ICONVD_UNSUPPORTED;
    shifter->groups[shifter->group_count++] = by;
    struct pair pair = {.to = writes ? by : middle, .from = writes ? middle : by, .strict = true};
    return pool_open(pool, &pair);
}

iconvd_status shifter_open(struct iconvd_pool *pool, struct shifter *shifter, const struct encoding *encoding, bool writes) {
    *shifter = (struct shifter){.encoding = shifted_encoding(encoding->number)};
    shifter->sequences = shifted_sequences(shifter->encoding);
    shift_sequences(shifter);
    iconvd_status status = add_set(pool, shifter, shifter->encoding->start, writes);
    for (size_t i = 0; status == ICONVD_OK && i < shifter->encoding->count; i++) {
        const struct shifted_sequence *sequence = &shifter->sequences[i];
        bool has_set = sequence->meaning <= G2;
        if (has_set)
            status = add_set(pool, shifter, sequence->set, writes);
    }
    return status;
}

iconvd_status group_convert(struct iconvd_pool *pool, const struct pair *pair, const struct buffer *in, size_t room, struct buffer *out) {
    room = room < ICONVD_MAX_ROOM ? room : ICONVD_MAX_ROOM;
    if (in->length == 0)
        return ICONVD_OK;
    if (!buffer_reserve(out, room))
        return ICONVD_ENOMEM;
    struct work work = {.in = in->bytes, .in_length = in->length, .out = out->bytes, .room = room};
    iconvd_status status = pool_convert(pool, pair, &work);
    out->length = work.produced;
    if (status == ICONVD_ENOMEM)
        return status;
    return status == ICONVD_OK && work.used == in->length ? ICONVD_OK : ICONVD_LOST;
}

bool set_has(const struct shifter *shifter, unsigned char set, uint32_t character) {
    const struct set_map *map = shifter->maps[set];
    if (map->by->kind != BUILTIN_COUNT)
        return set == 0 ? character < 0x80 : character >= 0x80 && character < 0x100;
    return character < LAST_CHARACTER && (map->bits[character / 8] >> character % 8 & 1) != 0;
}
