/* Finds encodings by name; reads charmap files when they are first asked for. */
#include "encodings.h"

#include <stdio.h>

static struct encoding BUILTINS[BUILTIN_COUNT] = {
    {.kind = US_ASCII, .name = "US-ASCII"}, {.kind = ISO_8859_1, .name = "ISO-8859-1"}, {.kind = UTF_8, .name = "UTF-8"},
    {.kind = UTF_16, .name = "UTF-16"},     {.kind = UTF_16BE, .name = "UTF-16BE"},     {.kind = UTF_16LE, .name = "UTF-16LE"},
    {.kind = UTF_32, .name = "UTF-32"},     {.kind = UTF_32BE, .name = "UTF-32BE"},     {.kind = UTF_32LE, .name = "UTF-32LE"},
    {.kind = UTF_7, .name = "UTF-7"},       {.kind = REPLACEMENT, .name = "REPLACEMENT"},
};

struct encoding *encoding_builtin(enum builtin builtin) {
    return &BUILTINS[builtin];
}

void encodings_renew(struct encodings *encodings) {
    pthread_mutex_init(&encodings->mutex, NULL);
    pthread_mutex_init(&encodings->reading, NULL);
}

bool encodings_begin(struct encodings *encodings, const char *directory) {
    *encodings = (struct encodings){.directory = strdup(directory), .files = calloc(charmap_count(), sizeof(struct encoding *))};
    encodings_renew(encodings);
    return encodings->directory && encodings->files;
}

void encoding_free(struct encoding *encoding) {
    if (!encoding)
        return;
    encoding_free(encoding->light);
    encoding_free(encoding->written);
    buffer_free(&encoding->map.text);
    free(atomic_load(&encoding->characters));
    free(atomic_load(&encoding->repertoire));
    codes_free(atomic_load(&encoding->codes));
    free(encoding);
}

void encodings_end(struct encodings *encodings) {
    for (size_t i = 0; encodings->files && i < charmap_count(); i++)
        encoding_free(encodings->files[i]);
    for (struct encoding *next; encodings->added; encodings->added = next) {
        next = encodings->added->next;
        encoding_free(encodings->added);
    }
    for (size_t i = 0; i < SETS; i++)
        set_map_free(atomic_load(&encodings->set_maps[i]));
    free(encodings->files);
    free(encodings->directory);
    pthread_mutex_destroy(&encodings->mutex);
    pthread_mutex_destroy(&encodings->reading);
}

/* A charmap that the host has added. */
static struct encoding *find_added(const struct encodings *encodings, const char *name) {
    struct encoding *at = encodings->added;
    while (at && strcmp(at->known_as, name) != 0)
        at = at->next;
    return at;
}

/* The encoding of a charmap file, if it has been read. */
static struct encoding *find_read(struct encodings *encodings, size_t number) {
    pthread_mutex_lock(&encodings->mutex);
    struct encoding *found = encodings->files[number];
    pthread_mutex_unlock(&encodings->mutex);
    return found;
}

/* Makes an encoding of another charmap of an encoding's file, if that has a text, which it takes. False: out of memory. */
static bool add_other(struct encoding **other, const struct encoding *encoding, struct charmap *map, const char *what) {
    if (!map->text.bytes)
        return true;
    *other = calloc(1, sizeof **other);
    if (!*other)
        return false;
    (*other)->kind = BUILTIN_COUNT;
    (*other)->map = *map;
    (*other)->repairs = encoding->repairs;
    map->text = (struct buffer){.bytes = NULL};
    snprintf((*other)->name, sizeof (*other)->name, "%.60s-%s", encoding->name, what);
    return true;
}

/* Takes the charmaps of a file. False: out of memory. */
static bool take_charmaps(struct encoding *encoding, struct charmap_set *set) {
    encoding->map = set->whole;
    set->whole.text = (struct buffer){.bytes = NULL};
    if (!add_other(&encoding->light, encoding, &set->light, "light") ||
        !add_other(&encoding->written, encoding, &set->written, "written"))
        return false;
    if (encoding->written)
        encoding->written->has_placeholders = true;
    return true;
}

struct encoding *encoding_written(struct encoding *encoding) {
    return encoding->written ? encoding->written : encoding;
}

struct encoding *encoding_first(struct encoding *encoding) {
    return encoding->light && !atomic_load(&encoding->needed) ? encoding->light : encoding;
}

/* Reads a charmap file. `reading` is held, and not the mutex: fork() waits for that. */
static iconvd_status read_file(struct encodings *encodings, size_t number, struct encoding **found) {
    struct encoding *encoding = calloc(1, sizeof *encoding);
    struct charmap_set set;
    if (!encoding)
        return ICONVD_ENOMEM;
    encoding->kind = BUILTIN_COUNT;
    encoding->repairs = repairs_of(charmap_name(number));
    encoding->is_computed = repairs_are_computed(&encoding->repairs);
    encoding->composing = composing_of(charmap_name(number));
    snprintf(encoding->name, sizeof encoding->name, "map-%s", charmap_name(number));
    iconvd_status status = charmap_read(&set, encodings->directory, charmap_file(number), charmap_name(number), encoding->name);
    if (status == ICONVD_OK && !take_charmaps(encoding, &set))
        status = ICONVD_ENOMEM;
    if (status != ICONVD_OK) {
        charmap_set_free(&set);
        encoding_free(encoding);
        return status;
    }
    pthread_mutex_lock(&encodings->mutex);
    *found = encodings->files[number] = encoding;
    pthread_mutex_unlock(&encodings->mutex);
    return ICONVD_OK;
}

/* The encoding of a charmap file, which is read the first time. */
static iconvd_status find_file(struct encodings *encodings, size_t number, struct encoding **found) {
    *found = find_read(encodings, number);
    if (*found)
        return ICONVD_OK;
    int cancelling; /* reading a file is a cancellation point */
    pthread_setcancelstate(PTHREAD_CANCEL_DISABLE, &cancelling);
    pthread_mutex_lock(&encodings->reading);
    iconvd_status status = ICONVD_OK;
    *found = find_read(encodings, number);
    if (!*found)
        status = read_file(encodings, number, found);
    pthread_mutex_unlock(&encodings->reading);
    pthread_setcancelstate(cancelling, NULL);
    return status;
}

struct encoding *encodings_known(struct encodings *encodings, const char *name) {
    pthread_mutex_lock(&encodings->mutex);
    struct encoding *added = find_added(encodings, name);
    pthread_mutex_unlock(&encodings->mutex);
    int number = added ? 0 : name_find(name);
    if (added || number < 0)
        return added;
    if (number >= BUILTIN_COUNT + (int)charmap_count())
        return encoding_shifted((size_t)number - BUILTIN_COUNT - charmap_count());
    return number < BUILTIN_COUNT ? &BUILTINS[number] : find_read(encodings, (size_t)number - BUILTIN_COUNT);
}

iconvd_status encodings_find(struct encodings *encodings, const char *name, struct encoding **found) {
    pthread_mutex_lock(&encodings->mutex);
    *found = find_added(encodings, name);
    pthread_mutex_unlock(&encodings->mutex);
    int number = *found ? 0 : name_find(name);
    iconvd_status status = number < 0 ? ICONVD_UNSUPPORTED : ICONVD_OK;
    if (!*found && number >= BUILTIN_COUNT + (int)charmap_count())
        *found = encoding_shifted((size_t)number - BUILTIN_COUNT - charmap_count());
    else if (!*found && number >= BUILTIN_COUNT)
        status = find_file(encodings, (size_t)number - BUILTIN_COUNT, found);
    else if (!*found && number >= 0)
        *found = &BUILTINS[number];
    if (status == ICONVD_OK && atomic_load(&(*found)->refused))
        status = ICONVD_UNSUPPORTED;
    return status;
}

static bool is_taken(struct encodings *encodings, const char *name) {
    pthread_mutex_lock(&encodings->mutex);
    bool taken = find_added(encodings, name) || name_find(name) >= 0 || strncmp(name, "MAP-", 4) == 0;
    pthread_mutex_unlock(&encodings->mutex);
    return taken;
}

iconvd_status encodings_make(struct encodings *encodings, const char *name, const char *text, size_t length, struct encoding **made) {
    struct parsed_name parsed;
    *made = NULL;
    if (!*name || strlen(name) > 64 || !name_parse(&parsed, name))
        return ICONVD_UNSUPPORTED;
    if (is_taken(encodings, parsed.name))
        return ICONVD_EXISTS;
    struct encoding *encoding = calloc(1, sizeof *encoding);
    if (!encoding || !buffer_append(&encoding->map.text, text, length)) {
        encoding_free(encoding);
        return ICONVD_ENOMEM;
    }
    encoding->kind = BUILTIN_COUNT;
    encoding->map.least_bytes = 1;
    encoding->map.most_bytes = 8;
    strcpy(encoding->name, name);
    strcpy(encoding->known_as, parsed.name);
    *made = encoding;
    return ICONVD_OK;
}

iconvd_status encodings_publish(struct encodings *encodings, struct encoding *made) {
    pthread_mutex_lock(&encodings->mutex);
    bool taken = find_added(encodings, made->known_as) != NULL;
    if (!taken) {
        made->next = encodings->added;
        encodings->added = made;
    }
    pthread_mutex_unlock(&encodings->mutex);
    return taken ? ICONVD_EXISTS : ICONVD_OK;
}

const struct codes *encoding_codes(struct encoding *encoding) {
    struct codes *codes = atomic_load_explicit(&encoding->codes, memory_order_acquire), *none = NULL;
    if (codes)
        return codes;
    codes = codes_make(encoding->map.text.bytes, encoding->map.text.length);
    /* Another thread may have been faster. */
    if (codes && !atomic_compare_exchange_strong(&encoding->codes, &none, codes)) {
        codes_free(codes);
        codes = none;
    }
    return codes;
}

unsigned encoding_most_bytes(const struct encoding *encoding) {
    static const unsigned char MOST[BUILTIN_COUNT] = {1, 1, 4, 6, 4, 4, 8, 4, 4, 6};
    return encoding->kind == BUILTIN_COUNT ? encoding->map.most_bytes : MOST[encoding->kind];
}

unsigned encoding_least_bytes(const struct encoding *encoding) {
    static const unsigned char LEAST[BUILTIN_COUNT] = {1, 1, 1, 2, 2, 2, 4, 4, 4, 1};
    return encoding->kind == BUILTIN_COUNT ? encoding->map.least_bytes : LEAST[encoding->kind];
}
