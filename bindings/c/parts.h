/* Conversions of parts of locations for the exports, shared by the files of this folder. */
#ifndef GIX_URL_PARTS_H
#define GIX_URL_PARTS_H

#include "gix_url.h"

#include <string.h>

typedef struct front {
    uint8_t scheme;
    bool alternative, has_user, has_password, has_host, has_port, has_spelling;
    uint16_t port;
} front;

typedef struct given {
    front front;
    gix_url_text name, user, password, host, path, spelling;
} given;

/* The target of pointers if there are no bytes, or no numbers. */
static char nowhere[1];
static size_t no_numbers[1];

static inline gix_url_text text_of(const char *at, size_t len, bool is_there) {
    gix_url_text text = {is_there ? at : NULL, is_there ? len : 0};
    return text;
}

/* The part, with length 0 if it is missing. */
static inline gix_url_text part_of(gix_url_text part) { return text_of(part.at, part.len, part.at != NULL); }

/* The bytes of a part; no bytes if it is missing, whatever its length. */
static inline gix_url_text bytes_of(gix_url_text text) {
    gix_url_text none = {nowhere, 0};
    return text.at ? text : none;
}

/* The parts of a location. A scheme that isn't a byte becomes a number of none of the eight schemes. */
static inline given given_of(const gix_url *url) {
    return (given){
        .front = {
            .scheme = (unsigned)url->scheme < 8 ? (uint8_t)url->scheme : UINT8_MAX,
            .alternative = url->alternative,
            .has_user = url->user.at != NULL,
            .has_password = url->password.at != NULL,
            .has_host = url->host.at != NULL,
            .has_port = url->has_port,
            .has_spelling = url->spelling.at != NULL,
            .port = url->port,
        },
        .name = bytes_of(url->name),
        .user = bytes_of(url->user),
        .password = bytes_of(url->password),
        .host = bytes_of(url->host),
        .path = bytes_of(url->path),
        .spelling = bytes_of(url->spelling),
    };
}

/* Takes these bytes from the front of the buffer, which then begins after them. */
static inline gix_url_text next_part(const char **buffer, size_t len, bool is_there) {
    gix_url_text part = text_of(*buffer, len, is_there);
    *buffer += len;
    return part;
}

/* Whether a call that returns this error stores the size that it needs. */
static inline bool is_measured(uint32_t error) { return error == GIX_URL_OK || error == GIX_URL_NO_ROOM; }

static inline void store(size_t *where, size_t number) {
    if (where) *where = number;
}

/* How many numbers fit into an array of this many elements of this size, each of which has this many numbers. A null
 * pointer becomes an array without elements. */
static inline size_t number_capacity(void **array, size_t count, size_t size, size_t numbers) {
    if (*array && count <= SIZE_MAX / size) return count * numbers;
    *array = no_numbers;
    return 0;
}

/* Converts the lengths at the front of the array to texts, from the last one on: a text is longer than its length. The
 * texts end at `end`. */
static inline void make_texts(gix_url_text *texts, size_t count, const char *end) {
    for (size_t i = count; i-- > 0;) {
        size_t len;
        memcpy(&len, (const char *)texts + i * sizeof len, sizeof len);
        texts[i] = text_of(end -= len, len, true);
    }
}

#endif
