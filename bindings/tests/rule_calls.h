/* The calls of gix_url_rules.h for the rows of vectors/. */
#ifndef RULE_CALLS_H
#define RULE_CALLS_H

#include "../c/include/gix_url_rules.h"
#include "orders.h"

/* Makes a call and prints its result, if it is one of gix_url_rules.h. */
bool rule_call(line *out, gix_url_text call, const order *order);

/* Makes a call over a configuration and prints its result. */
void config_call(line *out, gix_url_text call, const order *order);

/* Allocates this many elements of this size, of which there may be none. The caller frees them. */
static inline void *elements(size_t count, size_t size) {
    void *at = calloc(count + 1, size);
    HOLDS(at);
    return at;
}

/* Whether a call with this error stores the lengths of its result. */
static inline bool is_measured(gix_url_error error) { return error == GIX_URL_OK || error == GIX_URL_NO_ROOM; }

static inline void put_count(line *out, const char *name, size_t number) {
    put_word(out, ",\""), put_word(out, name), put_word(out, "\":"), put_number(out, number);
}

static inline void tell_named(line *out, const char *name) { put_word(out, "{\"error\":\""), put_word(out, name), put_word(out, "\"}"); }

static inline void tell_list(line *out, const char *name, const gix_url_text *texts, size_t count) {
    put_word(out, name);
    for (size_t i = 0; i < count; i++) put_word(out, i ? "," : ""), put_quoted(out, texts[i]);
    put_word(out, "]");
}

#endif
