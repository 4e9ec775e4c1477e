#define _DEFAULT_SOURCE
#include "reported.h"

#include <string.h>
#include <sys/mman.h>
#include <unistd.h>

static gix_url_text subject;

void about(gix_url_text text) { subject = text; }

void fails(const char *file, int number, const char *what) {
    fprintf(stderr, "%s:%d: this doesn't hold: %s\nwith: %.*s\n", file, number, what, (int)subject.len, subject.at ? subject.at : "");
    exit(1);
}

char *at_wall(int number, const char *bytes, size_t len) {
    static char *walls[2];
    static const size_t size = (size_t)1 << 25;
    if (!walls[number]) {
        size_t page = (size_t)sysconf(_SC_PAGESIZE);
        char *at = mmap(NULL, size + page, PROT_READ | PROT_WRITE, MAP_PRIVATE | MAP_ANONYMOUS, -1, 0);
        HOLDS(at != MAP_FAILED && mprotect(at + size, page, PROT_NONE) == 0);
        walls[number] = at + size;
    }
    HOLDS(len <= size);
    char *at = walls[number] - len;
    if (bytes && len) memcpy(at, bytes, len);
    return at;
}

void put(line *out, const char *bytes, size_t len) {
    if (out->capacity - out->len < len) {
        out->capacity = 2 * (out->capacity + len) + 64;
        out->at = realloc(out->at, out->capacity);
        HOLDS(out->at);
    }
    if (len) memcpy(out->at + out->len, bytes, len);
    out->len += len;
}

void put_text(line *out, gix_url_text text) { put(out, text.at, text.len); }

void put_word(line *out, const char *word) { put(out, word, strlen(word)); }

void put_number(line *out, size_t number) {
    char digits[32];
    put(out, digits, (size_t)snprintf(digits, sizeof digits, "%zu", number));
}

bool is_same(gix_url_text one, gix_url_text other) {
    /* The length of a missing part is ignored. */
    if (!one.at || !other.at) return !one.at && !other.at;
    return one.len == other.len && memcmp(one.at, other.at, one.len) == 0;
}

bool has_same_fields(const gix_url *one, const gix_url *other) {
    return one->scheme == other->scheme && is_same(one->name, other->name) && is_same(one->user, other->user)
        && is_same(one->password, other->password) && is_same(one->host, other->host)
        && one->alternative == other->alternative && one->has_port == other->has_port && one->port == other->port
        && is_same(one->path, other->path);
}

char *text_of_location(putter *call, const gix_url *url, size_t *len, gix_url_error *error, gix_url_problem *problem) {
    *error = call(url, NULL, 0, len, problem);
    if (*error != GIX_URL_NO_ROOM && !(*error == GIX_URL_OK && *len == 0)) return NULL;
    size_t wanted = *len;
    if (wanted > 0) HOLDS(call(url, at_wall(1, NULL, wanted - 1), wanted - 1, len, problem) == GIX_URL_NO_ROOM && *len == wanted);
    char *buffer = at_wall(1, NULL, wanted);
    *error = call(url, buffer, wanted, len, problem);
    HOLDS(*error == GIX_URL_OK && *len == wanted);
    char *text = malloc(wanted + 1);
    HOLDS(text);
    memcpy(text, buffer, wanted);
    return text;
}

gix_url_pair *components_of(const gix_url *url, gix_url_components *parts) {
    size_t needed, needed_pairs, again, pairs_again;
    gix_url_error error = gix_url_path_query_fragment(url, NULL, 0, NULL, 0, parts, &needed, &needed_pairs);
    HOLDS(error == GIX_URL_NO_ROOM || (error == GIX_URL_OK && needed == 0 && needed_pairs == 0));
    gix_url_pair *pairs = (gix_url_pair *)malloc(needed_pairs * sizeof *pairs + 1);
    char *buffer = at_wall(1, NULL, needed);
    HOLDS(pairs);
    if (needed > 0)
        HOLDS(gix_url_path_query_fragment(url, buffer + 1, needed - 1, pairs, needed_pairs, parts, NULL, NULL) == GIX_URL_NO_ROOM);
    if (needed_pairs > 0)
        HOLDS(gix_url_path_query_fragment(url, buffer, needed, pairs, needed_pairs - 1, parts, NULL, NULL) == GIX_URL_NO_ROOM);
    HOLDS(gix_url_path_query_fragment(url, buffer, needed, pairs, needed_pairs, parts, &again, &pairs_again) == GIX_URL_OK);
    HOLDS(again == needed && pairs_again == needed_pairs && parts->pair_count == needed_pairs);
    size_t bytes = 0;
    for (size_t i = 0; i < parts->pair_count; i++) bytes += pairs[i].name_len + pairs[i].value_len;
    HOLDS(bytes == parts->query.len);
    return pairs;
}

void tell_components(line *out, const gix_url *url) {
    gix_url_components parts;
    gix_url_pair *pairs = components_of(url, &parts);
    put_text(out, parts.path);
    if (parts.query.at) put_word(out, " ?");
    const char *at = parts.query.at;
    for (size_t i = 0; i < parts.pair_count; i++) {
        put_word(out, " <"), put(out, at, pairs[i].name_len), at += pairs[i].name_len;
        put_word(out, ">=<"), put(out, at, pairs[i].value_len), at += pairs[i].value_len;
        put_word(out, ">");
    }
    if (parts.fragment.at) put_word(out, " #"), put_text(out, parts.fragment);
    free(pairs);
}

/* A copy of the location in a buffer of its own that is just large enough, with the same bytes. */
static gix_url moved(gix_url url, const char *from, size_t len, char *to) {
    gix_url_text *parts[] = {&url.name, &url.user, &url.password, &url.host, &url.path, &url.spelling};
    if (len) memcpy(to, from, len);
    for (size_t i = 0; i < sizeof parts / sizeof *parts; i++)
        if (parts[i]->at) parts[i]->at = to + (parts[i]->at - from);
    return url;
}

char *read_input(gix_url_text input, gix_url *url, gix_url_error *error, gix_url_problem *problem) {
    size_t needed = 0, again;
    char *bytes = at_wall(0, input.at, input.len);
    *error = gix_url_parse(bytes, input.len, NULL, 0, url, &needed, problem);
    if (*error != GIX_URL_NO_ROOM) return NULL;
    HOLDS(needed <= GIX_URL_ROOM(input.len));
    HOLDS(gix_url_parse(bytes, input.len, at_wall(1, NULL, needed - 1), needed - 1, url, &again, problem) == GIX_URL_NO_ROOM && again == needed);
    char *buffer = at_wall(1, NULL, needed);
    *error = gix_url_parse(bytes, input.len, buffer, needed, url, &again, problem);
    HOLDS(*error == GIX_URL_OK && again == needed);
    char *own = malloc(needed);
    HOLDS(own);
    *url = moved(*url, buffer, needed, own);
    return own;
}

char *make_parts(const gix_url *parts, gix_url *url, gix_url_error *error, gix_url_problem *problem) {
    size_t needed = 0, again;
    *error = gix_url_from_parts(parts, NULL, 0, url, &needed, problem);
    if (*error != GIX_URL_NO_ROOM) return NULL;
    char *buffer = at_wall(1, NULL, needed);
    *error = gix_url_from_parts(parts, buffer, needed, url, &again, problem);
    HOLDS(*error == GIX_URL_OK && again == needed);
    char *own = malloc(needed);
    HOLDS(own);
    *url = moved(*url, buffer, needed, own);
    return own;
}

bool is_refusal(gix_url_error error) { return error >= GIX_URL_EMPTY_LOCAL && error <= GIX_URL_BAD_URL; }

void is_refused_so(gix_url_text text, gix_url_error error, const gix_url_problem *problem) {
    gix_url url;
    gix_url_error again;
    gix_url_problem read;
    char *buffer = read_input(text, &url, &again, &read);
    HOLDS(!buffer && again == error);
    HOLDS(read.kind == problem->kind && read.fault == problem->fault && read.reason == problem->reason && !problem->write_fault);
    HOLDS(read.shown == problem->shown && read.total == problem->total && read.at == problem->at && read.len == problem->len);
}

char *text_of_reason(reason_putter *call, gix_url_reason reason, size_t *len) {
    size_t again = 77;
    HOLDS(call(reason, NULL, SIZE_MAX, len) == GIX_URL_NO_ROOM && *len > 0);
    char *buffer = at_wall(1, NULL, *len - 1);
    memset(buffer, 0xA5, *len - 1);
    HOLDS(call(reason, buffer, *len - 1, &again) == GIX_URL_NO_ROOM && again == *len);
    for (size_t i = 0; i + 1 < *len; i++) HOLDS((unsigned char)buffer[i] == 0xA5);
    buffer = at_wall(1, NULL, *len);
    HOLDS(call(reason, buffer, *len, NULL) == GIX_URL_OK);
    char *text = malloc(*len);
    HOLDS(text);
    memcpy(text, buffer, *len);
    return text;
}
