/* The calls of gix_url_rules.h over texts and locations alone, over the exports of the static library crates/gix_url_c.
 *
 * gix_url_rules.c has the calls that use a configuration, and describes the conventions of both files. */
#include "gix_url_rules.h"
#include "parts.h"

typedef struct place {
    uint8_t why, protocol;
    bool has_user, has_host, has_port;
    uint16_t port;
    size_t user, host, path;
} place;

typedef struct request {
    bool is_read, has_user, has_password, has_path;
    size_t protocol, user, password, host, path;
} request;

typedef struct asked {
    gix_url_text program;
    bool has_program;
    uint8_t service, variant, version, family;
} asked;

typedef struct command {
    uint8_t refusal, git_protocol;
    size_t words, bytes;
} command;

typedef struct resolved {
    uint8_t why;
    bool is_relative, climbs;
    size_t len;
} resolved;

uint32_t gix_url_c_transport(const char *, size_t, char *, size_t, size_t *, uint8_t *);
uint32_t gix_url_c_dangers(const char *, size_t, const given *, uint8_t *, size_t, size_t *);
uint32_t gix_url_c_danger_name(uint8_t, char *, size_t, size_t *);
uint32_t gix_url_c_danger_words(uint8_t, char *, size_t, size_t *);
uint32_t gix_url_c_secrets(const char *, size_t, size_t *, size_t, size_t *);
uint32_t gix_url_c_git_reading(const char *, size_t, place *, char *, size_t);
uint32_t gix_url_c_credential_reading(const char *, size_t, request *, char *, size_t);
uint32_t gix_url_c_ssh_words(const given *, const asked *, command *, char *, size_t, size_t *, size_t);
uint32_t gix_url_c_resolve(const char *, size_t, const char *, size_t, resolved *, char *, size_t);

gix_url_error gix_url_transport_of(const char *text, size_t len, char *buffer, size_t buffer_len,
                                   gix_url_transport *transport, size_t *needed) {
    if (!transport) return GIX_URL_NULL;
    if (!text) text = nowhere, len = 0;
    if (!buffer) buffer = nowhere, buffer_len = 0;
    uint8_t why = 0;
    size_t name_len = 0;
    uint32_t error = gix_url_c_transport(text, len, buffer, buffer_len, &name_len, &why);
    store(needed, name_len);
    if (error != GIX_URL_OK) return (gix_url_error)error;
    memset(transport, 0, sizeof *transport);
    transport->why = (gix_url_no_transport)why;
    transport->name = text_of(buffer, name_len, why == GIX_URL_TRANSPORT_FOUND);
    return GIX_URL_OK;
}

gix_url_error gix_url_dangers_of(const char *text, size_t len, const gix_url *url, uint8_t *dangers, size_t danger_capacity,
                                 size_t *count) {
    if (!url || !count) return GIX_URL_NULL;
    if (!text) text = nowhere, len = 0;
    if (!dangers) dangers = (uint8_t *)nowhere, danger_capacity = 0;
    given given = given_of(url);
    return (gix_url_error)gix_url_c_dangers(text, len, &given, dangers, danger_capacity, count);
}

/* Calls one of the two exports over a danger. A number that isn't a byte becomes one that has no danger. */
static gix_url_error put_danger(uint32_t (*put)(uint8_t, char *, size_t, size_t *), gix_url_danger danger, char *buffer,
                                size_t buffer_len, size_t *needed) {
    if (!buffer) buffer = nowhere, buffer_len = 0;
    size_t len = 0;
    uint32_t error = put((unsigned)danger < UINT8_MAX ? (uint8_t)danger : UINT8_MAX, buffer, buffer_len, &len);
    store(needed, len);
    return (gix_url_error)error;
}

gix_url_error gix_url_danger_name(gix_url_danger danger, char *buffer, size_t buffer_len, size_t *needed) {
    return put_danger(gix_url_c_danger_name, danger, buffer, buffer_len, needed);
}

gix_url_error gix_url_danger_words(gix_url_danger danger, char *buffer, size_t buffer_len, size_t *needed) {
    return put_danger(gix_url_c_danger_words, danger, buffer, buffer_len, needed);
}

gix_url_error gix_url_secrets_of(const char *text, size_t len, gix_url_piece *pieces, size_t piece_capacity, size_t *count) {
    if (!count) return GIX_URL_NULL;
    if (!text) text = nowhere, len = 0;
    void *numbers = pieces;
    size_t capacity = number_capacity(&numbers, piece_capacity, sizeof *pieces, 2);
    return (gix_url_error)gix_url_c_secrets(text, len, numbers, capacity, count);
}

gix_url_error gix_url_git_reading(const char *text, size_t len, char *buffer, size_t buffer_len, gix_url_git_place *reported,
                                  size_t *needed) {
    if (!reported) return GIX_URL_NULL;
    if (!text) text = nowhere, len = 0;
    if (!buffer) buffer = nowhere, buffer_len = 0;
    place made = {0};
    uint32_t error = gix_url_c_git_reading(text, len, &made, buffer, buffer_len);
    if (is_measured(error)) store(needed, made.user + made.host + made.path);
    if (error != GIX_URL_OK) return (gix_url_error)error;
    const char *at = buffer;
    memset(reported, 0, sizeof *reported);
    reported->why = (gix_url_unread)made.why;
    reported->protocol = (gix_url_protocol)made.protocol;
    reported->user = next_part(&at, made.user, made.has_user);
    reported->host = next_part(&at, made.host, made.has_host);
    reported->path = next_part(&at, made.path, made.why == GIX_URL_READ);
    reported->has_port = made.has_port;
    reported->port = made.port;
    return GIX_URL_OK;
}

gix_url_error gix_url_credential_reading(const char *text, size_t len, char *buffer, size_t buffer_len,
                                         gix_url_request *reported, size_t *needed) {
    if (!reported) return GIX_URL_NULL;
    if (!text) text = nowhere, len = 0;
    if (!buffer) buffer = nowhere, buffer_len = 0;
    request made = {0};
    uint32_t error = gix_url_c_credential_reading(text, len, &made, buffer, buffer_len);
    if (is_measured(error)) store(needed, made.protocol + made.user + made.password + made.host + made.path);
    if (error != GIX_URL_OK) return (gix_url_error)error;
    const char *at = buffer;
    memset(reported, 0, sizeof *reported);
    reported->is_read = made.is_read;
    reported->protocol = next_part(&at, made.protocol, made.is_read);
    reported->user = next_part(&at, made.user, made.has_user);
    reported->password = next_part(&at, made.password, made.has_password);
    reported->host = next_part(&at, made.host, made.is_read);
    reported->path = next_part(&at, made.path, made.has_path);
    return GIX_URL_OK;
}

/* A number as a byte. A number that isn't a byte becomes one without a meaning. */
static uint8_t byte_of(unsigned number) { return number < UINT8_MAX ? (uint8_t)number : UINT8_MAX; }

gix_url_error gix_url_ssh_words(const gix_url *url, const gix_url_ssh_request *request, char *buffer, size_t buffer_len,
                                gix_url_text *words, size_t word_capacity, gix_url_ssh_command *reported, size_t *needed,
                                size_t *needed_words) {
    if (!url || !request || !reported) return GIX_URL_NULL;
    if (!buffer) buffer = nowhere, buffer_len = 0;
    void *lengths = words;
    size_t capacity = number_capacity(&lengths, word_capacity, sizeof *words, 1);
    given given = given_of(url);
    asked asked = {
        .program = bytes_of(request->program),
        .has_program = request->program.at != NULL,
        .service = byte_of(request->service),
        .variant = byte_of(request->variant),
        .version = request->version,
        .family = byte_of(request->family),
    };
    command made = {0};
    uint32_t error = gix_url_c_ssh_words(&given, &asked, &made, buffer, buffer_len, lengths, capacity);
    if (is_measured(error)) store(needed, made.bytes), store(needed_words, made.words);
    if (error != GIX_URL_OK) return (gix_url_error)error;
    make_texts(words, made.words, buffer + made.bytes);
    memset(reported, 0, sizeof *reported);
    reported->refusal = (gix_url_ssh_refusal)made.refusal;
    reported->word_count = made.words;
    reported->git_protocol = made.git_protocol;
    return GIX_URL_OK;
}

gix_url_error gix_url_resolve_submodule(const char *parent, size_t parent_len, const char *url, size_t len, char *buffer,
                                        size_t buffer_len, gix_url_resolved *reported, size_t *needed) {
    if (!reported) return GIX_URL_NULL;
    if (!parent) parent = nowhere, parent_len = 0;
    if (!url) url = nowhere, len = 0;
    if (!buffer) buffer = nowhere, buffer_len = 0;
    resolved made = {0};
    uint32_t error = gix_url_c_resolve(parent, parent_len, url, len, &made, buffer, buffer_len);
    store(needed, made.len);
    if (error != GIX_URL_OK) return (gix_url_error)error;
    memset(reported, 0, sizeof *reported);
    reported->why = (gix_url_unresolved)made.why;
    reported->is_relative = made.is_relative;
    reported->climbs = made.climbs;
    reported->url = text_of(buffer, made.len, made.why == GIX_URL_RESOLVED);
    return GIX_URL_OK;
}
