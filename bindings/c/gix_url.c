/* The calls of gix_url.h, over the exports of the static library crates/gix_url_c.
 *
 * Null pointers become errors, parts become pointers and lengths, and returned lengths become pointers into the
 * caller's buffer. The declarations of exports match crates/gix_url_c/src, and their types crates/c_values/src. A slice
 * of that library is a pointer that isn't null and a length. */
#include "parts.h"

typedef struct made {
    front front;
    size_t name, user, password, host, path, spelling;
} made;

typedef struct reported {
    uint8_t kind, fault, reason;
    size_t shown, total, at, len;
} reported;

typedef struct seen {
    uint8_t user, host;
    bool path, is_root, is_spelled, has_port;
    uint16_t port;
} seen;

typedef struct parted {
    bool has_query, has_fragment;
    size_t path, fragment, pairs, bytes;
} parted;

uint32_t gix_url_c_read(const char *, size_t, made *, char *, size_t, reported *);
uint32_t gix_url_c_from_parts(const given *, made *, char *, size_t, reported *);
uint32_t gix_url_c_is_settled(const given *, bool *);
uint32_t gix_url_c_agrees_with_git(const given *, bool *);
uint32_t gix_url_c_unmet_condition(const given *, uint8_t *);
uint32_t gix_url_c_write(const given *, char *, size_t, size_t *, reported *);
uint32_t gix_url_c_display(const given *, char *, size_t, size_t *, reported *);
uint32_t gix_url_c_look(const given *, seen *);
uint32_t gix_url_c_components(const given *, parted *, char *, size_t, size_t *, size_t);
uint32_t gix_url_c_reason_name(uint8_t, char *, size_t, size_t *);
uint32_t gix_url_c_reason_words(uint8_t, char *, size_t, size_t *);

/* The location whose parts follow each other in the buffer, in the order in which they are returned. */
static gix_url located(const made *made, const char *buffer) {
    gix_url url;
    memset(&url, 0, sizeof url);
    url.scheme = (gix_url_scheme)made->front.scheme;
    url.name = next_part(&buffer, made->name, made->front.scheme >= GIX_URL_HELPER);
    url.user = next_part(&buffer, made->user, made->front.has_user);
    url.password = next_part(&buffer, made->password, made->front.has_password);
    url.host = next_part(&buffer, made->host, made->front.has_host);
    url.path = next_part(&buffer, made->path, true);
    url.spelling = next_part(&buffer, made->spelling, made->front.has_spelling);
    url.alternative = made->front.alternative;
    url.has_port = made->front.has_port;
    url.port = made->front.port;
    return url;
}

/* Stores the details of an error. */
static void tell(uint32_t error, const reported *reported, gix_url_problem *problem) {
    if (!problem) return;
    memset(problem, 0, sizeof *problem);
    problem->kind = (gix_url_kind)reported->kind;
    if (error == GIX_URL_UNWRITABLE) problem->write_fault = (gix_url_write_fault)reported->fault;
    else problem->fault = (gix_url_fault)reported->fault;
    problem->reason = (gix_url_reason)reported->reason;
    problem->shown = reported->shown;
    problem->total = reported->total;
    problem->at = reported->at;
    problem->len = reported->len;
}

/* The error for a null pointer that must not be null. It has no details. */
static gix_url_error null_pointer(gix_url_problem *problem) {
    if (problem) memset(problem, 0, sizeof *problem);
    return GIX_URL_NULL;
}

/* Returns the location that was made in the buffer, or the error. */
static gix_url_error hand_out(uint32_t error, const made *made, const char *buffer, gix_url *url, size_t *needed,
                              const reported *reported, gix_url_problem *problem) {
    if (error == GIX_URL_OK) *url = located(made, buffer);
    if ((error == GIX_URL_OK || error == GIX_URL_NO_ROOM) && needed)
        *needed = made->name + made->user + made->password + made->host + made->path + made->spelling;
    tell(error, reported, problem);
    return (gix_url_error)error;
}

gix_url_error gix_url_parse(const char *input, size_t len, char *buffer, size_t buffer_len, gix_url *url, size_t *needed,
                            gix_url_problem *problem) {
    if (!url) return null_pointer(problem);
    if (!input) input = nowhere, len = 0;
    if (!buffer) buffer = nowhere, buffer_len = 0;
    made made = {0};
    reported reported = {0};
    uint32_t error = gix_url_c_read(input, len, &made, buffer, buffer_len, &reported);
    return hand_out(error, &made, buffer, url, needed, &reported, problem);
}

gix_url_error gix_url_from_parts(const gix_url *parts, char *buffer, size_t buffer_len, gix_url *url, size_t *needed,
                                 gix_url_problem *problem) {
    if (!parts || !url) return null_pointer(problem);
    if (!buffer) buffer = nowhere, buffer_len = 0;
    made made = {0};
    reported reported = {0};
    given given = given_of(parts);
    uint32_t error = gix_url_c_from_parts(&given, &made, buffer, buffer_len, &reported);
    return hand_out(error, &made, buffer, url, needed, &reported, problem);
}

gix_url_error gix_url_is_settled(const gix_url *url, bool *settled) {
    if (!url || !settled) return GIX_URL_NULL;
    given given = given_of(url);
    return (gix_url_error)gix_url_c_is_settled(&given, settled);
}

gix_url_error gix_url_agrees_with_git(const gix_url *url, bool *agrees) {
    if (!url || !agrees) return GIX_URL_NULL;
    given given = given_of(url);
    return (gix_url_error)gix_url_c_agrees_with_git(&given, agrees);
}

gix_url_error gix_url_unmet_condition(const gix_url *url, gix_url_condition *unmet) {
    if (!url || !unmet) return GIX_URL_NULL;
    uint8_t number = 0;
    given given = given_of(url);
    uint32_t error = gix_url_c_unmet_condition(&given, &number);
    if (error == GIX_URL_OK) *unmet = (gix_url_condition)number;
    return (gix_url_error)error;
}

gix_url_error gix_url_is_unambiguous(const gix_url *url, bool *unambiguous) {
    if (!unambiguous) return GIX_URL_NULL;
    gix_url_condition unmet = GIX_URL_CONDITION_GIT;
    gix_url_error error = gix_url_unmet_condition(url, &unmet);
    if (error == GIX_URL_OK) *unambiguous = unmet == GIX_URL_CONDITION_NONE;
    return error;
}

gix_url_error gix_url_write(const gix_url *url, char *buffer, size_t buffer_len, size_t *len, gix_url_problem *problem) {
    if (!url || !len) return null_pointer(problem);
    if (!buffer) buffer = nowhere, buffer_len = 0;
    reported reported = {0};
    given given = given_of(url);
    uint32_t error = gix_url_c_write(&given, buffer, buffer_len, len, &reported);
    tell(error, &reported, problem);
    return (gix_url_error)error;
}

gix_url_error gix_url_display(const gix_url *url, char *buffer, size_t buffer_len, size_t *len, gix_url_problem *problem) {
    if (!url || !len) return null_pointer(problem);
    if (!buffer) buffer = nowhere, buffer_len = 0;
    reported reported = {0};
    given given = given_of(url);
    uint32_t error = gix_url_c_display(&given, buffer, buffer_len, len, &reported);
    tell(error, &reported, problem);
    return (gix_url_error)error;
}

gix_url_error gix_url_look(const gix_url *url, gix_url_seen *answer) {
    if (!url || !answer) return GIX_URL_NULL;
    seen seen = {0};
    given given = given_of(url);
    uint32_t error = gix_url_c_look(&given, &seen);
    if (error != GIX_URL_OK) return (gix_url_error)error;
    memset(answer, 0, sizeof *answer);
    answer->user = (gix_url_argument)seen.user;
    answer->host = (gix_url_argument)seen.host;
    answer->path_is_usable = seen.path;
    answer->path_is_root = seen.is_root;
    answer->original_path = part_of(seen.is_spelled ? url->spelling : url->path);
    answer->has_port = seen.has_port;
    answer->port = seen.port;
    return GIX_URL_OK;
}

gix_url_error gix_url_path_query_fragment(const gix_url *url, char *buffer, size_t buffer_len, gix_url_pair *pairs,
                                          size_t pair_capacity, gix_url_components *components, size_t *needed,
                                          size_t *needed_pairs) {
    if (!url || !components) return GIX_URL_NULL;
    if (!buffer) buffer = nowhere, buffer_len = 0;
    if (!pairs || pair_capacity > SIZE_MAX / sizeof *pairs) pair_capacity = 0;
    size_t *lengths = pair_capacity ? &pairs->name_len : no_numbers;
    parted parted = {0};
    given given = given_of(url);
    uint32_t error = gix_url_c_components(&given, &parted, buffer, buffer_len, lengths, 2 * pair_capacity);
    if (error != GIX_URL_OK && error != GIX_URL_NO_ROOM) return (gix_url_error)error;
    if (needed) *needed = parted.bytes;
    if (needed_pairs) *needed_pairs = parted.pairs;
    if (error != GIX_URL_OK) return GIX_URL_NO_ROOM;
    const char *at = buffer;
    components->path = next_part(&at, parted.path, true);
    components->fragment = next_part(&at, parted.fragment, parted.has_fragment);
    components->query = next_part(&at, parted.bytes - parted.path - parted.fragment, parted.has_query);
    components->pair_count = parted.pairs;
    return GIX_URL_OK;
}

const char *gix_url_version(void) { return GIX_URL_VERSION; }

/* The words about a text that was taken for this form. */
#define OF_FORM(form, words)                                  \
    ((form) == GIX_URL_KIND_URL     ? "the URL " words        \
     : (form) == GIX_URL_KIND_SCP   ? "the scp form " words   \
     : (form) == GIX_URL_KIND_LOCAL ? "the local path " words \
                                    : "the location " words)

static const char *bad_url_words(gix_url_kind kind, gix_url_fault fault) {
    switch (fault) {
    case GIX_URL_FAULT_NONE: break;
    case GIX_URL_NO_SCHEME: return OF_FORM(kind, "has no valid scheme");
    case GIX_URL_BAD_PORT: return OF_FORM(kind, "has an invalid port");
    case GIX_URL_BAD_CHARACTER: return OF_FORM(kind, "has a character or an escape that is not allowed");
    case GIX_URL_HOST_REQUIRED: return OF_FORM(kind, "has no host where one is required");
    }
    return OF_FORM(kind, "is not valid");
}

#define UNWRITABLE "the location can't be written"

static const char *unwritable_words(gix_url_write_fault fault) {
    switch (fault) {
    case GIX_URL_WRITE_FAULT_NONE: break;
    case GIX_URL_WRITE_HELPER_NAME: return UNWRITABLE ": the remote helper has no valid name";
    case GIX_URL_WRITE_HELPER_PARTS:
        return UNWRITABLE ": a remote helper comes with a user, a password, a host or a port";
    case GIX_URL_WRITE_RELATIVE_SSH:
        return UNWRITABLE ": a relative path of Secure Shell comes without a host, or with a password or a port";
    case GIX_URL_WRITE_USER_WITHOUT_HOST: return UNWRITABLE ": a user comes without a host";
    }
    return UNWRITABLE;
}

const char *gix_url_error_words(gix_url_error error, const gix_url_problem *problem) {
    static const gix_url_problem no_problem;
    if (!problem) problem = &no_problem;
    switch (error) {
    case GIX_URL_OK: return "no error";
    case GIX_URL_MEMORY: return "out of memory";
    case GIX_URL_EMPTY_LOCAL: return "the location is empty";
    case GIX_URL_MISSING_PATH: return OF_FORM(problem->kind, "has no path");
    case GIX_URL_NOT_UTF8: return OF_FORM(problem->kind, "is not UTF-8");
    case GIX_URL_TOO_LONG: return "the scheme or the authority of the URL is longer than 1024 bytes";
    case GIX_URL_BAD_URL: return bad_url_words(problem->kind, problem->fault);
    case GIX_URL_HELPER_NAME: return "the remote helper has no valid name";
    case GIX_URL_UNWRITABLE: return unwritable_words(problem->write_fault);
    case GIX_URL_NO_LOCATION: return "the struct holds no location";
    case GIX_URL_NO_ROOM: return "the buffer is too small for the answer";
    case GIX_URL_NULL: return "a pointer is null that may not be";
    case GIX_URL_NO_VALUE: return "Git stops at an entry without a value";
    case GIX_URL_NO_BOOLEAN: return "Git stops at an entry whose value is not a boolean";
    case GIX_URL_NO_CONFIGURATION: return "the text is not a configuration";
    }
    return "an unknown error";
}

const char *gix_url_error_name(gix_url_error error) {
    switch (error) {
    case GIX_URL_OK: return "Ok";
    case GIX_URL_MEMORY: return "Memory";
    case GIX_URL_EMPTY_LOCAL: return "EmptyLocal";
    case GIX_URL_MISSING_PATH: return "MissingPath";
    case GIX_URL_NOT_UTF8: return "NotUtf8";
    case GIX_URL_TOO_LONG: return "TooLong";
    case GIX_URL_BAD_URL: return "BadUrl";
    case GIX_URL_HELPER_NAME: return "HelperName";
    case GIX_URL_UNWRITABLE: return "Unwritable";
    case GIX_URL_NO_LOCATION: return "NoLocation";
    case GIX_URL_NO_ROOM: return "NoRoom";
    case GIX_URL_NULL: return "Null";
    case GIX_URL_NO_VALUE: return "NoValue";
    case GIX_URL_NO_BOOLEAN: return "NoBoolean";
    case GIX_URL_NO_CONFIGURATION: return "NoConfiguration";
    }
    return "?";
}

const char *gix_url_fault_name(gix_url_fault fault) {
    switch (fault) {
    case GIX_URL_FAULT_NONE: return "None";
    case GIX_URL_NO_SCHEME: return "NoScheme";
    case GIX_URL_BAD_PORT: return "BadPort";
    case GIX_URL_BAD_CHARACTER: return "BadCharacter";
    case GIX_URL_HOST_REQUIRED: return "HostRequired";
    }
    return "?";
}

const char *gix_url_write_fault_name(gix_url_write_fault fault) {
    switch (fault) {
    case GIX_URL_WRITE_FAULT_NONE: return "None";
    case GIX_URL_WRITE_HELPER_NAME: return "HelperName";
    case GIX_URL_WRITE_HELPER_PARTS: return "HelperParts";
    case GIX_URL_WRITE_RELATIVE_SSH: return "RelativeSsh";
    case GIX_URL_WRITE_USER_WITHOUT_HOST: return "UserWithoutHost";
    }
    return "?";
}

const char *gix_url_kind_name(gix_url_kind kind) {
    switch (kind) {
    case GIX_URL_KIND_NONE: return "None";
    case GIX_URL_KIND_URL: return "Url";
    case GIX_URL_KIND_SCP: return "Scp";
    case GIX_URL_KIND_LOCAL: return "Local";
    }
    return "?";
}

const char *gix_url_condition_name(gix_url_condition condition) {
    switch (condition) {
    case GIX_URL_CONDITION_NONE: return "None";
    case GIX_URL_CONDITION_GIT: return "Git";
    case GIX_URL_CONDITION_ESCAPES: return "Escapes";
    case GIX_URL_CONDITION_HOST: return "Host";
    case GIX_URL_CONDITION_USER: return "User";
    case GIX_URL_CONDITION_PASSWORD: return "Password";
    case GIX_URL_CONDITION_PORT: return "Port";
    case GIX_URL_CONDITION_PATH_BYTES: return "PathBytes";
    case GIX_URL_CONDITION_PATH_START: return "PathStart";
    case GIX_URL_CONDITION_DOT_SEGMENT: return "DotSegment";
    case GIX_URL_CONDITION_SCP_HOST: return "ScpHost";
    case GIX_URL_CONDITION_SCP_PATH: return "ScpPath";
    }
    return "?";
}

/* Calls one of the two exports over the table of reasons. A number that isn't a byte becomes one that has no reason. */
static gix_url_error put_reason(uint32_t (*put)(uint8_t, char *, size_t, size_t *), gix_url_reason reason, char *buffer,
                                size_t buffer_len, size_t *needed) {
    if (!buffer) buffer = nowhere, buffer_len = 0;
    size_t len = 0;
    uint32_t error = put((unsigned)reason < UINT8_MAX ? (uint8_t)reason : UINT8_MAX, buffer, buffer_len, &len);
    if (needed) *needed = len;
    return (gix_url_error)error;
}

gix_url_error gix_url_reason_name(gix_url_reason reason, char *buffer, size_t buffer_len, size_t *needed) {
    return put_reason(gix_url_c_reason_name, reason, buffer, buffer_len, needed);
}

gix_url_error gix_url_reason_words(gix_url_reason reason, char *buffer, size_t buffer_len, size_t *needed) {
    return put_reason(gix_url_c_reason_words, reason, buffer, buffer_len, needed);
}

gix_url_text gix_url_scheme_text(const gix_url *url) {
    static const char *const names[] = {"file", "git", "ssh", "http", "https", "ext"};
    if (!url) return text_of(NULL, 0, false);
    if ((unsigned)url->scheme < 6) return text_of(names[url->scheme], strlen(names[url->scheme]), true);
    return part_of(url->name);
}
