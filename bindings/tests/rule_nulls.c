/* Checks what each call of gix_url_rules.h stores: with each pointer null in turn, with an entry that has a null
 * pointer, with buffers and arrays that are one element too short, and with each error. Each byte that a call may store
 * into is compared with its previous value. */
#include "../c/include/gix_url_rules.h"
#include "reported.h"

#include <string.h>

/* The inputs of the calls. */
typedef struct input {
    gix_url_entry entries[4];
    size_t count;
    gix_url_text text, other;
    gix_url url;
} input;

/* The memory that the calls store into. */
typedef struct places {
    char buffer[128];
    union {
        gix_url_entry entries[4];
        gix_url_text texts[8];
        gix_url_piece pieces[4];
        gix_url_submodule submodules[2];
        size_t indices[4];
        uint8_t dangers[GIX_URL_DANGERS];
    } array;
    union {
        gix_url_rewritten rewritten;
        gix_url_remote remote;
        gix_url_transport transport;
        gix_url_permission permission;
        gix_url_git_place place;
        gix_url_request request;
        gix_url_ssh_command command;
        gix_url_ssh_program program;
        gix_url_settings settings;
        gix_url_credentials credentials;
        gix_url_resolved resolved;
        gix_url_submodule_check check;
    } result;
    size_t needed, more;
    gix_url_stop stop;
} places;

/* The pointers that a call takes: the text, a second one, the location, the configuration, and the places of its
 * result. */
enum { TEXT = 1, OTHER = 2, URL = 4, CONFIG = 8, BUFFER = 16, ARRAY = 32, RESULT = 64, NEEDED = 128, MORE = 256, STOP = 512,
       POINTERS = 1024 };

/* The calls, with one of these pointers null, and buffers of these sizes. */
typedef gix_url_error caller(const input *in, places *to, size_t buffer, size_t array, int null);
#define OR_NULL(pointer, place) (null == (pointer) ? NULL : (place))
#define ENTRIES OR_NULL(CONFIG, in->entries), in->count
#define IN_TEXT OR_NULL(TEXT, in->text.at), in->text.len
#define IN_OTHER OR_NULL(OTHER, in->other.at), in->other.len
#define INTO_BUFFER OR_NULL(BUFFER, to->buffer), buffer
#define INTO_ARRAY(of) OR_NULL(ARRAY, to->array.of), array
#define INTO(of) OR_NULL(RESULT, &to->result.of)
#define INTO_NEEDED OR_NULL(NEEDED, &to->needed)
#define INTO_MORE OR_NULL(MORE, &to->more)
#define INTO_STOP OR_NULL(STOP, &to->stop)
#define CALL(name) static gix_url_error name(const input *in, places *to, size_t buffer, size_t array, int null)
#define UNUSED (void)buffer, (void)array

CALL(list) { return gix_url_read_listing(IN_TEXT, INTO_BUFFER, INTO_ARRAY(entries), INTO_MORE, INTO_NEEDED, INTO_STOP); }
CALL(read) { return gix_url_read_file(IN_TEXT, INTO_BUFFER, INTO_ARRAY(entries), INTO_MORE, INTO_NEEDED, INTO_STOP); }
CALL(fetch) {
    UNUSED;
    return gix_url_rewrite_fetch(ENTRIES, IN_TEXT, INTO_BUFFER, INTO(rewritten), INTO_NEEDED, INTO_STOP);
}
CALL(push) {
    UNUSED;
    return gix_url_rewrite_push(ENTRIES, IN_TEXT, false, INTO_BUFFER, INTO(rewritten), INTO_NEEDED, INTO_STOP);
}
CALL(remote) {
    return gix_url_remote_of(ENTRIES, IN_TEXT, INTO_BUFFER, INTO_ARRAY(texts), INTO(remote), INTO_NEEDED, INTO_MORE, INTO_STOP);
}
CALL(transport) {
    UNUSED;
    return gix_url_transport_of(IN_TEXT, INTO_BUFFER, INTO(transport), INTO_NEEDED);
}
CALL(permit) {
    UNUSED;
    return gix_url_permission_of(ENTRIES, NULL, IN_TEXT, INTO(permission));
}
CALL(dangers) {
    UNUSED;
    return gix_url_dangers_of(IN_TEXT, OR_NULL(URL, &in->url), INTO_ARRAY(dangers), INTO_MORE);
}
CALL(secrets) {
    UNUSED;
    return gix_url_secrets_of(IN_TEXT, INTO_ARRAY(pieces), INTO_MORE);
}
CALL(place) {
    UNUSED;
    return gix_url_git_reading(IN_TEXT, INTO_BUFFER, INTO(place), INTO_NEEDED);
}
CALL(request) {
    UNUSED;
    return gix_url_credential_reading(IN_TEXT, INTO_BUFFER, INTO(request), INTO_NEEDED);
}
CALL(words) {
    static const gix_url_ssh_request usual = {.version = 2}, none = {.version = 3};
    const gix_url_ssh_request *asked = in->text.at ? &usual : &none;
    return gix_url_ssh_words(OR_NULL(URL, &in->url), OR_NULL(OTHER, asked), INTO_BUFFER, INTO_ARRAY(texts), INTO(command),
                             INTO_NEEDED, INTO_MORE);
}
CALL(program) {
    UNUSED;
    return gix_url_ssh_program_of(ENTRIES, NULL, INTO_BUFFER, INTO(program), INTO_NEEDED, INTO_STOP);
}
CALL(settings) {
    UNUSED;
    return gix_url_settings_of(ENTRIES, IN_OTHER, IN_TEXT, INTO_ARRAY(indices), INTO(settings), INTO_MORE, INTO_STOP);
}
CALL(credentials) {
    return gix_url_credentials_of(ENTRIES, IN_TEXT, INTO_BUFFER, INTO_ARRAY(indices), INTO(credentials), INTO_NEEDED,
                                  INTO_MORE, INTO_STOP);
}
CALL(resolve) {
    UNUSED;
    return gix_url_resolve_submodule(IN_OTHER, IN_TEXT, INTO_BUFFER, INTO(resolved), INTO_NEEDED);
}
CALL(check) {
    UNUSED;
    return gix_url_check_submodule(OR_NULL(CONFIG, in->entries), INTO(check));
}
CALL(submodules) {
    return gix_url_submodules_of(ENTRIES, INTO_BUFFER, INTO_ARRAY(submodules), INTO_MORE, INTO_NEEDED);
}

/* The pointers that each call takes, those that must not be null, and the size of an element of its array. */
#define STOPS(call) call, CONFIG | BUFFER | RESULT | NEEDED | STOP
enum { LIST, READ, FETCH, PUSH, REMOTE, TRANSPORT, PERMIT, DANGERS, SECRETS, PLACE, REQUEST, WORDS, PROGRAM, SETTINGS,
       CREDENTIALS, RESOLVE, CHECK, SUBMODULES, CALLS };
static const struct {
    caller *call;
    int takes, wants;
    size_t element;
} calls[CALLS] = {
    [LIST] = {list, TEXT | BUFFER | ARRAY | MORE | NEEDED | STOP, MORE, sizeof(gix_url_entry)},
    [READ] = {read, TEXT | BUFFER | ARRAY | MORE | NEEDED | STOP, MORE, sizeof(gix_url_entry)},
    [FETCH] = {STOPS(fetch) | TEXT, RESULT, 0},
    [PUSH] = {STOPS(push) | TEXT, RESULT, 0},
    [REMOTE] = {STOPS(remote) | TEXT | ARRAY | MORE, RESULT, sizeof(gix_url_text)},
    [TRANSPORT] = {transport, TEXT | BUFFER | RESULT | NEEDED, RESULT, 0},
    [PERMIT] = {permit, CONFIG | TEXT | RESULT, RESULT, 0},
    [DANGERS] = {dangers, TEXT | URL | ARRAY | MORE, URL | MORE, 1},
    [SECRETS] = {secrets, TEXT | ARRAY | MORE, MORE, sizeof(gix_url_piece)},
    [PLACE] = {place, TEXT | BUFFER | RESULT | NEEDED, RESULT, 0},
    [REQUEST] = {request, TEXT | BUFFER | RESULT | NEEDED, RESULT, 0},
    [WORDS] = {words, URL | OTHER | BUFFER | ARRAY | RESULT | NEEDED | MORE, URL | OTHER | RESULT, sizeof(gix_url_text)},
    [PROGRAM] = {STOPS(program), RESULT, 0},
    [SETTINGS] = {settings, CONFIG | OTHER | TEXT | ARRAY | RESULT | MORE | STOP, RESULT, sizeof(size_t)},
    [CREDENTIALS] = {STOPS(credentials) | TEXT | ARRAY | MORE, RESULT, sizeof(size_t)},
    [RESOLVE] = {resolve, OTHER | TEXT | BUFFER | RESULT | NEEDED, RESULT, 0},
    [CHECK] = {check, CONFIG | RESULT, CONFIG | RESULT, 0},
    [SUBMODULES] = {submodules, CONFIG | BUFFER | ARRAY | MORE | NEEDED, MORE, sizeof(gix_url_submodule)},
};

/* A call, its input, and its result: an error with its position, or this many bytes and elements. */
typedef struct row {
    int call;
    const char *config, *text, *other;
    gix_url_error error;
    gix_url_stop stop;
    size_t needed, more;
} row;

static const row rows[] = {
    {LIST, "", "a.b\nv_c.d_", "", GIX_URL_OK, {0}, 5, 2},
    {LIST, "", "", "", GIX_URL_OK, {0}, 0, 0},
    {LIST, "", "a.b_cd_e.f_", "", GIX_URL_NO_CONFIGURATION, {4, 0, GIX_URL_FLAW_NO_KEY}, 0, 0},
    {LIST, "", "a.b_c.d", "", GIX_URL_NO_CONFIGURATION, {4, 0, GIX_URL_FLAW_NO_END}, 0, 0},
    {READ, "", "[a]b=v\nc", "", GIX_URL_OK, {0}, 5, 2},
    {READ, "", "[a]b=v\n\n[", "", GIX_URL_NO_CONFIGURATION, {9, 4, GIX_URL_FLAW_BAD_SECTION}, 0, 0},
    {FETCH, "url.a:.insteadof\nx:_", "x:p", "", GIX_URL_OK, {0}, 3, 0},
    {FETCH, "a.b_url.a:.insteadof_", "x:p", "", GIX_URL_NO_VALUE, {4, 0, GIX_URL_FLAW_NONE}, 0, 0},
    {PUSH, "url.ab:.pushinsteadof\nx:_", "x:p", "", GIX_URL_OK, {0}, 4, 0},
    {PUSH, "url.ab:.pushinsteadof_", "x:p", "", GIX_URL_NO_VALUE, {0, 0, GIX_URL_FLAW_NONE}, 0, 0},
    {REMOTE, "remote.o.url\nabc_remote.o.proxy\npq_", "o", "", GIX_URL_OK, {0}, 8, 2},
    {REMOTE, "a.b_remote.o.url_", "o", "", GIX_URL_NO_VALUE, {4, 0, GIX_URL_FLAW_NONE}, 0, 0},
    {REMOTE, "a.b_url.o.insteadof_", "o", "", GIX_URL_NO_VALUE, {4, 0, GIX_URL_FLAW_NONE}, 0, 0},
    {TRANSPORT, "", "https://h/", "", GIX_URL_OK, {0}, 5, 0},
    {TRANSPORT, "", "-x", "", GIX_URL_OK, {0}, 0, 0},
    {PERMIT, "protocol.allow\nnever_", "https", "", GIX_URL_OK, {0}, 0, 0},
    {PERMIT, "", "\xff", "", GIX_URL_NO_LOCATION, {0}, 0, 0},
    {DANGERS, "", "https://u:p@-h/", "u:p@-h", GIX_URL_OK, {0}, 0, 2},
    {DANGERS, "", "x", "\xff", GIX_URL_NO_LOCATION, {0}, 0, 0},
    {SECRETS, "", "x", "", GIX_URL_OK, {0}, 0, 1},
    {PLACE, "", "ssh://u@host:22/p", "", GIX_URL_OK, {0}, 7, 0},
    {PLACE, "", "ext::sh", "", GIX_URL_OK, {0}, 0, 0},
    {REQUEST, "", "https://u:p@h/", "", GIX_URL_OK, {0}, 8, 0},
    {REQUEST, "", "/p", "", GIX_URL_OK, {0}, 0, 0},
    {WORDS, "", "", "h", GIX_URL_OK, {0}, 43, 4},
    {WORDS, "", "", "-h", GIX_URL_OK, {0}, 0, 0},
    {WORDS, "", "", "\xff", GIX_URL_NO_LOCATION, {0}, 0, 0},
    {WORDS, "", NULL, "h", GIX_URL_NO_LOCATION, {0}, 0, 0},
    {PROGRAM, "core.sshcommand\nssh -v_", "", "", GIX_URL_OK, {0}, 6, 0},
    {PROGRAM, "a.b_ssh.variant_", "", "", GIX_URL_NO_VALUE, {4, 0, GIX_URL_FLAW_NONE}, 0, 0},
    {SETTINGS, "http.extraheader\na_http.https://h.extraheader\nb_", "https://h/p", "extraheader", GIX_URL_OK, {0}, 0, 2},
    {SETTINGS, "a.b_http.extraheader_", "https://h/p", "extraheader", GIX_URL_NO_VALUE, {4, 0, GIX_URL_FLAW_NONE}, 0, 0},
    {SETTINGS, "", "https://h/p", "\xff", GIX_URL_NO_LOCATION, {0}, 0, 0},
    {CREDENTIALS, "credential.helper\na_credential.username\nme_", "https://h/p", "", GIX_URL_OK, {0}, 2, 1},
    {CREDENTIALS, "credential.helper\na_", "/p", "", GIX_URL_OK, {0}, 0, 0},
    {CREDENTIALS, "a.b_credential.helper_", "https://h/p", "", GIX_URL_NO_VALUE, {4, 0, GIX_URL_FLAW_NONE}, 0, 0},
    {CREDENTIALS, "a.b_credential.usehttppath\nx_", "https://h/p", "", GIX_URL_NO_BOOLEAN, {4, 0, GIX_URL_FLAW_NONE}, 0, 0},
    {RESOLVE, "", "../b", "https://h/a", GIX_URL_OK, {0}, 11, 0},
    {RESOLVE, "", "../b", "", GIX_URL_OK, {0}, 0, 0},
    {CHECK, "submodule.a.url\n-x_", "", "", GIX_URL_OK, {0}, 0, 0},
    {SUBMODULES, "submodule.ab.url\nu_submodule.c.path\np_", "", "", GIX_URL_OK, {0}, 3, 2},
};

/* A text in which an underscore is written for a byte 0. */
static gix_url_text text_of(const char *word, char *copy) {
    gix_url_text text = {copy, word ? strlen(word) : 0};
    for (size_t i = 0; i < text.len; i++) copy[i] = word[i] == '_' ? '\0' : word[i];
    if (!word) text.at = NULL;
    return text;
}

/* The input of a row. The location has the second text as its host, and a user and a password before an @ in it. */
static void make(const row *row, input *in) {
    static char buffer[256], config[256], texts[2][64];
    gix_url_text listing = text_of(row->config, config);
    memset(in, 0, sizeof *in);
    in->text = text_of(row->text, texts[0]);
    in->other = text_of(row->other, texts[1]);
    HOLDS(gix_url_read_listing(listing.at, listing.len, buffer, sizeof buffer, in->entries, 4, &in->count, NULL, NULL) == GIX_URL_OK);
    in->url = (gix_url){.scheme = GIX_URL_SSH, .host = in->other, .path = {"/p", 2}};
    if (row->call == DANGERS && row->more)
        in->url = (gix_url){.scheme = GIX_URL_HTTPS, .password = {"p", 1}, .host = {"-h", 2}, .path = {"/", 1}};
}

static const size_t ample = sizeof((places *)0)->buffer;

/* How many elements fit into the array. */
static size_t ample_array(const row *row) {
    size_t element = calls[row->call].element;
    return element ? sizeof((places *)0)->array / element : 0;
}

/* Makes the call over memory that holds a pattern. */
static gix_url_error made(const row *row, const input *in, places *to, size_t buffer, size_t array, int null) {
    memset(to, 0xA5, sizeof *to);
    return calls[row->call].call(in, to, buffer, array, null);
}

/* Checks what the row's call stores with buffers of these sizes, and with no pointer null. */
static void leaves(const row *row, const input *in, size_t buffer, size_t array) {
    static places got, kept;
    gix_url_error wanted = row->error;
    bool is_short = buffer < row->needed || array < row->more;
    if (wanted == GIX_URL_OK && is_short) wanted = GIX_URL_NO_ROOM;
    HOLDS(made(row, in, &got, buffer, array, 0) == wanted);
    memset(&kept, 0xA5, sizeof kept);
    int takes = calls[row->call].takes;
    if (takes & STOP) memset(&kept.stop, 0, sizeof kept.stop), kept.stop = row->stop;
    if (wanted == GIX_URL_OK || wanted == GIX_URL_NO_ROOM) {
        if (takes & NEEDED) kept.needed = row->needed;
        if (takes & MORE) kept.more = row->more;
    }
    if (wanted == GIX_URL_OK) {
        memcpy(kept.buffer, got.buffer, row->needed);
        memcpy(&kept.array, &got.array, row->more * calls[row->call].element);
        memcpy(&kept.result, &got.result, sizeof kept.result);
    }
    HOLDS(memcmp(&got, &kept, sizeof got) == 0);
}

/* Checks that with this pointer null the call stores the same as with an empty buffer in its place, and nothing
 * there. */
static void is_alike(const row *row, const input *in, int null) {
    static places same, got;
    input without = *in;
    size_t buffer = null == BUFFER ? 0 : ample, array = null == ARRAY ? 0 : ample_array(row);
    if (null == TEXT) without.text.len = 0;
    if (null == OTHER) without.other.len = 0;
    if (null == CONFIG) without.count = 0;
    gix_url_error error = made(row, in, &same, ample, ample_array(row), null);
    /* Texts point into the buffer, so it has to be the same one. */
    memcpy(&got, &same, sizeof got);
    HOLDS(made(row, &without, &same, buffer, array, 0) == error);
    if (null == NEEDED) memset(&same.needed, 0xA5, sizeof same.needed);
    if (null == MORE) memset(&same.more, 0xA5, sizeof same.more);
    if (null == STOP) memset(&same.stop, 0xA5, sizeof same.stop);
    HOLDS(memcmp(&got, &same, sizeof got) == 0);
}

/* Checks that with this pointer null the call is refused, and stores only that there is no stop. */
static void is_refused(const row *row, const input *in, int null) {
    static places got, kept;
    HOLDS(made(row, in, &got, ample, ample_array(row), null) == GIX_URL_NULL);
    memset(&kept, 0xA5, sizeof kept);
    if (calls[row->call].takes & STOP) memset(&kept.stop, 0, sizeof kept.stop);
    HOLDS(memcmp(&got, &kept, sizeof got) == 0);
}

/* Checks that entries with any null pointer are refused. */
static void refuses_entries(const row *row, const input *in) {
    for (int part = 0; part < 4; part++) {
        input broken = *in;
        gix_url_entry *last = &broken.entries[broken.count - 1];
        (part == 0 ? &last->section : part == 1 ? &last->subsection : part == 2 ? &last->name : &last->value)->at = NULL;
        is_refused(row, &broken, 0);
    }
}

static void of_row(const row *row) {
    input in;
    make(row, &in);
    about((gix_url_text){row->config, strlen(row->config)});
    size_t array = ample_array(row);
    leaves(row, &in, ample, array);
    leaves(row, &in, row->needed, array);
    if (row->needed) leaves(row, &in, row->needed - 1, array);
    if (row->more) leaves(row, &in, ample, row->more), leaves(row, &in, ample, row->more - 1);
    for (int null = 1; null < POINTERS; null *= 2) {
        if (!(null & calls[row->call].takes)) continue;
        if (null & calls[row->call].wants) is_refused(row, &in, null);
        else is_alike(row, &in, null);
    }
    if (calls[row->call].takes & CONFIG && in.count) refuses_entries(row, &in);
}

/* Checks that nothing is written for numbers without a danger. */
static void of_numbers(void) {
    static const int numbers[] = {-1, 0, 11, 255, 256 + 1};
    for (size_t i = 0; i < sizeof numbers / sizeof *numbers; i++) {
        char buffer[64];
        size_t needed = 1;
        memset(buffer, 0xA5, sizeof buffer);
        HOLDS(gix_url_danger_name((gix_url_danger)numbers[i], buffer, sizeof buffer, &needed) == GIX_URL_NO_LOCATION && !needed);
        HOLDS(gix_url_danger_words((gix_url_danger)numbers[i], buffer, sizeof buffer, NULL) == GIX_URL_NO_LOCATION);
        HOLDS((unsigned char)buffer[0] == 0xA5);
    }
}

int main(void) {
    for (size_t i = 0; i < sizeof rows / sizeof *rows; i++) of_row(&rows[i]);
    of_numbers();
    return 0;
}
