/* Makes every call of gix_url.h and gix_url_rules.h over the input of a fuzzer, and checks its guarantees:
 * LLVMFuzzerTestOneInput is called by libFuzzer, or by bindings/tests/fuzz_driver.c. scripts/fuzz builds and runs it.
 *
 * The first byte determines what the others are: a text; or a location, whose parts are overlapping slices of the
 * bytes; or a configuration and a text. If FUZZ_PART in the environment names a part of the calls, they are its input.
 * Buffers end at memory that can't be accessed. They are just large enough, one byte too short, and empty. */
#include "fuzz_rules.h"

#include <pthread.h>
#include <string.h>

enum { THREADS = 4, THREADED = 64, RULES = 4 };

/* The next byte of the input; 0 after its end. */
static uint8_t next(gix_url_text *from) {
    if (from->len == 0) return 0;
    from->len--;
    return (uint8_t)*from->at++;
}

/* A location of slices of the bytes. A missing part has a length all the same. */
static gix_url parts_of(gix_url_text *from) {
    gix_url url;
    memset(&url, 0, sizeof url);
    gix_url_text *parts[] = {&url.name, &url.user, &url.password, &url.host, &url.path, &url.spelling};
    uint8_t cuts[2 * 6], flags;
    url.scheme = (gix_url_scheme)(next(from) % 9);
    flags = next(from);
    url.alternative = flags & 64;
    url.has_port = flags & 128;
    url.port = (uint16_t)(next(from) << 8 | next(from));
    for (size_t i = 0; i < sizeof cuts; i++) cuts[i] = next(from);
    for (size_t i = 0; i < 6; i++) {
        size_t at = cuts[2 * i] % (from->len + 1);
        bool is_there = flags >> i & 1;
        *parts[i] = (gix_url_text){is_there ? from->at + at : NULL, is_there ? cuts[2 * i + 1] % (from->len - at + 1) : SIZE_MAX};
    }
    return url;
}

static bool is_blank(const char *bytes, size_t len) {
    for (size_t i = 0; i < len; i++)
        if ((uint8_t)bytes[i] != 0xA5) return false;
    return true;
}

static bool has_no_problem(const gix_url_problem *problem) {
    static const gix_url_problem none;
    return memcmp(problem, &none, sizeof none) == 0;
}

/* Checks that a reason has a name and a sentence, and another number has none. */
static void has_texts(gix_url_reason reason) {
    size_t len = 0;
    if (reason) {
        free(text_of_reason(gix_url_reason_name, reason, &len));
        HOLDS(len > 0);
        free(text_of_reason(gix_url_reason_words, reason, &len));
        HOLDS(len > 0);
    } else {
        HOLDS(gix_url_reason_name(reason, NULL, 0, &len) == GIX_URL_NO_LOCATION && len == 0);
        HOLDS(gix_url_reason_words(reason, NULL, 0, &len) == GIX_URL_NO_LOCATION && len == 0);
    }
}

/* Checks that a problem is that of its error, and all 0 without an error. */
static void is_problem_of(gix_url_error error, const gix_url_problem *problem) {
    const char *words = gix_url_error_words(error, problem);
    HOLDS(*words && strcmp(gix_url_error_name(error), "?") != 0);
    HOLDS(strcmp(gix_url_kind_name(problem->kind), "?") != 0 && strcmp(gix_url_fault_name(problem->fault), "?") != 0);
    HOLDS(strcmp(gix_url_write_fault_name(problem->write_fault), "?") != 0);
    HOLDS((error == GIX_URL_BAD_URL) == (problem->fault != 0));
    HOLDS((error == GIX_URL_UNWRITABLE) == (problem->write_fault != 0));
    HOLDS(is_refusal(error) == (problem->reason != 0) && (problem->reason != 0 || (problem->at == 0 && problem->len == 0)));
    has_texts(problem->reason);
    HOLDS((error == GIX_URL_TOO_LONG) == (problem->total != 0) && problem->shown <= problem->total);
    if (error == GIX_URL_OK || error == GIX_URL_NO_ROOM || error == GIX_URL_NO_LOCATION) HOLDS(has_no_problem(problem));
}

/* The text that a call writes, into a buffer that is one byte too short, which must stay unchanged, and into a buffer
 * that is just large enough. The caller frees the result. */
static char *put_of(putter *call, const gix_url *url, size_t *len) {
    gix_url_problem problem;
    size_t again = 77;
    gix_url_error error = call(url, NULL, SIZE_MAX, len, &problem);
    is_problem_of(error, &problem);
    if (error == GIX_URL_OK) {
        HOLDS(*len == 0);
        return calloc(1, 1);
    }
    if (error != GIX_URL_NO_ROOM) {
        HOLDS(call(url, NULL, 0, &again, NULL) == error && again == 77);
        return NULL;
    }
    char *buffer = at_wall(1, NULL, *len - 1);
    memset(buffer, 0xA5, *len - 1);
    HOLDS(call(url, buffer, *len - 1, &again, &problem) == GIX_URL_NO_ROOM && again == *len);
    HOLDS(is_blank(buffer, *len - 1) && has_no_problem(&problem));
    buffer = at_wall(1, NULL, *len);
    HOLDS(call(url, buffer, *len, &again, &problem) == GIX_URL_OK && again == *len && has_no_problem(&problem));
    char *text = malloc(*len);
    HOLDS(text);
    memcpy(text, buffer, *len);
    return text;
}

/* The location as a call returns it: with a path, no name that its scheme doesn't have, and no number without a
 * port. */
static gix_url answered(gix_url url) {
    static const gix_url_text empty = {"", 0};
    if (!url.path.at) url.path = empty;
    if (url.scheme < GIX_URL_HELPER) url.name.at = NULL;
    else if (!url.name.at) url.name = empty;
    if (!url.has_port) url.port = 0;
    return url;
}

/* Checks that a settled location is built from its own parts, if it is settled without its spelling, which isn't
 * compared. */
static void is_remade(const gix_url *url, size_t len) {
    gix_url made = *url;
    const gix_url wanted = answered(*url);
    gix_url_problem problem;
    bool settled;
    made.spelling.at = NULL;
    HOLDS(gix_url_is_settled(&made, &settled) == GIX_URL_OK);
    if (!settled) return;
    size_t buffer_len = GIX_URL_ROOM(len);
    char *buffer = malloc(buffer_len);
    /* The parts and the result are the same struct. */
    HOLDS(buffer && gix_url_from_parts(&made, buffer, buffer_len, &made, NULL, &problem) == GIX_URL_OK);
    HOLDS(has_same_fields(&wanted, &made) && has_no_problem(&problem));
    free(buffer);
}

/* Checks that a settled location is parsed and written the same again. */
static void comes_back(const gix_url *url, const char *text, size_t len) {
    gix_url again;
    const gix_url wanted = answered(*url);
    gix_url_error error;
    gix_url_problem problem;
    size_t len_again = 0;
    char *buffer = read_input((gix_url_text){text, len}, &again, &error, &problem);
    HOLDS(error == GIX_URL_OK && has_same_fields(&wanted, &again));
    char *text_again = put_of(gix_url_write, &again, &len_again);
    HOLDS(len_again == len && memcmp(text, text_again, len) == 0);
    free(text_again);
    free(buffer);
    is_remade(url, len);
}

/* Checks that no call accepts a struct that isn't a location, and that none stores anything. */
static void is_no_location(const gix_url *url) {
    gix_url made;
    gix_url_problem problem;
    gix_url_seen seen;
    gix_url_components parts;
    gix_url_condition unmet;
    bool is;
    size_t len;
    HOLDS(gix_url_agrees_with_git(url, &is) == GIX_URL_NO_LOCATION && gix_url_look(url, &seen) == GIX_URL_NO_LOCATION);
    HOLDS(gix_url_is_unambiguous(url, &is) == GIX_URL_NO_LOCATION && gix_url_unmet_condition(url, &unmet) == GIX_URL_NO_LOCATION);
    HOLDS(gix_url_write(url, NULL, 9, &len, &problem) == GIX_URL_NO_LOCATION && has_no_problem(&problem));
    HOLDS(gix_url_display(url, NULL, 9, &len, &problem) == GIX_URL_NO_LOCATION && has_no_problem(&problem));
    HOLDS(gix_url_from_parts(url, NULL, 9, &made, &len, &problem) == GIX_URL_NO_LOCATION && has_no_problem(&problem));
    HOLDS(gix_url_path_query_fragment(url, NULL, 9, NULL, 9, &parts, &len, &len) == GIX_URL_NO_LOCATION);
}

/* Checks that a usable part doesn't begin with -, and that a dangerous one does. */
static void is_judged(gix_url_argument judged, gix_url_text part) {
    bool is_option = part.at && part.len && *part.at == '-';
    HOLDS(judged == (part.at ? is_option ? GIX_URL_DANGEROUS : GIX_URL_USABLE : GIX_URL_ABSENT));
}

static void is_seen(const gix_url *url) {
    gix_url_seen seen;
    HOLDS(gix_url_look(url, &seen) == GIX_URL_OK);
    is_judged(seen.user, url->user);
    is_judged(seen.host, url->host);
    HOLDS(!url->has_port || (seen.has_port && seen.port == url->port));
    HOLDS(is_same(seen.original_path, url->spelling) || is_same(seen.original_path, url->path));
    HOLDS(seen.original_path.at || seen.original_path.len == 0);
    gix_url_text scheme = gix_url_scheme_text(url);
    HOLDS(url->scheme < GIX_URL_HELPER ? scheme.len >= 3 : url->name.at ? is_same(scheme, url->name) : scheme.len == 0);
}

/* Checks that an unambiguous location agrees with Git, and that an unmet condition has a name. */
static void is_met(const gix_url *url, bool agrees) {
    bool unambiguous;
    gix_url_condition unmet;
    HOLDS(gix_url_is_unambiguous(url, &unambiguous) == GIX_URL_OK);
    HOLDS(gix_url_unmet_condition(url, &unmet) == GIX_URL_OK);
    HOLDS(unambiguous == (unmet == GIX_URL_CONDITION_NONE) && agrees == (unmet != GIX_URL_CONDITION_GIT));
    HOLDS(strcmp(gix_url_condition_name(unmet), "?") != 0);
}

/* Makes all calls over a location. */
static void is_answered(const gix_url *url) {
    bool settled, agrees;
    size_t len = 0, shown_len = 0;
    gix_url_components parts;
    gix_url_error error = gix_url_is_settled(url, &settled);
    HOLDS(error == GIX_URL_OK || error == GIX_URL_NO_LOCATION);
    if (error == GIX_URL_NO_LOCATION) {
        is_no_location(url);
        return;
    }
    HOLDS(gix_url_agrees_with_git(url, &agrees) == GIX_URL_OK && (settled || !agrees));
    is_met(url, agrees);
    is_seen(url);
    char *text = put_of(gix_url_write, url, &len);
    char *shown = put_of(gix_url_display, url, &shown_len);
    HOLDS(!text == !shown && (text || !settled));
    if (settled) comes_back(url, text, len);
    free(shown);
    free(text);
    free(components_of(url, &parts));
    gix_url_pair pair;
    HOLDS(gix_url_path_query_fragment(url, NULL, SIZE_MAX, &pair, SIZE_MAX, &parts, NULL, &len) != GIX_URL_OK || len == 0);
}

/* Checks that parts are refused with the error of their text, which is written without their spelling. */
static void is_refused(gix_url parts, gix_url_error error, const gix_url_problem *problem) {
    size_t len = 0;
    parts.spelling.at = NULL;
    char *text = put_of(gix_url_write, &parts, &len);
    HOLDS(text);
    is_refused_so((gix_url_text){text, len}, error, problem);
    free(text);
}

static void is_made(const gix_url *parts) {
    gix_url url;
    gix_url_error error;
    gix_url_problem problem;
    char *buffer = make_parts(parts, &url, &error, &problem);
    is_problem_of(error, &problem);
    if (is_refusal(error)) is_refused(*parts, error, &problem);
    if (error == GIX_URL_OK) is_answered(&url);
    free(buffer);
}

static void is_read(gix_url_text input) {
    gix_url url;
    gix_url_error error;
    gix_url_problem problem;
    char *buffer = read_input(input, &url, &error, &problem);
    is_problem_of(error, &problem);
    HOLDS(problem.at <= input.len && problem.len <= input.len - problem.at);
    if (error == GIX_URL_OK) is_answered(&url);
    free(buffer);
}

/* The input and the results of one thread. */
typedef struct work {
    gix_url_text input;
    gix_url_error error;
    char *buffer, *text;
    size_t len;
} work;

static void *works(void *of) {
    work *work = of;
    gix_url url;
    size_t capacity = GIX_URL_ROOM(work->input.len);
    work->buffer = malloc(capacity);
    work->error = gix_url_parse(work->input.at, work->input.len, work->buffer, capacity, &url, NULL, NULL);
    if (work->error != GIX_URL_OK || gix_url_write(&url, NULL, 0, &work->len, NULL) != GIX_URL_NO_ROOM) return NULL;
    work->text = malloc(work->len);
    gix_url_write(&url, work->text, work->len, &work->len, NULL);
    return NULL;
}

/* Checks that threads over the same bytes have the same results. */
static void is_threaded(gix_url_text input) {
    pthread_t threads[THREADS];
    work works_of[THREADS];
    for (size_t i = 0; i < THREADS; i++) {
        works_of[i] = (work){.input = input};
        HOLDS(pthread_create(&threads[i], NULL, works, &works_of[i]) == 0);
    }
    for (size_t i = 0; i < THREADS; i++) {
        const work *one = &works_of[i], *first = works_of;
        HOLDS(pthread_join(threads[i], NULL) == 0);
        HOLDS(one->error == first->error && one->len == first->len && !one->text == !first->text);
        HOLDS(!one->text || memcmp(one->text, first->text, one->len) == 0);
    }
    for (size_t i = 0; i < THREADS; i++) free(works_of[i].buffer), free(works_of[i].text);
}

/* The kind of an input: that of its first byte, or of the named part. */
static uint8_t kind_of(uint8_t first) {
    bool reads = is_asked_for("text"), shares = is_asked_for("threads");
    if (reads && shares) return first;
    return reads ? 2 : shares ? 0 : is_asked_for("location") ? 1 : RULES;
}

int LLVMFuzzerTestOneInput(const uint8_t *data, size_t len);
int LLVMFuzzerTestOneInput(const uint8_t *data, size_t len) {
    gix_url_text input = {(const char *)data, len};
    about(input);
    uint8_t kind = kind_of(next(&input));
    HOLDS(strcmp(gix_url_version(), GIX_URL_VERSION) == 0);
    if (kind & RULES) {
        by_rules(input);
    } else if (kind & 1) {
        gix_url url = parts_of(&input);
        is_answered(&url);
        is_made(&url);
    } else {
        if (is_asked_for("text")) is_read(input);
        if (kind % THREADED == 0 && is_asked_for("threads")) is_threaded(input);
    }
    return 0;
}
