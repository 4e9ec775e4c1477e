/* Checks what each call stores: with each pointer null in turn, with structs that aren't a location, with a location
 * without a text, and with a buffer that is one byte too short. Each byte that a call may store into is compared with
 * its previous value. */
#include "reported.h"

#include <string.h>

#define TEXT(word) {word, sizeof word - 1}

static gix_url_text text(const char *word) { return (gix_url_text){word, strlen(word)}; }

/* The memory that the calls store into. */
typedef struct places {
    gix_url url;
    gix_url_seen seen;
    gix_url_components parts;
    gix_url_pair pairs[2];
    bool is;
    gix_url_condition unmet;
    size_t len, count;
    gix_url_problem problem;
    char buffer[64];
} places;

/* The pointers that a call takes: its subject, and the places of its results. */
enum { SUBJECT = 1, BUFFER = 2, PAIRS = 4, ANSWER = 8, LENGTH = 16, COUNT = 32, PROBLEM = 64, POINTERS = 128 };

/* The calls, with one of these pointers null. */
typedef gix_url_error caller(const gix_url *url, places *to, size_t buffer, int null);
#define OR_NULL(pointer, place) (null == (pointer) ? NULL : (place))

static gix_url_error parse(const gix_url *url, places *to, size_t buffer, int null) {
    return gix_url_parse(OR_NULL(SUBJECT, url->path.at), url->path.len, OR_NULL(BUFFER, to->buffer), buffer, OR_NULL(ANSWER, &to->url),
                         OR_NULL(LENGTH, &to->len), OR_NULL(PROBLEM, &to->problem));
}

static gix_url_error make(const gix_url *url, places *to, size_t buffer, int null) {
    return gix_url_from_parts(OR_NULL(SUBJECT, url), OR_NULL(BUFFER, to->buffer), buffer, OR_NULL(ANSWER, &to->url),
                              OR_NULL(LENGTH, &to->len), OR_NULL(PROBLEM, &to->problem));
}

static gix_url_error settle(const gix_url *url, places *to, size_t buffer, int null) {
    (void)buffer;
    return gix_url_is_settled(OR_NULL(SUBJECT, url), OR_NULL(ANSWER, &to->is));
}

static gix_url_error agree(const gix_url *url, places *to, size_t buffer, int null) {
    (void)buffer;
    return gix_url_agrees_with_git(OR_NULL(SUBJECT, url), OR_NULL(ANSWER, &to->is));
}

static gix_url_error judge(const gix_url *url, places *to, size_t buffer, int null) {
    (void)buffer;
    return gix_url_is_unambiguous(OR_NULL(SUBJECT, url), OR_NULL(ANSWER, &to->is));
}

static gix_url_error meet(const gix_url *url, places *to, size_t buffer, int null) {
    (void)buffer;
    return gix_url_unmet_condition(OR_NULL(SUBJECT, url), OR_NULL(ANSWER, &to->unmet));
}

static gix_url_error write(const gix_url *url, places *to, size_t buffer, int null) {
    return gix_url_write(OR_NULL(SUBJECT, url), OR_NULL(BUFFER, to->buffer), buffer, OR_NULL(LENGTH, &to->len),
                         OR_NULL(PROBLEM, &to->problem));
}

static gix_url_error show(const gix_url *url, places *to, size_t buffer, int null) {
    return gix_url_display(OR_NULL(SUBJECT, url), OR_NULL(BUFFER, to->buffer), buffer, OR_NULL(LENGTH, &to->len),
                           OR_NULL(PROBLEM, &to->problem));
}

static gix_url_error look(const gix_url *url, places *to, size_t buffer, int null) {
    (void)buffer;
    return gix_url_look(OR_NULL(SUBJECT, url), OR_NULL(ANSWER, &to->seen));
}

static gix_url_error part(const gix_url *url, places *to, size_t buffer, int null) {
    return gix_url_path_query_fragment(OR_NULL(SUBJECT, url), OR_NULL(BUFFER, to->buffer), buffer, OR_NULL(PAIRS, to->pairs), 2,
                                       OR_NULL(ANSWER, &to->parts), OR_NULL(LENGTH, &to->len), OR_NULL(COUNT, &to->count));
}

/* The pointers that each call takes, and those that must not be null. */
enum { OF_READ, OF_MAKE, OF_SETTLED, OF_AGREES, OF_JUDGED, OF_MET, OF_WRITE, OF_SHOW, OF_LOOK, OF_PARTS, CALLS };
static const struct {
    caller *call;
    int takes, wants;
} calls[CALLS] = {
    [OF_READ] = {parse, SUBJECT | BUFFER | ANSWER | LENGTH | PROBLEM, ANSWER},
    [OF_MAKE] = {make, SUBJECT | BUFFER | ANSWER | LENGTH | PROBLEM, SUBJECT | ANSWER},
    [OF_SETTLED] = {settle, SUBJECT | ANSWER, SUBJECT | ANSWER},
    [OF_AGREES] = {agree, SUBJECT | ANSWER, SUBJECT | ANSWER},
    [OF_JUDGED] = {judge, SUBJECT | ANSWER, SUBJECT | ANSWER},
    [OF_MET] = {meet, SUBJECT | ANSWER, SUBJECT | ANSWER},
    [OF_WRITE] = {write, SUBJECT | BUFFER | LENGTH | PROBLEM, SUBJECT | LENGTH},
    [OF_SHOW] = {show, SUBJECT | BUFFER | LENGTH | PROBLEM, SUBJECT | LENGTH},
    [OF_LOOK] = {look, SUBJECT | ANSWER, SUBJECT | ANSWER},
    [OF_PARTS] = {part, SUBJECT | BUFFER | PAIRS | ANSWER | LENGTH | COUNT, SUBJECT | ANSWER},
};

/* The expected result of a call: an error with its problem, or GIX_URL_OK with this many bytes, and for components this
 * many pairs. */
typedef struct answer {
    gix_url_error error;
    gix_url_problem problem;
    size_t len, count;
} answer;

/* The expected result with this pointer null, in a buffer of this size. */
static answer answer_with(int call, answer wanted, size_t buffer, int null) {
    if (null & calls[call].wants) wanted = (answer){.error = GIX_URL_NULL};
    else if (null == SUBJECT) wanted = (answer){.error = GIX_URL_EMPTY_LOCAL, .problem.reason = GIX_URL_REASON_EMPTY};
    else if (wanted.error == GIX_URL_OK && (buffer < wanted.len || (null == BUFFER && wanted.len) || (null == PAIRS && wanted.count)))
        wanted.error = GIX_URL_NO_ROOM;
    return wanted;
}

/* Stores the expected problem, length and count. */
static void store(int call, const answer *answer, int null, places *to) {
    int stored = calls[call].takes & ~null;
    if (stored & PROBLEM) memcpy(&to->problem, &answer->problem, sizeof to->problem);
    if (answer->error != GIX_URL_OK && answer->error != GIX_URL_NO_ROOM) return;
    if (stored & LENGTH) to->len = answer->len;
    if (stored & COUNT) to->count = answer->count;
}

/* Copies the values that only GIX_URL_OK stores, which other tests check. */
static void take_over(const answer *answer, const places *got, places *to) {
    memcpy(to->buffer, got->buffer, answer->len);
    memcpy(to->pairs, got->pairs, answer->count * sizeof *to->pairs);
    memcpy(&to->url, &got->url, sizeof to->url);
    memcpy(&to->seen, &got->seen, sizeof to->seen);
    memcpy(&to->parts, &got->parts, sizeof to->parts);
    memcpy(&to->is, &got->is, sizeof to->is);
    memcpy(&to->unmet, &got->unmet, sizeof to->unmet);
}

static void answers_so(int call, const gix_url *url, answer wanted, size_t buffer, int null) {
    static places got, kept;
    memset(&got, 0xA5, sizeof got);
    memset(&kept, 0xA5, sizeof kept);
    wanted = answer_with(call, wanted, buffer, null);
    HOLDS(calls[call].call(url, &got, buffer, null) == wanted.error);
    store(call, &wanted, null, &kept);
    if (wanted.error == GIX_URL_OK) take_over(&wanted, &got, &kept);
    HOLDS(memcmp(&got, &kept, sizeof got) == 0);
}

/* Checks the result of the call with no pointer null, and with each in turn; in a buffer that is just large enough, and
 * in one that is one byte too short. */
static void answers(int call, const gix_url *url, answer wanted) {
    about(url->path);
    for (int null = 0; null < POINTERS; null = null ? 2 * null : 1)
        if (null == 0 || null & calls[call].takes) answers_so(call, url, wanted, sizeof((places *)0)->buffer, null);
    answers_so(call, url, wanted, wanted.len, 0);
    if (wanted.len) answers_so(call, url, wanted, wanted.len - 1, 0);
}

/* The refusal of a URL. */
#define REFUSED(error, wrong, why, before, length) \
    {(error), {.kind = GIX_URL_KIND_URL, .fault = (wrong), .reason = (why), .at = (before), .len = (length)}, 0, 0}

/* Inputs, and the results of parsing them. */
static const struct {
    gix_url_text input;
    answer read;
} inputs[] = {
    {TEXT("/a"), {.len = 2}},
    {TEXT("a\0b"), {.len = 3}},
    {TEXT("http://u:secret@h/a?b=c#d"), {.len = 16}},
    {TEXT(""), {GIX_URL_EMPTY_LOCAL, {.reason = GIX_URL_REASON_EMPTY}, 0, 0}},
    {TEXT("http://u:p@h:0/"), REFUSED(GIX_URL_BAD_URL, GIX_URL_BAD_PORT, GIX_URL_REASON_PORT_ZERO, 13, 1)},
    {TEXT("http://h:x/"), REFUSED(GIX_URL_BAD_URL, GIX_URL_BAD_PORT, GIX_URL_REASON_PORT_NOT_A_NUMBER, 9, 1)},
    {TEXT("ssh://h"), REFUSED(GIX_URL_MISSING_PATH, GIX_URL_FAULT_NONE, GIX_URL_REASON_PATH_MISSING, 7, 0)},
    {TEXT("http://h/\xff"), REFUSED(GIX_URL_NOT_UTF8, GIX_URL_FAULT_NONE, GIX_URL_REASON_NOT_UTF8, 9, 1)},
};

#define NO_LOCATION {GIX_URL_NO_LOCATION, {0}, 0, 0}
#define UNWRITABLE(why) {GIX_URL_UNWRITABLE, {.write_fault = (why)}, 0, 0}

/* Locations, and the results of the calls that build, write, show and split them. The calls that inspect a location
 * have the error of the last one. */
static const struct {
    gix_url url;
    answer made, written, shown, parted;
} locations[] = {
    {{.scheme = GIX_URL_HTTP, .user = TEXT("u"), .password = TEXT("secret"), .host = TEXT("h"), .path = TEXT("/a?b=c#d")},
     {.len = 16}, {.len = 25}, {.len = 27}, {.len = 5, .count = 1}},
    {{.scheme = (gix_url_scheme)8}, NO_LOCATION, NO_LOCATION, NO_LOCATION, NO_LOCATION},
    {{.scheme = (gix_url_scheme)256}, NO_LOCATION, NO_LOCATION, NO_LOCATION, NO_LOCATION},
    {{.scheme = GIX_URL_HELPER, .name = TEXT("\xff")}, NO_LOCATION, NO_LOCATION, NO_LOCATION, NO_LOCATION},
    {{.user = TEXT("\xc3")}, NO_LOCATION, NO_LOCATION, NO_LOCATION, NO_LOCATION},
    {{.password = TEXT("\xc3")}, NO_LOCATION, NO_LOCATION, NO_LOCATION, NO_LOCATION},
    {{.host = TEXT("\xff")}, NO_LOCATION, NO_LOCATION, NO_LOCATION, NO_LOCATION},
    {{.scheme = GIX_URL_SSH, .user = TEXT("u"), .password = TEXT("secret"), .path = TEXT("/p")},
     UNWRITABLE(GIX_URL_WRITE_USER_WITHOUT_HOST), UNWRITABLE(GIX_URL_WRITE_USER_WITHOUT_HOST),
     UNWRITABLE(GIX_URL_WRITE_USER_WITHOUT_HOST), {.len = 2}},
    {{.scheme = GIX_URL_SSH, .host = TEXT("h"), .password = TEXT("secret"), .path = TEXT("p")},
     UNWRITABLE(GIX_URL_WRITE_RELATIVE_SSH), UNWRITABLE(GIX_URL_WRITE_RELATIVE_SSH),
     UNWRITABLE(GIX_URL_WRITE_RELATIVE_SSH), {.len = 1}},
    {{.scheme = GIX_URL_HELPER, .name = TEXT("a"), .password = TEXT("secret"), .path = TEXT("x")},
     UNWRITABLE(GIX_URL_WRITE_HELPER_PARTS), UNWRITABLE(GIX_URL_WRITE_HELPER_PARTS), UNWRITABLE(GIX_URL_WRITE_HELPER_PARTS),
     {.len = 1}},
    {{.scheme = GIX_URL_HTTP, .host = TEXT("h"), .has_port = true, .path = TEXT("/p")},
     REFUSED(GIX_URL_BAD_URL, GIX_URL_BAD_PORT, GIX_URL_REASON_PORT_ZERO, 9, 1), {.len = 12}, {.len = 12}, {.len = 2}},
    {{.scheme = GIX_URL_HELPER, .name = TEXT("-a"), .path = TEXT("x")}, {GIX_URL_HELPER_NAME, {0}, 0, 0},
     UNWRITABLE(GIX_URL_WRITE_HELPER_NAME), UNWRITABLE(GIX_URL_WRITE_HELPER_NAME), {.len = 1}},
};

static void of_tables(void) {
    for (size_t i = 0; i < sizeof inputs / sizeof *inputs; i++) {
        gix_url about_input = {.path = inputs[i].input};
        answers(OF_READ, &about_input, inputs[i].read);
    }
    for (size_t i = 0; i < sizeof locations / sizeof *locations; i++) {
        const gix_url *url = &locations[i].url;
        const answer looked = {.error = locations[i].parted.error};
        answers(OF_MAKE, url, locations[i].made);
        answers(OF_WRITE, url, locations[i].written);
        answers(OF_SHOW, url, locations[i].shown);
        answers(OF_PARTS, url, locations[i].parted);
        answers(OF_SETTLED, url, looked);
        answers(OF_AGREES, url, looked);
        answers(OF_JUDGED, url, looked);
        answers(OF_MET, url, looked);
        answers(OF_LOOK, url, looked);
    }
}

/* Checks that an array of pairs whose size overflows counts as empty. */
static void of_pair_capacity(void) {
    const gix_url url = {.scheme = GIX_URL_HTTP, .host = TEXT("h"), .path = TEXT("/?b=c")};
    static const size_t buffers[] = {SIZE_MAX, SIZE_MAX / 2 + 2, SIZE_MAX / sizeof(gix_url_pair) + 1};
    for (size_t i = 0; i < sizeof buffers / sizeof *buffers; i++) {
        places got, kept;
        memset(&got, 0xA5, sizeof got);
        memcpy(&kept, &got, sizeof got);
        kept.len = 3, kept.count = 1;
        gix_url_error error = gix_url_path_query_fragment(&url, got.buffer, sizeof got.buffer, got.pairs, buffers[i], &got.parts,
                                                          &got.len, &got.count);
        HOLDS(error == GIX_URL_NO_ROOM);
        HOLDS(memcmp(&got, &kept, sizeof got) == 0);
    }
}

/* Checks that long parts aren't an error. */
static void of_long_parts(void) {
    static char bytes[100000];
    memset(bytes, 'a', sizeof bytes);
    const gix_url_text part = {bytes, sizeof bytes};
    const gix_url locations[] = {{.user = part, .host = TEXT("h")}, {.password = part}, {.host = part}, {.path = part},
                                 {.path = TEXT("/"), .spelling = part}, {.scheme = GIX_URL_HELPER, .name = part}};
    for (size_t i = 0; i < sizeof locations / sizeof *locations; i++)
        for (int call = OF_SETTLED; call < CALLS; call++) {
            places got;
            gix_url_error error = calls[call].call(&locations[i], &got, sizeof got.buffer, 0);
            HOLDS(error == GIX_URL_OK || error == GIX_URL_NO_ROOM);
        }
}

/* Checks that a text is refused with this error, and that the buffer is left unchanged. */
static gix_url_problem refused(const char *input, size_t len, gix_url_error error) {
    static char buffer[8192], kept[sizeof buffer];
    gix_url url;
    gix_url_problem problem;
    memset(buffer, 0xA5, sizeof buffer);
    memcpy(kept, buffer, sizeof buffer);
    HOLDS(gix_url_parse(input, len, buffer, sizeof buffer, &url, NULL, &problem) == error);
    HOLDS(memcmp(buffer, kept, sizeof buffer) == 0);
    return problem;
}

/* Checks that the error of a text that is too long has the length that is shown, the length of the text, and the
 * position of the part that is too long. A text of more than 256 bytes is parsed into allocated memory. */
static void of_length(void) {
    static char input[2000], buffer[8192];
    gix_url url;
    memset(input, 'a', sizeof input);
    memcpy(input, "http://", 7);
    gix_url_problem problem = refused(input, sizeof input, GIX_URL_TOO_LONG);
    HOLDS(problem.shown == 1031 && problem.total == 2000 && problem.kind == GIX_URL_KIND_NONE);
    HOLDS(problem.reason == GIX_URL_REASON_AUTHORITY_TOO_LONG && problem.at == 7 && problem.len == 1024);
    memcpy(input + 7, "u%41:p%41@", 10);
    for (size_t len = 255; len <= 257; len++) {
        input[len - 1] = ' ';
        problem = refused(input, len, GIX_URL_BAD_URL);
        HOLDS(problem.reason == GIX_URL_REASON_WHITE_SPACE && problem.at == len - 1 && problem.len == 1 && problem.total == 0);
        input[len - 1] = 'a';
        HOLDS(gix_url_parse(input, len, buffer, sizeof buffer, &url, NULL, &problem) == GIX_URL_OK && url.host.len == len - 17);
    }
}

/* Checks that the reasons have the names of the header, and a sentence each; no other number has any. */
static void of_reasons(void) {
    static const struct {
        gix_url_reason reason;
        const char *name;
    } reasons[] = {
        {GIX_URL_REASON_EMPTY, "Empty"}, {GIX_URL_REASON_SCHEME_TOO_LONG, "SchemeTooLong"},
        {GIX_URL_REASON_AUTHORITY_TOO_LONG, "AuthorityTooLong"}, {GIX_URL_REASON_NOT_UTF8, "NotUtf8"},
        {GIX_URL_REASON_WHITE_SPACE, "WhiteSpace"}, {GIX_URL_REASON_BROKEN_ESCAPE, "BrokenEscape"},
        {GIX_URL_REASON_SCHEME_MISSING, "SchemeMissing"}, {GIX_URL_REASON_SCHEME_START, "SchemeStart"},
        {GIX_URL_REASON_SCHEME_CHARACTER, "SchemeCharacter"}, {GIX_URL_REASON_WHITE_SPACE_IN_HOST, "WhiteSpaceInHost"},
        {GIX_URL_REASON_BACKSLASH, "Backslash"}, {GIX_URL_REASON_BACKSLASH_IN_HOST, "BackslashInHost"},
        {GIX_URL_REASON_ESCAPES_NOT_UTF8, "EscapesNotUtf8"}, {GIX_URL_REASON_UNCLOSED_BRACKET, "UnclosedBracket"},
        {GIX_URL_REASON_BEHIND_BRACKET, "BehindBracket"}, {GIX_URL_REASON_NOT_AN_ADDRESS, "NotAnAddress"},
        {GIX_URL_REASON_ADDRESS_WITHOUT_BRACKETS, "AddressWithoutBrackets"}, {GIX_URL_REASON_SECOND_COLON, "SecondColon"},
        {GIX_URL_REASON_HOST_BEFORE_PORT, "HostBeforePort"}, {GIX_URL_REASON_PORT_NOT_A_NUMBER, "PortNotANumber"},
        {GIX_URL_REASON_HOST_CHARACTER, "HostCharacter"}, {GIX_URL_REASON_PORT_TOO_LARGE, "PortTooLarge"},
        {GIX_URL_REASON_PORT_ZERO, "PortZero"}, {GIX_URL_REASON_HOST_BEHIND_USER, "HostBehindUser"},
        {GIX_URL_REASON_HOST_MISSING, "HostMissing"}, {GIX_URL_REASON_PATH_MISSING, "PathMissing"},
        {GIX_URL_REASON_FILE_PATH_MISSING, "FilePathMissing"}, {GIX_URL_REASON_SCP_PATH_MISSING, "ScpPathMissing"}};
    const size_t count = sizeof reasons / sizeof *reasons;
    HOLDS(count == (size_t)GIX_URL_REASON_SCP_PATH_MISSING);
    for (size_t i = 0; i < count; i++) {
        size_t len, words_len;
        HOLDS((size_t)reasons[i].reason == i + 1);
        char *name = text_of_reason(gix_url_reason_name, reasons[i].reason, &len);
        char *words = text_of_reason(gix_url_reason_words, reasons[i].reason, &words_len);
        HOLDS(is_same((gix_url_text){name, len}, text(reasons[i].name)));
        HOLDS(words_len > len && words_len <= 128 && memchr(words, ' ', words_len));
        free(name), free(words);
    }
    static const int others[] = {GIX_URL_REASON_NONE, 29, 255, 256, 257, -1};
    for (size_t i = 0; i < sizeof others / sizeof *others; i++) {
        char buffer[4] = "abc";
        size_t len = 77, words_len = 77;
        HOLDS(gix_url_reason_name((gix_url_reason)others[i], buffer, sizeof buffer, &len) == GIX_URL_NO_LOCATION && len == 0);
        HOLDS(gix_url_reason_words((gix_url_reason)others[i], buffer, sizeof buffer, &words_len) == GIX_URL_NO_LOCATION && words_len == 0);
        HOLDS(strcmp(buffer, "abc") == 0);
    }
}

/* Checks that the length of a null pointer is ignored. A struct without parts is the file URL of an empty path. */
static void of_nothing(void) {
    const gix_url_text no = {NULL, 9};
    gix_url url = {.name = no, .user = no, .password = no, .host = no, .path = no, .spelling = no}, read;
    gix_url_seen seen;
    gix_url_components parts;
    gix_url_condition unmet = GIX_URL_CONDITION_NONE;
    bool is = true;
    size_t len = 77, pairs;
    char buffer[64];
    HOLDS(gix_url_parse(NULL, 0, buffer, sizeof buffer, &read, NULL, NULL) == GIX_URL_EMPTY_LOCAL);
    HOLDS(gix_url_parse(NULL, 5, NULL, 5, &read, NULL, NULL) == GIX_URL_EMPTY_LOCAL);
    HOLDS(gix_url_parse("/a", 0, buffer, sizeof buffer, &read, NULL, NULL) == GIX_URL_EMPTY_LOCAL);
    HOLDS(gix_url_write(&url, NULL, 0, &len, NULL) == GIX_URL_NO_ROOM && len == strlen("file://"));
    HOLDS(gix_url_look(&url, &seen) == GIX_URL_OK && !seen.original_path.at && seen.original_path.len == 0 && seen.user == GIX_URL_ABSENT && !seen.has_port && !seen.path_is_usable);
    HOLDS(gix_url_path_query_fragment(&url, NULL, 0, NULL, 9, &parts, &len, &pairs) == GIX_URL_OK && len == 0 && pairs == 0);
    HOLDS(gix_url_scheme_text(&(gix_url){.scheme = GIX_URL_HELPER, .name = no}).len == 0);
    HOLDS(!parts.query.at && !parts.fragment.at && parts.path.at && parts.path.len == 0);
    url.scheme = GIX_URL_SSH, url.user = text("u"), url.path = text("/p");
    HOLDS(gix_url_is_settled(&url, &is) == GIX_URL_OK && !is);
    is = true;
    HOLDS(gix_url_agrees_with_git(&url, &is) == GIX_URL_OK && !is);
    is = true;
    HOLDS(gix_url_is_unambiguous(&url, &is) == GIX_URL_OK && !is);
    HOLDS(gix_url_unmet_condition(&url, &unmet) == GIX_URL_OK && unmet == GIX_URL_CONDITION_GIT);
}

/* Checks that a spelling is used if it decodes to the path, and that a null spelling isn't used. */
static void of_spellings(void) {
    size_t len;
    char buffer[64];
    gix_url url = {.scheme = GIX_URL_HTTP, .host = TEXT("h"), .path = TEXT("/a%20b"), .spelling = TEXT("/a%20b")};
    HOLDS(gix_url_write(&url, buffer, 64, &len, NULL) == GIX_URL_OK && len == strlen("http://h/a%2520b"));
    HOLDS(memcmp(buffer, "http://h/a%2520b", len) == 0);
    url.spelling = text("/a%2520b");
    HOLDS(gix_url_write(&url, buffer, 64, &len, NULL) == GIX_URL_OK && memcmp(buffer, "http://h/a%2520b", len) == 0);
    bool settled = true;
    url.path = url.spelling = text("/a b");
    HOLDS(gix_url_write(&url, buffer, 64, &len, NULL) == GIX_URL_OK && len == strlen("http://h/a b"));
    HOLDS(memcmp(buffer, "http://h/a b", len) == 0);
    HOLDS(gix_url_is_settled(&url, &settled) == GIX_URL_OK && !settled);
    url.path = (gix_url_text){"/\xff\0", 3}, url.spelling = (gix_url_text){NULL, 3};
    HOLDS(gix_url_write(&url, buffer, 64, &len, NULL) == GIX_URL_OK && memcmp(buffer, "http://h/%FF%00", len) == 0);
}

static void of_names(void) {
    HOLDS(strcmp(gix_url_error_name(GIX_URL_NO_LOCATION), "NoLocation") == 0 && strcmp(gix_url_error_name((gix_url_error)55), "?") == 0);
    HOLDS(strcmp(gix_url_fault_name((gix_url_fault)9), "?") == 0 && strcmp(gix_url_kind_name((gix_url_kind)9), "?") == 0);
    HOLDS(strcmp(gix_url_condition_name((gix_url_condition)12), "?") == 0);
    HOLDS(!gix_url_scheme_text(NULL).at);
    HOLDS(strcmp(gix_url_version(), "0.40.1") == 0 && strcmp(gix_url_version(), GIX_URL_VERSION) == 0);
}

/* Checks that each error has a message, also without a problem, and that no two messages are equal. */
static void of_words(void) {
    static const gix_url_error errors[] = {
        GIX_URL_OK, GIX_URL_MEMORY, GIX_URL_EMPTY_LOCAL, GIX_URL_MISSING_PATH, GIX_URL_NOT_UTF8, GIX_URL_TOO_LONG, GIX_URL_BAD_URL,
        GIX_URL_HELPER_NAME, GIX_URL_UNWRITABLE, GIX_URL_NO_LOCATION, GIX_URL_NO_ROOM, GIX_URL_NULL, (gix_url_error)55};
    const gix_url_problem strange = {.kind = (gix_url_kind)9, .fault = (gix_url_fault)9, .write_fault = (gix_url_write_fault)9};
    for (size_t i = 0; i < sizeof errors / sizeof *errors; i++) {
        const char *words = gix_url_error_words(errors[i], NULL);
        HOLDS(*words && strcmp(words, gix_url_error_words(errors[i], &strange)) == 0);
        for (size_t j = 0; j < i; j++) HOLDS(strcmp(words, gix_url_error_words(errors[j], NULL)) != 0);
    }
}

int main(void) {
    of_tables();
    of_pair_capacity();
    of_long_parts();
    of_length();
    of_reasons();
    of_nothing();
    of_spellings();
    of_names();
    of_words();
    return 0;
}
