// Makes one call of the libraries for each line of a file, in passes: driver CALL PASSES FILE [CONFIG]
//
// CALL is the name of an export of `url_bench` or `call_bench`, without the name of the library. CONFIG is a file with what
// `git config --list -z` prints, which `rewrite_fetch` takes its rules of. It prints how many calls answered that all is well,
// so that calls which give up early are seen.
#include <stdbool.h>
#include <stdint.h>
#include <stdio.h>
#include <stdlib.h>
#include <string.h>

struct line {
    const unsigned char *bytes;
    size_t length;
};

// Room for as many bytes as a line has.
static unsigned char room[1 << 16];

// The configuration.
static struct line config;

bool url_bench_parse(const unsigned char *bytes, size_t length);
bool url_bench_parse_in(const unsigned char *bytes, size_t length, unsigned char *room, size_t room_length);
size_t url_bench_write(const unsigned char *bytes, size_t length);
bool url_bench_settled(const unsigned char *bytes, size_t length);

bool call_bench_refuse_in(const unsigned char *bytes, size_t length, unsigned char *room, size_t room_length);
size_t call_bench_text_len(const unsigned char *bytes, size_t length);
size_t call_bench_write_to(const unsigned char *bytes, size_t length);
size_t call_bench_to_bstring(const unsigned char *bytes, size_t length);
size_t call_bench_to_string(const unsigned char *bytes, size_t length);
bool call_bench_is_settled(const unsigned char *bytes, size_t length, bool *settled);
bool call_bench_agrees_with_git(const unsigned char *bytes, size_t length, bool *agrees);
bool call_bench_is_unambiguous(const unsigned char *bytes, size_t length, bool *unambiguous);
size_t call_bench_path_query_fragment(const unsigned char *bytes, size_t length);
size_t call_bench_expand_path(const unsigned char *bytes, size_t length);
size_t call_bench_clone(const unsigned char *bytes, size_t length);
bool call_bench_eq(const unsigned char *bytes, size_t length);
bool call_bench_cmp(const unsigned char *bytes, size_t length);
bool call_bench_hash(const unsigned char *bytes, size_t length, uint64_t *hash);
size_t call_bench_to_stored(const unsigned char *bytes, size_t length);
size_t call_bench_to_json(const unsigned char *bytes, size_t length);
size_t call_bench_from_json(const unsigned char *bytes, size_t length);
size_t call_bench_reread(const unsigned char *bytes, size_t length);
size_t call_bench_from_parts(const unsigned char *bytes, size_t length);
size_t call_bench_rewrite_fetch(const unsigned char *config, size_t config_length, const unsigned char *bytes, size_t length);

// Each call, and whether all is well.
static bool parse(const struct line *line) { return url_bench_parse(line->bytes, line->length); }
static bool parse_in(const struct line *line) { return url_bench_parse_in(line->bytes, line->length, room, line->length); }
static bool refuse_in(const struct line *line) { return call_bench_refuse_in(line->bytes, line->length, room, line->length); }
static bool write(const struct line *line) { return url_bench_write(line->bytes, line->length) > 0; }
static bool settled(const struct line *line) { return url_bench_settled(line->bytes, line->length); }

static bool text_len(const struct line *line) { return call_bench_text_len(line->bytes, line->length) > 0; }
static bool write_to(const struct line *line) { return call_bench_write_to(line->bytes, line->length) > 0; }
static bool to_bstring(const struct line *line) { return call_bench_to_bstring(line->bytes, line->length) > 0; }
static bool to_string(const struct line *line) { return call_bench_to_string(line->bytes, line->length) > 0; }
static bool is_settled(const struct line *line) {
    bool answer;
    return call_bench_is_settled(line->bytes, line->length, &answer) && answer;
}
static bool agrees_with_git(const struct line *line) {
    bool answer;
    return call_bench_agrees_with_git(line->bytes, line->length, &answer);
}
static bool is_unambiguous(const struct line *line) {
    bool answer;
    return call_bench_is_unambiguous(line->bytes, line->length, &answer);
}
static bool path_query_fragment(const struct line *line) { return call_bench_path_query_fragment(line->bytes, line->length) > 0; }
static bool expand_path(const struct line *line) { return call_bench_expand_path(line->bytes, line->length) > 0; }
static bool clone(const struct line *line) { return call_bench_clone(line->bytes, line->length) > 0; }
static bool eq(const struct line *line) { return call_bench_eq(line->bytes, line->length); }
static bool cmp(const struct line *line) { return call_bench_cmp(line->bytes, line->length); }
static bool hash(const struct line *line) {
    uint64_t answer;
    return call_bench_hash(line->bytes, line->length, &answer);
}
static bool to_stored(const struct line *line) { return call_bench_to_stored(line->bytes, line->length) > 0; }
static bool to_json(const struct line *line) { return call_bench_to_json(line->bytes, line->length) > 0; }
static bool from_json(const struct line *line) { return call_bench_from_json(line->bytes, line->length) > 0; }
static bool reread(const struct line *line) { return call_bench_reread(line->bytes, line->length) > 0; }
static bool from_parts(const struct line *line) { return call_bench_from_parts(line->bytes, line->length) > 0; }
static bool rewrite_fetch(const struct line *line) {
    return call_bench_rewrite_fetch(config.bytes, config.length, line->bytes, line->length) > 0;
}

#define CALL(name) {#name, name}
static const struct {
    const char *name;
    bool (*call)(const struct line *);
} calls[] = {
    CALL(parse), CALL(parse_in), CALL(refuse_in), CALL(write), CALL(settled), CALL(text_len), CALL(write_to),
    CALL(to_bstring), CALL(to_string), CALL(is_settled), CALL(agrees_with_git), CALL(is_unambiguous),
    CALL(path_query_fragment), CALL(expand_path),
    CALL(clone), CALL(eq), CALL(cmp), CALL(hash), CALL(to_stored), CALL(to_json), CALL(from_json), CALL(reread), CALL(from_parts),
    CALL(rewrite_fetch),
};

static _Noreturn void fail(const char *why) {
    fprintf(stderr, "driver: %s\n", why);
    exit(2);
}

// The bytes of a file.
static char *contents(const char *name, size_t *size) {
    FILE *file = fopen(name, "rb");
    if (!file || fseek(file, 0, SEEK_END)) fail("the file can't be opened");
    *size = (size_t)ftell(file);
    rewind(file);
    char *bytes = malloc(*size + 1);
    if (!bytes || fread(bytes, 1, *size, file) != *size) fail("the file can't be read");
    fclose(file);
    return bytes;
}

// The lines of the bytes, each of which has an end, without their ends.
static struct line *lines_of(const char *bytes, size_t size, size_t *count) {
    struct line *lines = malloc((size + 1) * sizeof *lines);
    if (!lines) fail("no memory");
    *count = 0;
    for (const char *at = bytes, *end; (end = memchr(at, '\n', size - (size_t)(at - bytes))); at = end + 1)
        lines[(*count)++] = (struct line){(const unsigned char *)at, (size_t)(end - at)};
    return lines;
}

int main(int words, char **word) {
    if (words != 4 && words != 5) fail("usage: driver CALL PASSES FILE [CONFIG]");
    bool (*call)(const struct line *) = NULL;
    for (size_t i = 0; i < sizeof calls / sizeof *calls; i++)
        if (!strcmp(word[1], calls[i].name)) call = calls[i].call;
    if (!call) fail("there is no such call");
    size_t size, count, well = 0;
    char *bytes = contents(word[3], &size);
    struct line *lines = lines_of(bytes, size, &count);
    char *rules = words == 5 ? contents(word[4], &config.length) : NULL;
    config.bytes = (const unsigned char *)rules;
    for (long pass = strtol(word[2], NULL, 10); pass > 0; pass--)
        for (size_t i = 0; i < count; i++) well += call(&lines[i]);
    printf("%zu\n", well);
    free(rules);
    free(lines);
    free(bytes);
}
