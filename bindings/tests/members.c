/* Prints the results of the calls for each line of the standard input, in words separated by a space: bytes as
 * hexadecimal digits after a `.`, and `-` for a missing value. tests/bindings/members.py compares the output with
 * explain's. */
#define _GNU_SOURCE
#include "reported.h"

#include <string.h>
#include <sys/types.h>

static void put_bytes(line *out, const char *bytes, size_t len) {
    put_word(out, " .");
    for (size_t i = 0; i < len; i++) {
        char digits[3];
        put(out, digits, (size_t)snprintf(digits, sizeof digits, "%02x", (unsigned char)bytes[i]));
    }
}

static void put_member(line *out, gix_url_text text) {
    if (text.at) put_bytes(out, text.at, text.len);
    else put_word(out, " -");
}

static void put_port(line *out, bool has_port, uint16_t port) {
    put_word(out, has_port ? " " : " -");
    if (has_port) put_number(out, port);
}

static void put_judgement(line *out, gix_url_argument judged) {
    static const char *const words[] = {" absent", " usable", " dangerous"};
    put_word(out, words[judged]);
}

static void members(line *out, const gix_url *url) {
    gix_url_seen seen;
    gix_url_error error;
    gix_url_problem problem;
    gix_url_text text;
    bool settled, agrees, unambiguous;
    line parts = {0};
    HOLDS(gix_url_look(url, &seen) == GIX_URL_OK);
    HOLDS(gix_url_is_settled(url, &settled) == GIX_URL_OK);
    HOLDS(gix_url_agrees_with_git(url, &agrees) == GIX_URL_OK);
    HOLDS(gix_url_is_unambiguous(url, &unambiguous) == GIX_URL_OK);
    put_word(out, "read");
    put_member(out, gix_url_scheme_text(url));
    put_member(out, url->user);
    put_word(out, url->password.at ? " hidden" : " -");
    put_member(out, url->host);
    put_port(out, url->has_port, url->port);
    put_port(out, seen.has_port, seen.port);
    put_member(out, url->path);
    put_member(out, seen.original_path);
    put_judgement(out, seen.user);
    put_judgement(out, seen.host);
    put_word(out, seen.path_is_usable ? " usable" : " withheld");
    put_word(out, settled ? " settled" : " unsettled");
    put_word(out, agrees ? " alike" : " unsure");
    put_word(out, unambiguous ? " unambiguous" : " doubtful");
    char *buffer = text_of_location(gix_url_display, url, &text.len, &error, &problem);
    text.at = buffer;
    put_member(out, text);
    free(buffer);
    tell_components(&parts, url);
    put_bytes(out, parts.at, parts.len);
    free(parts.at);
}

static void refusal(line *out, gix_url_error error, const gix_url_problem *problem) {
    put_word(out, "refused ");
    put_word(out, gix_url_error_name(error));
    put_word(out, " ");
    put_word(out, problem->fault ? gix_url_fault_name(problem->fault) : "-");
    put_word(out, " ");
    put_word(out, problem->kind ? gix_url_kind_name(problem->kind) : "-");
    put_word(out, " "), put_number(out, problem->at);
    put_word(out, " "), put_number(out, problem->len);
    char name[64];
    size_t len;
    HOLDS(gix_url_reason_name(problem->reason, name, sizeof name, &len) == GIX_URL_OK);
    put_word(out, " "), put(out, name, len);
}

int main(void) {
    char *input = NULL;
    size_t buffer = 0;
    ssize_t len;
    while ((len = getline(&input, &buffer, stdin)) > 0) {
        line out = {0};
        gix_url url;
        gix_url_error error;
        gix_url_problem problem;
        gix_url_text text = {input, (size_t)len - (input[len - 1] == '\n')};
        about(text);
        char *held = read_input(text, &url, &error, &problem);
        if (error == GIX_URL_OK) members(&out, &url);
        else refusal(&out, error, &problem);
        put_word(&out, "\n");
        fwrite(out.at, 1, out.len, stdout);
        free(held);
        free(out.at);
    }
    free(input);
    return 0;
}
