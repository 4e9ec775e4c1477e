/* Prints a result for each line of the standard input as the program `locations` does, by calls of the library, and
 * checks that the calls agree with one another. */
#include "reported.h"

#include <string.h>

static void answer_refused(line *out, gix_url_error error, const gix_url_problem *problem) {
    put_word(out, "refused\t");
    put_word(out, gix_url_error_name(error));
    if (problem->fault) put_word(out, " "), put_word(out, gix_url_fault_name(problem->fault));
}

/* Checks that the written text is parsed as the same fields, and that its parts, which have no spelling, give the same
 * location if those are settled. */
static void comes_back(const gix_url *url, gix_url_text text) {
    gix_url again;
    gix_url_error error;
    gix_url_problem problem;
    char *buffer = read_input(text, &again, &error, &problem);
    HOLDS(error == GIX_URL_OK && has_same_fields(url, &again));
    free(buffer);
    gix_url parts = *url;
    bool settled;
    parts.spelling = (gix_url_text){NULL, 0};
    HOLDS(gix_url_is_settled(&parts, &settled) == GIX_URL_OK);
    if (!settled) return;
    buffer = make_parts(url, &again, &error, &problem);
    HOLDS(error == GIX_URL_OK && has_same_fields(url, &again));
    free(buffer);
}

/* Checks that no text that begins with - is returned as usable, and that the original path is one of the two. */
static void is_seen(const gix_url *url) {
    gix_url_seen seen;
    HOLDS(gix_url_look(url, &seen) == GIX_URL_OK);
    bool user = url->user.at && !(url->user.len && url->user.at[0] == '-');
    bool host = url->host.at && !(url->host.len && url->host.at[0] == '-');
    HOLDS((seen.user == GIX_URL_USABLE) == user && (seen.user == GIX_URL_ABSENT) == !url->user.at);
    HOLDS((seen.host == GIX_URL_USABLE) == host && (seen.host == GIX_URL_ABSENT) == !url->host.at);
    HOLDS(!seen.path_is_usable || (url->path.at[0] == '/' && !(url->path.len > 1 && url->path.at[1] == '-')));
    HOLDS(seen.path_is_root == (url->path.len == 1 && url->path.at[0] == '/'));
    HOLDS(is_same(seen.original_path, url->path) || is_same(seen.original_path, url->spelling));
    HOLDS(!url->has_port || (seen.has_port && seen.port == url->port));
}

/* Whether the byte is in the text. */
static bool holds(gix_url_text text, char byte) {
    return text.len > 0 && memchr(text.at, byte, text.len);
}

/* Checks that a location that agrees with Git is settled. It has one of Git's own three transports, and no password or
 * option; or it is of HTTP, with a host, a user without a colon, and a path that begins with a slash and has no
 * fragment. */
static void is_for_git(const gix_url *url, bool settled) {
    bool agrees;
    gix_url_seen seen;
    HOLDS(gix_url_agrees_with_git(url, &agrees) == GIX_URL_OK && gix_url_look(url, &seen) == GIX_URL_OK);
    if (!agrees) return;
    HOLDS(settled);
    if (url->scheme == GIX_URL_HTTP || url->scheme == GIX_URL_HTTPS) {
        HOLDS(url->host.len > 0 && !holds(url->user, ':'));
        HOLDS(url->path.len > 0 && url->path.at[0] == '/' && !holds(url->path, '#'));
        return;
    }
    HOLDS(url->scheme <= GIX_URL_SSH && !url->password.at);
    HOLDS(seen.user != GIX_URL_DANGEROUS && seen.host != GIX_URL_DANGEROUS);
}

/* Checks that a location without a password is shown as its text, if that is ASCII, and differently with one. */
static void is_shown(const gix_url *url, gix_url_text text) {
    gix_url_error error;
    gix_url_problem problem;
    gix_url_text shown;
    char *buffer = text_of_location(gix_url_display, url, &shown.len, &error, &problem);
    HOLDS(buffer);
    shown.at = buffer;
    bool is_ascii = true;
    for (size_t i = 0; i < text.len; i++) is_ascii &= (unsigned char)text.at[i] < 128;
    if (!url->password.at && is_ascii) HOLDS(is_same(shown, text));
    free(buffer);
}

static void answer_read(line *out, const gix_url *url) {
    gix_url_error error;
    gix_url_problem problem;
    gix_url_text text;
    bool settled;
    is_seen(url);
    line reported = {0};
    tell_components(&reported, url);
    free(reported.at);
    HOLDS(gix_url_is_settled(url, &settled) == GIX_URL_OK);
    is_for_git(url, settled);
    char *buffer = text_of_location(gix_url_write, url, &text.len, &error, &problem);
    text.at = buffer;
    put_word(out, !buffer ? "unwritable\t" : settled ? "settled\t" : "unsettled\t");
    put_text(out, buffer && settled ? text : gix_url_scheme_text(url));
    if (buffer) is_shown(url, text);
    if (settled) comes_back(url, text);
    free(buffer);
}

static void answer(line *out, gix_url_text input) {
    gix_url url;
    gix_url_error error;
    gix_url_problem problem;
    about(input);
    char *buffer = read_input(input, &url, &error, &problem);
    if (error == GIX_URL_OK) answer_read(out, &url);
    else answer_refused(out, error, &problem);
    put_word(out, "\n");
    free(buffer);
}

int main(void) {
    line all = {0}, out = {0};
    char block[65536];
    size_t count;
    while ((count = fread(block, 1, sizeof block, stdin)) > 0) put(&all, block, count);
    for (size_t at = 0; at < all.len;) {
        char *end = memchr(all.at + at, '\n', all.len - at);
        size_t len = end ? (size_t)(end - all.at) - at : all.len - at;
        answer(&out, (gix_url_text){all.at + at, len});
        at += len + 1;
    }
    fwrite(out.at, 1, out.len, stdout);
    free(all.at);
    free(out.at);
    return 0;
}
