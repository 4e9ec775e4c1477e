/* Executes the orders on the standard input, one a line, by the calls of gix_url.h, and prints the result of each call
 * as a line of JSON, as the program `answers` does. tests/bindings/binding_rows.py writes and describes orders. */
#define _GNU_SOURCE
#include "rule_calls.h"

#include <string.h>
#include <sys/types.h>

/* Properties of a location: a missing port is 0, and the original path is a part of the location itself. */
static gix_url_seen seen_of(const gix_url *url) {
    gix_url_seen seen;
    HOLDS(gix_url_look(url, &seen) == GIX_URL_OK);
    HOLDS(seen.has_port || seen.port == 0);
    HOLDS(seen.original_path.at == url->path.at || (url->spelling.at && seen.original_path.at == url->spelling.at));
    return seen;
}

static void tell_url(line *out, const gix_url *url) {
    HOLDS(url->has_port || url->port == 0);
    gix_url_text spelling = seen_of(url).original_path;
    put_word(out, "{\"scheme\":\""), put_word(out, schemes[url->scheme]);
    if (url->name.at) put_word(out, " "), put_inside(out, url->name);
    put_word(out, "\"");
    put_member(out, "user", url->user);
    put_member(out, "password", url->password);
    put_member(out, "host", url->host);
    if (url->has_port) put_word(out, ",\"port\":"), put_number(out, url->port);
    if (url->alternative) put_word(out, ",\"alternative\":true");
    put_member(out, "path", url->path);
    if (!is_same(spelling, url->path)) put_member(out, "spelling", spelling);
    put_word(out, "}");
}

/* Prints the position and the reason of a parse error. */
static void tell_place(line *out, gix_url_error error, const gix_url_problem *problem) {
    if (!is_refusal(error)) return;
    gix_url_text name;
    char *own = text_of_reason(gix_url_reason_name, problem->reason, &name.len);
    name.at = own;
    put_word(out, ",\"at\":"), put_number(out, problem->at);
    put_word(out, ",\"len\":"), put_number(out, problem->len);
    put_member(out, "reason", name);
    free(own);
}

/* Prints an error by its names. For a text that is too long, prints the front that is fit to be shown. */
static void tell_error(line *out, gix_url_error error, const gix_url_problem *problem, gix_url_text refused) {
    put_word(out, "{\"error\":\""), put_word(out, gix_url_error_name(error));
    if (problem->fault) put_word(out, " "), put_word(out, gix_url_fault_name(problem->fault));
    if (problem->write_fault) put_word(out, " "), put_word(out, gix_url_write_fault_name(problem->write_fault));
    if (problem->kind) put_word(out, " "), put_word(out, gix_url_kind_name(problem->kind));
    put_word(out, "\"");
    if (error == GIX_URL_TOO_LONG) {
        HOLDS(problem->shown <= refused.len);
        put_member(out, "kept", (gix_url_text){refused.at, problem->shown});
        put_word(out, ",\"total\":"), put_number(out, problem->total);
    }
    tell_place(out, error, problem);
    put_word(out, "}");
}

static void parse(line *out, gix_url_text input) {
    gix_url url;
    gix_url_error error;
    gix_url_problem problem;
    char *buffer = read_input(input, &url, &error, &problem);
    if (error == GIX_URL_OK) tell_url(out, &url);
    else tell_error(out, error, &problem, input);
    free(buffer);
}

/* The text that these parts are written as, or none. The caller frees it. */
static gix_url_text written(const gix_url *url, gix_url_error *error, gix_url_problem *problem) {
    gix_url_text text = none;
    text.at = text_of_location(gix_url_write, url, &text.len, error, problem);
    return text;
}

static void from_parts(line *out, const order *order) {
    gix_url url, parts = location(order, "record");
    gix_url_error error;
    gix_url_problem problem;
    gix_url_text text = written(&parts, &error, &problem);
    char *buffer = make_parts(&parts, &url, &error, &problem);
    if (is_refusal(error)) is_refused_so(text, error, &problem);
    if (error == GIX_URL_OK) tell_url(out, &url);
    else tell_error(out, error, &problem, text);
    free(buffer);
    free((char *)text.at);
}

static void to_bstring(line *out, const gix_url *url) {
    gix_url_error error;
    gix_url_problem problem;
    gix_url_text text = written(url, &error, &problem);
    if (text.at) put_quoted(out, text);
    else tell_error(out, error, &problem, none);
    free((char *)text.at);
}

static void text_len(line *out, const gix_url *url) {
    size_t len;
    gix_url_problem problem;
    gix_url_error error = gix_url_write(url, NULL, 0, &len, &problem);
    if (error == GIX_URL_OK || error == GIX_URL_NO_ROOM) put_number(out, len);
    else tell_error(out, error, &problem, none);
}

static void fmt(line *out, const gix_url *url) {
    size_t len;
    gix_url_error error;
    gix_url_problem problem;
    char *buffer = text_of_location(gix_url_display, url, &len, &error, &problem);
    put_word(out, "{\"shown\":\"");
    if (buffer) put_inside(out, (gix_url_text){buffer, len});
    put_word(out, buffer ? "\"}" : "\",\"failed\":true}");
    free(buffer);
}

static void path_query_fragment(line *out, const gix_url *url) {
    gix_url_components parts;
    gix_url_pair *pairs = components_of(url, &parts);
    put_word(out, "{\"path\":"), put_quoted(out, parts.path);
    if (parts.query.at) put_word(out, ",\"query\":[");
    const char *at = parts.query.at;
    for (size_t i = 0; i < parts.pair_count; i++) {
        put_word(out, i ? ",[" : "["), put_quoted(out, (gix_url_text){at, pairs[i].name_len}), at += pairs[i].name_len;
        put_word(out, ","), put_quoted(out, (gix_url_text){at, pairs[i].value_len}), at += pairs[i].value_len;
        put_word(out, "]");
    }
    if (parts.query.at) put_word(out, "]");
    put_member(out, "fragment", parts.fragment);
    put_word(out, "}");
    free(pairs);
}

/* Prints whether a part is safe as an argument of a command. */
static void tell_judged(line *out, gix_url_argument judged, gix_url_text text) {
    static const char *const fronts[] = {"null", "{\"usable\":", "{\"dangerous\":"};
    put_word(out, fronts[judged]);
    if (judged == GIX_URL_ABSENT) return;
    put_quoted(out, text);
    put_word(out, "}");
}

/* Prints a part of a location, or a property of it, if the call is one of those. */
static bool tell_part(line *out, gix_url_text call, const gix_url *url) {
    gix_url_seen seen = seen_of(url);
    if (is_word(call, "Url::user")) put_quoted(out, url->user);
    else if (is_word(call, "Url::password")) put_quoted(out, url->password);
    else if (is_word(call, "Url::host")) put_quoted(out, url->host);
    else if (is_word(call, "Url::original_path")) put_quoted(out, seen.original_path);
    else if (is_word(call, "Url::path_is_root")) put_truth(out, seen.path_is_root);
    else if (is_word(call, "Url::port_or_default") && seen.has_port) put_number(out, seen.port);
    else if (is_word(call, "Url::port_or_default")) put_quoted(out, none);
    else if (is_word(call, "Url::user_as_argument")) tell_judged(out, seen.user, url->user);
    else if (is_word(call, "Url::host_as_argument")) tell_judged(out, seen.host, url->host);
    else if (is_word(call, "Url::user_argument_safe")) put_quoted(out, seen.user == GIX_URL_USABLE ? url->user : none);
    else if (is_word(call, "Url::host_argument_safe")) put_quoted(out, seen.host == GIX_URL_USABLE ? url->host : none);
    else if (is_word(call, "Url::path_argument_safe")) put_quoted(out, seen.path_is_usable ? url->path : none);
    else return false;
    return true;
}

/* Prints the first condition that a location doesn't meet, if there is one. */
static void tell_condition(line *out, gix_url_condition unmet) {
    const char *name = gix_url_condition_name(unmet);
    put_quoted(out, unmet ? (gix_url_text){name, strlen(name)} : none);
}

/* Prints the result of a call over a location. A location that isn't settled doesn't agree with Git, and one that
 * doesn't agree with Git is ambiguous. */
static void tell_call(line *out, gix_url_text call, const gix_url *url) {
    bool settled, agrees, unambiguous;
    gix_url_condition unmet;
    HOLDS(gix_url_is_settled(url, &settled) == GIX_URL_OK);
    HOLDS(gix_url_agrees_with_git(url, &agrees) == GIX_URL_OK);
    HOLDS(gix_url_is_unambiguous(url, &unambiguous) == GIX_URL_OK && gix_url_unmet_condition(url, &unmet) == GIX_URL_OK);
    HOLDS((settled || !agrees) && (agrees || !unambiguous) && unambiguous == !unmet);
    if (is_word(call, "Url::is_settled")) put_truth(out, settled);
    else if (is_word(call, "Url::agrees_with_git")) put_truth(out, agrees);
    else if (is_word(call, "Url::is_unambiguous")) put_truth(out, unambiguous);
    else if (is_word(call, "Url::unmet_condition")) tell_condition(out, unmet);
    else if (is_word(call, "Url::to_bstring")) to_bstring(out, url);
    else if (is_word(call, "Url::text_len")) text_len(out, url);
    else if (is_word(call, "Url:fmt")) fmt(out, url);
    else if (is_word(call, "Url::path_query_fragment")) path_query_fragment(out, url);
    else if (!tell_part(out, call, url)) put_word(out, "{\"halt\":\"no such call\"}");
}

/* Makes a call over the location that a text is parsed as, or over parts as they are. */
static void over_url(line *out, gix_url_text call, const order *order) {
    gix_url url;
    gix_url_error error = GIX_URL_OK;
    gix_url_problem problem;
    gix_url_text text = value(order, "url");
    char *buffer = NULL;
    if (text.at) buffer = read_input(text, &url, &error, &problem);
    else url = location(order, "url");
    if (error == GIX_URL_OK) tell_call(out, call, &url);
    else put_word(out, "{\"halt\":\"not prepared\"}");
    free(buffer);
}

/* The error with these names and its details. */
static gix_url_error named_error(gix_url_text names, gix_url_problem *problem) {
    gix_url_error error = GIX_URL_OK;
    const char *end = names.at + names.len;
    for (const char *at = names.at; at < end;) {
        const char *space = memchr(at, ' ', (size_t)(end - at));
        gix_url_text word = {at, (size_t)((space ? space : end) - at)};
        for (int i = 1; i < 128; i++) {
            if (at == names.at && is_word(word, gix_url_error_name((gix_url_error)i))) error = (gix_url_error)i;
            if (at == names.at) continue;
            if (is_word(word, gix_url_kind_name((gix_url_kind)i))) problem->kind = (gix_url_kind)i;
            if (is_word(word, gix_url_fault_name((gix_url_fault)i))) problem->fault = (gix_url_fault)i;
            if (is_word(word, gix_url_write_fault_name((gix_url_write_fault)i))) problem->write_fault = (gix_url_write_fault)i;
        }
        at = space ? space + 1 : end;
    }
    return error;
}

/* Prints the message of the error that a text is refused with, or of the error with these names. The length of a text
 * that is too long, which the library's message has too, is printed with it. */
static void fmt_error(line *out, const order *order) {
    gix_url url;
    gix_url_problem problem = {.total = 2016};
    gix_url_error error;
    gix_url_text names = value(order, "error.error");
    char *buffer = NULL;
    if (names.at) error = named_error(names, &problem);
    else buffer = read_input(value(order, "text"), &url, &error, &problem);
    put_word(out, "{\"shown\":\""), put_word(out, gix_url_error_words(error, &problem));
    if (error == GIX_URL_TOO_LONG) put_word(out, ", in a text of "), put_number(out, problem.total), put_word(out, " bytes");
    put_word(out, "\"}");
    free(buffer);
}

static void scheme_text(line *out, gix_url_text reported) {
    gix_url url;
    memset(&url, 0, sizeof url);
    set_scheme(&url, reported);
    put_quoted(out, gix_url_scheme_text(&url));
}

static void carry_out(line *out, const order *order) {
    gix_url_text call = value(order, "call");
    if (rule_call(out, call, order)) return;
    if (is_word(call, "parse::parse")) parse(out, value(order, "text"));
    else if (is_word(call, "Url::from_parts")) from_parts(out, order);
    else if (is_word(call, "Error:fmt")) fmt_error(out, order);
    else if (is_word(call, "Scheme::as_str")) scheme_text(out, value(order, "scheme"));
    else over_url(out, call, order);
}

/* Prints the result for a line, which is shown if a check fails. */
static void answer(const char *input, size_t len) {
    line out = {0};
    char *copy = strndup(input, len);
    HOLDS(copy);
    about((gix_url_text){input, len});
    order order = order_of(copy);
    carry_out(&out, &order);
    put_word(&out, "\n");
    fwrite(out.at, 1, out.len, stdout);
    free(out.at);
    free(copy);
}

int main(void) {
    char *input = NULL;
    size_t buffer = 0;
    ssize_t len;
    while ((len = getline(&input, &buffer, stdin)) > 0) answer(input, strcspn(input, "\n"));
    free(input);
    return 0;
}
