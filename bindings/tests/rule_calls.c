/* Makes each call twice: with no buffer, and then with buffers that are just large enough. */
#include "rule_calls.h"

#include <string.h>

/* The number of a word among these, which end in a null pointer. */
static unsigned number_of(gix_url_text word, const char *const *words) {
    for (unsigned i = 0; words[i]; i++)
        if (is_word(word, words[i])) return i;
    HOLDS(!"the word is one of these");
    return 0;
}

/* ---- transports */

static void tell_transport(line *out, gix_url_text text) {
    static const char *const names[] = {"?", "ByteZero", "OptionLike", "Rsync", "UnknownScheme"};
    gix_url_transport transport = {.name = none};
    size_t needed = 0;
    gix_url_error error = gix_url_transport_of(text.at, text.len, NULL, 0, &transport, &needed);
    HOLDS(is_measured(error) && needed <= (text.len < 4 ? 4 : text.len));
    HOLDS(gix_url_transport_of(text.at, text.len, at_wall(1, NULL, needed), needed, &transport, NULL) == GIX_URL_OK);
    if (transport.why) tell_named(out, names[transport.why]);
    else put_quoted(out, transport.name);
}

/* ---- Secure Shell */

static gix_url_ssh_request request_of(const order *order) {
    static const char *const services[] = {"git-upload-pack", "git-receive-pack", "git-upload-archive", NULL};
    static const char *const variants[] = {"ssh", "simple", "plink", "putty", "tortoiseplink", NULL};
    gix_url_text version = value(order, "version"), family = value(order, "family");
    return (gix_url_ssh_request){
        .service = (gix_url_service)number_of(value(order, "service"), services),
        .program = value(order, "program"),
        .variant = (gix_url_ssh_variant)number_of(value(order, "variant"), variants),
        .version = (uint8_t)atoi(version.at),
        .family = family.at ? (gix_url_family)atoi(family.at) : GIX_URL_ANY_FAMILY,
    };
}

static const char *const refusals[] = {
    "?", "NotSecureShell", "Password", "EmptyUser", "ByteZero", "OptionLikeUser", "NoHost", "OptionLikeHost", "AtSignInHost",
    "UrlLikeDestination", "NoPath", "OptionLikePath", "EmptyProgram", "ByteZeroInProgram", "OptionLikeProgram",
    "FamilyOfSimple", "PortOfSimple"};

static void tell_protocol(line *out, uint8_t version) {
    char text[] = "version=0";
    text[8] = (char)('0' + version);
    put_quoted(out, version ? (gix_url_text){text, 9} : none);
}

static void tell_words(line *out, gix_url_text call, const order *order, const gix_url *url) {
    gix_url_ssh_request request = request_of(order);
    gix_url_ssh_command command = {.word_count = 0};
    gix_url_text words[GIX_URL_SSH_WORDS];
    size_t needed = 0, count = 0;
    gix_url_error error = gix_url_ssh_words(url, &request, NULL, 0, NULL, 0, &command, &needed, &count);
    HOLDS(is_measured(error) && count <= GIX_URL_SSH_WORDS);
    char *buffer = at_wall(1, NULL, needed);
    HOLDS(gix_url_ssh_words(url, &request, buffer, needed, words, count, &command, NULL, NULL) == GIX_URL_OK);
    if (command.refusal) tell_named(out, refusals[command.refusal]);
    else if (is_word(call, "SshCommand::git_protocol")) tell_protocol(out, command.git_protocol);
    else tell_list(out, "[", words, command.word_count);
}

/* ---- submodules */

static void tell_resolved(line *out, gix_url_text call, const order *order) {
    static const char *const names[] = {"?", "EmptyParent", "NothingLeft"};
    gix_url_text parent = value(order, "parent"), url = value(order, "url");
    gix_url_resolved resolved = {.url = none};
    size_t needed = 0;
    HOLDS(is_measured(gix_url_resolve_submodule(parent.at, parent.len, url.at, url.len, NULL, 0, &resolved, &needed)));
    char *buffer = at_wall(1, NULL, needed);
    HOLDS(gix_url_resolve_submodule(parent.at, parent.len, url.at, url.len, buffer, needed, &resolved, NULL) == GIX_URL_OK);
    if (is_word(call, "resolve::is_relative")) put_truth(out, resolved.is_relative);
    else if (is_word(call, "resolve::climbs")) put_truth(out, resolved.climbs);
    else if (resolved.why) tell_named(out, names[resolved.why]);
    else put_quoted(out, resolved.url);
}

/* ---- texts */

static void tell_place(line *out, gix_url_text text) {
    static const char *const names[] = {"?", "ByteZero", "Option", "RemoteHelper", "HomeOrHere", "SecureShellUrl", "Refused"};
    static const char *const protocols[] = {"?", "Ssh", "Git", "File"};
    gix_url_git_place place = {.user = none};
    size_t needed = 0;
    HOLDS(is_measured(gix_url_git_reading(text.at, text.len, NULL, 0, &place, &needed)));
    HOLDS(gix_url_git_reading(text.at, text.len, at_wall(1, NULL, needed), needed, &place, NULL) == GIX_URL_OK);
    if (place.why) {
        HOLDS(!place.protocol && !place.user.at && !place.host.at && !place.path.at && !place.has_port);
        tell_named(out, names[place.why]);
        return;
    }
    put_word(out, "{\"protocol\":\""), put_word(out, protocols[place.protocol]), put_word(out, "\"");
    put_member(out, "user", place.user);
    put_member(out, "host", place.host);
    if (place.has_port) put_count(out, "port", place.port);
    put_member(out, "path", place.path);
    put_word(out, "}");
}

static void tell_request(line *out, gix_url_text text) {
    gix_url_request request = {.user = none};
    size_t needed = 0;
    HOLDS(is_measured(gix_url_credential_reading(text.at, text.len, NULL, 0, &request, &needed)));
    HOLDS(gix_url_credential_reading(text.at, text.len, at_wall(1, NULL, needed), needed, &request, NULL) == GIX_URL_OK);
    if (!request.is_read) {
        put_quoted(out, none);
        return;
    }
    put_word(out, "{\"protocol\":"), put_quoted(out, request.protocol);
    put_member(out, "user", request.user);
    put_member(out, "password", request.password);
    put_member(out, "host", request.host);
    put_member(out, "path", request.path);
    put_word(out, "}");
}

/* Prints the pieces of a text. Neighbours of one kind are joined. */
static void tell_pieces(line *out, gix_url_text text) {
    size_t count = 0;
    HOLDS(is_measured(gix_url_secrets_of(text.at, text.len, NULL, 0, &count)));
    gix_url_piece *pieces = elements(count, sizeof *pieces);
    HOLDS(gix_url_secrets_of(text.at, text.len, pieces, count, &count) == GIX_URL_OK);
    const char *at = text.at;
    put_word(out, "[");
    for (size_t i = 0; i < count; at += pieces[i++].len) {
        bool is_first = !i || pieces[i].is_hidden != pieces[i - 1].is_hidden;
        if (is_first && i) put_word(out, "\"},");
        if (is_first) put_word(out, pieces[i].is_hidden ? "{\"hidden\":\"" : "{\"shown\":\"");
        put_inside(out, (gix_url_text){at, pieces[i].len});
    }
    HOLDS(at == text.at + text.len);
    put_word(out, count ? "\"}]" : "]");
    free(pieces);
}

/* ---- dangers */

typedef gix_url_error danger_putter(gix_url_danger, char *, size_t, size_t *);

static void put_danger(line *out, danger_putter *call, gix_url_danger danger) {
    size_t needed = 0;
    HOLDS(call(danger, NULL, 0, &needed) == GIX_URL_NO_ROOM && needed <= 64);
    char *buffer = at_wall(1, NULL, needed);
    HOLDS(call(danger, buffer, needed, NULL) == GIX_URL_OK);
    put_quoted(out, (gix_url_text){buffer, needed});
}

static void tell_dangers(line *out, gix_url_text text, const gix_url *url) {
    uint8_t found[GIX_URL_DANGERS];
    size_t count = 0;
    HOLDS(is_measured(gix_url_dangers_of(text.at, text.len, url, NULL, 0, &count)) && count <= GIX_URL_DANGERS);
    HOLDS(gix_url_dangers_of(text.at, text.len, url, found, count, &count) == GIX_URL_OK);
    put_word(out, "[");
    for (size_t i = 0; i < count; i++)
        put_word(out, i ? "," : ""), put_danger(out, gix_url_danger_name, (gix_url_danger)found[i]);
    put_word(out, "]");
}

/* The danger with this name, as the rows have it. */
static gix_url_danger danger_named(gix_url_text name) {
    static const char *const names[] = {
        "?", "Command", "OptionLikeUser", "OptionLikeHost", "OptionLikePath", "Password", "Token", "HostCharacter", "LineEnd",
        "OtherHost", "MisreadHost", NULL};
    return (gix_url_danger)number_of(name, names);
}

static void over_danger(line *out, gix_url_text call, gix_url_text name) {
    put_danger(out, is_word(call, "Danger::words") ? gix_url_danger_words : gix_url_danger_name, danger_named(name));
}

/* ---- calls */

/* Makes a call over the location that a text is parsed as, or over parts as they are. */
static void over_location(line *out, gix_url_text call, const order *order) {
    gix_url url = {.scheme = GIX_URL_FILE};
    gix_url_error error = GIX_URL_OK;
    gix_url_problem problem;
    gix_url_text read = value(order, "url"), text = value(order, "text");
    char *buffer = NULL;
    if (read.at) buffer = read_input(read, &url, &error, &problem);
    else url = location(order, "url");
    if (error != GIX_URL_OK) put_word(out, "{\"halt\":\"not prepared\"}");
    else if (is_word(call, "danger::dangers")) tell_dangers(out, text.at ? text : read, &url);
    else tell_words(out, call, order, &url);
    free(buffer);
}

static bool is_of_location(gix_url_text call) {
    return is_word(call, "danger::dangers") || is_word(call, "ssh::ssh_words") || is_word(call, "ssh::ssh_command")
        || is_word(call, "ssh::ssh_command_for") || is_word(call, "SshCommand::to_words")
        || is_word(call, "SshCommand::git_protocol");
}

static bool is_of_submodule(gix_url_text call) {
    return is_word(call, "resolve::resolve") || is_word(call, "Resolved::to_bstring") || is_word(call, "resolve::is_relative")
        || is_word(call, "resolve::climbs");
}

bool rule_call(line *out, gix_url_text call, const order *order) {
    gix_url_text text = value(order, "text");
    if (value(order, "config").at || value(order, "file").at) config_call(out, call, order);
    else if (is_of_location(call)) over_location(out, call, order);
    else if (is_of_submodule(call)) tell_resolved(out, call, order);
    else if (is_word(call, "text::transport_of")) tell_transport(out, text);
    else if (is_word(call, "transport::reading")) tell_place(out, text);
    else if (is_word(call, "credential::reading")) tell_request(out, text);
    else if (is_word(call, "secret::secrets")) tell_pieces(out, text);
    else if (is_word(call, "Danger::name") || is_word(call, "Danger::words")) over_danger(out, call, value(order, "danger"));
    else return false;
    return true;
}
