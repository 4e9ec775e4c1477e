/* Makes each call over a configuration and a text. */
#include "fuzz_rules.h"

#include <stdlib.h>
#include <string.h>

enum { MOST_ENTRIES = 64, BYTES = 1 << 13 };

typedef struct config {
    gix_url_entry entries[MOST_ENTRIES];
    size_t count;
    char buffer[BYTES];
} config;

static bool begins_with(gix_url_text text, gix_url_text front) {
    return text.len >= front.len && memcmp(text.at, front.at, front.len) == 0;
}

/* Whether the error is one at which Git stops. Checks that the stop is all 0 otherwise. */
static bool stops(gix_url_error error, const gix_url_stop *stop) {
    static const gix_url_stop none;
    bool is_stop = error == GIX_URL_NO_VALUE || error == GIX_URL_NO_BOOLEAN || error == GIX_URL_NO_CONFIGURATION;
    HOLDS(is_stop || memcmp(stop, &none, sizeof none) == 0);
    return is_stop;
}

typedef gix_url_error reader(const char *, size_t, char *, size_t, gix_url_entry *, size_t, size_t *, size_t *, gix_url_stop *);

/* Parses a configuration, unless it has too many entries. */
static bool read_config(reader *read, gix_url_text text, config *config) {
    size_t needed = 0;
    gix_url_stop stop;
    gix_url_error error = read(text.at, text.len, config->buffer, BYTES, config->entries, MOST_ENTRIES, &config->count, &needed, &stop);
    HOLDS(stops(error, &stop) || error == GIX_URL_OK || error == GIX_URL_NO_ROOM || error == GIX_URL_MEMORY);
    if (stops(error, &stop)) HOLDS(error == GIX_URL_NO_CONFIGURATION && stop.flaw && stop.at <= text.len);
    if (error == GIX_URL_NO_ROOM) HOLDS(config->count > MOST_ENTRIES || needed > BYTES);
    if (error != GIX_URL_OK) config->count = 0;
    for (size_t i = 0; i < config->count; i++) {
        const gix_url_entry *entry = &config->entries[i];
        HOLDS(entry->section.at >= config->buffer && entry->value.at + entry->value.len <= config->buffer + needed);
        HOLDS(entry->at < text.len && (entry->has_subsection || !entry->subsection.len) && (entry->has_value || !entry->value.len));
    }
    return error == GIX_URL_OK;
}

/* Checks that a listing of the entries is parsed as the same entries. */
static void comes_back(const config *read) {
    static config again;
    line listing = {0};
    for (size_t i = 0; i < read->count; i++) {
        const gix_url_entry *entry = &read->entries[i];
        put_text(&listing, entry->section);
        if (entry->has_subsection) put_word(&listing, "."), put_text(&listing, entry->subsection);
        put_word(&listing, "."), put_text(&listing, entry->name);
        if (entry->has_value) put_word(&listing, "\n"), put_text(&listing, entry->value);
        put(&listing, "", 1);
    }
    if (read_config(gix_url_read_listing, (gix_url_text){listing.at, listing.len}, &again)) {
        HOLDS(again.count == read->count);
        for (size_t i = 0; i < again.count; i++) HOLDS(is_same(again.entries[i].value, read->entries[i].value));
    }
    free(listing.at);
}

static void is_rewritten(const config *config, gix_url_text text) {
    char buffer[BYTES];
    gix_url_rewritten fetched, pushed;
    gix_url_stop stop;
    gix_url_error error = gix_url_rewrite_fetch(config->entries, config->count, text.at, text.len, buffer, BYTES, &fetched, NULL, &stop);
    if (stops(error, &stop) || error != GIX_URL_OK) return;
    HOLDS(fetched.is_rewritten || is_same(fetched.text, text));
    HOLDS(fetched.base_len <= fetched.text.len);
    char *exact = at_wall(0, NULL, fetched.text.len);
    error = gix_url_rewrite_push(config->entries, config->count, text.at, text.len, true, exact, fetched.text.len, &pushed, NULL, &stop);
    HOLDS(error == GIX_URL_OK && is_same(pushed.text, fetched.text));
}

static void is_remote(const config *config, gix_url_text name) {
    char buffer[BYTES];
    gix_url_text urls[2 * MOST_ENTRIES];
    gix_url_remote remote;
    gix_url_stop stop;
    size_t count = 0;
    gix_url_error error = gix_url_remote_of(config->entries, config->count, name.at, name.len, buffer, BYTES, urls,
                                            2 * MOST_ENTRIES, &remote, NULL, &count, &stop);
    if (stops(error, &stop) || error != GIX_URL_OK) return;
    HOLDS(remote.url_count + remote.push_url_count == count && (remote.url_count || remote.vcs.at));
}

static void is_permitted(const config *config, gix_url_text text) {
    char buffer[BYTES], parts[BYTES];
    static const gix_url_text names[] = {{"ssh", 3}, {"git", 3}, {"file", 4}};
    gix_url_transport transport;
    gix_url_permission permission;
    gix_url_git_place place;
    if (gix_url_transport_of(text.at, text.len, buffer, BYTES, &transport, NULL) != GIX_URL_OK) return;
    if (gix_url_git_reading(text.at, text.len, parts, BYTES, &place, NULL) != GIX_URL_OK) return;
    if (!place.why) HOLDS(is_same(transport.name, names[place.protocol - 1]));
    if (transport.why) return;
    gix_url_error error = gix_url_permission_of(config->entries, config->count, NULL, transport.name.at, transport.name.len, &permission);
    HOLDS(error == GIX_URL_OK && permission.decision >= GIX_URL_ALLOWED && permission.decision <= GIX_URL_UNKNOWN_FROM_USER);
}

static void is_cut(gix_url_text text) {
    static gix_url_piece pieces[4 * BYTES];
    size_t count = 0, len = 0;
    gix_url_error error = gix_url_secrets_of(text.at, text.len, pieces, 4 * BYTES, &count);
    if (error != GIX_URL_OK) return;
    for (size_t i = 0; i < count; i++) len += pieces[i].len, HOLDS(pieces[i].is_hidden <= 1);
    HOLDS(len == text.len);
}

/* Checks that the entries for credentials and settings are among those of the configuration. */
static void is_asked(const config *config, gix_url_text text) {
    char buffer[BYTES];
    size_t indices[MOST_ENTRIES];
    gix_url_credentials credentials;
    gix_url_settings settings;
    gix_url_stop stop;
    gix_url_error error = gix_url_credentials_of(config->entries, config->count, text.at, text.len, buffer, BYTES, indices,
                                                 MOST_ENTRIES, &credentials, NULL, NULL, &stop);
    if (!stops(error, &stop) && error == GIX_URL_OK)
        for (size_t i = 0; i < credentials.helper_count; i++) HOLDS(indices[i] < config->count);
    error = gix_url_settings_of(config->entries, config->count, "extraHeader", 11, text.at, text.len, indices, MOST_ENTRIES,
                                &settings, NULL, &stop);
    if (!stops(error, &stop) && error == GIX_URL_OK)
        for (size_t i = 0; i < settings.setting_count; i++) HOLDS(indices[i] < config->count);
}

/* Checks that a request has a protocol, and fits in a buffer of just the needed length. */
static void is_requested(gix_url_text text) {
    char buffer[BYTES];
    gix_url_request request, again;
    size_t needed = 0;
    if (gix_url_credential_reading(text.at, text.len, buffer, BYTES, &request, &needed) != GIX_URL_OK) return;
    HOLDS(request.is_read ? request.protocol.len > 0 : !request.protocol.at && needed == 0);
    char *exact = at_wall(0, NULL, needed);
    HOLDS(gix_url_credential_reading(text.at, text.len, exact, needed, &again, NULL) == GIX_URL_OK);
    HOLDS(is_same(again.host, request.host) && is_same(again.path, request.path) && is_same(again.user, request.user));
}

/* Finds the program for Secure Shell, also by each variable. */
static void is_run(const config *config, gix_url_text text) {
    const gix_url_ssh_variables cases[] = {{.git_ssh_command = text}, {.git_ssh = text}, {.git_ssh_variant = text}};
    for (size_t i = 0; i <= 3; i++) {
        char buffer[BYTES];
        gix_url_ssh_program program;
        gix_url_stop stop;
        gix_url_error error = gix_url_ssh_program_of(config->entries, config->count, i < 3 ? &cases[i] : NULL, buffer, BYTES,
                                                     &program, NULL, &stop);
        if (stops(error, &stop) || error != GIX_URL_OK) continue;
        HOLDS((int)program.variant >= 0 && program.variant <= GIX_URL_SSH_ASKED);
    }
}

/* Checks that a danger has a name and words, and another number has none. */
static void is_named(gix_url_danger danger) {
    char buffer[64];
    size_t len = 0;
    bool is_one = (int)danger >= 1 && danger <= GIX_URL_DANGERS;
    const gix_url_error wanted = is_one ? GIX_URL_OK : GIX_URL_NO_LOCATION;
    HOLDS(gix_url_danger_name(danger, buffer, sizeof buffer, &len) == wanted && (len > 0) == is_one);
    HOLDS(gix_url_danger_words(danger, buffer, sizeof buffer, &len) == wanted && (len > 0) == is_one);
}

/* Checks that no word except an option begins with -, and that there are no words for a text that Git doesn't read. */
static void has_words(gix_url_text text) {
    gix_url url;
    gix_url_error error;
    gix_url_problem problem;
    static const gix_url_ssh_request usual = {.version = 2};
    gix_url_ssh_command command;
    gix_url_text words[GIX_URL_SSH_WORDS];
    char buffer[BYTES], *parts = read_input(text, &url, &error, &problem);
    if (error == GIX_URL_OK) {
        error = gix_url_ssh_words(&url, &usual, buffer, BYTES, words, GIX_URL_SSH_WORDS, &command, NULL, NULL);
        for (size_t i = 1; error == GIX_URL_OK && i <= 2 && !command.refusal; i++)
            HOLDS(command.word_count >= 2 && !begins_with(words[command.word_count - i], (gix_url_text){"-", 1}));
    }
    free(parts);
}

/* Checks that dangers are in the order of their numbers. */
static void is_dangerous(gix_url_text text) {
    gix_url url;
    gix_url_error error;
    gix_url_problem problem;
    uint8_t dangers[GIX_URL_DANGERS];
    char *parts = read_input(text, &url, &error, &problem);
    size_t count = 0;
    if (error == GIX_URL_OK) error = gix_url_dangers_of(text.at, text.len, &url, dangers, GIX_URL_DANGERS, &count);
    for (size_t i = 0; error == GIX_URL_OK && i < count; i++) {
        HOLDS(i == 0 || dangers[i - 1] < dangers[i]);
        is_named((gix_url_danger)dangers[i]);
    }
    is_named((gix_url_danger)text.len);
    free(parts);
}

static void is_resolved(gix_url_text parent, gix_url_text url) {
    char buffer[2 * BYTES];
    gix_url_resolved resolved;
    if (gix_url_resolve_submodule(parent.at, parent.len, url.at, url.len, buffer, sizeof buffer, &resolved, NULL) != GIX_URL_OK) return;
    HOLDS(resolved.is_relative || (is_same(resolved.url, url) && !resolved.climbs));
}

static void is_listed(const config *config) {
    char buffer[BYTES];
    gix_url_submodule found[MOST_ENTRIES];
    gix_url_submodule_check check;
    size_t count = 0;
    for (size_t i = 0; i < config->count; i++) HOLDS(gix_url_check_submodule(&config->entries[i], &check) == GIX_URL_OK);
    if (gix_url_submodules_of(config->entries, config->count, buffer, BYTES, found, MOST_ENTRIES, &count, NULL) != GIX_URL_OK) return;
    for (size_t i = 0; i < count; i++) HOLDS(found[i].url == GIX_URL_NO_ENTRY || config->entries[found[i].url].has_value);
}

void by_rules(gix_url_text input) {
    static config config;
    const char *end = input.len ? memchr(input.at, 0x1e, input.len) : NULL;
    gix_url_text first = {input.at, end ? (size_t)(end - input.at) : input.len};
    gix_url_text text = end ? (gix_url_text){end + 1, input.len - first.len - 1} : first;
    bool is_listing = is_asked_for("listings") && !is_asked_for("files");
    if (!is_listing && read_config(gix_url_read_file, first, &config)) {
        if (is_asked_for("files")) comes_back(&config);
        if (is_asked_for("submodules")) is_listed(&config);
    }
    if (is_listing || !config.count) read_config(gix_url_read_listing, first, &config);
    if (is_asked_for("rewriting")) is_rewritten(&config, text);
    if (is_asked_for("remotes")) is_remote(&config, text);
    if (is_asked_for("transports")) is_permitted(&config, text);
    if (is_asked_for("credentials")) is_asked(&config, text), is_requested(text);
    if (is_asked_for("secrets")) is_cut(text);
    if (is_asked_for("programs")) is_run(&config, text);
    if (is_asked_for("words")) has_words(text);
    if (is_asked_for("dangers")) is_dangerous(text);
    if (is_asked_for("resolving")) is_resolved(first, text);
}

bool is_asked_for(const char *part) {
    static const char *only;
    static bool is_known;
    if (!is_known) only = getenv("FUZZ_PART"), is_known = true;
    return !only || strcmp(only, part) == 0;
}
