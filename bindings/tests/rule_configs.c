/* Makes each call twice: with no buffer, and then with buffers that are just large enough. */
#include "rule_calls.h"

#include <string.h>

/* ---- configurations */

typedef struct config {
    gix_url_entry *entries;
    size_t count;
    char *buffer;
    gix_url_error error;
    gix_url_stop stop;
} config;

typedef gix_url_error reader(const char *, size_t, char *, size_t, gix_url_entry *, size_t, size_t *, size_t *, gix_url_stop *);

static config read_config(reader *read, gix_url_text text) {
    config config = {.entries = elements(0, sizeof *config.entries)};
    size_t needed = 0;
    config.error = read(text.at, text.len, NULL, 0, NULL, 0, &config.count, &needed, &config.stop);
    config.buffer = elements(needed, 1);
    if (!is_measured(config.error)) return config;
    free(config.entries);
    config.entries = elements(config.count, sizeof *config.entries);
    char *buffer = at_wall(0, NULL, needed);
    config.error = read(text.at, text.len, buffer, needed, config.entries, config.count, &config.count, NULL, &config.stop);
    HOLDS(config.error == GIX_URL_OK);
    return config;
}

static void free_config(config config) {
    free(config.entries);
    free(config.buffer);
}

/* Prints the error of a call, with the position at which Git stops. */
static void tell_stop(line *out, gix_url_error error, gix_url_stop stop) {
    HOLDS(error == GIX_URL_NO_VALUE || error == GIX_URL_NO_BOOLEAN);
    HOLDS(!stop.line && !stop.flaw);
    put_word(out, "{\"error\":\""), put_word(out, gix_url_error_name(error)), put_word(out, "\"");
    put_count(out, "at", stop.at);
    put_word(out, "}");
}

/* Prints why a file is refused. */
static void tell_flaw(line *out, const config *config) {
    bool is_zero = config->stop.flaw == GIX_URL_FLAW_ZERO_BYTE;
    HOLDS(config->error == GIX_URL_NO_CONFIGURATION && config->stop.flaw);
    put_word(out, is_zero ? "{\"error\":\"ZeroByte\"" : "{\"error\":\"Refused\"");
    if (is_zero) put_count(out, "at", config->stop.at);
    put_count(out, "line", config->stop.line);
    put_word(out, "}");
}

/* A part of an entry; no text if it is missing. */
static gix_url_text there(gix_url_text part, bool is_there) { return is_there ? part : none; }

static void tell_entries(line *out, const config *config, bool has_places) {
    put_word(out, "[");
    for (size_t i = 0; i < config->count; i++) {
        const gix_url_entry *entry = &config->entries[i];
        put_word(out, i ? ",{\"section\":" : "{\"section\":"), put_quoted(out, entry->section);
        put_member(out, "subsection", there(entry->subsection, entry->has_subsection));
        put_member(out, "name", entry->name);
        put_member(out, "value", there(entry->value, entry->has_value));
        if (has_places) put_count(out, "at", entry->at);
        HOLDS(has_places == !entry->line);
        put_word(out, "}");
    }
    put_word(out, "]");
}

static void over_file(line *out, const order *order) {
    config config = read_config(gix_url_read_file, value(order, "file"));
    if (config.error == GIX_URL_OK) tell_entries(out, &config, false);
    else tell_flaw(out, &config);
    free_config(config);
}

/* ---- rewriting and remotes */

/* Rewrites a text by this call, into this buffer. */
static gix_url_error rewrite(gix_url_text call, const order *order, const config *config, char *buffer, size_t len,
                             gix_url_rewritten *rewritten, size_t *needed, gix_url_stop *stop) {
    gix_url_text text = value(order, "text");
    if (!is_word(call, "Rewrites::rewrite_push"))
        return gix_url_rewrite_fetch(config->entries, config->count, text.at, text.len, buffer, len, rewritten, needed, stop);
    bool has_push_url = is_word(value(order, "has_push_url"), "true");
    return gix_url_rewrite_push(config->entries, config->count, text.at, text.len, has_push_url, buffer, len, rewritten,
                                needed, stop);
}

static void tell_rewritten(line *out, gix_url_text call, const order *order, const config *config) {
    gix_url_rewritten rewritten = {.text = none};
    gix_url_stop stop;
    size_t needed = 0;
    gix_url_error error = rewrite(call, order, config, NULL, 0, &rewritten, &needed, &stop);
    if (is_measured(error)) error = rewrite(call, order, config, at_wall(1, NULL, needed), needed, &rewritten, NULL, &stop);
    HOLDS(rewritten.base_len <= rewritten.text.len && (rewritten.is_rewritten || !rewritten.base_len));
    if (error != GIX_URL_OK) tell_stop(out, error, stop);
    else if (is_word(call, "Rewritten::is_rewritten")) put_truth(out, rewritten.is_rewritten);
    else put_quoted(out, rewritten.text);
}

static void tell_remote(line *out, const order *order, const config *config) {
    gix_url_text name = value(order, "name"), *urls = NULL;
    gix_url_remote remote;
    gix_url_stop stop;
    size_t needed = 0, count = 0;
    gix_url_error error = gix_url_remote_of(config->entries, config->count, name.at, name.len, NULL, 0, NULL, 0, &remote,
                                            &needed, &count, &stop);
    urls = elements(count, sizeof *urls);
    if (is_measured(error))
        error = gix_url_remote_of(config->entries, config->count, name.at, name.len, at_wall(1, NULL, needed), needed, urls,
                                  count, &remote, NULL, NULL, &stop);
    if (error == GIX_URL_OK) {
        HOLDS(remote.url_count + remote.push_url_count == count);
        tell_list(out, "{\"urls\":[", urls, remote.url_count);
        tell_list(out, ",\"push_urls\":[", urls + remote.url_count, remote.push_url_count);
        put_member(out, "vcs", remote.vcs);
        put_member(out, "proxy", remote.proxy);
        put_member(out, "uploadpack", remote.uploadpack);
        put_member(out, "receivepack", remote.receivepack);
        put_word(out, "}");
    } else {
        tell_stop(out, error, stop);
    }
    free(urls);
}

/* ---- transports */

static const char *const decisions[] = {"?", "Allowed", "Refused", "UnknownAllowance", "UnknownFromUser"};

/* Prints the decision, and the setting that decides. */
static void show_permission(line *out, const gix_url_permission *permission) {
    static const char *const deciders[] = {"", "(AllowList)", "(Entry { at: ", "(Default)"};
    bool is_unknown = permission->decision == GIX_URL_UNKNOWN_ALLOWANCE;
    put_word(out, "{\"shown\":\""), put_word(out, decisions[permission->decision]);
    put_word(out, is_unknown ? " { at: " : deciders[permission->by]);
    if (permission->by == GIX_URL_BY_ENTRY) put_number(out, permission->at), put_word(out, is_unknown ? " }" : " })");
    put_word(out, "\"}");
}

static void tell_permission(line *out, gix_url_text call, const order *order, const config *config) {
    gix_url_text name = value(order, "name");
    gix_url_policy policy = {value(order, "allow_list"), value(order, "from_user")};
    gix_url_permission permission;
    HOLDS(gix_url_permission_of(config->entries, config->count, &policy, name.at, name.len, &permission) == GIX_URL_OK);
    HOLDS((permission.decision == GIX_URL_UNKNOWN_FROM_USER) == (permission.by == GIX_URL_BY_NOTHING));
    HOLDS(permission.by == GIX_URL_BY_ENTRY || !permission.at);
    if (value(order, "style").at) show_permission(out, &permission);
    else if (is_word(call, "Permission::is_allowed")) put_truth(out, permission.decision == GIX_URL_ALLOWED);
    else put_word(out, "\""), put_word(out, decisions[permission.decision]), put_word(out, "\"");
}

/* ---- settings and credentials */

static void tell_indices(line *out, const size_t *indices, size_t count) {
    put_word(out, "[");
    for (size_t i = 0; i < count; i++) put_word(out, i ? "," : ""), put_number(out, indices[i]);
    put_word(out, "]");
}

/* Prints the value of the only setting, or null. */
static void tell_setting(line *out, const config *config, const size_t *indices, size_t count) {
    HOLDS(count <= 1);
    put_quoted(out, count ? config->entries[indices[0]].value : none);
}

static void tell_settings(line *out, gix_url_text call, const order *order, const config *config) {
    static const char *const names[] = {"?", "NoUrl", "BrokenEscape", "NoHost", "BadHost", "BadPort", "AboveRoot"};
    gix_url_text name = value(order, "name"), text = value(order, "text");
    gix_url_settings found = {.setting_count = 0};
    gix_url_stop stop;
    size_t needed = 0, *indices = NULL;
    gix_url_error error = gix_url_settings_of(config->entries, config->count, name.at, name.len, text.at, text.len, NULL, 0,
                                              &found, &needed, &stop);
    indices = elements(needed, sizeof *indices);
    if (is_measured(error))
        error = gix_url_settings_of(config->entries, config->count, name.at, name.len, text.at, text.len, indices, needed,
                                    &found, NULL, &stop);
    if (error != GIX_URL_OK) tell_stop(out, error, stop);
    else if (found.why && text.at) tell_named(out, names[found.why]);
    else if (is_word(call, "entries::best_entry")) tell_setting(out, config, indices, found.setting_count);
    else tell_indices(out, indices, found.setting_count);
    free(indices);
}

static void tell_credentials(line *out, const order *order, const config *config) {
    gix_url_text text = value(order, "text");
    gix_url_credentials found = {.user = none};
    gix_url_stop stop;
    size_t needed = 0, count = 0, *helpers = NULL;
    gix_url_error error = gix_url_credentials_of(config->entries, config->count, text.at, text.len, NULL, 0, NULL, 0, &found,
                                                 &needed, &count, &stop);
    helpers = elements(count, sizeof *helpers);
    if (is_measured(error))
        error = gix_url_credentials_of(config->entries, config->count, text.at, text.len, at_wall(1, NULL, needed), needed,
                                       helpers, count, &found, NULL, NULL, &stop);
    if (error != GIX_URL_OK) {
        tell_stop(out, error, stop);
    } else if (!found.is_read) {
        put_quoted(out, none);
    } else {
        put_word(out, "{\"helpers\":"), tell_indices(out, helpers, found.helper_count);
        put_member(out, "user", found.user);
        put_word(out, ",\"use_http_path\":"), put_truth(out, found.use_http_path);
        put_word(out, "}");
    }
    free(helpers);
}

/* ---- Secure Shell */

static void tell_program(line *out, const order *order, const config *config) {
    static const char *const names[] = {"Ssh", "Simple", "Plink", "Putty", "TortoisePlink", "Asked"};
    gix_url_ssh_variables variables = {value(order, "git_ssh_command"), value(order, "git_ssh"), value(order, "git_ssh_variant")};
    gix_url_ssh_program program = {.text = none};
    gix_url_stop stop;
    size_t needed = 0;
    gix_url_error error =
        gix_url_ssh_program_of(config->entries, config->count, &variables, NULL, 0, &program, &needed, &stop);
    if (is_measured(error))
        error = gix_url_ssh_program_of(config->entries, config->count, &variables, at_wall(1, NULL, needed), needed, &program,
                                       NULL, &stop);
    if (error != GIX_URL_OK) {
        tell_stop(out, error, stop);
        return;
    }
    put_word(out, "{\"text\":"), put_quoted(out, program.text);
    put_word(out, ",\"is_command_line\":"), put_truth(out, program.is_command_line);
    put_word(out, ",\"variant\":\""), put_word(out, names[program.variant]), put_word(out, "\"}");
}

/* ---- submodules */

/* Prints the reasons why git fsck refuses each entry, by its own names. */
static void tell_checks(line *out, const config *config) {
    static const char *const names[] = {"?", "gitmodulesName", "gitmodulesUrl", "gitmodulesPath", "gitmodulesUpdate"};
    const char *before = "[\"";
    for (size_t i = 0; i < config->count; i++) {
        gix_url_submodule_check check;
        HOLDS(gix_url_check_submodule(&config->entries[i], &check) == GIX_URL_OK);
        HOLDS(check.name <= GIX_URL_SUBMODULE_NAME && check.value != GIX_URL_SUBMODULE_NAME);
        if (check.name) put_word(out, before), put_word(out, names[check.name]), before = "\",\"";
        if (check.value) put_word(out, before), put_word(out, names[check.value]), before = "\",\"";
    }
    put_word(out, before[0] == '[' ? "[]" : "\"]");
}

/* Prints the submodules that have a path and a URL, each with its URL and how it is updated. */
static void tell_submodules(line *out, const config *config) {
    size_t count = 0, needed = 0;
    gix_url_error error = gix_url_submodules_of(config->entries, config->count, NULL, 0, NULL, 0, &count, &needed);
    HOLDS(is_measured(error));
    gix_url_submodule *found = elements(count, sizeof *found);
    char *buffer = at_wall(1, NULL, needed);
    HOLDS(gix_url_submodules_of(config->entries, config->count, buffer, needed, found, count, &count, NULL) == GIX_URL_OK);
    const char *before = "{";
    for (size_t i = 0; i < count; i++) {
        if (found[i].path == GIX_URL_NO_ENTRY || found[i].url == GIX_URL_NO_ENTRY) continue;
        put_word(out, before), before = ",", put_quoted(out, found[i].name);
        put_word(out, ":{\"url\":"), put_quoted(out, config->entries[found[i].url].value);
        if (found[i].update != GIX_URL_NO_ENTRY) put_member(out, "update", config->entries[found[i].update].value);
        put_word(out, "}");
    }
    put_word(out, before[0] == '{' ? "{}" : "}");
    free(found);
}

/* ---- calls */

static void over_config(line *out, gix_url_text call, const order *order, const config *config) {
    if (is_word(call, "config::entries")) tell_entries(out, config, true);
    else if (is_word(call, "Remote::of")) tell_remote(out, order, config);
    else if (is_word(call, "Protocols::permission") || is_word(call, "Permission::is_allowed"))
        tell_permission(out, call, order, config);
    else if (is_word(call, "credentials::credentials_for")) tell_credentials(out, order, config);
    else if (is_word(call, "SshProgram::of")) tell_program(out, order, config);
    else if (is_word(call, "refusal::check")) tell_checks(out, config);
    else if (is_word(call, "submodules::submodules")) tell_submodules(out, config);
    else if (is_word(call, "settings::settings_for") || is_word(call, "settings::settings_without_place")
             || is_word(call, "entries::best_entry"))
        tell_settings(out, call, order, config);
    else tell_rewritten(out, call, order, config);
}

void config_call(line *out, gix_url_text call, const order *order) {
    if (is_word(call, "config_file::entries")) {
        over_file(out, order);
        return;
    }
    config config = read_config(gix_url_read_listing, value(order, "config"));
    HOLDS(config.error == GIX_URL_OK);
    over_config(out, call, order, &config);
    free_config(config);
}
