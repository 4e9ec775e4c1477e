/* The calls of gix_url_rules.h that parse a configuration or use one, over the exports of the static library
 * crates/gix_url_c.
 *
 * As in gix_url.c, null pointers become errors, and returned lengths become pointers into the caller's buffers. The
 * declarations of exports match crates/gix_url_c/src/rules, and their types crates/c_values/src/rules. A slice of that
 * library is a pointer that isn't null and a length. A gix_url_entry has the layout of an entry of that library. */
#include "gix_url_rules.h"
#include "parts.h"

typedef struct stop {
    size_t at, line;
    uint8_t flaw;
} stop;

typedef struct sizes {
    size_t count, bytes;
} sizes;

typedef struct rewrite {
    bool is_rewritten;
    size_t base, len;
} rewrite;

typedef struct remote {
    bool has_vcs, has_proxy, has_uploadpack, has_receivepack;
    size_t urls, push_urls, vcs, proxy, uploadpack, receivepack, bytes;
} remote;

typedef struct policy {
    gix_url_text allow_list, from_user;
    bool has_allow_list, has_from_user;
} policy;

typedef struct permission {
    uint8_t decision, by;
    size_t at;
} permission;

typedef struct variables {
    gix_url_text command, path, variant;
    bool has_command, has_path, has_variant;
} variables;

typedef struct program {
    bool is_command_line;
    uint8_t variant;
    size_t len;
} program;

typedef struct settings {
    uint8_t why;
    size_t count;
} settings;

typedef struct credentials {
    bool is_read, has_user, use_http_path;
    size_t helpers, user;
} credentials;

typedef struct check {
    uint8_t name, value;
} check;

uint32_t gix_url_c_read_listing(const char *, size_t, sizes *, char *, size_t, size_t *, size_t, stop *);
uint32_t gix_url_c_read_file(const char *, size_t, sizes *, char *, size_t, size_t *, size_t, stop *);
uint32_t gix_url_c_rewrite_fetch(const gix_url_entry *, size_t, const char *, size_t, rewrite *, char *, size_t, stop *);
uint32_t gix_url_c_rewrite_push(const gix_url_entry *, size_t, const char *, size_t, bool, rewrite *, char *, size_t,
                                stop *);
uint32_t gix_url_c_remote(const gix_url_entry *, size_t, const char *, size_t, remote *, char *, size_t, size_t *, size_t,
                          stop *);
uint32_t gix_url_c_permission(const gix_url_entry *, size_t, const policy *, const char *, size_t, permission *);
uint32_t gix_url_c_ssh_program(const gix_url_entry *, size_t, const variables *, program *, char *, size_t, stop *);
uint32_t gix_url_c_settings(const gix_url_entry *, size_t, const char *, size_t, const char *, size_t, settings *, size_t *,
                            size_t, stop *);
uint32_t gix_url_c_credentials(const gix_url_entry *, size_t, const char *, size_t, credentials *, char *, size_t, size_t *,
                               size_t, stop *);
uint32_t gix_url_c_check(const gix_url_entry *, check *);
uint32_t gix_url_c_submodules(const gix_url_entry *, size_t, sizes *, char *, size_t, size_t *, size_t);

/* How many numbers the library writes for an entry, and for a submodule. */
enum { ENTRY_NUMBERS = 8, SUBMODULE_NUMBERS = 5 };

/* The target of pointers if there are no entries. */
static gix_url_entry no_entries[1];

/* Whether no pointer of the entry is null. */
static bool is_whole(const gix_url_entry *entry) {
    return entry->section.at && entry->subsection.at && entry->name.at && entry->value.at;
}

/* The entries, or no entries for a null pointer; a null pointer if one of them has a null pointer. */
static const gix_url_entry *whole(const gix_url_entry *entries, size_t *count) {
    if (!entries) *count = 0;
    for (size_t i = 0; i < *count; i++)
        if (!is_whole(&entries[i])) return NULL;
    return entries ? entries : no_entries;
}

/* Stores the position at which Git stops. */
static void tell(const stop *reported, gix_url_stop *stop) {
    if (!stop) return;
    memset(stop, 0, sizeof *stop);
    stop->at = reported->at;
    stop->line = reported->line;
    stop->flaw = (gix_url_flaw)reported->flaw;
}

/* The error for a null pointer that must not be null. */
static gix_url_error null_pointer(gix_url_stop *stop) {
    if (stop) memset(stop, 0, sizeof *stop);
    return GIX_URL_NULL;
}

/* The entry with these numbers, whose parts end at `*end`. Moves `*end` to the end of the entry before it. */
static gix_url_entry entry_before(const char **end, const size_t *numbers) {
    gix_url_entry entry;
    memset(&entry, 0, sizeof entry);
    entry.value = text_of(*end -= numbers[3], numbers[3], true);
    entry.name = text_of(*end -= numbers[2], numbers[2], true);
    entry.subsection = text_of(*end -= numbers[1], numbers[1], true);
    entry.section = text_of(*end -= numbers[0], numbers[0], true);
    entry.at = numbers[4];
    entry.line = numbers[5];
    entry.has_subsection = numbers[6] != 0;
    entry.has_value = numbers[7] != 0;
    return entry;
}

/* Converts the numbers at the front of the array to entries, from the last one on: an entry is longer than its
 * numbers. */
static void make_entries(gix_url_entry *entries, size_t count, const char *end) {
    for (size_t i = count; i-- > 0;) {
        size_t numbers[ENTRY_NUMBERS];
        memcpy(numbers, (const char *)entries + i * sizeof numbers, sizeof numbers);
        entries[i] = entry_before(&end, numbers);
    }
}

typedef uint32_t reader(const char *, size_t, sizes *, char *, size_t, size_t *, size_t, stop *);

static gix_url_error read_entries(reader *read, const char *text, size_t len, char *buffer, size_t buffer_len,
                                  gix_url_entry *entries, size_t entry_capacity, size_t *count, size_t *needed,
                                  gix_url_stop *stopped) {
    if (!count) return null_pointer(stopped);
    if (!text) text = nowhere, len = 0;
    if (!buffer) buffer = nowhere, buffer_len = 0;
    void *numbers = entries;
    size_t capacity = number_capacity(&numbers, entry_capacity, sizeof *entries, ENTRY_NUMBERS);
    sizes sizes = {0};
    stop stop = {0};
    uint32_t error = read(text, len, &sizes, buffer, buffer_len, numbers, capacity, &stop);
    if (is_measured(error)) *count = sizes.count, store(needed, sizes.bytes);
    if (error == GIX_URL_OK) make_entries(entries, sizes.count, buffer + sizes.bytes);
    tell(&stop, stopped);
    return (gix_url_error)error;
}

gix_url_error gix_url_read_listing(const char *text, size_t len, char *buffer, size_t buffer_len, gix_url_entry *entries,
                                   size_t entry_capacity, size_t *count, size_t *needed, gix_url_stop *stop) {
    return read_entries(gix_url_c_read_listing, text, len, buffer, buffer_len, entries, entry_capacity, count, needed, stop);
}

gix_url_error gix_url_read_file(const char *text, size_t len, char *buffer, size_t buffer_len, gix_url_entry *entries,
                                size_t entry_capacity, size_t *count, size_t *needed, gix_url_stop *stop) {
    return read_entries(gix_url_c_read_file, text, len, buffer, buffer_len, entries, entry_capacity, count, needed, stop);
}

/* Returns the text that was rewritten into the buffer, or the error. */
static gix_url_error hand_out(uint32_t error, const rewrite *made, const char *buffer, gix_url_rewritten *rewritten,
                              size_t *needed, const stop *reported, gix_url_stop *stop) {
    if (is_measured(error)) store(needed, made->len);
    if (error == GIX_URL_OK) {
        memset(rewritten, 0, sizeof *rewritten);
        rewritten->text = text_of(buffer, made->len, true);
        rewritten->is_rewritten = made->is_rewritten;
        rewritten->base_len = made->base;
    }
    tell(reported, stop);
    return (gix_url_error)error;
}

gix_url_error gix_url_rewrite_fetch(const gix_url_entry *entries, size_t count, const char *text, size_t len, char *buffer,
                                    size_t buffer_len, gix_url_rewritten *rewritten, size_t *needed,
                                    gix_url_stop *stopped) {
    const gix_url_entry *config = whole(entries, &count);
    if (!config || !rewritten) return null_pointer(stopped);
    if (!text) text = nowhere, len = 0;
    if (!buffer) buffer = nowhere, buffer_len = 0;
    rewrite made = {0};
    stop stop = {0};
    uint32_t error = gix_url_c_rewrite_fetch(config, count, text, len, &made, buffer, buffer_len, &stop);
    return hand_out(error, &made, buffer, rewritten, needed, &stop, stopped);
}

gix_url_error gix_url_rewrite_push(const gix_url_entry *entries, size_t count, const char *text, size_t len,
                                   bool has_push_url, char *buffer, size_t buffer_len, gix_url_rewritten *rewritten,
                                   size_t *needed, gix_url_stop *stopped) {
    const gix_url_entry *config = whole(entries, &count);
    if (!config || !rewritten) return null_pointer(stopped);
    if (!text) text = nowhere, len = 0;
    if (!buffer) buffer = nowhere, buffer_len = 0;
    rewrite made = {0};
    stop stop = {0};
    uint32_t error = gix_url_c_rewrite_push(config, count, text, len, has_push_url, &made, buffer, buffer_len, &stop);
    return hand_out(error, &made, buffer, rewritten, needed, &stop, stopped);
}

/* Stores a remote whose values follow its URLs in the buffer. */
static void make_remote(const remote *made, const char *values, gix_url_remote *remote) {
    memset(remote, 0, sizeof *remote);
    remote->url_count = made->urls;
    remote->push_url_count = made->push_urls;
    remote->vcs = next_part(&values, made->vcs, made->has_vcs);
    remote->proxy = next_part(&values, made->proxy, made->has_proxy);
    remote->uploadpack = next_part(&values, made->uploadpack, made->has_uploadpack);
    remote->receivepack = next_part(&values, made->receivepack, made->has_receivepack);
}

gix_url_error gix_url_remote_of(const gix_url_entry *entries, size_t count, const char *name, size_t len, char *buffer,
                                size_t buffer_len, gix_url_text *urls, size_t url_capacity, gix_url_remote *found,
                                size_t *needed, size_t *needed_urls, gix_url_stop *stopped) {
    const gix_url_entry *config = whole(entries, &count);
    if (!config || !found) return null_pointer(stopped);
    if (!name) name = nowhere, len = 0;
    if (!buffer) buffer = nowhere, buffer_len = 0;
    void *lengths = urls;
    size_t capacity = number_capacity(&lengths, url_capacity, sizeof *urls, 1);
    remote made = {0};
    stop stop = {0};
    uint32_t error = gix_url_c_remote(config, count, name, len, &made, buffer, buffer_len, lengths, capacity, &stop);
    if (is_measured(error)) store(needed, made.bytes), store(needed_urls, made.urls + made.push_urls);
    if (error == GIX_URL_OK) {
        const char *values = buffer + made.bytes - made.vcs - made.proxy - made.uploadpack - made.receivepack;
        make_texts(urls, made.urls + made.push_urls, values);
        make_remote(&made, values, found);
    }
    tell(&stop, stopped);
    return (gix_url_error)error;
}

gix_url_error gix_url_permission_of(const gix_url_entry *entries, size_t count, const gix_url_policy *given,
                                    const char *name, size_t len, gix_url_permission *reported) {
    static const gix_url_policy nothing;
    const gix_url_entry *config = whole(entries, &count);
    if (!config || !reported) return GIX_URL_NULL;
    if (!given) given = &nothing;
    if (!name) name = nowhere, len = 0;
    policy policy = {
        .allow_list = bytes_of(given->allow_list),
        .from_user = bytes_of(given->from_user),
        .has_allow_list = given->allow_list.at != NULL,
        .has_from_user = given->from_user.at != NULL,
    };
    permission made = {0};
    uint32_t error = gix_url_c_permission(config, count, &policy, name, len, &made);
    if (error != GIX_URL_OK) return (gix_url_error)error;
    memset(reported, 0, sizeof *reported);
    reported->decision = (gix_url_decision)made.decision;
    reported->by = (gix_url_decider)made.by;
    reported->at = made.at;
    return GIX_URL_OK;
}

gix_url_error gix_url_ssh_program_of(const gix_url_entry *entries, size_t count, const gix_url_ssh_variables *given,
                                     char *buffer, size_t buffer_len, gix_url_ssh_program *reported, size_t *needed,
                                     gix_url_stop *stopped) {
    static const gix_url_ssh_variables nothing;
    const gix_url_entry *config = whole(entries, &count);
    if (!config || !reported) return null_pointer(stopped);
    if (!given) given = &nothing;
    if (!buffer) buffer = nowhere, buffer_len = 0;
    variables variables = {
        .command = bytes_of(given->git_ssh_command),
        .path = bytes_of(given->git_ssh),
        .variant = bytes_of(given->git_ssh_variant),
        .has_command = given->git_ssh_command.at != NULL,
        .has_path = given->git_ssh.at != NULL,
        .has_variant = given->git_ssh_variant.at != NULL,
    };
    program made = {0};
    stop stop = {0};
    uint32_t error = gix_url_c_ssh_program(config, count, &variables, &made, buffer, buffer_len, &stop);
    if (is_measured(error)) store(needed, made.len);
    if (error == GIX_URL_OK) {
        memset(reported, 0, sizeof *reported);
        reported->text = text_of(buffer, made.len, true);
        reported->is_command_line = made.is_command_line;
        reported->variant = (gix_url_ssh_variant)made.variant;
    }
    tell(&stop, stopped);
    return (gix_url_error)error;
}

gix_url_error gix_url_settings_of(const gix_url_entry *entries, size_t count, const char *name, size_t name_len,
                                  const char *text, size_t len, size_t *indices, size_t setting_capacity,
                                  gix_url_settings *found, size_t *needed, gix_url_stop *stopped) {
    const gix_url_entry *config = whole(entries, &count);
    if (!config || !found) return null_pointer(stopped);
    if (!name) name = nowhere, name_len = 0;
    if (!text) text = nowhere, len = 0;
    if (!indices) indices = no_numbers, setting_capacity = 0;
    settings made = {0};
    stop stop = {0};
    uint32_t error = gix_url_c_settings(config, count, name, name_len, text, len, &made, indices, setting_capacity, &stop);
    if (is_measured(error)) store(needed, made.count);
    if (error == GIX_URL_OK) {
        memset(found, 0, sizeof *found);
        found->why = (gix_url_abnormal)made.why;
        found->setting_count = made.count;
    }
    tell(&stop, stopped);
    return (gix_url_error)error;
}

gix_url_error gix_url_credentials_of(const gix_url_entry *entries, size_t count, const char *text, size_t len, char *buffer,
                                     size_t buffer_len, size_t *helpers, size_t helper_capacity, gix_url_credentials *found,
                                     size_t *needed, size_t *needed_helpers, gix_url_stop *stopped) {
    const gix_url_entry *config = whole(entries, &count);
    if (!config || !found) return null_pointer(stopped);
    if (!text) text = nowhere, len = 0;
    if (!buffer) buffer = nowhere, buffer_len = 0;
    if (!helpers) helpers = no_numbers, helper_capacity = 0;
    credentials made = {0};
    stop stop = {0};
    uint32_t error =
        gix_url_c_credentials(config, count, text, len, &made, buffer, buffer_len, helpers, helper_capacity, &stop);
    if (is_measured(error)) store(needed, made.user), store(needed_helpers, made.helpers);
    if (error == GIX_URL_OK) {
        memset(found, 0, sizeof *found);
        found->is_read = made.is_read;
        found->helper_count = made.helpers;
        found->user = text_of(buffer, made.user, made.has_user);
        found->use_http_path = made.use_http_path;
    }
    tell(&stop, stopped);
    return (gix_url_error)error;
}

gix_url_error gix_url_check_submodule(const gix_url_entry *entry, gix_url_submodule_check *reported) {
    if (!entry || !is_whole(entry) || !reported) return GIX_URL_NULL;
    check made = {0};
    uint32_t error = gix_url_c_check(entry, &made);
    reported->name = (gix_url_submodule_refusal)made.name;
    reported->value = (gix_url_submodule_refusal)made.value;
    return (gix_url_error)error;
}

/* Converts the numbers at the front of the array to submodules, from the last one on: a submodule is longer than its
 * numbers. Their names end at `end`. */
static void make_submodules(gix_url_submodule *submodules, size_t count, const char *end) {
    for (size_t i = count; i-- > 0;) {
        size_t numbers[SUBMODULE_NUMBERS];
        memcpy(numbers, (const char *)submodules + i * sizeof numbers, sizeof numbers);
        submodules[i] = (gix_url_submodule){
            text_of(end -= numbers[0], numbers[0], true), numbers[1], numbers[2], numbers[3], numbers[4],
        };
    }
}

gix_url_error gix_url_submodules_of(const gix_url_entry *entries, size_t count, char *buffer, size_t buffer_len,
                                    gix_url_submodule *submodules, size_t submodule_capacity, size_t *submodule_count,
                                    size_t *needed) {
    const gix_url_entry *config = whole(entries, &count);
    if (!config || !submodule_count) return GIX_URL_NULL;
    if (!buffer) buffer = nowhere, buffer_len = 0;
    void *numbers = submodules;
    size_t capacity = number_capacity(&numbers, submodule_capacity, sizeof *submodules, SUBMODULE_NUMBERS);
    sizes sizes = {0};
    uint32_t error = gix_url_c_submodules(config, count, &sizes, buffer, buffer_len, numbers, capacity);
    if (is_measured(error)) *submodule_count = sizes.count, store(needed, sizes.bytes);
    if (error == GIX_URL_OK) make_submodules(submodules, sizes.count, buffer + sizes.bytes);
    return (gix_url_error)error;
}
