/* Says which URL `git fetch` would use for each remote of the standard input by a configuration, and whether Git may use its
 * transport. Whether the text is dangerous is another question: gix_url_dangers_of answers it. A program reads the
 * configuration from `git config --list -z`; here it is a text.
 *
 *   cc fetch.c $(pkg-config --cflags --libs gix_url) -o fetch && ./fetch <../remotes */
#include <gix_url_rules.h>
#include <stdio.h>
#include <string.h>

static const char listing[] = "url.https://mirror.example/.insteadof\ngit@example.com:\0"
                              "protocol.allow\nnever\0"
                              "protocol.https.allow\nalways\0"
                              "protocol.ssh.allow\nuser";

/* Prints a text without what may be a secret. */
static void show(gix_url_text text) {
    gix_url_piece pieces[1024];
    size_t count;
    if (gix_url_secrets_of(text.at, text.len, pieces, 1024, &count) != GIX_URL_OK) {
        printf("(too long)");
        return;
    }
    for (size_t i = 0; i < count; text.at += pieces[i++].len) {
        if (!pieces[i].is_hidden)
            printf("%.*s", (int)pieces[i].len, text.at);
        else if (i == 0 || !pieces[i - 1].is_hidden)
            printf("***");
    }
}

static void judge(const gix_url_entry *entries, size_t count, gix_url_text text) {
    char buffer[4096];
    gix_url_transport transport;
    gix_url_permission permission;
    show(text);
    if (gix_url_transport_of(text.at, text.len, buffer, sizeof buffer, &transport, NULL) != GIX_URL_OK || transport.why) {
        printf(": no transport\n");
        return;
    }
    gix_url_text name = transport.name;
    gix_url_error error = gix_url_permission_of(entries, count, NULL, name.at, name.len, &permission);
    bool is_allowed = error == GIX_URL_OK && permission.decision == GIX_URL_ALLOWED;
    printf(": %.*s, %s\n", (int)name.len, name.at, is_allowed ? "allowed" : "not allowed");
}

int main(void) {
    char line[1024], config[sizeof listing], buffer[4096];
    gix_url_entry entries[8];
    size_t count;
    if (gix_url_read_listing(listing, sizeof listing, config, sizeof config, entries, 8, &count, NULL, NULL) != GIX_URL_OK)
        return 1;
    while (fgets(line, sizeof line, stdin)) {
        gix_url_rewritten url;
        gix_url_stop stop;
        gix_url_error error = gix_url_rewrite_fetch(entries, count, line, strcspn(line, "\n"), buffer, sizeof buffer, &url,
                                                    NULL, &stop);
        if (error == GIX_URL_OK)
            judge(entries, count, url.text);
        else
            printf("%s\n", gix_url_error_words(error, NULL));
    }
    return 0;
}
