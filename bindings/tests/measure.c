/* Makes one call on each line of the standard input, PASSES times: `measure CALL PASSES`, so that valgrind can count
 * the instructions of a call. The calls are read, settled, git, write and look. */
#include <gix_url.h>

#include <stdio.h>
#include <stdlib.h>
#include <string.h>

static char buffer[65536], text[65536];

static void call(const char *name, const char *line, size_t len) {
    gix_url url;
    gix_url_seen seen;
    bool answer;
    size_t written;
    if (gix_url_parse(line, len, buffer, sizeof buffer, &url, NULL, NULL) != GIX_URL_OK) return;
    if (strcmp(name, "settled") == 0) gix_url_is_settled(&url, &answer);
    if (strcmp(name, "git") == 0) gix_url_agrees_with_git(&url, &answer);
    if (strcmp(name, "write") == 0) gix_url_write(&url, text, sizeof text, &written, NULL);
    if (strcmp(name, "look") == 0) gix_url_look(&url, &seen);
}

int main(int argc, char **argv) {
    static char all[1 << 21];
    if (argc != 3) return 2;
    size_t size = fread(all, 1, sizeof all, stdin);
    for (int pass = atoi(argv[2]); pass > 0; pass--) {
        for (char *at = all, *end; at < all + size; at = end + 1) {
            end = memchr(at, '\n', (size_t)(all + size - at));
            if (!end) end = all + size;
            call(argv[1], at, (size_t)(end - at));
        }
    }
    return 0;
}
