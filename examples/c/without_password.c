/* Writes each remote of the standard input without its password.
 *
 *   cc without_password.c $(pkg-config --cflags --libs gix_url) -o without_password && ./without_password <../remotes */
#include <gix_url.h>
#include <stdio.h>
#include <stdlib.h>
#include <string.h>

/* Writes the text of a location, asked for its length first. */
static void write_text(const gix_url *url) {
    size_t len;
    gix_url_problem problem;
    gix_url_error error = gix_url_write(url, NULL, 0, &len, &problem);
    char *text = error == GIX_URL_NO_ROOM ? malloc(len) : NULL;
    if (text) error = gix_url_write(url, text, len, &len, &problem);
    if (error == GIX_URL_OK)
        printf("%.*s\n", (int)len, text);
    else
        printf("not written: %s\n", gix_url_error_words(error, &problem));
    free(text);
}

int main(void) {
    char line[4096], buffer[GIX_URL_ROOM(sizeof line)];
    while (fgets(line, sizeof line, stdin)) {
        gix_url url;
        gix_url_problem problem;
        gix_url_error error = gix_url_parse(line, strcspn(line, "\n"), buffer, sizeof buffer, &url, NULL, &problem);
        if (error != GIX_URL_OK) {
            printf("refused: %s\n", gix_url_error_words(error, &problem));
            continue;
        }
        url.password.at = NULL; /* A part whose pointer is null isn't there. */
        write_text(&url);
    }
    return 0;
}
