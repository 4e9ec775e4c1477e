/* Prints where each remote of the standard input leads: its host and port, or why it is refused. A host that may be taken for
 * an option isn't printed, since who reads the answers may pass it to a command; nor is one that Git or another reader may
 * not find in the text of the location.
 *
 *   cc hosts.c $(pkg-config --cflags --libs gix_url) -o hosts && ./hosts <../remotes */
#include <gix_url.h>
#include <stdio.h>
#include <string.h>

static void lead(const gix_url *url) {
    gix_url_seen seen;
    bool alike = false;
    if (gix_url_look(url, &seen) != GIX_URL_OK || seen.host == GIX_URL_DANGEROUS)
        printf("refused: the host begins with -, and may be taken for an option\n");
    else if (gix_url_is_unambiguous(url, &alike) != GIX_URL_OK || !alike)
        printf("no host to rely on\n");
    else if (seen.host == GIX_URL_ABSENT)
        printf("this machine\n");
    else if (seen.has_port)
        printf("%.*s %d\n", (int)url->host.len, url->host.at, seen.port);
    else
        printf("%.*s\n", (int)url->host.len, url->host.at);
}

int main(void) {
    char line[4096], buffer[GIX_URL_ROOM(sizeof line)];
    while (fgets(line, sizeof line, stdin)) {
        gix_url url;
        gix_url_problem problem;
        gix_url_error error = gix_url_parse(line, strcspn(line, "\n"), buffer, sizeof buffer, &url, NULL, &problem);
        if (error == GIX_URL_OK)
            lead(&url);
        else /* The words show no byte of the text, which may hold a password. */
            printf("refused at byte %zu: %s\n", problem.at, gix_url_error_words(error, &problem));
    }
    return 0;
}
