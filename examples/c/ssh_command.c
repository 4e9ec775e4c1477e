/* Prints how each remote of the standard input is called by Secure Shell, and refuses what may be taken for an option.
 *
 *   cc ssh_command.c $(pkg-config --cflags --libs gix_url) -o ssh_command && ./ssh_command <../remotes */
#include <gix_url.h>
#include <stdio.h>
#include <string.h>

/* The part, if it may be an argument of a command. */
static const gix_url_text *usable(gix_url_argument judged, const gix_url_text *part) {
    return judged == GIX_URL_USABLE ? part : NULL;
}

static void command(const gix_url *url) {
    gix_url_seen seen;
    if (gix_url_look(url, &seen) != GIX_URL_OK || url->scheme != GIX_URL_SSH) {
        printf("not by Secure Shell\n");
        return;
    }
    const gix_url_text *user = usable(seen.user, &url->user), *host = usable(seen.host, &url->host);
    if (!host || (seen.user == GIX_URL_DANGEROUS)) {
        printf("no host or user that is safe to hand to a command\n");
        return;
    }
    printf("ssh -p %d ", seen.port);
    if (user) printf("%.*s@", (int)user->len, user->at);
    printf("%.*s\n", (int)host->len, host->at);
}

int main(void) {
    char line[4096], buffer[GIX_URL_ROOM(sizeof line)];
    while (fgets(line, sizeof line, stdin)) {
        gix_url url;
        bool alike = false;
        gix_url_error error = gix_url_parse(line, strcspn(line, "\n"), buffer, sizeof buffer, &url, NULL, NULL);
        /* In the text of any other location, Git or another reader may find another host. */
        if (error == GIX_URL_OK && gix_url_is_unambiguous(&url, &alike) == GIX_URL_OK && alike)
            command(&url);
        else
            printf("no location to rely on\n");
    }
    return 0;
}
