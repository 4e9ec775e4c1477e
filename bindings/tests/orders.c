#define _GNU_SOURCE
#include "orders.h"

#include <string.h>

static int digit(char c) { return c <= '9' ? c - '0' : c - 'a' + 10; }

/* Decodes the escapes of a value, in place: `\x` with two digits is a byte. */
static gix_url_text unescaped(char *value) {
    size_t len = 0;
    for (const char *from = value; *from; len++) {
        bool is_escape = *from == '\\';
        value[len] = is_escape ? (char)(16 * digit(from[2]) + digit(from[3])) : *from;
        from += is_escape ? 4 : 1;
    }
    return (gix_url_text){value, len};
}

/* Parses the order on a line, in place. */
order order_of(char *line) {
    order order = {.count = 0};
    for (char *member; (member = strsep(&line, "\t"));) {
        char *value = strchr(member, '=');
        HOLDS(value && order.count < MOST);
        *value = '\0';
        order.names[order.count] = member;
        order.values[order.count++] = unescaped(value + 1);
    }
    return order;
}

/* The value of a member; no text if the member is missing. */
gix_url_text value(const order *order, const char *name) {
    for (size_t i = 0; i < order->count; i++)
        if (strcmp(order->names[i], name) == 0) return order->values[i];
    return none;
}

bool is_word(gix_url_text text, const char *word) {
    return text.at && text.len == strlen(word) && memcmp(text.at, word, text.len) == 0;
}

const char *const schemes[] = {"File", "Git", "Ssh", "Http", "Https", "Ext", "Helper", "HelperUrl"};

/* Stores the scheme of this text, in which a name follows a space. */
void set_scheme(gix_url *url, gix_url_text reported) {
    HOLDS(reported.at);
    const char *space = memchr(reported.at, ' ', reported.len);
    size_t len = space ? (size_t)(space - reported.at) : reported.len;
    if (space) url->name = (gix_url_text){space + 1, reported.len - len - 1};
    for (int i = 0; i < 8; i++)
        if (is_word((gix_url_text){reported.at, len}, schemes[i])) url->scheme = (gix_url_scheme)i;
}

/* The part of a location: the member `url.host` for the location `url` and the part `host`. */
static gix_url_text part(const order *order, const char *whole, const char *name) {
    char both[32];
    snprintf(both, sizeof both, "%s.%s", whole, name);
    return value(order, both);
}

/* The location with these parts, as they are. */
gix_url location(const order *order, const char *whole) {
    gix_url url;
    memset(&url, 0, sizeof url);
    set_scheme(&url, part(order, whole, "scheme"));
    url.user = part(order, whole, "user");
    url.password = part(order, whole, "password");
    url.host = part(order, whole, "host");
    url.alternative = is_word(part(order, whole, "alternative"), "true");
    gix_url_text port = part(order, whole, "port");
    url.has_port = port.at != NULL;
    url.port = url.has_port ? (uint16_t)atoi(port.at) : 0;
    url.path = part(order, whole, "path");
    if (!url.path.at) url.path = (gix_url_text){"", 0};
    url.spelling = part(order, whole, "spelling");
    return url;
}

/* Writes bytes as the inside of a JSON string. A byte that isn't ASCII is written as U+EF00 plus the byte. */
void put_inside(line *out, gix_url_text text) {
    for (size_t i = 0; i < text.len; i++) {
        unsigned char byte = (unsigned char)text.at[i];
        char escape[8];
        bool is_plain = byte >= 32 && byte < 127 && byte != '"' && byte != '\\';
        if (!is_plain) snprintf(escape, sizeof escape, "\\u%s%02x", byte < 128 ? "00" : "ef", byte);
        if (is_plain) put(out, text.at + i, 1);
        else put_word(out, escape);
    }
}

void put_quoted(line *out, gix_url_text text) {
    if (!text.at) {
        put_word(out, "null");
        return;
    }
    put_word(out, "\"");
    put_inside(out, text);
    put_word(out, "\"");
}

/* Writes a further member of an object, if there is a text for it. */
void put_member(line *out, const char *name, gix_url_text text) {
    if (!text.at) return;
    put_word(out, ",\""), put_word(out, name), put_word(out, "\":");
    put_quoted(out, text);
}

void put_truth(line *out, bool is) { put_word(out, is ? "true" : "false"); }
