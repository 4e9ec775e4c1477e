/* Orders of tests, a line each, and the output of their results as JSON. tests/bindings/binding_rows.py writes and describes
 * orders. */
#ifndef ORDERS_H
#define ORDERS_H

#include "reported.h"

/* An order: members, each a name and a value. */
enum { MOST = 16 };
typedef struct order {
    const char *names[MOST];
    gix_url_text values[MOST];
    size_t count;
} order;

static const gix_url_text none = {NULL, 0};

/* The names of the schemes, by their numbers. */
extern const char *const schemes[];

/* Parses the order on a line, in place. */
order order_of(char *line);

/* The value of a member; no text if the member is missing. */
gix_url_text value(const order *order, const char *name);
bool is_word(gix_url_text text, const char *word);

/* Stores the scheme of this text, in which a name follows a space. */
void set_scheme(gix_url *url, gix_url_text reported);

/* The location with these parts, as they are. */
gix_url location(const order *order, const char *whole);

/* Writes bytes as the inside of a JSON string, and as a string, or null if there are none. */
void put_inside(line *out, gix_url_text text);
void put_quoted(line *out, gix_url_text text);

/* Writes a further member of an object, if there is a text for it. */
void put_member(line *out, const char *name, gix_url_text text);
void put_truth(line *out, bool is);

#endif
