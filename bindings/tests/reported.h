/* Lines of text, the calls of the library with a buffer that is just large enough, and memory that ends at a guard
 * page. */
#ifndef TOLD_H
#define TOLD_H

#include "../c/include/gix_url.h"

#include <stdio.h>
#include <stdlib.h>

/* Text that grows. */
typedef struct line {
    char *at;
    size_t len, capacity;
} line;

void put(line *out, const char *bytes, size_t len);
void put_text(line *out, gix_url_text text);
void put_word(line *out, const char *word);
void put_number(line *out, size_t number);

/* The location that an input is parsed as, or that parts are built to, in a buffer that is just large enough. The
 * caller frees the buffer. */
char *read_input(gix_url_text input, gix_url *url, gix_url_error *error, gix_url_problem *problem);
char *make_parts(const gix_url *parts, gix_url *url, gix_url_error *error, gix_url_problem *problem);

/* Whether the error refuses a text. */
bool is_refusal(gix_url_error error);

/* Checks that the text is refused with this error and this problem. */
void is_refused_so(gix_url_text text, gix_url_error error, const gix_url_problem *problem);

/* The name of a reason, or its sentence, in a buffer that is just large enough. The caller frees it. */
typedef gix_url_error reason_putter(gix_url_reason, char *, size_t, size_t *);
char *text_of_reason(reason_putter *call, gix_url_reason reason, size_t *len);

/* The text of a location, and the text that it is shown as. The caller frees it; null and the error if there is
 * none. */
typedef gix_url_error putter(const gix_url *, char *, size_t, size_t *, gix_url_problem *);
char *text_of_location(putter *call, const gix_url *url, size_t *len, gix_url_error *error, gix_url_problem *problem);

/* The components of a location's path, and the lengths of the query, which the caller frees. The components stay until
 * the next call that returns a buffer. */
gix_url_pair *components_of(const gix_url *url, gix_url_components *parts);
void tell_components(line *out, const gix_url *url);

bool is_same(gix_url_text one, gix_url_text other);
bool has_same_fields(const gix_url *one, const gix_url *other);

/* Ends the test with a message if the condition is false. */
#define HOLDS(is) ((is) ? (void)0 : fails(__FILE__, __LINE__, #is))
void fails(const char *file, int number, const char *what);

/* Sets the text that the test is about from now on. It is printed if a check fails. */
void about(gix_url_text text);

/* This many bytes just before memory that can't be accessed, with these contents. They stay until the next call with
 * the same number, which is 0 or 1. */
char *at_wall(int number, const char *bytes, size_t len);

#endif
