/* The calls of gix_url_rules.h over the input of a fuzzer. */
#ifndef FUZZ_RULES_H
#define FUZZ_RULES_H

#include "../c/include/gix_url_rules.h"
#include "reported.h"

/* Makes each call over a configuration and a text, which a byte 0x1e separates, and checks what it promises. */
void by_rules(gix_url_text input);

/* Whether the calls of this name are made: all are, unless FUZZ_PART in the environment names one part. */
bool is_asked_for(const char *part);

#endif
