/* Parses, writes and compares Git locations: remote helpers (name::address), URLs, the scp form (user@host:path) and
 * local paths, by the library gix_url, whose answers are proved.
 *
 * Link libgix_url, which scripts/bindings builds and installs, and nothing else except the C library.
 *
 * A location is a plain struct of parts, and each part is a pointer and a length in bytes. Parts may have any bytes, byte 0
 * among them, and don't end in one. Nothing has to be freed: results go to a buffer that the caller supplies. A location
 * that was read points into it, so it must outlive the location. No call keeps a pointer after it returns. Calls may run in
 * several threads, if they share no buffer.
 *
 * A call allocates memory only while it runs. gix_url_is_settled, gix_url_agrees_with_git, gix_url_is_unambiguous,
 * gix_url_unmet_condition, gix_url_write, gix_url_look and gix_url_scheme_text allocate none, and never return
 * GIX_URL_MEMORY. gix_url_parse doesn't return it for an input of at most 256 bytes.
 *
 * Any pointer may be null: a null part is missing, a null input or path is empty, a null buffer has no bytes and null pairs
 * no places, whatever the length beside them. needed, needed_pairs and problem are not stored if they are null. Any other
 * null pointer is an error, GIX_URL_NULL. A pointer that isn't null points to as many bytes as its length says. A buffer,
 * and a place for a result, must not overlap the bytes that the call reads.
 *
 * Each call returns GIX_URL_OK (0) or an error, and stores:
 *
 *   GIX_URL_OK       the result, and a problem that is all 0
 *   GIX_URL_NO_ROOM  the lengths that are needed (needed, needed_pairs, len), and a problem that is all 0
 *   any other error  the problem, which for GIX_URL_NULL is all 0, and nothing else
 *
 * So each call stores a problem, whatever it returns. All else is unchanged after an error: the buffer, pairs, url, settled,
 * agrees, unambiguous, unmet, len, seen, components, needed and needed_pairs. So a call that fails leaves no part of a
 * location in the buffer, and no password. On GIX_URL_OK the bytes of the buffer after the result are unchanged. */
#ifndef GIX_URL_H
#define GIX_URL_H

#include <stdbool.h>
#include <stddef.h>
#include <stdint.h>

#ifdef __cplusplus
extern "C" {
#endif

/* The version of this header. */
#define GIX_URL_VERSION_MAJOR 0
#define GIX_URL_VERSION_MINOR 40
#define GIX_URL_VERSION_PATCH 1
#define GIX_URL_VERSION "0.40.1"

/* The version of the linked library, in the form of GIX_URL_VERSION. The text ends in a byte 0 and is never freed. */
const char *gix_url_version(void);

/* The result of a call. */
typedef enum gix_url_error {
    GIX_URL_OK = 0,
    GIX_URL_MEMORY = 1,        /* memory was refused; the same call can succeed later */
    GIX_URL_EMPTY_LOCAL = 2,   /* the text is empty */
    GIX_URL_MISSING_PATH = 3,  /* a path is required and there is none */
    GIX_URL_NOT_UTF8 = 4,      /* the text is not UTF-8 */
    GIX_URL_TOO_LONG = 5,      /* the scheme or the authority is too long */
    GIX_URL_BAD_URL = 6,       /* the text isn't a URL, or the host of the scp form isn't valid */
    GIX_URL_HELPER_NAME = 7,   /* the name of a remote helper isn't valid */
    GIX_URL_UNWRITABLE = 8,    /* the location has no text */
    GIX_URL_NO_LOCATION = 101, /* the struct isn't a location: its scheme is not one of the eight, or its user, its password,
                                  its host or the name that its scheme takes is there and is not UTF-8. Each
                                  call with such a struct returns this, and with another struct none does */
    GIX_URL_NO_ROOM = 102,     /* the result doesn't fit in the buffer; the call stores how much is needed */
    GIX_URL_NULL = 103,        /* a pointer that must not be null is null */
    /* of gix_url_rules.h alone */
    GIX_URL_NO_VALUE = 104,        /* Git stops at an entry without a value */
    GIX_URL_NO_BOOLEAN = 105,      /* Git stops at an entry whose value is not a boolean */
    GIX_URL_NO_CONFIGURATION = 106 /* the text is not a configuration */
} gix_url_error;

/* The form in which a text is refused. */
typedef enum gix_url_kind {
    GIX_URL_KIND_NONE = 0, /* none is reported */
    GIX_URL_KIND_URL = 1,
    GIX_URL_KIND_SCP = 2,
    GIX_URL_KIND_LOCAL = 3
} gix_url_kind;

/* The fault of a URL, or of the host of the scp form, with GIX_URL_BAD_URL. */
typedef enum gix_url_fault {
    GIX_URL_FAULT_NONE = 0,
    GIX_URL_NO_SCHEME = 1,     /* the text before :// isn't a scheme */
    GIX_URL_BAD_PORT = 2,      /* the text in a port's place isn't a port */
    GIX_URL_BAD_CHARACTER = 3, /* a byte, a character or an escape that is not allowed */
    GIX_URL_HOST_REQUIRED = 4  /* a host is required and there is none */
} gix_url_fault;

/* The one reason for which a text is refused: that of the first flaw in the order of checks. */
typedef enum gix_url_reason {
    GIX_URL_REASON_NONE = 0,                      /* none is reported */
    GIX_URL_REASON_EMPTY = 1,                     /* the text is empty */
    GIX_URL_REASON_SCHEME_TOO_LONG = 2,           /* the scheme is longer than 1,024 bytes */
    GIX_URL_REASON_AUTHORITY_TOO_LONG = 3,        /* more than 1,024 bytes follow :// before the path */
    GIX_URL_REASON_NOT_UTF8 = 4,                  /* the text is not UTF-8 */
    GIX_URL_REASON_WHITE_SPACE = 5,               /* white space is in a URL */
    GIX_URL_REASON_BROKEN_ESCAPE = 6,             /* a % doesn't begin an escape */
    GIX_URL_REASON_SCHEME_MISSING = 7,            /* nothing is before :// */
    GIX_URL_REASON_SCHEME_START = 8,              /* a scheme doesn't begin with an ASCII letter */
    GIX_URL_REASON_SCHEME_CHARACTER = 9,          /* a character in a scheme isn't a letter, a digit, +, - or . */
    GIX_URL_REASON_WHITE_SPACE_IN_HOST = 10,      /* white space is in the host of the scp form */
    GIX_URL_REASON_BACKSLASH = 11,                /* a backslash is in an authority */
    GIX_URL_REASON_BACKSLASH_IN_HOST = 12,        /* a backslash is in the host of the scp form */
    GIX_URL_REASON_ESCAPES_NOT_UTF8 = 13,         /* bytes or escapes don't decode to UTF-8 */
    GIX_URL_REASON_UNCLOSED_BRACKET = 14,         /* a bracket is not closed */
    GIX_URL_REASON_BEHIND_BRACKET = 15,           /* something other than a colon follows a closed bracket */
    GIX_URL_REASON_NOT_AN_ADDRESS = 16,           /* the text between the brackets of HTTP is not an IPv6 literal */
    GIX_URL_REASON_ADDRESS_WITHOUT_BRACKETS = 17, /* an IPv6 address of HTTP is not in brackets */
    GIX_URL_REASON_SECOND_COLON = 18,             /* the host of HTTP has a second colon */
    GIX_URL_REASON_HOST_BEFORE_PORT = 19,         /* nothing is before the colon of a port of HTTP */
    GIX_URL_REASON_PORT_NOT_A_NUMBER = 20,        /* a port is not a decimal number */
    GIX_URL_REASON_HOST_CHARACTER = 21,           /* a character that the host of HTTP may not contain */
    GIX_URL_REASON_PORT_TOO_LARGE = 22,           /* a port is greater than 65,535 */
    GIX_URL_REASON_PORT_ZERO = 23,                /* the port of HTTP is 0 */
    GIX_URL_REASON_HOST_BEHIND_USER = 24,         /* no host follows the user information */
    GIX_URL_REASON_HOST_MISSING = 25,             /* the scheme, or the scp form, needs a host */
    GIX_URL_REASON_PATH_MISSING = 26,             /* a URL of Git's own transports has no path */
    GIX_URL_REASON_FILE_PATH_MISSING = 27,        /* a file URL has no path */
    GIX_URL_REASON_SCP_PATH_MISSING = 28          /* nothing follows the colon of the scp form */
} gix_url_reason;

/* Why a location has no text, with GIX_URL_UNWRITABLE. */
typedef enum gix_url_write_fault {
    GIX_URL_WRITE_FAULT_NONE = 0,
    GIX_URL_WRITE_HELPER_NAME = 1,    /* the name of the remote helper isn't valid */
    GIX_URL_WRITE_HELPER_PARTS = 2,   /* a remote helper has a user, a password, a host or a port */
    GIX_URL_WRITE_RELATIVE_SSH = 3,   /* a relative path of Secure Shell without a host, or with a password or a port */
    GIX_URL_WRITE_USER_WITHOUT_HOST = 4
} gix_url_write_fault;

/* The details of an error. A member that doesn't belong to the error is 0; with GIX_URL_OK all are.
 *
 * EMPTY_LOCAL, MISSING_PATH, NOT_UTF8, TOO_LONG and BAD_URL refuse a text, for one reason and at one place. With
 * gix_url_parse the text is the input. With gix_url_from_parts it is the text that gix_url_write stores for the parts without
 * their spelling. */
typedef struct gix_url_problem {
    gix_url_kind kind;               /* MISSING_PATH, NOT_UTF8, BAD_URL */
    gix_url_fault fault;             /* BAD_URL */
    gix_url_reason reason;           /* for each refusal of a text */
    gix_url_write_fault write_fault; /* UNWRITABLE */
    size_t shown;                    /* TOO_LONG: the number of bytes at the text's front that may be shown */
    size_t total;                    /* TOO_LONG: the length of the text */
    size_t at;                       /* for each refusal of a text: the number of bytes before the flaw */
    size_t len;                      /* as at: the length of the flaw in bytes; 0 if something is missing */
} gix_url_problem;

/* The scheme of a location. */
typedef enum gix_url_scheme {
    GIX_URL_FILE = 0,
    GIX_URL_GIT = 1,
    GIX_URL_SSH = 2,
    GIX_URL_HTTP = 3,
    GIX_URL_HTTPS = 4,
    GIX_URL_EXT = 5,       /* the remote helper ext, which runs a command */
    GIX_URL_HELPER = 6,    /* another remote helper, by its name */
    GIX_URL_HELPER_URL = 7 /* any other URL, by its scheme */
} gix_url_scheme;

/* Bytes. With a null pointer there is no text; that differs from an empty one. */
typedef struct gix_url_text {
    const char *at;
    size_t len;
} gix_url_text;

/* A location. A program may change its members. Then the location may have no text, or one that is read as something else:
 * see gix_url_is_settled. */
typedef struct gix_url {
    gix_url_scheme scheme;
    gix_url_text name;     /* of GIX_URL_HELPER and GIX_URL_HELPER_URL: UTF-8 */
    gix_url_text user;     /* decoded, UTF-8. It may be empty, and may begin with -: ask gix_url_look */
    gix_url_text password; /* decoded, UTF-8 */
    gix_url_text host;     /* UTF-8. It may be empty, and may begin with -: ask gix_url_look */
    bool alternative;      /* asks for the form that isn't a URL, if there is one: host:path, or a path */
    bool has_port;
    uint16_t port;
    gix_url_text path;     /* decoded, any bytes; with HTTP it includes query and fragment */
    gix_url_text spelling; /* the path as it was written, with its escapes, if that was retained. It is used only if it
                              decodes to the path */
} gix_url;

/* A buffer of this length holds the parts of the location that is read from a text of len bytes: no byte of the text is in
 * more than two parts. This is tested, not proved. */
#define GIX_URL_ROOM(len) (2 * (size_t)(len) + 32)

/* Reads the location that the bytes spell.
 *
 * On GIX_URL_OK url points into the buffer. On GIX_URL_NO_ROOM the bytes spell a location, and needed is the length of the
 * buffer that it takes; needed is stored on GIX_URL_OK too. Any other error says why the bytes spell no location, and problem
 * has the details. */
gix_url_error gix_url_parse(const char *input, size_t len, char *buffer, size_t buffer_len, gix_url *url, size_t *needed,
                            gix_url_problem *problem);

/* Writes the text of these parts and reads it. The location may have other parts than were passed; settled parts are
 * returned unchanged. HTTP keeps the path unless it is empty. The spelling of the parts is ignored. The buffer, needed and
 * problem are as with gix_url_parse; parts and url may be the same struct. GIX_URL_HELPER_NAME and GIX_URL_UNWRITABLE may be
 * returned too. */
gix_url_error gix_url_from_parts(const gix_url *parts, char *buffer, size_t buffer_len, gix_url *url, size_t *needed,
                                 gix_url_problem *problem);

/* True only if this library reads the location's text as the same parts, except for the spelling, and writes it the same
 * again. That says nothing about Git: ssh://github.com/@[evil.com]/a is settled, its host is github.com, and Git connects to
 * evil.com. False promises nothing: git://%5D/p isn't settled, and is read as the same parts. */
gix_url_error gix_url_is_settled(const gix_url *url, bool *settled);

/* True only if Git reads the same protocol, user, host, port and path in the text that gix_url_write stores. False promises
 * nothing. Another text that was read as the location may differ: the location of ssh://@h/p is written as ssh://h/p and the
 * result is true, but Git would pass to Secure Shell the word @h, which it refuses. Git's reading is a definition. No proof
 * says that Git follows it: a second reading of the rules was compared with git 2.39.5 on Linux.
 *
 * Git passes a text of HTTP to curl, and asks its credential code for a password. For such a location true means that this
 * code reads the location's own scheme, user, password, host with port, and path without the slashes around it, and that the
 * text is a URI of RFC 3986 in the normal form, whose components are the location's own. Such a location is settled. Its
 * host is a name of lower-case letters, digits, -, . and _ whose last label begins with a letter, an IPv4 address, or an
 * IPv6 address in brackets. Neither user, password nor path has a control character, and the user has no colon. The path
 * begins with one slash, and has no #, no ? at its end and no segment . or .., and the query has none either; it is written
 * with bytes that a path and a query of a URI may have. Neither the password nor the path is written with both a colon and
 * an escape.
 *
 * It is false for a location that Git passes to another remote helper, for an empty user of Secure Shell, for a local path
 * that begins with ~, for a location that isn't settled, and for some texts that Git reads alike. Outside HTTP these include
 * texts with an escape before the path, or with brackets that aren't around an address; docs/GIT.md has the cases. The
 * brackets around an address don't count: the host of git://[::1]/p is [::1] here, and Git connects to ::1. */
gix_url_error gix_url_agrees_with_git(const gix_url *url, bool *agrees);

/* A condition under which all readers find the same parts in the text of a location, in the order in which they are tested.
 * docs/READERS.md lists how readers in use read texts that don't meet one. */
typedef enum gix_url_condition {
    GIX_URL_CONDITION_NONE = 0,        /* the location meets each condition */
    GIX_URL_CONDITION_GIT = 1,         /* it is settled, and Git reads the same place: gix_url_agrees_with_git */
    GIX_URL_CONDITION_ESCAPES = 2,     /* the path is written without escapes */
    GIX_URL_CONDITION_HOST = 3,        /* the host is an IPv4 address, or a plain name in lower case */
    GIX_URL_CONDITION_USER = 4,        /* the user is of letters, digits and ._~-, and doesn't begin with - */
    GIX_URL_CONDITION_PASSWORD = 5,    /* the password is of letters, digits and ._~- */
    GIX_URL_CONDITION_PORT = 6,        /* the port isn't 0 */
    GIX_URL_CONDITION_PATH_BYTES = 7,  /* the path is of letters, digits and a few marks; a local path is any text
                                          without control characters, colons and backslashes */
    GIX_URL_CONDITION_PATH_START = 8,  /* the path doesn't begin with two slashes, nor as a home folder, an option, a drive
                                          or a port may, by its form */
    GIX_URL_CONDITION_DOT_SEGMENT = 9, /* a path that isn't local has no segment . or .. */
    GIX_URL_CONDITION_SCP_HOST = 10,   /* a host of the scp form has two bytes or more, and isn't the name of a scheme
                                          unless there is a user */
    GIX_URL_CONDITION_SCP_PATH = 11    /* a path of the scp form has a slash between two bytes */
} gix_url_condition;

/* True only if every reader of a family finds the same parts in the text that gix_url_write stores. Then
 * gix_url_agrees_with_git is true as well, and every reader of the family, which the library's law_unambiguous defines, finds
 * the location's own scheme, user, password, host, port and path in the text: whichever @ or colon it cuts at, whether ?, #, ;
 * or a backslash end its authority, and whatever it decodes. It is false for many texts that most readers read alike. */
gix_url_error gix_url_is_unambiguous(const gix_url *url, bool *unambiguous);

/* The first condition that the location doesn't meet: GIX_URL_CONDITION_NONE exactly if gix_url_is_unambiguous is true. */
gix_url_error gix_url_unmet_condition(const gix_url *url, gix_url_condition *unmet);

/* Stores the text of the location in the buffer, and its length, on GIX_URL_NO_ROOM too: SIZE_MAX if it is longer than that.
 * No byte 0 is added. GIX_URL_UNWRITABLE says that there is no text, and problem says why. */
gix_url_error gix_url_write(const gix_url *url, char *buffer, size_t buffer_len, size_t *len, gix_url_problem *problem);

/* Stores the text of the location with redacted in place of the password, and U+FFFD in place of bytes that aren't UTF-8. It
 * is for display: a secret in another part, as in a path or a query, is shown. */
gix_url_error gix_url_display(const gix_url *url, char *buffer, size_t buffer_len, size_t *len, gix_url_problem *problem);

/* Whether a part is safe as an argument of a command. */
typedef enum gix_url_argument {
    GIX_URL_ABSENT = 0,   /* there is no such part */
    GIX_URL_USABLE = 1,   /* it doesn't begin with -; quoting for a shell is another matter */
    GIX_URL_DANGEROUS = 2 /* it begins with -: a program may take it for an option */
} gix_url_argument;

/* Whether a location's parts are usable on a command line, its original path and its port. */
typedef struct gix_url_seen {
    gix_url_argument user;
    gix_url_argument host;
    bool path_is_usable;        /* the path begins with /, and the next byte isn't - */
    bool path_is_root;          /* the path is / */
    gix_url_text original_path; /* the path as it was written: the spelling or the path of the location */
    bool has_port;              /* the location has a port, or its scheme a default port */
    uint16_t port;
} gix_url_seen;

/* Reports on a location. It allocates nothing. */
gix_url_error gix_url_look(const gix_url *url, gix_url_seen *seen);

/* The lengths of a name of a query and its value. */
typedef struct gix_url_pair {
    size_t name_len;
    size_t value_len;
} gix_url_pair;

/* The components of the path of a location. With HTTP they are a path, a query and a fragment; any other has its path alone. */
typedef struct gix_url_components {
    gix_url_text path;
    gix_url_text fragment; /* null if there is none */
    gix_url_text query;    /* the names and values in turn, one after the other; null without a query */
    size_t pair_count;     /* the number of names; the caller's pairs have the lengths of names and values */
} gix_url_components;

/* Splits the path of a location. The components point into the buffer. The lengths of names and values are stored in pairs,
 * which has pair_capacity places; a capacity of more than SIZE_MAX bytes counts as 0. needed is the length of the buffer and
 * needed_pairs the number of places that are needed; both are stored on GIX_URL_OK and GIX_URL_NO_ROOM. */
gix_url_error gix_url_path_query_fragment(const gix_url *url, char *buffer, size_t buffer_len, gix_url_pair *pairs,
                                          size_t pair_capacity, gix_url_components *components, size_t *needed,
                                          size_t *needed_pairs);

/* The message of an error, in the library's words: "the URL has an invalid port". The problem may be null, or have no
 * details: then the message says less. It has no byte of the refused text, ends in a byte 0 and is never freed. The library's
 * own message of GIX_URL_TOO_LONG ends in ", in a text of N bytes"; N is total of the problem. */
const char *gix_url_error_words(gix_url_error error, const gix_url_problem *problem);

/* The name of an error, a fault, a form or a condition, as EmptyLocal, BadPort, Scp or PathBytes; "?" for a number that none
 * has. The names end in a byte 0 and are never freed. */
const char *gix_url_error_name(gix_url_error error);
const char *gix_url_fault_name(gix_url_fault fault);
const char *gix_url_write_fault_name(gix_url_write_fault fault);
const char *gix_url_kind_name(gix_url_kind kind);
const char *gix_url_condition_name(gix_url_condition condition);

/* Stores the name of a reason in the buffer, as PortZero, or its sentence, as "the port of HTTP must not be 0". The sentence
 * has no byte of a text. Both have at most 128 bytes. No byte 0 is added. needed is the length, on GIX_URL_NO_ROOM too. For a
 * number that no reason has, as GIX_URL_REASON_NONE, GIX_URL_NO_LOCATION is returned and needed is 0. Neither call
 * allocates. */
gix_url_error gix_url_reason_name(gix_url_reason reason, char *buffer, size_t buffer_len, size_t *needed);
gix_url_error gix_url_reason_words(gix_url_reason reason, char *buffer, size_t buffer_len, size_t *needed);

/* The text of a scheme: file, git, ssh, http, https, ext, or the name of the location. */
gix_url_text gix_url_scheme_text(const gix_url *url);

#ifdef __cplusplus
}
#endif

#endif
