/* Git's use of its configuration before it connects: rewriting, remotes, transports and permission, words of
 * Secure Shell, settings of http.*, credentials and submodules; Git's reading of a text, and the dangers of a
 * text. The rules are those of Git 2.39.5 on Linux. docs/RULES.md has them, and docs/AUDIT.md those of
 * dangers and secrets.
 *
 * Link libgix_url, as for gix_url.h. No call reads a file or the environment, or runs a program: the caller passes texts.
 *
 * A configuration is an array of entries in the order in which Git reads them. gix_url_read_listing reads
 * them from the output of git config --list -z, and gix_url_read_file from the text of one configuration file
 * or .gitmodules file, once; the other calls take the array and its length. An entry is a plain struct. Its
 * parts point into the buffer that the caller supplied, which has to stay as long as the entry is used; the
 * text that was read isn't used after the call. A caller may also build entries, join arrays and leave
 * entries out. Each part of an entry then points to as many bytes as its length says, and no pointer in it
 * may be null, also if the part is absent: has_subsection and has_value report that. An entry with a null
 * pointer makes a call return GIX_URL_NULL. The place of an entry, at, is whatever the caller stored there:
 * the calls report it and don't use it.
 *
 * Buffers and null pointers are as in gix_url.h. A null text, name or buffer is empty, and a null array of
 * entries, or of results, has no elements, whatever the length beside it; nothing is stored through a null
 * pointer needed, needed_urls, needed_words, needed_helpers or stop; a null text of a struct is absent. Any
 * other null pointer is an error, GIX_URL_NULL. The places that a call stores to must not overlap those that
 * it reads.
 *
 * Each call returns one of
 *
 *   GIX_URL_OK                the result, all of it
 *   GIX_URL_MEMORY            memory was refused
 *   GIX_URL_NO_LOCATION       a struct holds no location, a number is not of its enum, or a name is not UTF-8
 *   GIX_URL_NO_ROOM           the result doesn't fit: the call stores the lengths and counts that are needed
 *   GIX_URL_NULL              a pointer that may not be null is
 *   GIX_URL_NO_VALUE          Git stops at an entry without a value
 *   GIX_URL_NO_BOOLEAN        Git stops at an entry whose value is not a boolean
 *   GIX_URL_NO_CONFIGURATION  the text is not a configuration
 *
 * The last three store the place in stop. Each call with a parameter stop sets it: to all 0 unless it returns
 * one of these. A reason why there is nothing to return, for example a text without a transport, is a result,
 * and not an error.
 *
 * GIX_URL_NO_ROOM stores only lengths and counts: needed, needed_urls, needed_words, needed_helpers and the
 * counts that are parameters. After any other error only stop has changed: each byte of the buffers, the
 * arrays and the results is kept. On GIX_URL_OK the bytes of a buffer and the elements of an array after the
 * result are kept. No call keeps a pointer past its return, calls may run in several threads, and nothing has
 * to be freed.
 *
 * A call over entries allocates one array for the entries in the library's own form, and frees it, also if the library's
 * own call allocates nothing. gix_url_transport_of, gix_url_secrets_of, gix_url_resolve_submodule, gix_url_check_submodule,
 * gix_url_danger_name and gix_url_danger_words allocate none, and never return GIX_URL_MEMORY. */
#ifndef GIX_URL_RULES_H
#define GIX_URL_RULES_H

#include "gix_url.h"

#ifdef __cplusplus
extern "C" {
#endif

/* An entry of a configuration: section.subsection.name and its value. Section and name are compared without letter
 * case. */
typedef struct gix_url_entry {
    gix_url_text section;
    gix_url_text subsection; /* of length 0 unless has_subsection; it may be empty */
    gix_url_text name;
    gix_url_text value; /* of length 0 unless has_value; it may be empty */
    size_t at;          /* how many bytes of the text that was read come before the entry */
    size_t line;        /* of a file the line in which the name begins, from 1; else 0 */
    bool has_subsection;
    bool has_value; /* false for a key without =, which Git reads as true if it needs a boolean value */
} gix_url_entry;

/* The flaw of a text that is not a configuration. */
typedef enum gix_url_flaw {
    GIX_URL_FLAW_NONE = 0,
    GIX_URL_FLAW_PARTIAL_MARK = 1,    /* in a file: a part of a byte order mark */
    GIX_URL_FLAW_NO_START = 2,        /* a byte that begins neither a header nor a name */
    GIX_URL_FLAW_NO_SECTION = 3,      /* a header without a section */
    GIX_URL_FLAW_BAD_SECTION = 4,     /* a byte that can't be in a section */
    GIX_URL_FLAW_NO_QUOTE = 5,        /* a subsection without a quote */
    GIX_URL_FLAW_OPEN_SUBSECTION = 6, /* a subsection without an end */
    GIX_URL_FLAW_OPEN_HEADER = 7,     /* a header without an end */
    GIX_URL_FLAW_NO_EQUALS = 8,       /* a name without an equals sign */
    GIX_URL_FLAW_BAD_ESCAPE = 9,      /* an unknown escape */
    GIX_URL_FLAW_OPEN_QUOTE = 10,     /* a value without its last quote */
    GIX_URL_FLAW_ZERO_BYTE = 11,      /* a byte 0 */
    GIX_URL_FLAW_NO_KEY = 12,         /* in a listing: a key without a section or without a name */
    GIX_URL_FLAW_NO_END = 13          /* in a listing: no byte 0 follows the last entry */
} gix_url_flaw;

/* The place at which Git stops, or at which a text is not a configuration. Members that don't belong to the
 * error are 0. */
typedef struct gix_url_stop {
    size_t at;         /* NO_VALUE, NO_BOOLEAN: at of the entry. NO_CONFIGURATION: how many bytes of the text come before */
    size_t line;       /* NO_CONFIGURATION, of a file: the line, from 1 */
    gix_url_flaw flaw; /* NO_CONFIGURATION */
} gix_url_stop;

/* Reads the entries that git config --list -z writes. The text is refused if one of its lines is not an entry, or its last
 * entry has no end: GIX_URL_NO_CONFIGURATION.
 *
 * On GIX_URL_OK the entries are in entries, which has entry_capacity places, and point into the buffer. count is their number
 * and needed how many bytes of the buffer they take, on GIX_URL_NO_ROOM too. A buffer as long as the text, and a place
 * for each byte 0 in it, are enough. */
gix_url_error gix_url_read_listing(const char *text, size_t len, char *buffer, size_t buffer_len, gix_url_entry *entries,
                                   size_t entry_capacity, size_t *count, size_t *needed, gix_url_stop *stop);

/* Reads the entries of a configuration file, as git config --file FILE --list -z lists them. No file is
 * included. The section of an entry is in the buffer once for each entry, so the buffer may have to be longer
 * than the text; an entry before any header has an empty section. */
gix_url_error gix_url_read_file(const char *text, size_t len, char *buffer, size_t buffer_len, gix_url_entry *entries,
                                size_t entry_capacity, size_t *count, size_t *needed, gix_url_stop *stop);

/* A URL after rewriting. */
typedef struct gix_url_rewritten {
    gix_url_text text;
    bool is_rewritten; /* a value of insteadOf or pushInsteadOf matched */
    size_t base_len;   /* the length of the base, with which the text begins then; else 0 */
} gix_url_rewritten;

/* Rewrites a URL as Git does before it fetches from it, by url.<base>.insteadOf. The text points into the buffer. Git stops
 * at an entry of insteadOf or pushInsteadOf without a value: GIX_URL_NO_VALUE. */
gix_url_error gix_url_rewrite_fetch(const gix_url_entry *entries, size_t count, const char *text, size_t len, char *buffer,
                                    size_t buffer_len, gix_url_rewritten *rewritten, size_t *needed, gix_url_stop *stop);

/* Rewrites a URL as Git does before it pushes to it: by url.<base>.pushInsteadOf, or if no value of that
 * matches, by insteadOf. If has_push_url is true, the URL is a pushurl of a remote, and is rewritten by
 * insteadOf alone. */
gix_url_error gix_url_rewrite_push(const gix_url_entry *entries, size_t count, const char *text, size_t len,
                                   bool has_push_url, char *buffer, size_t buffer_len, gix_url_rewritten *rewritten,
                                   size_t *needed, gix_url_stop *stop);

/* A remote. Each part that there isn't is null. */
typedef struct gix_url_remote {
    size_t url_count;      /* how many URLs there are to fetch from: git fetch takes the first */
    size_t push_url_count; /* how many URLs there are to push to: git push takes all */
    gix_url_text vcs;         /* the last value of remote.<name>.vcs */
    gix_url_text proxy;       /* the last value of remote.<name>.proxy */
    gix_url_text uploadpack;  /* the first value of remote.<name>.uploadpack */
    gix_url_text receivepack; /* the first value of remote.<name>.receivepack */
} gix_url_remote;

/* Finds the remote of this name: its URLs, rewritten, and four values. Without entries of its own the name is the only URL.
 *
 * The URLs are stored in urls, which has url_capacity places: those to fetch from, and then those to push to.
 * All texts point into the buffer. On GIX_URL_NO_ROOM only needed and needed_urls are stored, how many bytes
 * and places it takes; they are stored on GIX_URL_OK too. Git stops at an entry of any remote that has one of
 * the six names and no value, and at one of insteadOf or pushInsteadOf: GIX_URL_NO_VALUE, with the place of
 * the first of insteadOf and pushInsteadOf, or else of the first of remotes. */
gix_url_error gix_url_remote_of(const gix_url_entry *entries, size_t count, const char *name, size_t len, char *buffer,
                                size_t buffer_len, gix_url_text *urls, size_t url_capacity, gix_url_remote *remote,
                                size_t *needed, size_t *needed_urls, gix_url_stop *stop);

/* Why Git has no transport for a text. */
typedef enum gix_url_no_transport {
    GIX_URL_TRANSPORT_FOUND = 0,         /* it has one */
    GIX_URL_TRANSPORT_BYTE_ZERO = 1,     /* byte 0 ends the argument of a command */
    GIX_URL_TRANSPORT_OPTION_LIKE = 2,   /* a text that begins with - may be taken for an option */
    GIX_URL_TRANSPORT_RSYNC = 3,         /* Git has no transport for rsync: any more */
    GIX_URL_TRANSPORT_UNKNOWN_SCHEME = 4 /* the text before :// is neither a transport nor a remote helper */
} gix_url_no_transport;

/* The transport of a text. */
typedef struct gix_url_transport {
    gix_url_no_transport why;
    gix_url_text name; /* ssh, git, file, http, https, ext, or the name of another remote helper; null if there is none */
} gix_url_transport;

/* Finds the transport that Git takes for a text, by the form of the text alone. It is to be the text after rewriting. The
 * name points into the buffer; a buffer as long as the text, and of 4 bytes at least, is enough. */
gix_url_error gix_url_transport_of(const char *text, size_t len, char *buffer, size_t buffer_len,
                                   gix_url_transport *transport, size_t *needed);

/* Two variables of the environment; null if not set, which differs from empty. */
typedef struct gix_url_policy {
    gix_url_text allow_list; /* GIT_ALLOW_PROTOCOL */
    gix_url_text from_user;  /* GIT_PROTOCOL_FROM_USER */
} gix_url_policy;

/* Whether Git uses a transport. */
typedef enum gix_url_decision {
    GIX_URL_ALLOWED = 1,
    GIX_URL_REFUSED = 2,
    GIX_URL_UNKNOWN_ALLOWANCE = 3, /* Git stops: the entry that decides has no value that it knows */
    GIX_URL_UNKNOWN_FROM_USER = 4  /* Git stops: it needs GIT_PROTOCOL_FROM_USER, which is not a boolean */
} gix_url_decision;

/* The setting that decides about a transport. */
typedef enum gix_url_decider {
    GIX_URL_BY_NOTHING = 0, /* with GIX_URL_UNKNOWN_FROM_USER */
    GIX_URL_BY_LIST = 1,    /* GIT_ALLOW_PROTOCOL */
    GIX_URL_BY_ENTRY = 2,   /* the last protocol.<name>.allow, or else the last protocol.allow */
    GIX_URL_BY_DEFAULT = 3  /* neither: Git's default */
} gix_url_decider;

/* Git's decision about a transport, and the setting that decides. Git uses a transport only on
 * GIX_URL_ALLOWED. */
typedef struct gix_url_permission {
    gix_url_decision decision;
    gix_url_decider by;
    size_t at; /* with GIX_URL_BY_ENTRY at of the entry; else 0 */
} gix_url_permission;

/* Decides whether Git may use the transport of this name, as gix_url_transport_of stores it. The policy may be null: then
 * neither variable is set. A name that is not UTF-8 returns GIX_URL_NO_LOCATION. */
gix_url_error gix_url_permission_of(const gix_url_entry *entries, size_t count, const gix_url_policy *policy,
                                    const char *name, size_t len, gix_url_permission *permission);

/* A danger of a text, or of the location that is read in it. */
typedef enum gix_url_danger {
    GIX_URL_DANGER_COMMAND = 1,          /* Git runs the path: the scheme is ext */
    GIX_URL_DANGER_OPTION_LIKE_USER = 2, /* the user begins with - */
    GIX_URL_DANGER_OPTION_LIKE_HOST = 3, /* the host begins with - */
    GIX_URL_DANGER_OPTION_LIKE_PATH = 4, /* the path begins with - or /- */
    GIX_URL_DANGER_PASSWORD = 5,         /* there is a password */
    GIX_URL_DANGER_TOKEN = 6,            /* the user, or a word of the path, may be a token */
    GIX_URL_DANGER_HOST_CHARACTER = 7,   /* the host has a control character or a space */
    GIX_URL_DANGER_LINE_END = 8,         /* a part has a line feed, a carriage return or a byte 0 */
    GIX_URL_DANGER_OTHER_HOST = 9,       /* Git takes another host from the text */
    GIX_URL_DANGER_MISREAD_HOST = 10     /* other programs take another host or port from the text */
} gix_url_danger;

/* How many dangers there are. */
#define GIX_URL_DANGERS 10

/* Finds the dangers of a text that a program uses as a remote, and of the location that is read in it: each once, in the
 * order of their numbers. The numbers are stored in dangers, which has danger_capacity bytes, and count is how many there
 * are, on GIX_URL_NO_ROOM too. */
gix_url_error gix_url_dangers_of(const char *text, size_t len, const gix_url *url, uint8_t *dangers, size_t danger_capacity,
                                 size_t *count);

/* Puts the name of a danger into the buffer, as option_like_host, or the danger in a few words, as "the host begins with
 * -"; neither has more than 64 bytes. No byte 0 is added. needed is the length, on GIX_URL_NO_ROOM too. A number that
 * isn't a danger's returns GIX_URL_NO_LOCATION, and needed is 0 then. */
gix_url_error gix_url_danger_name(gix_url_danger danger, char *buffer, size_t buffer_len, size_t *needed);
gix_url_error gix_url_danger_words(gix_url_danger danger, char *buffer, size_t buffer_len, size_t *needed);

/* A piece of a text. */
typedef struct gix_url_piece {
    size_t len;
    size_t is_hidden; /* 1 if it may be a secret, else 0 */
} gix_url_piece;

/* Cuts a text into pieces, of which some may be secrets: passwords, and tokens of GitHub, GitLab and Bitbucket. Joined they
 * are the text. The text may be a location or none, or a key or a value of a configuration. The pieces are stored in
 * pieces, which has piece_capacity places, and count is their number, on GIX_URL_NO_ROOM too. */
gix_url_error gix_url_secrets_of(const char *text, size_t len, gix_url_piece *pieces, size_t piece_capacity, size_t *count);

/* Why Git reads no place in a text. */
typedef enum gix_url_unread {
    GIX_URL_READ = 0,                    /* it reads one */
    GIX_URL_UNREAD_BYTE_ZERO = 1,        /* byte 0 ends the argument of a command */
    GIX_URL_UNREAD_OPTION = 2,           /* the text begins with -: Git takes it for an option */
    GIX_URL_UNREAD_REMOTE_HELPER = 3,    /* Git passes the text to a remote helper */
    GIX_URL_UNREAD_HOME_OR_HERE = 4,     /* a local path begins with ~, which commands of Git read differently */
    GIX_URL_UNREAD_SECURE_SHELL_URL = 5, /* OpenSSH reads the word that Git passes to it as a URL */
    GIX_URL_UNREAD_REFUSED = 6           /* Git, or Secure Shell, refuses the text */
} gix_url_unread;

/* Git's own transports. */
typedef enum gix_url_protocol {
    GIX_URL_PROTOCOL_NONE = 0,
    GIX_URL_PROTOCOL_SSH = 1,
    GIX_URL_PROTOCOL_GIT = 2,
    GIX_URL_PROTOCOL_FILE = 3
} gix_url_protocol;

/* The place that Git's own transports read in a text. If there is none, all but why is 0. */
typedef struct gix_url_git_place {
    gix_url_unread why;
    gix_url_protocol protocol;
    gix_url_text user; /* null if there is none */
    gix_url_text host; /* without brackets; null if there is none, or an empty one */
    gix_url_text path; /* decoded if the text is a URL */
    bool has_port;
    uint16_t port;
} gix_url_git_place;

/* Reads a text as Git's own transports do. The parts point into the buffer; needed is how many bytes they take, on
 * GIX_URL_NO_ROOM too. */
gix_url_error gix_url_git_reading(const char *text, size_t len, char *buffer, size_t buffer_len, gix_url_git_place *place,
                                  size_t *needed);

/* The fields that Git's credential code passes to helpers for a URL. If it reads nothing, all is 0. */
typedef struct gix_url_request {
    bool is_read;
    gix_url_text protocol;
    gix_url_text user;     /* decoded; null if there is none */
    gix_url_text password; /* decoded; null if there is none */
    gix_url_text host;     /* decoded, with the port */
    gix_url_text path;     /* decoded; null if there is none */
} gix_url_request;

/* Reads a text as Git's credential code does. The parts point into the buffer; needed is how many bytes they take, on
 * GIX_URL_NO_ROOM too. */
gix_url_error gix_url_credential_reading(const char *text, size_t len, char *buffer, size_t buffer_len,
                                         gix_url_request *request, size_t *needed);

/* The program that Git runs on the server. */
typedef enum gix_url_service {
    GIX_URL_UPLOAD_PACK = 0,   /* git fetch, git clone, git ls-remote */
    GIX_URL_RECEIVE_PACK = 1,  /* git push */
    GIX_URL_UPLOAD_ARCHIVE = 2 /* git archive --remote */
} gix_url_service;

/* The program that is run for Secure Shell, by its options: ssh.variant. */
typedef enum gix_url_ssh_variant {
    GIX_URL_SSH_OPENSSH = 0,
    GIX_URL_SSH_SIMPLE = 1,
    GIX_URL_SSH_PLINK = 2,
    GIX_URL_SSH_PUTTY = 3,
    GIX_URL_SSH_TORTOISEPLINK = 4,
    GIX_URL_SSH_ASKED = 5 /* only from gix_url_ssh_program_of: Git runs the program with -G to find it */
} gix_url_ssh_variant;

/* The family of the addresses: git fetch -4 and -6. */
typedef enum gix_url_family { GIX_URL_ANY_FAMILY = 0, GIX_URL_IPV4 = 4, GIX_URL_IPV6 = 6 } gix_url_family;

/* The request to Secure Shell, apart from the location. If nothing is configured, Git's request has version
 * 2, and all else is 0. */
typedef struct gix_url_ssh_request {
    gix_url_service service;
    gix_url_text program; /* run on the server in place of the service: remote.<name>.uploadpack; null if unset */
    gix_url_ssh_variant variant;
    uint8_t version; /* protocol.version: 0, 1 or 2 */
    gix_url_family family;
} gix_url_ssh_request;

/* Why there is no command of Secure Shell: of several reasons the first. */
typedef enum gix_url_ssh_refusal {
    GIX_URL_SSH_MADE = 0, /* there is one */
    GIX_URL_SSH_NOT_SECURE_SHELL = 1,
    GIX_URL_SSH_PASSWORD = 2,
    GIX_URL_SSH_EMPTY_USER = 3,
    GIX_URL_SSH_BYTE_ZERO = 4,
    GIX_URL_SSH_OPTION_LIKE_USER = 5,
    GIX_URL_SSH_NO_HOST = 6,
    GIX_URL_SSH_OPTION_LIKE_HOST = 7,
    GIX_URL_SSH_AT_SIGN_IN_HOST = 8,
    GIX_URL_SSH_URL_LIKE_DESTINATION = 9,
    GIX_URL_SSH_NO_PATH = 10,
    GIX_URL_SSH_OPTION_LIKE_PATH = 11,
    GIX_URL_SSH_EMPTY_PROGRAM = 12,
    GIX_URL_SSH_BYTE_ZERO_IN_PROGRAM = 13,
    GIX_URL_SSH_OPTION_LIKE_PROGRAM = 14,
    GIX_URL_SSH_FAMILY_OF_SIMPLE = 15,
    GIX_URL_SSH_PORT_OF_SIMPLE = 16
} gix_url_ssh_refusal;

/* A command of Secure Shell. If it is refused, all but the refusal is 0. */
typedef struct gix_url_ssh_command {
    gix_url_ssh_refusal refusal;
    size_t word_count;    /* how many words follow the name of the program */
    uint8_t git_protocol; /* GIT_PROTOCOL is to be set to version=1 or version=2 then; 0 if it isn't to be set */
} gix_url_ssh_command;

/* The most words that a command has. */
#define GIX_URL_SSH_WORDS 7

/* Makes the words with which Git runs Secure Shell for a location. They are stored in words, which has word_capacity places,
 * and point into the buffer: options, the destination, and last the command, which a shell on the server reads. Pass each
 * as one argument, without a shell. On GIX_URL_NO_ROOM only needed and needed_words are stored, how many bytes and places
 * it takes; they are stored on GIX_URL_OK too. GIX_URL_NO_LOCATION is returned also for a number of the request that
 * is not of its enum. */
gix_url_error gix_url_ssh_words(const gix_url *url, const gix_url_ssh_request *request, char *buffer, size_t buffer_len,
                                gix_url_text *words, size_t word_capacity, gix_url_ssh_command *command, size_t *needed,
                                size_t *needed_words);

/* Three variables of the environment; null if not set, which differs from empty. */
typedef struct gix_url_ssh_variables {
    gix_url_text git_ssh_command; /* GIT_SSH_COMMAND */
    gix_url_text git_ssh;         /* GIT_SSH */
    gix_url_text git_ssh_variant; /* GIT_SSH_VARIANT */
} gix_url_ssh_variables;

/* The program that Git runs for Secure Shell. */
typedef struct gix_url_ssh_program {
    gix_url_text text;    /* a path or a name, or a command line */
    bool is_command_line; /* a shell reads the text */
    gix_url_ssh_variant variant;
} gix_url_ssh_program;

/* Finds the program that Git runs for Secure Shell. The text points into the buffer. The variables may be null: then none
 * is set. Git stops at the last core.sshCommand or ssh.variant if that counts and has no value: GIX_URL_NO_VALUE. */
gix_url_error gix_url_ssh_program_of(const gix_url_entry *entries, size_t count, const gix_url_ssh_variables *variables,
                                     char *buffer, size_t buffer_len, gix_url_ssh_program *program, size_t *needed,
                                     gix_url_stop *stop);

/* Why a URL has no normal form, so that no entry with a URL applies to it. */
typedef enum gix_url_abnormal {
    GIX_URL_NORMAL = 0,                 /* it has one */
    GIX_URL_ABNORMAL_NO_URL = 1,        /* no scheme and :// begin the text */
    GIX_URL_ABNORMAL_BROKEN_ESCAPE = 2, /* a % without two hexadecimal digits */
    GIX_URL_ABNORMAL_NO_HOST = 3,
    GIX_URL_ABNORMAL_BAD_HOST = 4,  /* a byte that no host has */
    GIX_URL_ABNORMAL_BAD_PORT = 5,  /* a port that isn't a number from 1 to 65,535, or any port in a URL of file without a
                                       host */
    GIX_URL_ABNORMAL_ABOVE_ROOT = 6 /* a segment .. above the root */
} gix_url_abnormal;

/* Which entries of http.* count for a URL. */
typedef struct gix_url_settings {
    gix_url_abnormal why;
    size_t setting_count;
} gix_url_settings;

/* Finds the entries of http.<name> and http.<url>.<name> whose values Git uses for a URL, for instance of the name proxy or
 * extraHeader. Of most names the best entry counts alone. extraHeader and curloptResolve are lists: the values of all
 * entries that apply count, in their order, and an empty value removes those before it; Git stops at an entry of a list
 * that applies and has no value: GIX_URL_NO_VALUE. For a text without a normal form only entries without a URL apply.
 *
 * The indices of the entries are stored in settings, which has setting_capacity places, and needed is their number, on
 * GIX_URL_NO_ROOM too. A name that is not UTF-8 returns GIX_URL_NO_LOCATION. */
gix_url_error gix_url_settings_of(const gix_url_entry *entries, size_t count, const char *name, size_t name_len,
                                  const char *text, size_t len, size_t *settings, size_t setting_capacity,
                                  gix_url_settings *found, size_t *needed, gix_url_stop *stop);

/* The settings that Git's credential code uses for a URL. If it reads nothing in the URL, all is 0. */
typedef struct gix_url_credentials {
    bool is_read;
    size_t helper_count;
    gix_url_text user;  /* the user that helpers are asked about, decoded; null if there is none */
    bool use_http_path; /* helpers get the path of a URL of HTTP */
} gix_url_credentials;

/* Finds the settings that Git's credential code uses for a URL. The indices of the entries whose values are
 * the helpers are stored in helpers, which has helper_capacity places, in the order in which Git asks them.
 * The user points into the buffer. On GIX_URL_NO_ROOM only needed and needed_helpers are stored, how many
 * bytes and places it takes; they are stored on GIX_URL_OK too. Git stops at an entry that applies and has no
 * value, or is a useHttpPath with no boolean value: GIX_URL_NO_VALUE or GIX_URL_NO_BOOLEAN. */
gix_url_error gix_url_credentials_of(const gix_url_entry *entries, size_t count, const char *text, size_t len, char *buffer,
                                     size_t buffer_len, size_t *helpers, size_t helper_capacity,
                                     gix_url_credentials *credentials, size_t *needed, size_t *needed_helpers,
                                     gix_url_stop *stop);

/* Why Git resolves no URL of a submodule. */
typedef enum gix_url_unresolved {
    GIX_URL_RESOLVED = 0,                /* it resolves it */
    GIX_URL_UNRESOLVED_EMPTY_PARENT = 1, /* the URL is relative, and the URL of the remote is empty */
    GIX_URL_UNRESOLVED_NOTHING_LEFT = 2  /* the URL has more ../ than the URL of the remote has elements */
} gix_url_unresolved;

/* The URL of a submodule after it is resolved. */
typedef struct gix_url_resolved {
    gix_url_unresolved why;
    bool is_relative; /* the URL begins with ./ or ../, so that Git resolves it */
    bool climbs;      /* the URL leaves the path of the URL of the remote */
    gix_url_text url; /* null if there is none */
} gix_url_resolved;

/* Resolves the URL of a submodule against the URL of the remote of the repository around it, parent, as git submodule init
 * does. The result points into the buffer; a buffer as long as both texts and 2 bytes is enough. needed is its length, on
 * GIX_URL_NO_ROOM too. */
gix_url_error gix_url_resolve_submodule(const char *parent, size_t parent_len, const char *url, size_t len, char *buffer,
                                        size_t buffer_len, gix_url_resolved *resolved, size_t *needed);

/* Why git fsck refuses an entry of .gitmodules. */
typedef enum gix_url_submodule_refusal {
    GIX_URL_SUBMODULE_ACCEPTED = 0,
    GIX_URL_SUBMODULE_NAME = 1,  /* the name leads out of its folder: gitmodulesName */
    GIX_URL_SUBMODULE_URL = 2,   /* the URL is dangerous: gitmodulesUrl */
    GIX_URL_SUBMODULE_PATH = 3,  /* the path looks like an option: gitmodulesPath */
    GIX_URL_SUBMODULE_UPDATE = 4 /* the submodule is updated by a command: gitmodulesUpdate */
} gix_url_submodule_refusal;

/* The refusals of git fsck for an entry of .gitmodules. */
typedef struct gix_url_submodule_check {
    gix_url_submodule_refusal name;  /* ACCEPTED or NAME */
    gix_url_submodule_refusal value; /* ACCEPTED, URL, PATH or UPDATE */
} gix_url_submodule_check;

/* Checks one entry of .gitmodules as git fsck does. */
gix_url_error gix_url_check_submodule(const gix_url_entry *entry, gix_url_submodule_check *check);

/* The index of an entry that there isn't. */
#define GIX_URL_NO_ENTRY SIZE_MAX

/* A submodule: its name, and the indices of the entries whose values Git uses; GIX_URL_NO_ENTRY if it uses
 * none. */
typedef struct gix_url_submodule {
    gix_url_text name;
    size_t path;
    size_t url;
    size_t update;
    size_t branch;
} gix_url_submodule;

/* Lists the submodules of a .gitmodules file, in the order in which their names come first. They are stored in submodules,
 * which has submodule_capacity places, and their names point into the buffer. submodule_count is their number and needed how
 * many bytes the names take, on GIX_URL_NO_ROOM too. */
gix_url_error gix_url_submodules_of(const gix_url_entry *entries, size_t count, char *buffer, size_t buffer_len,
                                    gix_url_submodule *submodules, size_t submodule_capacity, size_t *submodule_count,
                                    size_t *needed);

#ifdef __cplusplus
}
#endif

#endif
