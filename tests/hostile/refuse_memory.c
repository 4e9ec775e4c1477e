// Wraps the allocator of the C library, under LD_PRELOAD: each request for memory writes a word to the file
// descriptor that REQUESTS_TO names, and the request whose number REFUSED names is refused. A word is how many bytes are
// asked for, and a `+`, or a `-` for the request that was refused: the Nth word is the Nth request. After each request and
// each call that gives memory back a word with `=` has how many bytes are held, as the C library counts them.

extern void *__libc_malloc(unsigned long size);
extern void *__libc_realloc(void *old, unsigned long size);
extern void __libc_free(void *old);
extern unsigned long malloc_usable_size(void *held);
extern char *getenv(const char *name);
extern int atoi(const char *digits);
extern long write(int file, const void *bytes, unsigned long size);

static int requests;
static unsigned long held;

static void tell(unsigned long size, char end) {
  char word[32], *at = word + sizeof word;
  *--at = end;
  do
    *--at = '0' + size % 10;
  while (size /= 10);
  write(atoi(getenv("REQUESTS_TO")), at, word + sizeof word - at);
}

static int is_refused(unsigned long size) {
  int refused = ++requests == atoi(getenv("REFUSED"));
  tell(size, refused ? '-' : '+');
  return refused;
}

static void *hold(void *made) {
  held += malloc_usable_size(made);
  tell(held, '=');
  return made;
}

void *malloc(unsigned long size) { return is_refused(size) ? 0 : hold(__libc_malloc(size)); }

void *realloc(void *old, unsigned long size) {
  if (is_refused(size))
    return 0;
  held -= malloc_usable_size(old);
  return hold(__libc_realloc(old, size));
}

void free(void *old) {
  held -= malloc_usable_size(old);
  __libc_free(old);
  tell(held, '=');
}
