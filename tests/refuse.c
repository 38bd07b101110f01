/* Loaded into a program, refuses the allocation whose number FIRST names, from 1, and those after it up to the number
   that LAST names. Where BEGIN and END name sizes, those from an allocation of BEGIN bytes up to one of END bytes are
   counted alone, and the one of END bytes is refused exactly where one of them was. At its end the program writes how
   many it asked for to the file that COUNT names. */
typedef unsigned long size_t;

enum { WRITE_NEW = 01 | 0100 | 01000, NO_MEMORY = 12 };

char *getenv(const char *);
unsigned long strtoul(const char *, char **, int);
int open(const char *, int, ...);
int dprintf(int, const char *, ...);
int *__errno_location(void);
void *__libc_malloc(size_t);
void *__libc_calloc(size_t, size_t);
void *__libc_realloc(void *, size_t);
void *__libc_memalign(size_t, size_t);

static unsigned long asked, first, last, begin_size, end_size;
static int is_within = 1, was_refused;

static unsigned long number(const char *name) {
    const char *text = getenv(name);
    return text ? strtoul(text, (void *)0, 10) : 0;
}

__attribute__((constructor)) static void begin(void) {
    asked = 0;
    first = number("FIRST");
    last = number("LAST");
    begin_size = number("BEGIN");
    end_size = number("END");
    is_within = !begin_size;
}

__attribute__((destructor)) static void end(void) {
    const char *path = getenv("COUNT");
    int file = path ? open(path, WRITE_NEW, 0600) : -1;
    if (file >= 0) dprintf(file, "%lu", asked);
}

/* Whether this allocation says that those begin that are counted, or end. */
static int is_mark(size_t size) {
    return begin_size && (size == begin_size || size == end_size);
}

static int answer_mark(size_t size) {
    int answer = size == end_size && was_refused;
    is_within = size == begin_size;
    was_refused = 0;
    return answer;
}

static int is_numbered(void) {
    if (!is_within) return 0;
    asked++;
    if (!first || asked < first || asked > last) return 0;
    return was_refused = 1;
}

static int is_refused(size_t size) {
    int answer = is_mark(size) ? answer_mark(size) : is_numbered();
    if (answer) *__errno_location() = NO_MEMORY;
    return answer;
}

void *malloc(size_t n) { return is_refused(n) ? (void *)0 : __libc_malloc(n); }
void *calloc(size_t n, size_t each) { return is_refused(n * each) ? (void *)0 : __libc_calloc(n, each); }
void *realloc(void *old, size_t n) { return is_refused(n) ? (void *)0 : __libc_realloc(old, n); }
void *aligned_alloc(size_t to, size_t n) { return is_refused(n) ? (void *)0 : __libc_memalign(to, n); }
int posix_memalign(void **out, size_t to, size_t n) {
    if (is_refused(n)) return NO_MEMORY;
    *out = __libc_memalign(to, n);
    return *out ? 0 : NO_MEMORY;
}
