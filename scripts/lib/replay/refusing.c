/* Refuses memory to the program into which it is loaded. What the program asks for is counted from 1: the allocation whose number is the
   value of REFUSED_AT is refused, and all from the number that is the value of REFUSED_FROM. If COUNT_INTO is set, the file of that name gets
   how many there were. The kit's compiler comes without headers, so what is called is declared here. */

typedef unsigned long size;
typedef long number;

extern void *dlsym(void *library, const char *name);
extern char *getenv(const char *name);
extern number atol(const char *text);
extern int *__errno_location(void);
extern int open(const char *path, int flags, ...);
extern int dprintf(int file, const char *form, ...);
extern number syscall(number call, ...);

#define NEXT_LIBRARY ((void *)-1L)
#define OUT_OF_MEMORY 12
#define WRITTEN_ANEW 01101
#define READ_BY_ALL 0644
#define EXIT_OF_ALL_THREADS 231

static void *(*next_malloc)(size);
static void *(*next_calloc)(size, size);
static void *(*next_realloc)(void *, size);
static number refused_at, refused_from, count;
static int counts;

/* What is asked for while the next library is looked up. Nothing of it is given back. */
static char early[65536];
static size early_used;

static void *of_early(size wanted) {
    void *place = early + early_used;
    early_used += (wanted + 15) & ~15UL;
    return early_used <= sizeof early ? place : 0;
}

/* Counts an allocation, and says whether it is refused. Several threads may ask at once. */
static int is_refused(void) {
    if (!counts)
        return 0;
    number asked = __atomic_add_fetch(&count, 1, __ATOMIC_SEQ_CST);
    if (asked != refused_at && (!refused_from || asked < refused_from))
        return 0;
    *__errno_location() = OUT_OF_MEMORY;
    return 1;
}

static number number_of(const char *name) {
    const char *value = getenv(name);
    return value ? atol(value) : 0;
}

__attribute__((constructor)) static void begin(void) {
    next_malloc = dlsym(NEXT_LIBRARY, "malloc");
    next_calloc = dlsym(NEXT_LIBRARY, "calloc");
    next_realloc = dlsym(NEXT_LIBRARY, "realloc");
    refused_at = number_of("REFUSED_AT");
    refused_from = number_of("REFUSED_FROM");
    counts = 1;
}

void *malloc(size wanted) {
    if (!next_malloc)
        return of_early(wanted);
    return is_refused() ? 0 : next_malloc(wanted);
}

void *calloc(size items, size wanted) {
    if (!next_calloc)
        return of_early(items * wanted);
    return is_refused() ? 0 : next_calloc(items, wanted);
}

void *realloc(void *place, size wanted) {
    return is_refused() ? 0 : next_realloc(place, wanted);
}

__attribute__((destructor)) static void end(void) {
    const char *path = getenv("COUNT_INTO");
    counts = 0;
    if (path)
        dprintf(open(path, WRITTEN_ANEW, READ_BY_ALL), "%ld\n", count);
}

/* A program with threads ends by this call, which runs no destructor. */
void _exit(int status) {
    end();
    syscall(EXIT_OF_ALL_THREADS, status);
    for (;;)
        ;
}
