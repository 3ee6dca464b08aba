/* Stands before the allocator of C, and refuses the growths that it is told of.
 *
 * A program that knows of it speaks by sizes that no machine has. REFUSE + N refuses the N-th growth from now on and no
 * other, REFUSE + ALL all from now on, REFUSE + 0 none. COUNTED + N is given where at most N growths were asked for
 * since. For a program that knows nothing of it, REFUSE_GROWTH is N in its environment, and a byte on the descriptor
 * REFUSE_MARKS tells that there was such a growth. */

typedef unsigned long size_t;

extern void *__libc_malloc(size_t size);
extern void *__libc_realloc(void *block, size_t size);
extern char *getenv(const char *name);
extern int atoi(const char *digits);
extern long write(int descriptor, const void *bytes, size_t count);

#define REFUSE (1ul << 60)
#define COUNTED (1ul << 61)
#define ALL (1ul << 40)

static size_t refused;
static size_t counted;
static int marks = -1;

__attribute__((constructor)) static void begin(void)
{
    const char *number = getenv("REFUSE_GROWTH");
    const char *descriptor = getenv("REFUSE_MARKS");
    if (number)
        refused = (size_t)atoi(number);
    if (descriptor)
        marks = atoi(descriptor);
    counted = 0;
}

static int is_refused(void)
{
    size_t count = __atomic_add_fetch(&counted, 1, __ATOMIC_SEQ_CST);
    size_t which = __atomic_load_n(&refused, __ATOMIC_SEQ_CST);
    int is = which == count || which == ALL;
    if (is && marks >= 0)
        write(marks, "", 1);
    return is;
}

static int is_heard(size_t size)
{
    if (size >= COUNTED)
        return __atomic_load_n(&counted, __ATOMIC_SEQ_CST) <= size - COUNTED;
    __atomic_store_n(&refused, size - REFUSE, __ATOMIC_SEQ_CST);
    __atomic_store_n(&counted, 0, __ATOMIC_SEQ_CST);
    return 1;
}

void *malloc(size_t size)
{
    if (size >= REFUSE)
        return is_heard(size) ? __libc_malloc(1) : 0;
    return is_refused() ? 0 : __libc_malloc(size);
}

void *realloc(void *block, size_t size)
{
    return is_refused() ? 0 : __libc_realloc(block, size);
}
