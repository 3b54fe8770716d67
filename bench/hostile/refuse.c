/* An allocator to be preloaded: it refuses the KNX_REFUSE-th growth that the program asks for, or with KNX_REFUSE_ON that and each later one, and makes the
   file KNX_REFUSED where it did.

       cc -shared -fPIC -O2 -o refuse.so refuse.c -ldl
       KNX_REFUSE=17 KNX_REFUSED=/tmp/refused LD_PRELOAD=./refuse.so ./crates/knx_cli/out/knx_cli check examples/hall.txt
*/
#define _GNU_SOURCE
#include <dlfcn.h>
#include <errno.h>
#include <fcntl.h>
#include <stdlib.h>
#include <unistd.h>

static void *(*real_malloc)(size_t);
static void *(*real_calloc)(size_t, size_t);
static void *(*real_realloc)(void *, size_t);
static void *(*real_aligned)(size_t, size_t);
static int (*real_memalign)(void **, size_t, size_t);
static long left, on;

__attribute__((constructor)) static void begin(void) {
    const char *number = getenv("KNX_REFUSE");
    real_malloc = dlsym(RTLD_NEXT, "malloc");
    real_calloc = dlsym(RTLD_NEXT, "calloc");
    real_realloc = dlsym(RTLD_NEXT, "realloc");
    real_aligned = dlsym(RTLD_NEXT, "aligned_alloc");
    real_memalign = dlsym(RTLD_NEXT, "posix_memalign");
    on = getenv("KNX_REFUSE_ON") != NULL;
    left = number ? atol(number) : 0;
}

static int refuses(void) {
    const char *told;
    int file;
    if (left == 0 || --left > 0) return 0;
    if (on) left = 1;
    told = getenv("KNX_REFUSED");
    file = told ? open(told, O_CREAT | O_WRONLY, 0600) : -1;
    if (file >= 0) close(file);
    errno = ENOMEM;
    return 1;
}

void *malloc(size_t size) {
    if (!real_malloc) begin();
    return refuses() ? NULL : real_malloc(size);
}

void *calloc(size_t count, size_t size) {
    /* the loader asks for some before there is a real one */
    static char early[4096];
    static size_t used;
    if (!real_calloc) {
        void *given = early + used;
        used += (count * size + 15) & ~(size_t)15;
        return used <= sizeof early ? given : NULL;
    }
    return refuses() ? NULL : real_calloc(count, size);
}

void *realloc(void *old, size_t size) {
    if (!real_realloc) begin();
    return refuses() ? NULL : real_realloc(old, size);
}

void *aligned_alloc(size_t to, size_t size) {
    if (!real_aligned) begin();
    return refuses() ? NULL : real_aligned(to, size);
}

int posix_memalign(void **given, size_t to, size_t size) {
    if (!real_memalign) begin();
    return refuses() ? ENOMEM : real_memalign(given, to, size);
}
