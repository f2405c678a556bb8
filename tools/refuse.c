// Refuses requests for memory. Loaded before the C library, it handles the program's requests in its place.
//
// There are two ways to say which request is refused:
// - REFUSE_AT=N in the environment: the N-th request of the whole program, and no other. If REFUSED_TO names a file, that
//   file is created when the request is refused.
// - By the program itself, at any time: it requests more memory than any machine has, and the amount is the order.
//   crates/sand_oom_tests/src/memory.rt is the other end of this.
#define _GNU_SOURCE
#include <errno.h>
#include <fcntl.h>
#include <stdatomic.h>
#include <stdbool.h>
#include <stdint.h>
#include <stdlib.h>
#include <unistd.h>

extern void *__libc_malloc(size_t);
extern void *__libc_calloc(size_t, size_t);
extern void *__libc_realloc(void *, size_t);
extern void *__libc_memalign(size_t, size_t);

// The amounts that are orders: to say whether this library is here; to stop refusing, and say whether a request was
// refused since it began; and, for each greater amount, to begin.
static const size_t IS_HERE = (size_t)1 << 60;
static const size_t END = IS_HERE + 1;
static const size_t BEGIN = IS_HERE + 2;

static atomic_bool is_refusing;
static atomic_bool is_refused;
static atomic_size_t requests;
static atomic_size_t refused_at; // 0 for each

static const char *told_to;

__attribute__((constructor)) static void begin_with_the_program(void) {
    const char *at = getenv("REFUSE_AT");
    told_to = getenv("REFUSED_TO");
    if (at) {
        atomic_store(&refused_at, strtoull(at, NULL, 10));
        atomic_store(&is_refusing, true);
    }
}

static void tell(void) {
    if (told_to) {
        int file = open(told_to, O_CREAT | O_WRONLY, 0644);
        if (file >= 0) close(file);
    }
}

static bool is_refused_now(void) {
    if (!atomic_load(&is_refusing)) return false;
    size_t number = atomic_fetch_add(&requests, 1) + 1;
    size_t at = atomic_load(&refused_at);
    if (at != 0 && at != number) return false;
    atomic_store(&is_refused, true);
    tell();
    errno = ENOMEM;
    return true;
}

static void *answer(bool is_yes) {
    if (is_yes) return __libc_malloc(1);
    errno = ENOMEM;
    return NULL;
}

static void *obey(size_t order) {
    if (order == IS_HERE) return answer(true);
    if (order == END) {
        atomic_store(&is_refusing, false);
        return answer(atomic_load(&is_refused));
    }
    atomic_store(&requests, 0);
    atomic_store(&is_refused, false);
    atomic_store(&refused_at, order - BEGIN);
    atomic_store(&is_refusing, true);
    return answer(false);
}

static bool is_order(size_t size) { return size >= IS_HERE && size < 2 * IS_HERE; }

void *malloc(size_t size) {
    if (is_order(size)) return obey(size);
    return is_refused_now() ? NULL : __libc_malloc(size);
}

void *calloc(size_t number, size_t size) { return is_refused_now() ? NULL : __libc_calloc(number, size); }

void *realloc(void *block, size_t size) {
    if (!block) return malloc(size);
    return is_refused_now() ? NULL : __libc_realloc(block, size);
}

void *memalign(size_t alignment, size_t size) { return is_refused_now() ? NULL : __libc_memalign(alignment, size); }

void *aligned_alloc(size_t alignment, size_t size) { return memalign(alignment, size); }

int posix_memalign(void **block, size_t alignment, size_t size) {
    void *made = memalign(alignment, size);
    if (!made) return ENOMEM;
    *block = made;
    return 0;
}
