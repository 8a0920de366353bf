/* Refuses one allocation of a program that is linked with -Wl,--wrap=malloc,--wrap=realloc: see refused_memory.adb. */
#include <stddef.h>

void *__real_malloc(size_t size);
void *__real_realloc(void *memory, size_t size);
void *__wrap_malloc(size_t size);
void *__wrap_realloc(void *memory, size_t size);
void refuse_after(int granted);
int was_refused(void);

static int left = -1; /* how many allocations are granted before one is refused; less than 0: all are granted */
static int refused;

void refuse_after(int granted) {
    left = granted;
    refused = 0;
}

int was_refused(void) { return refused; }

static int is_refused(void) {
    int now = left == 0;
    if (left >= 0)
        left--;
    refused |= now;
    return now;
}

void *__wrap_malloc(size_t size) { return is_refused() ? NULL : __real_malloc(size); }

void *__wrap_realloc(void *memory, size_t size) { return is_refused() ? NULL : __real_realloc(memory, size); }
