/* Preloaded into a test program: the allocation of the number in REFUSE_AT is refused, and so is each one by which
   the program has asked for more than ASK_AT_MOST bytes in all. Where one was refused, "met" is written into the
   file that REFUSED names when the program ends. */
#define _GNU_SOURCE
#include <fcntl.h>
#include <stddef.h>
#include <stdlib.h>
#include <unistd.h>

extern void *__libc_malloc(size_t);
extern void *__libc_realloc(void *, size_t);

static unsigned long left, most, asked;
static int is_ready, is_over, is_met;

static unsigned long number_of(const char *name)
{
    const char *text = getenv(name);
    return text ? strtoul(text, NULL, 10) : 0;
}

static int is_refused(size_t size)
{
    if (is_over)
        return 0;
    if (!is_ready) {
        left = number_of("REFUSE_AT");
        most = number_of("ASK_AT_MOST");
        is_ready = 1;
    }
    asked += size;
    if ((most == 0 || asked <= most) && (left == 0 || --left != 0))
        return 0;
    is_met = 1;
    return 1;
}

void *malloc(size_t size)
{
    return is_refused(size) ? NULL : __libc_malloc(size);
}

void *realloc(void *old, size_t size)
{
    return is_refused(size) ? NULL : __libc_realloc(old, size);
}

__attribute__((destructor)) static void tell(void)
{
    const char *name = getenv("REFUSED");
    is_over = 1;
    if (!is_met || !name)
        return;
    int file = open(name, O_WRONLY | O_CREAT | O_TRUNC, 0600);
    if (file >= 0) {
        if (write(file, "met\n", 4) != 4)
            _exit(125);
        close(file);
    }
}
