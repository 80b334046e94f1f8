/* Stands between a program and its memory, by LD_PRELOAD: refuses one piece of it.
 *
 *   MEMORY_REFUSED=N     the Nth piece that is asked for, counted from 1, can't be had
 *   MEMORY_NOTED=FILE    the file is made when that piece is refused
 */
#include <errno.h>
#include <fcntl.h>
#include <stdatomic.h>
#include <stdlib.h>
#include <unistd.h>

extern void *__libc_malloc(size_t);

static atomic_ulong asked;
static unsigned long refused;

__attribute__((constructor)) static void begin(void)
{
    const char *number = getenv("MEMORY_REFUSED");
    refused = number ? strtoul(number, NULL, 10) : 0;
    asked = 0;
}

void *malloc(size_t size)
{
    if (refused == 0 || atomic_fetch_add(&asked, 1) + 1 != refused)
        return __libc_malloc(size);
    const char *path = getenv("MEMORY_NOTED");
    if (path)
        close(open(path, O_CREAT | O_WRONLY, 0644));
    errno = ENOMEM;
    return NULL;
}
