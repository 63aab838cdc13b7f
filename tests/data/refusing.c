/* Loaded before the C library, refuses one request for memory, the one whose number REFUSED has, and leaves in the file
   REQUESTS how many there were. */
#include <errno.h>
#include <fcntl.h>
#include <stdio.h>
#include <stdlib.h>
#include <unistd.h>

extern void *__libc_malloc(size_t size);
extern void *__libc_realloc(void *block, size_t size);

static unsigned long requests, refused;

__attribute__((constructor)) static void begin(void)
{
    refused = strtoul(getenv("REFUSED"), NULL, 10);
    requests = 0;
}

__attribute__((destructor)) static void end(void)
{
    int file = open(getenv("REQUESTS"), O_WRONLY | O_CREAT | O_TRUNC, 0644);
    dprintf(file, "%lu\n", requests);
    close(file);
}

static int is_refused(void)
{
    if (++requests != refused)
        return 0;
    errno = ENOMEM;
    return 1;
}

void *malloc(size_t size)
{
    return is_refused() ? NULL : __libc_malloc(size);
}

void *realloc(void *block, size_t size)
{
    return is_refused() ? NULL : __libc_realloc(block, size);
}
