/* Loaded before a program: adds each block of its heap that begins as a component to the file FREED, before it is freed. */
#define _GNU_SOURCE
#include <dlfcn.h>
#include <fcntl.h>
#include <malloc.h>
#include <stdlib.h>
#include <string.h>
#include <unistd.h>

static const char component[8] = {0, 'a', 's', 'm', 13, 0, 1, 0};

static void add(const char *path, const void *block, size_t size) {
    int file = open(path, O_WRONLY | O_CREAT | O_APPEND, 0600);
    if (file < 0 || write(file, block, size) != (ssize_t)size)
        abort();
    close(file);
}

void free(void *block) {
    static void (*release)(void *);
    const char *path = getenv("FREED");
    size_t size = block ? malloc_usable_size(block) : 0;
    if (!release)
        release = (void (*)(void *))dlsym(RTLD_NEXT, "free");
    if (path && size >= sizeof component && memcmp(block, component, sizeof component) == 0)
        add(path, block, size);
    release(block);
}
