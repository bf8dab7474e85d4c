/* load FILE: loads the shared object at run time and calls it, as a host without a compiler does. */
#include <dlfcn.h>
#include <stdio.h>
#include <string.h>
#include <zurkhovel.h>

static int find(void *library, const char *name, void *function)
{
    void *found = library ? dlsym(library, name) : NULL;
    if (!found)
        printf("load: %s\n", dlerror());
    else
        memcpy(function, &found, sizeof found); /* C has no cast from an object's address to a function's */
    return found != NULL;
}

int main(int argc, char **argv)
{
    static const uint8_t edges[] = {1, 2, 2, 3, 3, 4, 4, 5, 2, 6};
    uint32_t (*write_line)(size_t, const uint8_t *, size_t, uint8_t *, size_t);
    uint32_t (*write_named)(size_t, const uint8_t *, size_t, const uint8_t *, size_t, uint8_t *, size_t, size_t *);
    uint8_t line[ZK_NAMED_LINE];
    size_t pairs;
    void *library;
    if (argc != 2) {
        puts("load: no file is named");
        return 1;
    }
    library = dlopen(argv[1], RTLD_NOW);
    if (!find(library, "zk_write_line", &write_line) || !find(library, "zk_named_write_line", &write_named))
        return 1;
    fwrite(line, 1, zk_place(write_line(6, edges, sizeof edges, line, sizeof line)), stdout);
    fwrite(line, 1, zk_place(write_named(2, edges, 2, (const uint8_t *)"CO", 2, line, sizeof line, &pairs)), stdout);
    return dlclose(library);
}
