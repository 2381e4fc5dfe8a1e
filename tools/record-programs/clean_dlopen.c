/* Loads and unloads modules while blocks of theirs come and go; nothing is wrong. */
#include <dlfcn.h>
#include <stdlib.h>

int main(void)
{
    static const char *names[] = { "libz.so.1", "libm.so.6", "libstdc++.so.6", "libsqlite3.so.0", "liblzma.so.5" };
    for (int turn = 0; turn < 200; turn++) {
        void *module = dlopen(names[turn % 5], turn % 2 ? RTLD_LAZY : RTLD_NOW);
        if (!module)
            continue;
        unsigned long (*bound)(unsigned long) = (unsigned long (*)(unsigned long))dlsym(module, "compressBound");
        free(malloc(bound ? bound(100) : 10));
        dlclose(module);
    }
    return 0;
}
