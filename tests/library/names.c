/* names.c: a program may have functions with the names that the library has inside: the library calls none of them, and
 * the linker tells them apart. */
#include "check.h"

static int called;

#define DEFINE(name)                                                                                                \
    int name(void);                                                                                                 \
    int name(void)                                                                                                  \
    {                                                                                                               \
        return ++called;                                                                                            \
    }
DEFINE(rattle_alloc)
DEFINE(rattle_realloc)
DEFINE(rattle_dealloc)

int main(void)
{
    IS(camel_abi_version() == CAMEL_ABI_VERSION);
    open_store(1, 10);
    register_subscriber(1);
    publish_to(1);
    close_store();
    IS(called == 0);
    return ended("names");
}
