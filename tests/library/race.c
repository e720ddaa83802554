/* A race between two threads of a switch, in a function whose name begins as those of the calls: tools that look for
 * races are to report it, also with the files by which they are silent about the library. It is volatile, so that each
 * thread counts 1000 times: of one sum in each, at the same moment, ThreadSanitizer may see none. */
#include <pthread.h>

static volatile unsigned camel_calls;

static void *camel_worker(void *argument)
{
    for (int call = 0; call < 1000; call++)
        camel_calls++;
    return argument;
}

int main(void)
{
    pthread_t worker;

    if (pthread_create(&worker, NULL, camel_worker, NULL) != 0)
        return 1;
    camel_worker(NULL);
    pthread_join(worker, NULL);
    return 0;
}
