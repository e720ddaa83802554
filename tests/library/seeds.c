/* Seeds of stores: of 1,024 pairs that differ in one bit, each position 16 times, each two have other numbers and other
 * tables, as the order shows in which their IMSIs are listed. And the system gives seeds. */
#include "check.h"

enum { SUBSCRIBERS = 300, NUMBER = SUBSCRIBERS, SHOWN, SEEDS = 16 };

/* What a store of a seed shows of it: the IMSIs in their order, and its number. */
static void show(uint64_t seed, uint64_t shown[SHOWN])
{
    camel_imsis imsis = CAMEL_EMPTY;
    bool is_there;

    RETURNS(CAMEL_OK, camel_open(&store, sessions, 1, SUBSCRIBERS, CAMEL_PROFILE_1, seed));
    for (unsigned at = 0; at < SUBSCRIBERS; at++)
        register_subscriber(at);
    publish_to(1);
    RETURNS(CAMEL_OK, camel_imsis_of(sessions, &imsis));
    for (unsigned at = 0; at < SUBSCRIBERS; at++) {
        camel_imsi imsi = { 0 };
        RETURNS(CAMEL_OK, camel_next_imsi(&imsis, &imsi, &is_there));
        IS(is_there);
        shown[at] = imsi.number;
    }
    shown[NUMBER] = receipt_of(&store).store;
    camel_free(&imsis);
    close_store();
}

int main(void)
{
    static uint64_t first[SHOWN], other[SHOWN];
    uint64_t seed = 0, another = 0;

    for (unsigned at = 0; at < SEEDS; at++) {
        show(seed, first);
        show(seed, other);
        IS(memcmp(first, other, sizeof first) == 0);
        for (unsigned bit = 0; bit < 64; bit++) {
            show(seed ^ (uint64_t)1 << bit, other);
            IS(other[NUMBER] != first[NUMBER] && memcmp(other, first, SUBSCRIBERS * sizeof *first) != 0);
        }
        seed = seed * 6364136223846793005u + 1442695040888963407u;
    }
    IS(camel_random_seed(&seed) && camel_random_seed(&another) && seed != another);
    return ended("seeds");
}
