/* The end of a store, freed or closed, beside looks that are held: they finish, no new look begins, and the data are
 * freed when the last of them is left.
 *
 *     ending ENDS    makes so many ends beside four threads that decide and look */
#define _GNU_SOURCE
#include "check.h"

#include <malloc.h>
#include <pthread.h>
#include <stdatomic.h>

enum { SESSIONS = 5, SUBSCRIBERS = 1000, THREADS = 4 };

/* A store with so many subscribers, published. */
static void open_filled(size_t session_count, unsigned subscribers)
{
    camel_row row = row_of(2, 7);

    open_store(session_count, CAMEL_MAX_UPDATES);
    for (unsigned number = 0; number < subscribers; number++) {
        register_subscriber(number);
        RETURNS(CAMEL_OK, insert(number, ROWS(&row, 1), NO_CSI));
    }
    RETURNS(CAMEL_OK, camel_publish(&store));
}

/* Publications of one update more each. */
static void publish(unsigned times)
{
    while (times-- > 0) {
        register_subscriber(0);
        RETURNS(CAMEL_OK, camel_publish(&store));
    }
}

static void finds_the_end(camel_session *session, const camel_receipt *receipt)
{
    camel_event event = event_of(1, 2);
    camel_answer answer;

    for (int time = 0; time < 3; time++) {
        RETURNS(CAMEL_NO_LOOK, camel_decide(session, &event, &answer));
        RETURNS(CAMEL_NO_LOOK, camel_look(session));
        RETURNS(CAMEL_NO_LOOK, camel_learn(session, receipt));
    }
}

/* A store ends while a look is held at one of its places, with publications before it and after it began. */
static void ends_beside_a_look(size_t holder, unsigned before, unsigned after, bool is_closed)
{
    camel_answer answer;
    camel_receipt receipt;
    size_t with_data, without;

    open_filled(SESSIONS, SUBSCRIBERS);
    publish(before);
    RETURNS(CAMEL_OK, camel_look(&sessions[holder]));
    publish(after);
    receipt = receipt_of(&store);
    if (is_closed)
        RETURNS(CAMEL_HELD, camel_close(&store));
    else
        camel_free(&store);

    for (size_t at = 0; at < SESSIONS; at++)
        if (at != holder)
            finds_the_end(&sessions[at], &receipt);
    RETURNS(CAMEL_HELD, camel_learn(&sessions[holder], &receipt));
    answer = decided(&sessions[holder], 1, 2);
    IS(answer.is_trigger && answer.front == 2 * SUBSCRIBERS + before);
    with_data = mallinfo2().uordblks;
    RETURNS(CAMEL_OK, camel_leave(&sessions[holder]));
    finds_the_end(&sessions[holder], &receipt);
    if (is_closed)
        RETURNS(CAMEL_OK, camel_close(&store));
    /* What is left is the sessions' own: a subscriber takes more than a hundred octets. */
    without = mallinfo2().uordblks;
    IS(with_data - without > 100 * SUBSCRIBERS);
    for (size_t at = 0; at < SESSIONS; at++)
        camel_free(&sessions[at]);
    IS(without - mallinfo2().uordblks < 20000);
}

/* What the ending thread and the threads that decide have in common, beside the sessions. */
static pthread_barrier_t barrier;
static atomic_uint late;

/* Decides until the store has ended, by looks that are held for a while or by none, and then once more. */
static void *decide_to_the_end(void *given)
{
    camel_session *session = given;
    camel_event event = event_of(1, 2);

    for (;;) {
        camel_status status = CAMEL_OK;
        camel_answer answer;

        pthread_barrier_wait(&barrier);
        if (!session->is_full)
            return NULL;
        for (unsigned turn = 0; status == CAMEL_OK && turn < 10000000; turn++) {
            if ((turn + (size_t)(session - sessions)) % 4 == 0 && (status = camel_look(session)) != CAMEL_OK)
                break;
            status = camel_decide(session, &event, &answer);
            if (camel_leave(session) != CAMEL_OK)
                status = CAMEL_WRONG_HANDLE;
        }
        if (status != CAMEL_NO_LOOK || camel_decide(session, &event, &answer) != CAMEL_NO_LOOK)
            late++;
        pthread_barrier_wait(&barrier);
    }
}

static void ends_beside_threads(unsigned ends)
{
    pthread_t threads[THREADS];

    IS(pthread_barrier_init(&barrier, NULL, THREADS + 1) == 0);
    for (size_t at = 0; at < THREADS; at++)
        IS(pthread_create(&threads[at], NULL, decide_to_the_end, &sessions[at]) == 0);
    for (unsigned end = 0; end < ends; end++) {
        open_filled(THREADS, 2);
        pthread_barrier_wait(&barrier);
        for (unsigned turn = 0; turn < end % 3; turn++)
            IS(camel_publish(&store) != CAMEL_OUT_OF_MEMORY);
        for (volatile unsigned wait = end * 37 % 2000; wait > 0; wait--) {}
        if (end % 2 == 0)
            while (camel_close(&store) == CAMEL_HELD) {}
        camel_free(&store);
        pthread_barrier_wait(&barrier);
        for (size_t at = 0; at < THREADS; at++)
            camel_free(&sessions[at]);
    }
    pthread_barrier_wait(&barrier);
    for (size_t at = 0; at < THREADS; at++)
        IS(pthread_join(threads[at], NULL) == 0);
    IS(late == 0);
}

int main(int count, char **words)
{
    for (unsigned at = 0; at < 3 * 3 * 2 * 2; at++)
        ends_beside_a_look(at / 12 * (SESSIONS / 2), at / 4 % 3, at / 2 % 2, at % 2);
    ends_beside_threads(count > 1 ? (unsigned)atoi(words[1]) : 10000);
    return ended("ending");
}
