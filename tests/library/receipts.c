/* Receipts: who may learn one, what a session sees behind it, and that one of another store or one that was made up is
 * refused. */
#include "check.h"

enum { SESSIONS = 2 };

static camel_store other;
static camel_session of_other;

/* Publishes so many updates. */
static void publish(camel_store *to, unsigned updates)
{
    while (updates-- > 0)
        RETURNS(CAMEL_OK, submit_to(to, CAMEL_UPDATE_REGISTER, 1));
    RETURNS(CAMEL_OK, camel_publish(to));
}

/* A session learns a receipt, or not, and has seen so many updates then. */
static void learns(camel_session *session, camel_status wanted, camel_receipt receipt, uint64_t front)
{
    RETURNS(wanted, camel_learn(session, &receipt));
    IS(front_of(session) == front);
}

/* A receipt is of what is published when it is made. It is plain data, and any number of sessions may learn it. */
static void learnt_by_any(uint64_t published)
{
    camel_receipt receipt = receipt_of(&store), again = receipt_of(&store), copy;

    IS(receipt.front == published && memcmp(&receipt, &again, sizeof receipt) == 0);
    memcpy(&copy, &receipt, sizeof copy);
    memset(&receipt, 0, sizeof receipt);
    for (int time = 0; time < 2 * SESSIONS; time++)
        learns(&sessions[time / 2], CAMEL_OK, copy, published);
}

/* One of another store, and one that says more than is published, or is of no store. */
static void refused(void)
{
    camel_receipt theirs = receipt_of(&other), own = receipt_of(&store);
    uint64_t front = front_of(sessions);

    IS(theirs.store != own.store);
    learns(sessions, CAMEL_OTHER_STORE, theirs, front);
    learns(sessions, CAMEL_OTHER_STORE, (camel_receipt){ theirs.store, 0 }, front);
    learns(sessions, CAMEL_OTHER_STORE, (camel_receipt){ own.store + 1, own.front }, front);
    for (uint64_t beyond = 1; beyond != 0; beyond <<= 1)
        learns(sessions, CAMEL_OTHER_STORE, (camel_receipt){ own.store, own.front + beyond }, front);
    learns(sessions, CAMEL_OTHER_STORE, (camel_receipt){ own.store, UINT64_MAX }, front);
    publish(&store, 1);
    learns(sessions, CAMEL_OK, (camel_receipt){ own.store, own.front + 1 }, front + 1);
}

/* An earlier receipt takes nothing back. */
static void earlier(void)
{
    camel_receipt before = receipt_of(&store), now;

    publish(&store, 3);
    now = receipt_of(&store);
    IS(now.store == before.store && now.front == before.front + 3);
    learns(&sessions[1], CAMEL_OK, now, now.front);
    learns(&sessions[1], CAMEL_OK, before, now.front);
    learns(&sessions[1], CAMEL_OK, (camel_receipt){ now.store, 0 }, now.front);
}

/* Nothing is learnt while a look has begun, whichever receipt it is, and the look goes on at its front. */
static void held(void)
{
    uint64_t front = front_of(sessions);

    RETURNS(CAMEL_OK, camel_look(sessions));
    publish(&store, 1);
    learns(sessions, CAMEL_HELD, receipt_of(&store), front);
    learns(sessions, CAMEL_HELD, receipt_of(&other), front);
    RETURNS(CAMEL_OK, camel_leave(sessions));
    learns(sessions, CAMEL_OK, receipt_of(&store), front + 1);
}

/* A session learns by a look that it leaves: it holds no publication up. */
static void left(void)
{
    for (int time = 0; time < 3; time++) {
        camel_receipt receipt = receipt_of(&store);
        RETURNS(CAMEL_OK, camel_learn(&sessions[1], &receipt));
        publish(&store, 1);
    }
}

/* A session whose store has ended still refuses a receipt of another store, and finds the end by one of its own. */
static void after_the_end(camel_session *session, const camel_receipt *own, camel_receipt theirs)
{
    RETURNS(CAMEL_NO_LOOK, camel_learn(session, own));
    RETURNS(CAMEL_OTHER_STORE, camel_learn(session, &theirs));
    theirs.front = 0;
    RETURNS(CAMEL_OTHER_STORE, camel_learn(session, &theirs));
    RETURNS(CAMEL_NO_LOOK, camel_learn(session, own));
}

int main(void)
{
    camel_receipt own, theirs;

    open_store(SESSIONS, CAMEL_MAX_UPDATES);
    RETURNS(CAMEL_OK, camel_open(&other, &of_other, 1, CAMEL_MAX_UPDATES, 1, 0xfeed));
    learnt_by_any(0);
    publish(&store, 2);
    publish(&other, 2);
    learnt_by_any(2);
    refused();
    earlier();
    held();
    left();

    own = receipt_of(&store);
    theirs = receipt_of(&other);
    RETURNS(CAMEL_OK, camel_close(&store));
    for (int at = 0; at < SESSIONS; at++)
        after_the_end(&sessions[at], &own, theirs);
    RETURNS(CAMEL_OK, camel_learn(&of_other, &theirs));
    RETURNS(CAMEL_OTHER_STORE, camel_learn(&of_other, &own));
    camel_free(&other);
    after_the_end(&of_other, &theirs, own);
    camel_free(&of_other), camel_free(&sessions[0]), camel_free(&sessions[1]);
    return ended("receipts");
}
