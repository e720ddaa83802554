/*
 * A switch in C that has its calls decided by camel_replay: coprocess PROGRAM [CALLS]
 *
 * The program runs as a child between three pipes: records to it, its lines back, and its standard error. A record
 * goes out, and its line comes back before the next record goes out, so at most one record and one line lie in the
 * pipes. The limit of a record is one for its sending and its whole line. A second child is filled while the first one
 * answers calls, and takes its place. Each line, and each end that a child comes to, is compared with the expected
 * one. The last line tells the round trip of CALLS calls. The status is 1 if a child did anything else, and 2 if a
 * call of the system failed.
 */
#define _GNU_SOURCE
#include <errno.h>
#include <fcntl.h>
#include <poll.h>
#include <signal.h>
#include <spawn.h>
#include <stdarg.h>
#include <stdbool.h>
#include <stdio.h>
#include <stdlib.h>
#include <string.h>
#include <sys/wait.h>
#include <time.h>
#include <unistd.h>

enum { LIMIT_SECONDS = 30, LINE_ROOM = 256, RECORD_ROOM = 8192, DEFAULT_CALLS = 100000, MOST_CALLS = 900000 };

/* A child reads so many records, and fails at the next one with `TooManyRecords` (207). */
enum { MOST_RECORDS = 1000000 };

/* A child, the switch's ends of its three pipes, the limit of a record in microseconds, and how many it was sent. */
struct child { pid_t pid; int records, lines, faults; double limit; long sent; };

static struct child first, second; /* a pid is 0 if no child runs */

/* Kills a child that runs, and shows what it wrote to its standard error. */
static void drop(const struct child *child)
{
    char text[LINE_ROOM];
    ssize_t taken = 0;
    if (child->pid > 0 && kill(child->pid, SIGKILL) == 0)
        while ((taken = read(child->faults, text, sizeof text)) > 0)
            fprintf(stderr, "%.*s", (int)taken, text);
}

static _Noreturn void end_with(int status, const char *form, ...)
{
    va_list values;
    va_start(values, form);
    vfprintf(stderr, form, values);
    va_end(values);
    drop(&first);
    drop(&second);
    exit(status);
}

/* What a call of the system returned, unless it failed. */
static long checked(long returned, const char *call)
{
    if (returned < 0)
        end_with(2, "coprocess: %s: %s\n", call, strerror(errno));
    return returned;
}

/* Ends the switch if a call failed that returns the number of its error. */
static void check_error(int error, const char *call)
{
    errno = error;
    checked(error == 0 ? 0 : -1, call);
}

static double microseconds(void)
{
    struct timespec now;
    checked(clock_gettime(CLOCK_MONOTONIC, &now), "clock_gettime");
    return (double)now.tv_sec * 1e6 + (double)now.tv_nsec / 1e3;
}

/* Runs the program with these standard streams and the default SIGPIPE. The other ends of the pipes are closed when it
 * is executed, since they are made with O_CLOEXEC. None of them is 0, 1 or 2, since the switch has these open. */
static pid_t spawn(const char *program, int input, int output, int errors)
{
    pid_t pid;
    sigset_t signals;
    posix_spawnattr_t attributes;
    posix_spawn_file_actions_t streams;
    checked(sigemptyset(&signals), "sigemptyset");
    checked(sigaddset(&signals, SIGPIPE), "sigaddset");
    check_error(posix_spawnattr_init(&attributes), "posix_spawnattr_init");
    check_error(posix_spawnattr_setsigdefault(&attributes, &signals), "posix_spawnattr_setsigdefault");
    check_error(posix_spawnattr_setflags(&attributes, POSIX_SPAWN_SETSIGDEF), "posix_spawnattr_setflags");
    check_error(posix_spawn_file_actions_init(&streams), "posix_spawn_file_actions_init");
    check_error(posix_spawn_file_actions_adddup2(&streams, input, STDIN_FILENO), "adddup2");
    check_error(posix_spawn_file_actions_adddup2(&streams, output, STDOUT_FILENO), "adddup2");
    check_error(posix_spawn_file_actions_adddup2(&streams, errors, STDERR_FILENO), "adddup2");
    char *words[] = {(char *)program, NULL};
    check_error(posix_spawn(&pid, program, &streams, &attributes, words, environ), program);
    posix_spawn_file_actions_destroy(&streams);
    posix_spawnattr_destroy(&attributes);
    return pid;
}

/* Starts a child. A write to it returns at once: a child that reads no more is waited for up to its limit only. */
static void start(struct child *child, const char *program)
{
    int records[2], lines[2], faults[2];
    checked(pipe2(records, O_CLOEXEC), "pipe2");
    checked(pipe2(lines, O_CLOEXEC), "pipe2");
    checked(pipe2(faults, O_CLOEXEC), "pipe2");
    checked(fcntl(records[1], F_SETFL, O_NONBLOCK), "fcntl");
    *child = (struct child){0, records[1], lines[0], faults[0], LIMIT_SECONDS * 1e6, 0};
    child->pid = spawn(program, records[0], lines[1], faults[1]);
    checked(close(records[0]), "close");
    checked(close(lines[1]), "close");
    checked(close(faults[1]), "close");
}

/* Waits until a pipe is ready. A child that lets the deadline pass is killed, and false is returned. */
static bool wait_for(const struct child *child, int pipe, short events, double deadline)
{
    for (;;) {
        double left = deadline - microseconds();
        if (left <= 0) {
            checked(kill(child->pid, SIGKILL), "kill");
            return false;
        }
        struct pollfd wait = {.fd = pipe, .events = events};
        int ready = poll(&wait, 1, (int)(left / 1e3) + 1);
        if (ready > 0)
            return true;
        if (ready < 0 && errno != EINTR)
            checked(ready, "poll");
    }
}

/* Sends a record whole, in as many writes as it takes. False if the child reads no more (SIGPIPE is ignored), or lets
 * the deadline pass. */
static bool send_record(struct child *child, const char *record, double deadline)
{
    for (size_t left = strlen(record); left > 0;) {
        ssize_t taken = write(child->records, record, left);
        if (taken >= 0) {
            record += taken;
            left -= (size_t)taken;
        } else if (errno == EPIPE || (errno == EAGAIN && !wait_for(child, child->records, POLLOUT, deadline))) {
            return false;
        } else if (errno != EAGAIN && errno != EINTR) {
            checked(taken, "write");
        }
    }
    child->sent++;
    return true;
}

/* Receives what comes up to a line feed, or up to the end of the stream, and returns how many octets these are. */
static size_t receive(const struct child *child, int pipe, bool is_line, char text[LINE_ROOM], double deadline)
{
    size_t length = 0;
    while (length < LINE_ROOM - 1 && !(is_line && length > 0 && text[length - 1] == '\n')
           && wait_for(child, pipe, POLLIN, deadline)) {
        ssize_t taken = read(pipe, text + length, LINE_ROOM - 1 - length);
        if (taken == 0)
            break;
        if (taken < 0 && errno != EINTR)
            checked(taken, "read");
        length += taken < 0 ? 0 : (size_t)taken;
    }
    text[length] = '\0';
    return length;
}

/* Sends a record and receives its line, both within the child's limit. False if no whole line comes: the child has
 * ended, or is killed. */
static bool exchange(struct child *child, const char *record, char line[LINE_ROOM])
{
    double deadline = microseconds() + child->limit;
    line[0] = '\0';
    if (!send_record(child, record, deadline))
        return false;
    size_t length = receive(child, child->lines, true, line, deadline);
    return length > 0 && line[length - 1] == '\n';
}

/* What a line says. `number` is that of the update or of the refusal, or, of the others, how many updates are
 * published. Of a TRIGGER there are the row's values, and whether a call is released if its dialogue fails. */
enum kind { ACCEPTED, REFUSED, PUBLISHED, TRIGGER, NO_TRIGGER };
struct answer {
    enum kind kind;
    unsigned long long number;
    unsigned dp, key;
    char scf[19];
    bool releases;
    char reason[10];
};

/* Reads a line with its line feed. False if it is none. */
static bool parse(const char *line, struct answer *answer)
{
    int end = 0;
    char action[9] = "";
    *answer = (struct answer){0};
    if (sscanf(line, "accepted %llu%n", &answer->number, &end) == 1) {
        answer->kind = ACCEPTED;
    } else if (sscanf(line, "refused %llu%n", &answer->number, &end) == 1) {
        answer->kind = REFUSED;
    } else if (sscanf(line, "published %llu%n", &answer->number, &end) == 1) {
        answer->kind = PUBLISHED;
    } else if (sscanf(line, "front %llu trigger %u %u %18[0-9a-f] %8[a-z]%n", &answer->number, &answer->dp,
                      &answer->key, answer->scf, action, &end) == 5) {
        answer->kind = TRIGGER;
        answer->releases = strcmp(action, "release") == 0;
    } else if (sscanf(line, "front %llu none %9[a-z-]%n", &answer->number, answer->reason, &end) == 2) {
        answer->kind = NO_TRIGGER;
    } else {
        return false;
    }
    return strcmp(line + end, "\n") == 0;
}

/* Asks a child a record, and reads its line. */
static struct answer ask(struct child *child, const char *record)
{
    char line[LINE_ROOM];
    struct answer answer;
    if (!exchange(child, record, line) || !parse(line, &answer))
        end_with(1, "coprocess: %sis answered by \"%s\"\n", record, line);
    return answer;
}

/* What the switch keeps of a subscriber: the items of an insert that makes the record as it is; NULL without CSIs. */
struct subscriber { const char *imsi, *items; };

static const struct subscriber kept[] = {
    {"262010000000001", "o:2:100:919471160000:0"},
    {"262010000000002", "o:2:101:919471160000:1,oc:2:e/919471/:::,t:12:300:919471160000:0"},
    {"262010000000003", NULL},
};
enum { SUBSCRIBERS = sizeof kept / sizeof *kept };

/* Sends an update of a refill. It is not refused, since the same data were accepted before. */
static void update(struct child *child, const char *form, const struct subscriber *of)
{
    char record[RECORD_ROOM];
    int length = snprintf(record, sizeof record, form, of->imsi, of->items);
    if (length < 0 || length >= RECORD_ROOM)
        end_with(1, "coprocess: a record of %s is too long\n", of->imsi);
    struct answer answer = ask(child, record);
    if (answer.kind != ACCEPTED)
        end_with(1, "coprocess: %sis refused by %llu\n", record, answer.number);
}

/* Fills a new child with a subscriber, by one or two records. A publish behind those of the last one shows them all. */
static void refill(struct child *child, const struct subscriber *subscriber)
{
    update(child, "register,%s\n", subscriber);
    if (subscriber->items != NULL)
        update(child, "insert,%s,%s\n", subscriber);
}

/* How a child ended: its status or its signal, and the numbers of its fault line, 0 for those that it has not. */
struct end { bool exited; int number; unsigned long long record; int fault; };

/* Ends a child that is sent no more. Its standard error ends when it does; one that goes on is killed at its limit. */
static struct end end_of(struct child *child)
{
    int status;
    char text[LINE_ROOM];
    struct end end = {0};
    checked(close(child->records), "close");
    receive(child, child->faults, false, text, microseconds() + child->limit);
    while (waitpid(child->pid, &status, 0) < 0)
        checked(errno == EINTR ? 0 : -1, "waitpid");
    child->pid = 0;
    checked(close(child->lines), "close");
    checked(close(child->faults), "close");
    end.exited = WIFEXITED(status);
    end.number = end.exited ? WEXITSTATUS(status) : WTERMSIG(status);
    if (sscanf(text, "camel_replay: record %llu: fault %d", &end.record, &end.fault) != 2
        && sscanf(text, "camel_replay: fault %d", &end.fault) != 1 && text[0] != '\0')
        end_with(1, "coprocess: the child wrote \"%s\" to standard error\n", text);
    return end;
}

/* Sends a record, and compares what comes back with the line; "" is the end of the stream without a line. */
static void expect(struct child *child, const char *record, const char *line)
{
    char received[LINE_ROOM];
    exchange(child, record, received);
    if (strcmp(received, line) != 0)
        end_with(1, "coprocess: %sis answered by \"%s\", not by \"%s\"\n", record, received, line);
}

/* Ends a child, and compares how it ended. */
static void expect_end(struct child *child, const char *after, const char *expected)
{
    char text[80];
    struct end end = end_of(child);
    int length = snprintf(text, sizeof text, "%s %d", end.exited ? "status" : "signal", end.number);
    if (end.fault != 0)
        snprintf(text + length, sizeof text - (size_t)length, ", record %llu, fault %d", end.record, end.fault);
    if (strcmp(text, expected) != 0)
        end_with(1, "coprocess: after %s the child ended with %s, not %s\n", after, text, expected);
    printf("after %s the child ended with %s\n", after, text);
}

static const char *const exchanges[][2] = {
    {"register,262010000000001\n", "accepted 1\n"},
    {"insert,262010000000001,o:2:100:919471160000:0\n", "accepted 2\n"},
    {"publish\n", "published 2\n"},
    {"insert,262010000000002,o:2:100:919471160000:0\n", "refused 5\n"},
    {"call,2,262010000000002,t11,91214365,n\n", "front 2 none unknown\n"},
    {"call,2,262010000000001,t11,91214365,n\n", "front 2 trigger 2 100 919471160000 continue\n"},
};
enum { LAST = sizeof exchanges / sizeof *exchanges - 1 };

/* Asks the first child each record, goes on after the refusal, and times the last record, a call, so many times. */
static void ask_each(double *times, long calls)
{
    for (size_t at = 0; at <= LAST; at++) {
        expect(&first, exchanges[at][0], exchanges[at][1]);
        printf("%.*s: %s", (int)strcspn(exchanges[at][0], "\n"), exchanges[at][0], exchanges[at][1]);
    }
    for (long call = 0; call < calls; call++) {
        double begun = microseconds();
        expect(&first, exchanges[LAST][0], exchanges[LAST][1]);
        times[call] = microseconds() - begun;
    }
}

/* Fills the second child while the first one answers calls. An update that comes meanwhile goes to the first one, and
 * to the second one too if its subscriber is filled there already. */
static void warm(const char *program)
{
    start(&second, program);
    for (size_t at = 0; at < SUBSCRIBERS; at++) {
        refill(&second, &kept[at]);
        expect(&first, exchanges[LAST][0], exchanges[LAST][1]);
    }
    struct answer answer = ask(&second, "publish\n");
    if (answer.kind != PUBLISHED || answer.number != (unsigned long long)second.sent - 1)
        end_with(1, "coprocess: a refill of %ld records is not published whole\n", second.sent);
    printf("a second child is filled with %d subscribers by %ld records, and has %ld left\n", (int)SUBSCRIBERS,
           second.sent, MOST_RECORDS - second.sent);
}

/* Asks the second child a call, and acts by what its line says. */
static void call(const char *record)
{
    struct answer answer = ask(&second, record);
    printf("%.*s: ", (int)strcspn(record, "\n"), record);
    if (answer.kind == TRIGGER)
        printf("service %u at %s, and if its dialogue fails the call is %s\n", answer.key, answer.scf,
               answer.releases ? "released" : "continued");
    else
        printf("no service, %s\n", answer.reason);
}

/* Ends children by a record that is none, by a signal, and by the limit for one record. Another one takes the place of
 * each, and is filled anew. */
static void lose_children(const char *program)
{
    printf("a record that is none is sent, and the child is to end with fault 202\n");
    expect(&second, "call,3,262010000000001,t11,91214365,n\n", "");
    double deadline = microseconds() + second.limit;
    /* A poll for no event returns once nobody reads the pipe any more. */
    if (!wait_for(&second, second.records, 0, deadline) || send_record(&second, "publish\n", deadline))
        end_with(1, "coprocess: a child that had ended took a record\n");
    expect_end(&second, "the record that is none", "status 1, record 10, fault 202");

    start(&second, program);
    for (size_t at = 0; at < SUBSCRIBERS; at++)
        refill(&second, &kept[at]);
    checked(kill(second.pid, SIGKILL), "kill");
    expect(&second, "publish\n", "");
    expect_end(&second, "SIGKILL", "signal 9");

    start(&second, program);
    second.limit = 1e5;
    checked(kill(second.pid, SIGSTOP), "kill");
    expect(&second, "publish\n", "");
    expect_end(&second, "its limit", "signal 9");
}

static int compare(const void *left, const void *right)
{
    double a = *(const double *)left, b = *(const double *)right;
    return (a > b) - (a < b);
}

static void say_round_trip(double *times, long calls)
{
    double sum = 0;
    for (long call = 0; call < calls; call++)
        sum += times[call];
    qsort(times, (size_t)calls, sizeof *times, compare);
    printf("round trip of %ld calls: median %.1f us, mean %.1f us\n", calls,
           (times[(calls - 1) / 2] + times[calls / 2]) / 2, sum / (double)calls);
}

int main(int count, char **words)
{
    static double times[MOST_CALLS];
    long calls = count == 3 ? strtol(words[2], NULL, 10) : DEFAULT_CALLS;
    if (count < 2 || count > 3 || calls < 1 || calls > MOST_CALLS)
        end_with(2, "coprocess PROGRAM [CALLS], with 1 to %d calls\n", MOST_CALLS);
    checked(signal(SIGPIPE, SIG_IGN) == SIG_ERR ? -1 : 0, "signal");

    start(&first, words[1]);
    ask_each(times, calls);
    warm(words[1]);
    expect_end(&first, "the end of its input", "status 0");
    call("call,2,262010000000001,t11,91214365,n\n");
    call("call,2,262010000000002,t11,9194719999,n\n");
    call("call,12,262010000000003,t11\n");
    lose_children(words[1]);

    say_round_trip(times, calls);
    return checked(fflush(stdout), "fflush") != 0;
}
