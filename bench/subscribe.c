/* The clients of subscribers.py: one feeds a server on 127.0.0.1, and others are told what it fed.
 *
 *   subscribe MODE NUMBER PORT SUBSCRIBERS COUNT FOLDER
 *
 * Each subscriber sends the bytes of FOLDER/subscribe and waits for those of FOLDER/subscribed; the feed sends FOLDER/hello and
 * waits for FOLDER/greeted. Then the feed sends FOLDER/update, COUNT times. It must be answered FOLDER/answer for each, and each
 * subscriber must get FOLDER/told for each, and nothing else. In a file of updates or of what is told the eight bytes MARK stand
 * for the number of the update, from 0, so that no two of them are the same.
 *
 *   turns N    the feed sends an update when the one before it was answered and all subscribers have it, for at most N seconds
 *   flood N    at most N updates are unanswered
 *   paced N    N updates a second, whenever those before them are answered
 *
 * Prints the number of updates and the nanoseconds from the first until all are answered and all subscribers have them; then the
 * median, the 99th percentile and the longest of the nanoseconds from an update's sending to each receipt by a subscriber (paced:
 * from the time at which it was to be sent), and the same from the receipt of its answer by the feed. The first tenth of the
 * updates counts for none of these.
 */
#define _GNU_SOURCE
#include "port.h"
#include <errno.h>
#include <pthread.h>
#include <string.h>
#include <sys/prctl.h>

enum { NUMBER = 8, MOST_AT_ONCE = 1000, WAIT_SECONDS = 20 };
static const char MARK[NUMBER + 1] = "\1NUMBER\2";

/* Where the number stands in a message, or none. */
typedef struct {
    Bytes message;
    char *number;
} Numbered;

/* What has to come over a connection: one message, `most` times, and when each was whole. */
typedef struct {
    const char *who;
    int link;
    Numbered next;
    size_t had;
    long whole, most;
    int64_t *times;
} Stream;

typedef struct {
    long number, count, subscribers;
    Numbered update;
    int64_t *sent;
    Stream answers, *told;
} Run;

static void stop(const char *who, const char *what) {
    fprintf(stderr, "%s %s\n", who, what);
    exit(1);
}

static Bytes part(const char *folder, const char *name) {
    char path[4096];
    snprintf(path, sizeof path, "%s/%s", folder, name);
    return read_file(path);
}

static Numbered numbered(Bytes message) {
    return (Numbered){message, memmem(message.bytes, message.length, MARK, NUMBER)};
}

static void set_number(Numbered *it, long number) {
    int64_t wide = number;
    if (it->number) memcpy(it->number, &wide, NUMBER);
}

static int64_t *times_of(long count) {
    int64_t *times = calloc((size_t)count + 1, sizeof *times);
    if (!times) fail("calloc");
    return times;
}

/* A connection that has sent a handshake and got its reply. */
static int greeted(int port, Bytes greeting, Bytes reply) {
    int link = connected(port);
    struct timeval most = {.tv_sec = WAIT_SECONDS};
    setsockopt(link, SOL_SOCKET, SO_RCVTIMEO, &most, sizeof most);
    send_whole(link, greeting.bytes, greeting.length);
    char piece[PIECE];
    if (reply.length > sizeof piece) stop("a reply", "is too long");
    if (reply.length > 0 && recv(link, piece, reply.length, MSG_WAITALL) < (ssize_t)reply.length) fail("no reply to a handshake");
    if (memcmp(piece, reply.bytes, reply.length)) stop("a handshake", "got another reply than it should");
    return link;
}

static Stream stream_of(const char *who, int link, Bytes message, long most) {
    return (Stream){.who = who, .link = link, .next = numbered(message), .most = most, .times = times_of(most)};
}

/* Compares what came with what had to come. */
static void check(Stream *stream, const char *bytes, size_t count, int64_t at) {
    while (count > 0) {
        if (stream->whole == stream->most) stop(stream->who, "got more than was fed");
        if (stream->had == 0) set_number(&stream->next, stream->whole);
        size_t left = stream->next.message.length - stream->had, same = left < count ? left : count;
        if (memcmp(stream->next.message.bytes + stream->had, bytes, same)) stop(stream->who, "got something else than was fed");
        stream->had += same;
        bytes += same;
        count -= same;
        if (stream->had == stream->next.message.length) {
            stream->times[stream->whole++] = at;
            stream->had = 0;
        }
    }
}

static void receive(Stream *stream) {
    char piece[PIECE];
    ssize_t got = recv(stream->link, piece, sizeof piece, 0);
    int64_t at = now();
    if (got < 0) fail(stream->who);
    if (got == 0) stop(stream->who, "lost its connection");
    check(stream, piece, (size_t)got, at);
}

static void *receive_all(void *given) {
    Stream *stream = given;
    while (stream->whole < stream->most) receive(stream);
    return NULL;
}

/* Sends the updates of these numbers in one piece. */
static void send_updates(Run *run, long first, long count) {
    static char *pieces;
    size_t length = run->update.message.length;
    if (!pieces && !(pieces = malloc(length * MOST_AT_ONCE))) fail("malloc");
    for (long i = 0; i < count; i++) {
        set_number(&run->update, first + i);
        memcpy(pieces + (size_t)i * length, run->update.message.bytes, length);
    }
    send_whole(run->answers.link, pieces, (size_t)count * length);
}

static void feed_in_turns(Run *run) {
    int64_t last = now() + run->number * 1000000000;
    for (long i = 0; i < run->count; i++) {
        run->sent[i] = now();
        if (run->sent[i] >= last) run->count = i;
        if (i == run->count) break;
        send_updates(run, i, 1);
        while (run->answers.whole <= i) receive(&run->answers);
        for (long j = 0; j < run->subscribers; j++)
            while (run->told[j].whole <= i) receive(&run->told[j]);
    }
}

static void feed_at_once(Run *run) {
    long window = run->number < MOST_AT_ONCE ? run->number : MOST_AT_ONCE;
    for (long sent = 0; run->answers.whole < run->count;) {
        long unanswered = sent - run->answers.whole, more = window - unanswered;
        if (more > run->count - sent) more = run->count - sent;
        if (more > 0 && (more * 2 >= window || unanswered == 0)) {
            int64_t at = now();
            for (long i = 0; i < more; i++) run->sent[sent + i] = at;
            send_updates(run, sent, more);
            sent += more;
        }
        receive(&run->answers);
    }
}

static void sleep_until(int64_t at) {
    struct timespec time = {.tv_sec = at / 1000000000, .tv_nsec = at % 1000000000};
    while (clock_nanosleep(CLOCK_MONOTONIC, TIMER_ABSTIME, &time, NULL) == EINTR) continue;
}

/* Sends each update when it is due; where several are, in one piece. */
static void feed_paced(Run *run) {
    int64_t gap = 1000000000 / run->number, began = now() + gap;
    prctl(PR_SET_TIMERSLACK, 1UL);
    for (long sent = 0; sent < run->count;) {
        sleep_until(began + sent * gap);
        long more = (now() - began) / gap + 1 - sent;
        if (more > run->count - sent) more = run->count - sent;
        if (more > MOST_AT_ONCE) more = MOST_AT_ONCE;
        for (long i = sent; i < sent + more; i++) run->sent[i] = began + i * gap;
        send_updates(run, sent, more);
        sent += more;
    }
}

static pthread_t started(Stream *stream) {
    pthread_t thread;
    if (pthread_create(&thread, NULL, receive_all, stream)) fail("pthread_create");
    return thread;
}

static void feed_beside_threads(Run *run, int is_paced) {
    pthread_t answers, *told = calloc((size_t)run->subscribers + 1, sizeof *told);
    for (long i = 0; i < run->subscribers; i++) told[i] = started(&run->told[i]);
    if (is_paced) {
        answers = started(&run->answers);
        feed_paced(run);
        pthread_join(answers, NULL);
    } else {
        feed_at_once(run);
    }
    for (long i = 0; i < run->subscribers; i++) pthread_join(told[i], NULL);
}

/* Nothing may come after what was fed. */
static void check_quiet(const Run *run) {
    char byte;
    sleep_until(now() + 100000000);
    for (long i = 0; i < run->subscribers; i++)
        if (recv(run->told[i].link, &byte, 1, MSG_DONTWAIT) >= 0) stop(run->told[i].who, "got more than was fed");
}

static void print_delays(const Run *run, const int64_t *from) {
    long first = run->count / 10, counted = run->count - first;
    int64_t *delays = times_of(run->subscribers * counted);
    for (long i = 0; i < run->subscribers; i++)
        for (long j = 0; j < counted; j++) delays[i * counted + j] = run->told[i].times[first + j] - from[first + j];
    print_quantiles(delays, (size_t)(run->subscribers * counted));
    free(delays);
}

static void print_results(const Run *run) {
    int64_t ended = run->answers.times[run->count - 1];
    for (long i = 0; i < run->subscribers; i++)
        if (run->told[i].times[run->count - 1] > ended) ended = run->told[i].times[run->count - 1];
    printf("%ld %lld", run->count, (long long)(ended - run->sent[0]));
    print_delays(run, run->sent);
    print_delays(run, run->answers.times);
    printf("\n");
}

static Run run_of(int port, char **words) {
    const char *folder = words[5];
    Run run = {.number = atol(words[1]), .subscribers = atol(words[3]), .count = atol(words[4])};
    run.told = calloc((size_t)run.subscribers + 1, sizeof *run.told);
    for (long i = 0; i < run.subscribers; i++) {
        int link = greeted(port, part(folder, "subscribe"), part(folder, "subscribed"));
        run.told[i] = stream_of("a subscriber", link, part(folder, "told"), run.count);
    }
    run.answers = stream_of("the feed", greeted(port, part(folder, "hello"), part(folder, "greeted")), part(folder, "answer"), run.count);
    run.update = numbered(part(folder, "update"));
    run.sent = times_of(run.count);
    return run;
}

int main(int count, char **words) {
    if (count != 7 || atol(words[2]) < 1 || atol(words[5]) < 1) {
        fprintf(stderr, "usage: subscribe turns|flood|paced NUMBER PORT SUBSCRIBERS COUNT FOLDER\n");
        return 2;
    }
    Run run = run_of(atoi(words[3]), words + 1);
    if (!strcmp(words[1], "turns")) feed_in_turns(&run);
    else feed_beside_threads(&run, !strcmp(words[1], "paced"));
    check_quiet(&run);
    print_results(&run);
    return 0;
}
