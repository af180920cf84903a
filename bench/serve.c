/* The clients of serve.py: they send one message again and again to a server on 127.0.0.1, and time its replies.
 *
 *   serve ask PORT KIND CLIENTS WINDOW COUNT SECONDS HELLO MESSAGE
 *       CLIENTS threads, each over a connection of its own. Each sends the bytes of the file HELLO and waits for its replies;
 *       when all have, each sends the bytes of the file MESSAGE, COUNT times or until SECONDS have passed, with at most
 *       WINDOW of them unanswered. Prints the number of messages that were answered, the nanoseconds that it took, and the
 *       median, the 99th percentile and the longest of the waits for a reply, in nanoseconds.
 *   serve echo PORT REQUEST REPLY
 *       answers each REQUEST bytes with REPLY bytes, for one connection after the other: what a round trip costs by itself.
 *
 * KIND says what a reply is: `kdb` (a handshake of one byte, then messages of kdb+ IPC, little-endian), `redis` (a line for
 * each message; no hello), `postgres` (what a server sends up to ReadyForQuery; two for the hello, a start-up and a Parse with
 * its Sync), `echo` (ten bytes; no hello).
 */
#define _GNU_SOURCE
#include "port.h"
#include <pthread.h>
#include <string.h>

enum { ECHO_REPLY = 10 };

typedef enum { KDB, REDIS, POSTGRES, ECHO } Kind;

/* What is read of replies: how many bytes are left of one whose length is known, and the header of one whose length isn't. */
typedef struct {
    Kind kind;
    int is_greeted;
    size_t left;
    unsigned char header[8];
    size_t had;
} Reader;

typedef struct {
    int port;
    Kind kind;
    long window, count;
    double seconds;
    Bytes hello, message;
    pthread_barrier_t *ready;
    long answered;
    int64_t began, ended;
    int64_t *waits;
} Client;

static uint32_t little(const unsigned char *at) {
    return (uint32_t)at[0] | (uint32_t)at[1] << 8 | (uint32_t)at[2] << 16 | (uint32_t)at[3] << 24;
}

static uint32_t big(const unsigned char *at) {
    return (uint32_t)at[3] | (uint32_t)at[2] << 8 | (uint32_t)at[1] << 16 | (uint32_t)at[0] << 24;
}

/* A header is whole: how many bytes of its message follow it. */
static size_t rest_of(Reader *reader) {
    if (reader->kind == KDB) {
        if (reader->header[1] != 2) {
            fprintf(stderr, "what came is no response\n");
            exit(1);
        }
        return little(reader->header + 4) - 8;
    }
    if (reader->header[0] == 'E') {
        fprintf(stderr, "the server answered an error\n");
        exit(1);
    }
    return big(reader->header + 1) - 4;
}

/* Replies that begin with a header: of kdb+ IPC, or of PostgreSQL, where a reply ends with the message `Z`. */
static long headed(Reader *reader, const unsigned char *at, size_t count) {
    size_t size = reader->kind == KDB ? 8 : 5;
    long ended = 0;
    while (count > 0 || (reader->had == size && reader->left == 0)) {
        if (reader->had < size) {
            reader->header[reader->had++] = *at++;
            count--;
            if (reader->had < size) continue;
            reader->left = rest_of(reader);
        }
        size_t passed = reader->left < count ? reader->left : count;
        at += passed;
        count -= passed;
        reader->left -= passed;
        if (reader->left > 0) break;
        ended += reader->kind == KDB || reader->header[0] == 'Z';
        reader->had = 0;
    }
    return ended;
}

/* How many replies end within these bytes. */
static long replies(Reader *reader, const unsigned char *at, size_t count) {
    long ended = 0;
    if (reader->kind == REDIS) {
        for (size_t i = 0; i < count; i++) ended += at[i] == '\n';
        return ended;
    }
    if (reader->kind == ECHO) {
        reader->left += count;
        ended = (long)(reader->left / ECHO_REPLY);
        reader->left %= ECHO_REPLY;
        return ended;
    }
    if (reader->kind == KDB && !reader->is_greeted && count > 0) {
        reader->is_greeted = 1;
        return 1 + headed(reader, at + 1, count - 1);
    }
    return headed(reader, at, count);
}

static long hello_replies(Kind kind) {
    return kind == KDB ? 1 : kind == POSTGRES ? 2 : 0;
}

static long heard(int link, Reader *reader) {
    unsigned char piece[PIECE];
    ssize_t got = recv(link, piece, sizeof piece, 0);
    if (got <= 0) fail("the server closed the connection");
    return replies(reader, piece, (size_t)got);
}

/* As many copies of the message as may be sent at once, one after the other. */
static Bytes copies_of(Bytes message, long times) {
    Bytes all = {malloc(message.length * (size_t)times), message.length};
    if (!all.bytes) fail("malloc");
    for (long i = 0; i < times; i++) memcpy(all.bytes + (size_t)i * message.length, message.bytes, message.length);
    return all;
}

static void *run_client(void *given) {
    Client *client = given;
    int link = connected(client->port);
    Reader reader = {.kind = client->kind};
    send_whole(link, client->hello.bytes, client->hello.length);
    for (long had = 0; had < hello_replies(client->kind);) had += heard(link, &reader);
    Bytes copies = copies_of(client->message, client->window);
    int64_t *sent_at = malloc(sizeof(int64_t) * (size_t)client->window);
    pthread_barrier_wait(client->ready);
    client->began = now();
    int64_t last = client->began + (int64_t)(client->seconds * 1e9);
    long sent = 0, answered = 0;
    for (int64_t at = client->began; answered < sent || (sent < client->count && at < last); at = now()) {
        long more = client->window - (sent - answered);
        if (more > client->count - sent) more = client->count - sent;
        if (at < last && more > 0 && (more * 2 >= client->window || sent == answered)) {
            for (long i = 0; i < more; i++) sent_at[(sent + i) % client->window] = at;
            send_whole(link, copies.bytes, (size_t)more * copies.length);
            sent += more;
        }
        long ended = heard(link, &reader);
        int64_t came = now();
        for (long i = 0; i < ended; i++, answered++) client->waits[answered] = came - sent_at[answered % client->window];
    }
    client->ended = now();
    client->answered = answered;
    close(link);
    return NULL;
}

static Kind kind_of(const char *name) {
    static const char *const names[] = {"kdb", "redis", "postgres", "echo"};
    for (int i = 0; i < 4; i++)
        if (!strcmp(name, names[i])) return (Kind)i;
    fprintf(stderr, "no kind %s\n", name);
    exit(1);
}

static void print_results(Client *clients, long count) {
    long answered = 0;
    int64_t began = clients[0].began, ended = clients[0].ended;
    for (long i = 0; i < count; i++) {
        answered += clients[i].answered;
        if (clients[i].began < began) began = clients[i].began;
        if (clients[i].ended > ended) ended = clients[i].ended;
    }
    int64_t *waits = malloc(sizeof(int64_t) * (size_t)(answered + 1));
    long had = 0;
    for (long i = 0; i < count; i++)
        for (long j = 0; j < clients[i].answered; j++) waits[had++] = clients[i].waits[j];
    printf("%ld %lld", answered, (long long)(ended - began));
    print_quantiles(waits, (size_t)had);
    printf("\n");
}

static int ask(char **words) {
    long count = atol(words[2]);
    pthread_barrier_t ready;
    pthread_barrier_init(&ready, NULL, (unsigned)count);
    Client *clients = calloc((size_t)count, sizeof *clients);
    pthread_t *threads = calloc((size_t)count, sizeof *threads);
    for (long i = 0; i < count; i++) {
        Client *client = &clients[i];
        *client = (Client){.port = atoi(words[0]), .kind = kind_of(words[1]), .window = atol(words[3]), .count = atol(words[4])};
        client->seconds = atof(words[5]);
        client->hello = read_file(words[6]);
        client->message = read_file(words[7]);
        client->ready = &ready;
        client->waits = malloc(sizeof(int64_t) * (size_t)client->count);
        if (!client->waits) fail("malloc");
    }
    for (long i = 0; i < count; i++)
        if (pthread_create(&threads[i], NULL, run_client, &clients[i])) fail("pthread_create");
    for (long i = 0; i < count; i++) pthread_join(threads[i], NULL);
    print_results(clients, count);
    return 0;
}

static void echo_to(int link, size_t request, size_t reply) {
    static char piece[PIECE], answer[PIECE];
    size_t had = 0;
    for (;;) {
        ssize_t got = recv(link, piece, sizeof piece, 0);
        if (got <= 0) return;
        had += (size_t)got;
        for (; had >= request; had -= request) send_whole(link, answer, reply);
    }
}

static void echo(char **words) {
    int door = socket(AF_INET, SOCK_STREAM, 0), one = 1;
    struct sockaddr_in at = loopback(atoi(words[0]));
    setsockopt(door, SOL_SOCKET, SO_REUSEADDR, &one, sizeof one);
    if (door < 0 || bind(door, (struct sockaddr *)&at, sizeof at) < 0 || listen(door, 8) < 0) fail("listen");
    for (;;) {
        int link = accept(door, NULL, NULL);
        if (link < 0) fail("accept");
        setsockopt(link, IPPROTO_TCP, TCP_NODELAY, &one, sizeof one);
        echo_to(link, (size_t)atol(words[1]), (size_t)atol(words[2]));
        close(link);
    }
}

int main(int count, char **words) {
    if (count == 10 && !strcmp(words[1], "ask")) return ask(words + 2);
    if (count == 5 && !strcmp(words[1], "echo")) echo(words + 2);
    fprintf(stderr, "usage: serve ask PORT KIND CLIENTS WINDOW COUNT SECONDS HELLO MESSAGE\n       serve echo PORT REQUEST REPLY\n");
    return 2;
}
