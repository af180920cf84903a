/* What the clients of serve.c and subscribe.c share: connections of 127.0.0.1, files, and the time. */
#include <arpa/inet.h>
#include <fcntl.h>
#include <netinet/tcp.h>
#include <stdint.h>
#include <stdio.h>
#include <stdlib.h>
#include <sys/socket.h>
#include <sys/stat.h>
#include <time.h>
#include <unistd.h>

enum { PIECE = 1 << 16 };

typedef struct {
    char *bytes;
    size_t length;
} Bytes;

static void fail(const char *what) {
    perror(what);
    exit(1);
}

static int64_t now(void) {
    struct timespec time;
    clock_gettime(CLOCK_MONOTONIC, &time);
    return time.tv_sec * 1000000000LL + time.tv_nsec;
}

static Bytes read_file(const char *path) {
    struct stat about;
    int from = open(path, O_RDONLY);
    if (from < 0 || fstat(from, &about) < 0) fail(path);
    Bytes file = {malloc((size_t)about.st_size + 1), (size_t)about.st_size};
    if (!file.bytes || read(from, file.bytes, file.length) != (ssize_t)file.length) fail(path);
    close(from);
    return file;
}

static struct sockaddr_in loopback(int port) {
    struct sockaddr_in at = {.sin_family = AF_INET, .sin_port = htons((uint16_t)port)};
    at.sin_addr.s_addr = htonl(INADDR_LOOPBACK);
    return at;
}

static int connected(int port) {
    int link = socket(AF_INET, SOCK_STREAM, 0), one = 1;
    struct sockaddr_in at = loopback(port);
    if (link < 0 || connect(link, (struct sockaddr *)&at, sizeof at) < 0) fail("connect");
    setsockopt(link, IPPROTO_TCP, TCP_NODELAY, &one, sizeof one);
    return link;
}

static void send_whole(int link, const char *bytes, size_t count) {
    while (count > 0) {
        ssize_t sent = send(link, bytes, count, MSG_NOSIGNAL);
        if (sent <= 0) fail("send");
        bytes += sent;
        count -= (size_t)sent;
    }
}

static int is_less(const void *a, const void *b) {
    int64_t x = *(const int64_t *)a, y = *(const int64_t *)b;
    return (x > y) - (x < y);
}

/* Sorts the times and prints the median, the 99th percentile and the longest of them. */
static void print_quantiles(int64_t *times, size_t count) {
    int64_t none = 0;
    qsort(times, count, sizeof *times, is_less);
    const int64_t *median = count ? &times[count / 2] : &none, *most = count ? &times[count - 1 - count / 100] : &none;
    const int64_t *longest = count ? &times[count - 1] : &none;
    printf(" %lld %lld %lld", (long long)*median, (long long)*most, (long long)*longest);
}
