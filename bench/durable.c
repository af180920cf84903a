/* What durable.py compares with the plant, and what times both.
 *
 *   durable ask COUNT MESSAGE REPLY PROGRAM [ARGUMENT..]
 *       starts the program on two pipes, sends the handshake, and COUNT times the bytes of the file MESSAGE, each when the
 *       REPLY bytes that answer the one before have come. Prints the nanoseconds of the COUNT round trips, and at last the
 *       program's exit status.
 *   durable serve FILE RECORD
 *       answers the handshake, and each message when a record of RECORD bytes is durable, as a journal of the plant is written:
 *       the record after the last byte of the file, fdatasync, one byte to the gate before it, fdatasync. It decodes, judges
 *       and keeps nothing: it shows the limit that the disk and the pipes set.
 */
#define _GNU_SOURCE
#include <fcntl.h>
#include <stdint.h>
#include <stdio.h>
#include <stdlib.h>
#include <string.h>
#include <sys/stat.h>
#include <sys/wait.h>
#include <time.h>
#include <unistd.h>

enum { HEADER = 8, REPLY = 10 };

static void fail(const char *what) {
    perror(what);
    exit(1);
}

static void write_whole(int to, const char *bytes, size_t count) {
    while (count > 0) {
        ssize_t written = write(to, bytes, count);
        if (written <= 0) fail("write");
        bytes += written;
        count -= (size_t)written;
    }
}

/* Reads this number of bytes; gives 0 where the input ended before the first. */
static int read_whole(int from, char *bytes, size_t count) {
    size_t had = 0;
    while (had < count) {
        ssize_t got = read(from, bytes + had, count - had);
        if (got < 0) fail("read");
        if (got == 0) {
            if (had == 0) return 0;
            fprintf(stderr, "the input ends within a message\n");
            exit(1);
        }
        had += (size_t)got;
    }
    return 1;
}

static int64_t now(void) {
    struct timespec time;
    clock_gettime(CLOCK_MONOTONIC, &time);
    return time.tv_sec * 1000000000LL + time.tv_nsec;
}

static int ask(int count, const char *path, int reply, char **program) {
    int to[2], from[2];
    struct stat about;
    int file = open(path, O_RDONLY);
    if (file < 0 || fstat(file, &about) < 0) fail(path);
    size_t size = (size_t)about.st_size;
    char *message = malloc(size + 1), answer[64];
    if (message == NULL || reply > (int)sizeof answer || !read_whole(file, message, size)) fail("message");
    if (pipe(to) < 0 || pipe(from) < 0) fail("pipe");
    pid_t child = fork();
    if (child < 0) fail("fork");
    if (child == 0) {
        dup2(to[0], 0);
        dup2(from[1], 1);
        close(to[0]), close(to[1]), close(from[0]), close(from[1]);
        execv(program[0], program);
        _exit(127);
    }
    close(to[0]), close(from[1]);
    write_whole(to[1], "u:p\3", 5);
    if (!read_whole(from[0], answer, 1)) fail("no answer to the handshake");
    int64_t start = now();
    for (int k = 0; k < count; k++) {
        write_whole(to[1], message, size);
        if (!read_whole(from[0], answer, (size_t)reply)) fail("no answer");
        if (answer[8] != 0x65) {
            fprintf(stderr, "an update was not acknowledged\n");
            return 1;
        }
    }
    int64_t end = now();
    close(to[1]);
    int status = 0;
    if (waitpid(child, &status, 0) != child) fail("wait");
    printf("%lld %d\n", (long long)(end - start), WIFEXITED(status) ? WEXITSTATUS(status) : 128 + WTERMSIG(status));
    return 0;
}

static int serve(const char *path, size_t record) {
    static const char reply[REPLY] = {1, 2, 0, 0, REPLY, 0, 0, 0, 0x65, 0};
    static char message[1 << 24];
    static const char magic[9] = "qtplant1";
    char open_gate = (char)0xa5;
    int file = open(path, O_RDWR | O_CREAT | O_TRUNC, 0644);
    if (file < 0 || pwrite(file, magic, 9, 0) != 9 || fdatasync(file) < 0) fail(path);
    if (!read_whole(0, message, 5)) return 1;
    write_whole(1, "\3", 1);
    off_t gate = 8;
    for (;;) {
        uint32_t length;
        if (!read_whole(0, message, HEADER)) return 0;
        memcpy(&length, message + 4, 4);
        if (length < HEADER || length > sizeof message) fail("length");
        if (!read_whole(0, message + HEADER, length - HEADER)) return 1;
        if (pwrite(file, message, record, gate + 1) != (ssize_t)record || fdatasync(file) < 0) fail("append");
        if (pwrite(file, &open_gate, 1, gate) != 1 || fdatasync(file) < 0) fail("gate");
        gate += (off_t)record;
        write_whole(1, reply, REPLY);
    }
}

int main(int count, char **arguments) {
    if (count > 5 && strcmp(arguments[1], "ask") == 0)
        return ask(atoi(arguments[2]), arguments[3], atoi(arguments[4]), arguments + 5);
    if (count == 4 && strcmp(arguments[1], "serve") == 0) return serve(arguments[2], (size_t)atol(arguments[3]));
    fprintf(stderr, "usage: durable ask COUNT MESSAGE REPLY PROGRAM [ARGUMENT..] | durable serve FILE RECORD\n");
    return 2;
}
