/* client PORT CALL COUNT MILLISECONDS: makes that NFS call on file 3 of volume 0 again and again, each once the reply of the one
   before has come, and prints how many a second were answered. It ends at so many calls or milliseconds, whichever comes first,
   and fails at a reply that isn't the call's, or that doesn't come within two seconds. A call `grow512` writes 512 bytes at the
   file's end; at its greatest length, and at first, a SETATTR cuts it off, whose time counts. */
#include <arpa/inet.h>
#include <stdint.h>
#include <stdio.h>
#include <stdlib.h>
#include <string.h>
#include <sys/socket.h>
#include <sys/time.h>
#include <time.h>
#include <unistd.h>

enum { GETATTR = 1, SETATTR = 2, READ = 6, WRITE = 8, MOST = 9216, REPLY = 96, PROCEDURE = 20, ARGUMENTS = 96, SECTORS = 138 };

static unsigned char call[MOST], reply[MOST];
static size_t call_length;

static void put(uint32_t word) {
    uint32_t bytes = htonl(word);
    memcpy(call + call_length, &bytes, 4);
    call_length += 4;
}

static uint32_t word_of(const unsigned char *bytes) {
    uint32_t word;
    memcpy(&word, bytes, 4);
    return ntohl(word);
}

/* The call's words, by the file's owner; how long its reply is. */
static size_t make_call(const char *name) {
    int procedure = strcmp(name, "getattr") == 0 ? GETATTR : strcmp(name, "read") == 0 ? READ : WRITE;
    const uint32_t words[] = {0,          0, 2, 100003, 2, (uint32_t)procedure, 1, 24, 0, 1, 0x63000000, 100, 100, 0, 0, 0,
                              0x56374e32, 0, 3, 1,      0, 0,                   0, 0};
    for (size_t i = 0; i < sizeof words / 4; i++)
        put(words[i]);
    if (procedure == GETATTR)
        return REPLY;
    put(0);
    if (procedure == READ) {
        put(8192);
        put(0);
        return REPLY + 4 + 8192;
    }
    uint32_t length = strcmp(name, "write8192") == 0 ? 8192 : 512;
    put(0);
    put(0);
    put(length);
    memset(call + call_length, 'b', length);
    call_length += length;
    return REPLY;
}

static double now(void) {
    struct timespec t;
    clock_gettime(CLOCK_MONOTONIC, &t);
    return t.tv_sec + t.tv_nsec / 1e9;
}

static void fail(const char *why) {
    fprintf(stderr, "client: %s\n", why);
    exit(1);
}

/* One call, with another number each time; the reply is accepted and its status is OK. */
static void ask(int link, uint32_t number, size_t wanted) {
    uint32_t bytes = htonl(number);
    memcpy(call, &bytes, 4);
    if (send(link, call, call_length, 0) != (ssize_t)call_length)
        fail("a call could not be sent");
    if (recv(link, reply, sizeof reply, 0) != (ssize_t)wanted)
        fail("no reply, or one of another length");
    if (word_of(reply) != number || word_of(reply + 4) != 1)
        fail("a reply of another call");
    for (int i = 2; i < 7; i++)
        if (word_of(reply + 4 * i) != 0)
            fail("a call was refused");
}

static void put_at(size_t place, uint32_t word) {
    size_t length = call_length;
    call_length = place;
    put(word);
    call_length = length;
}

/* The next sector of a file that grows, the first one after a SETATTR of size 0. */
static void grow(int link, uint32_t number) {
    static uint32_t sector;
    if (sector == 0) {
        unsigned char write[MOST];
        size_t length = call_length;
        memcpy(write, call, length);
        put_at(PROCEDURE, SETATTR);
        for (int i = 0; i < 8; i++)
            put_at(ARGUMENTS + 4 * i, i == 3 ? 0 : UINT32_MAX);
        call_length = ARGUMENTS + 32;
        ask(link, number + (1u << 31), REPLY);
        memcpy(call, write, length);
        call_length = length;
    }
    put_at(ARGUMENTS + 4, 512 * sector);
    ask(link, number, REPLY);
    sector = (sector + 1) % SECTORS;
}

int main(int count, char **words) {
    if (count != 5)
        fail("usage: client PORT CALL COUNT MILLISECONDS");
    struct sockaddr_in to = {.sin_family = AF_INET, .sin_port = htons((uint16_t)atoi(words[1]))};
    to.sin_addr.s_addr = htonl(INADDR_LOOPBACK);
    int link = socket(AF_INET, SOCK_DGRAM, 0);
    struct timeval wait = {2, 0};
    setsockopt(link, SOL_SOCKET, SO_RCVTIMEO, &wait, sizeof wait);
    if (connect(link, (struct sockaddr *)&to, sizeof to) != 0)
        fail("no socket");
    size_t wanted = make_call(words[2]);
    int grows = strcmp(words[2], "grow512") == 0;
    uint32_t most = (uint32_t)atol(words[3]), calls = 0;
    double start = now(), end = start + atol(words[4]) / 1e3, at = start;
    while (calls < most && at < end) {
        calls++;
        if (grows)
            grow(link, calls);
        else
            ask(link, calls, wanted);
        at = now();
    }
    printf("%.0f\n", calls / (at - start));
    return 0;
}
