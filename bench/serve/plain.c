/* plain PORT FILE, plain PORT FILE BUFFERS: answers each call by a reply of the same length as the server's, whose words
   but the first two are 0, and before that makes the positioned writes and data syncs that the server makes: for each sector of a
   WRITE, for the block of addresses where that grows, and for the inode's, one of 512 bytes into the disk, or one of 512 bytes
   and one of 8 into the board; and for the inode's of a SETATTR. It reads nothing.
   It ends where nothing has come for twenty seconds. */
#include <arpa/inet.h>
#include <fcntl.h>
#include <stdint.h>
#include <stdio.h>
#include <stdlib.h>
#include <string.h>
#include <sys/socket.h>
#include <sys/time.h>
#include <unistd.h>

enum { SETATTR = 2, READ = 6, WRITE = 8, MOST = 9216, REPLY = 96, HEAD = 112, OFFSET = 100, DIRECT = 10 * 512, FIRST_BLOCK = 5 };

static unsigned char call[MOST], reply[REPLY + 4 + 8192];
static int file, buffers;

static uint32_t word_at(int at) {
    uint32_t word;
    memcpy(&word, call + at, 4);
    return ntohl(word);
}

static void store(const void *bytes, size_t length, off_t place) {
    if (pwrite(file, bytes, length, place) != (ssize_t)length || fdatasync(file) != 0)
        exit(1);
}

/* A sector: into the disk, or a buffer of the board and then the word of its entry. */
static void put(int number, int sector) {
    static int turn;
    if (buffers == 0) {
        store(call + HEAD, 512, (off_t)sector * 512);
        return;
    }
    uint64_t word = (uint64_t)1 << 63 | (uint64_t)turn << 32 | (uint64_t)sector;
    store(call + HEAD, 512, 8 * (buffers + 1) + (off_t)turn * 512);
    store(&word, 8, 8 * (number + 2));
    turn = (turn + 1) % buffers;
}

static size_t serve(void) {
    uint32_t procedure = word_at(20);
    if (procedure == READ)
        return REPLY + 4 + 8192;
    if (procedure == WRITE) {
        int sectors = (int)word_at(108) / 512;
        for (int i = 0; i < sectors; i++)
            put(i, FIRST_BLOCK + i);
        if (word_at(OFFSET) >= DIRECT)
            {
            put(sectors, FIRST_BLOCK + sectors);
            sectors++;
        }
        put(sectors, 2);
    }
    if (procedure == SETATTR)
        put(0, 2);
    return REPLY;
}

int main(int count, char **words) {
    if (count < 3 || (file = open(words[2], O_RDWR)) < 0)
        return 1;
    buffers = count > 3 ? atoi(words[3]) : 0;
    struct sockaddr_in at = {.sin_family = AF_INET, .sin_port = htons((uint16_t)atoi(words[1]))}, from;
    at.sin_addr.s_addr = htonl(INADDR_LOOPBACK);
    int link = socket(AF_INET, SOCK_DGRAM, 0);
    struct timeval wait = {20, 0};
    setsockopt(link, SOL_SOCKET, SO_RCVTIMEO, &wait, sizeof wait);
    if (bind(link, (struct sockaddr *)&at, sizeof at) != 0)
        return 1;
    for (;;) {
        socklen_t room = sizeof from;
        ssize_t length = recvfrom(link, call, sizeof call, 0, (struct sockaddr *)&from, &room);
        if (length < 0)
            return 0;
        if (length < REPLY)
            continue;
        size_t answer = serve();
        memcpy(reply, call, 4);
        reply[7] = 1;
        sendto(link, reply, answer, 0, (struct sockaddr *)&from, room);
    }
}
