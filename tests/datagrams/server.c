/* A small SNMPv2c agent over the library, for the tools of net-snmp: it reads datagrams on a loopback port, answers them and writes the answers back.
 *
 *     server PORTS LOG
 *
 * It prints its port, and appends to LOG each datagram that came ("in", the number of the reading, octets) and that went ("out", octets), in hex. A
 * datagram that is refused is not answered. It ends when its standard input ends. */
#define _DEFAULT_SOURCE
#include <arpa/inet.h>
#include <netinet/in.h>
#include <poll.h>
#include <stdio.h>
#include <stdlib.h>
#include <sys/socket.h>
#include <unistd.h>

#include "refbridge.h"

static uint8_t block[RB_BLOCK_SIZE], datagram[65536], message[RB_MESSAGE_MAX], answer[RB_MESSAGE_MAX], out[RB_MESSAGE_MAX];
static FILE *log_file;

static void need(int right, const char *what)
{
    if (!right) {
        fprintf(stderr, "server: %s\n", what);
        exit(2);
    }
}

static void note(const char *what, const uint8_t *octets, size_t length)
{
    fputs(what, log_file);
    for (size_t i = 0; i < length; i++) {
        fprintf(log_file, "%02x", octets[i]);
    }
    fputc('\n', log_file);
    fflush(log_file);
}

/* Returns the length of the answer in `out`, 0 where there is none. */
static size_t answered(size_t length)
{
    rb_datagram read = rb_from_datagram(datagram, length, message, sizeof message);
    rb_result done;
    char what[16];

    snprintf(what, sizeof what, "in %u ", (unsigned)read.number);
    note(what, datagram, length);
    if (read.number != RB_ANSWERED) {
        return 0;
    }
    done = rb_answer(block, sizeof block, message, read.count, answer, sizeof answer);
    need(done.number == RB_ANSWERED, "a message that was read is refused");
    done = rb_to_datagram(answer, done.count, datagram + read.community_at, read.community_len, out, sizeof out);
    need(done.number == RB_ANSWERED || done.number == RB_DATAGRAM_LONG, "an answer is not written");
    return done.count;
}

static void serve(int udp)
{
    struct pollfd ready[2] = {{udp, POLLIN, 0}, {STDIN_FILENO, POLLIN | POLLHUP, 0}};

    while (poll(ready, 2, -1) > 0 && ready[1].revents == 0) {
        struct sockaddr_in from;
        socklen_t size = sizeof from;
        ssize_t got = recvfrom(udp, datagram, sizeof datagram, 0, (struct sockaddr *)&from, &size);
        size_t length;

        need(got >= 0, "nothing received");
        length = answered((size_t)got);
        if (length > 0) {
            note("out ", out, length);
            need(sendto(udp, out, length, 0, (struct sockaddr *)&from, size) == (ssize_t)length, "nothing sent");
        }
    }
}

int main(int argc, char **argv)
{
    static const uint8_t address[RB_ADDRESS_SIZE] = {0x00, 0x11, 0x22, 0x33, 0x44, 0x55};
    struct sockaddr_in own = {.sin_family = AF_INET};
    socklen_t size = sizeof own;
    int udp = socket(AF_INET, SOCK_DGRAM, 0);

    need(argc == 3, "usage: server PORTS LOG");
    log_file = fopen(argv[2], "w");
    need(log_file != NULL, "no log");
    need(rb_setup(block, sizeof block, (uint32_t)atoi(argv[1]), RB_EDITION_OLD, RB_DEVICE_TRANSPARENT, address, sizeof address).number == 0, "no bridge");
    own.sin_addr.s_addr = htonl(INADDR_LOOPBACK);
    need(udp >= 0 && bind(udp, (struct sockaddr *)&own, sizeof own) == 0, "no socket");
    need(getsockname(udp, (struct sockaddr *)&own, &size) == 0, "no port");
    printf("%u\n", ntohs(own.sin_port));
    fflush(stdout);
    serve(udp);
    return 0;
}
