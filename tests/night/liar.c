/* A switch that misbehaves: it hands each datagram on to an agent, and its answer back, but not as it should.
 *
 *   liar PORT AGENT_PORT MODE N
 *
 * Sets are counted from 1, since they are never sent twice. From the N-th set on: `lie` changes the last octet of each
 * answer, `odd` makes its last content, a number of one octet, one of TimeTicks, `silent` answers nothing. `deaf` drops the answer to the N-th set, `forgets` the answer to the first get
 * after it, and `late` sends that one 4 seconds later. Each one: `repeat` sends the answer twice, `elsewhere` first sends
 * another one from another port, `foreign` first one of another community. */
#define _POSIX_C_SOURCE 200809L
#include <arpa/inet.h>
#include <stdbool.h>
#include <stdio.h>
#include <stdlib.h>
#include <string.h>
#include <sys/socket.h>
#include <sys/time.h>
#include <time.h>
#include <unistd.h>

/* Where the community and the PDU start in a datagram under 128 octets whose community is public; the tags of a set and of a content that no
 * message has. */
enum { COMMUNITY_AT = 7, PDU_AT = 13, PDU_SET = 0xA3, TIME_TICKS = 0x43, DATAGRAM_MAX = 65536 };

static struct sockaddr_in loopback(int port)
{
    struct sockaddr_in address = {.sin_family = AF_INET, .sin_port = htons((unsigned short)port)};

    address.sin_addr.s_addr = htonl(INADDR_LOOPBACK);
    return address;
}

static int open_socket(int port)
{
    struct sockaddr_in address = loopback(port);
    struct timeval wait = {.tv_sec = 10};
    int made = socket(AF_INET, SOCK_DGRAM, 0);

    if (made < 0 || bind(made, (struct sockaddr *)&address, sizeof address) != 0) {
        perror("liar");
        exit(2);
    }
    if (port == 0) {
        setsockopt(made, SOL_SOCKET, SO_RCVTIMEO, &wait, sizeof wait);
    }
    return made;
}

static int front, back, other;

static void send_back(int from, const unsigned char *answer, size_t count, const struct sockaddr_in *to)
{
    if (sendto(from, answer, count, 0, (const struct sockaddr *)to, sizeof *to) < 0) {
        perror("liar");
    }
}

/* Sends an answer as the mode has it: `n` sets came so far, this is one of them or not, and the gets since are counted.
 */
static void answer(const char *mode, long n, long from, bool set, long gets, unsigned char *octets, size_t count,
                   const struct sockaddr_in *to)
{
    bool first_get = n == from && !set && gets == 1;

    if ((strcmp(mode, "silent") == 0 && n >= from) || (strcmp(mode, "deaf") == 0 && n == from && set) ||
        (strcmp(mode, "forgets") == 0 && first_get)) {
        return;
    }
    if (strcmp(mode, "late") == 0 && first_get) {
        nanosleep(&(struct timespec){.tv_sec = 4}, NULL);
    } else if (strcmp(mode, "lie") == 0 && n >= from) {
        octets[count - 1] ^= 1;
    } else if (strcmp(mode, "odd") == 0 && n >= from) {
        octets[count - 3] = TIME_TICKS;
    } else if (strcmp(mode, "repeat") == 0) {
        send_back(front, octets, count, to);
    } else if (strcmp(mode, "elsewhere") == 0) {
        octets[count - 1] ^= 1;
        send_back(other, octets, count, to);
        octets[count - 1] ^= 1;
    } else if (strcmp(mode, "foreign") == 0 && octets[1] < 128) {
        octets[COMMUNITY_AT] ^= 1;
        send_back(front, octets, count, to);
        octets[COMMUNITY_AT] ^= 1;
    }
    send_back(front, octets, count, to);
}

int main(int argc, char **argv)
{
    static unsigned char octets[DATAGRAM_MAX];

    if (argc != 5) {
        fputs("usage: liar PORT AGENT_PORT MODE N\n", stderr);
        return 2;
    }
    front = open_socket(atoi(argv[1]));
    back = open_socket(0);
    other = open_socket(0);
    for (long n = 0, gets = 0;;) {
        struct sockaddr_in asker, agent = loopback(atoi(argv[2]));
        socklen_t length = sizeof asker;
        ssize_t got = recvfrom(front, octets, sizeof octets, 0, (struct sockaddr *)&asker, &length);
        bool set = got > PDU_AT && octets[PDU_AT] == PDU_SET;

        n += set ? 1 : 0;
        gets = set ? 0 : gets + 1;
        send_back(back, octets, got < 0 ? 0 : (size_t)got, &agent);
        got = recv(back, octets, sizeof octets, 0);
        if (got > 0) {
            answer(argv[3], n, atol(argv[4]), set, gets, octets, (size_t)got, &asker);
        }
    }
}
