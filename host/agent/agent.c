/* The reference bridge as an SNMPv2c agent, over UDP and over a serial line.
 *
 *   agent [--ports N] [--address MAC] [--edition E] [--device D] [--listen HOST:PORT] [--serial FILE|-]
 *         [--community C] [--state FILE] [--log FILE]
 *
 * docs/NIGHT.md tells what a client sees. Status: 0 ended by a signal or with the serial line, 2 an argument or the
 * state file cannot be used, 4 the state or the serial line cannot be written. */
#define _POSIX_C_SOURCE 200809L
#include <errno.h>
#include <fcntl.h>
#include <stdlib.h>
#include <string.h>
#include <termios.h>
#include <unistd.h>

#include "command.h"
#include "net.h"
#include "serve.h"

enum { STATUS_ENDED = 0, STATUS_UNUSABLE = 2, STATUS_NOT_KEPT = 4 };

static const char usage[] =
    "usage: agent [--ports N] [--address 00:11:22:33:44:55] [--edition 1|2] [--device 1|2] [--listen HOST:PORT]\n"
    "             [--serial FILE|-] [--community C] [--state FILE] [--log FILE]\n"
    "  a fresh bridge of 4 ports, edition 1 and device 1 on 127.0.0.1:1161 for the community public, if nothing else is\n"
    "  said; device 2 is a source-routing bridge;\n"
    "  with --serial, a socket only where --listen asks for one\n";

struct arguments {
    const char *ports, *address, *edition, *device, *listen, *serial, *community, *state, *log;
};

static const char **argument(struct arguments *arguments, const char *option)
{
    const struct {
        const char *option;
        const char **place;
    } all[] = {
        {"--ports", &arguments->ports},   {"--address", &arguments->address}, {"--edition", &arguments->edition},
        {"--device", &arguments->device}, {"--listen", &arguments->listen},   {"--serial", &arguments->serial},
        {"--state", &arguments->state},   {"--log", &arguments->log},         {"--community", &arguments->community},
    };

    for (size_t i = 0; i < sizeof all / sizeof all[0]; i++) {
        if (strcmp(option, all[i].option) == 0) {
            return all[i].place;
        }
    }
    return NULL;
}

/* The bridge that is asked for, read as the command `bridge` of a case file is. */
static bool read_bridge(const struct arguments *arguments, struct command *command, struct complaint *why)
{
    char line[200];
    int length = snprintf(line, sizeof line, "bridge %s %s edition %s device %s", arguments->ports, arguments->address,
                          arguments->edition, arguments->device);

    if (length >= (int)sizeof line) {
        return complain(why, "the ports, the address, the edition or the device are too long");
    }
    return command_read((struct text){line, line + length}, 0, command, why);
}

static bool open_socket(struct agent *agent, const char *words, struct complaint *why)
{
    struct peer peer;

    if (!peer_find(&peer, words, why)) {
        return false;
    }
    agent->socket = socket(peer.address.ss_family, SOCK_DGRAM, 0);
    if (agent->socket < 0 || bind(agent->socket, (struct sockaddr *)&peer.address, peer.length) != 0) {
        return complain(why, "%s cannot be listened on: %s", words, strerror(errno));
    }
    peer.length = sizeof peer.address;
    getsockname(agent->socket, (struct sockaddr *)&peer.address, &peer.length);
    char where[PEER_WORDS];
    peer_print(&peer, where);
    fprintf(stderr, "agent: listening on %s\n", where);
    return true;
}

/* A terminal line hands octets over as they are: none is echoed, changed or kept back. */
static bool make_raw(int line)
{
    struct termios settings;

    if (!isatty(line)) {
        return true;
    }
    if (tcgetattr(line, &settings) != 0) {
        return false;
    }
    settings.c_iflag &= ~(tcflag_t)(IGNBRK | BRKINT | PARMRK | ISTRIP | INLCR | IGNCR | ICRNL | IXON | IXOFF | INPCK);
    settings.c_oflag &= ~(tcflag_t)OPOST;
    settings.c_lflag &= ~(tcflag_t)(ECHO | ECHONL | ICANON | ISIG | IEXTEN);
    settings.c_cflag = (settings.c_cflag & ~(tcflag_t)(CSIZE | PARENB)) | CS8;
    settings.c_cc[VMIN] = 1;
    settings.c_cc[VTIME] = 0;
    return tcsetattr(line, TCSANOW, &settings) == 0;
}

static bool open_serial(struct agent *agent, const char *file, struct complaint *why)
{
    if (strcmp(file, "-") == 0) {
        agent->serial_in = STDIN_FILENO;
        agent->serial_out = STDOUT_FILENO;
        return true;
    }
    agent->serial_in = agent->serial_out = open(file, O_RDWR | O_NOCTTY);
    if (agent->serial_in < 0) {
        return complain(why, "%s cannot be opened: %s", file, strerror(errno));
    }
    return make_raw(agent->serial_in) ||
           complain(why, "%s cannot be set to hand octets over as they are: %s", file, strerror(errno));
}

static bool start(struct agent *agent, const struct arguments *arguments, struct complaint *why)
{
    static struct command command;

    if (strlen(arguments->community) > COMMUNITY_MAX) {
        return complain(why, "a community has at most %d octets", COMMUNITY_MAX);
    }
    strcpy(agent->community, arguments->community);
    if (arguments->log != NULL && (agent->log = fopen(arguments->log, "a")) == NULL) {
        return complain(why, "%s cannot be opened: %s", arguments->log, strerror(errno));
    }
    return read_bridge(arguments, &command, why) &&
           state_start(&agent->state, arguments->state, &command, why) &&
           (arguments->serial == NULL || open_serial(agent, arguments->serial, why)) &&
           (arguments->listen == NULL || open_socket(agent, arguments->listen, why));
}

int main(int argc, char **argv)
{
    static struct agent agent = {.socket = -1, .serial_in = -1, .serial_out = -1};
    struct arguments arguments = {
        .ports = "4", .address = "00:11:22:33:44:55", .edition = "1", .device = "1", .community = "public"};
    struct complaint why;

    if (argc == 2 && strcmp(argv[1], "--help") == 0) {
        return fputs(usage, stdout) >= 0 && fflush(stdout) == 0 ? STATUS_ENDED : STATUS_NOT_KEPT;
    }
    for (int i = 1; i < argc; i += 2) {
        const char **place = argument(&arguments, argv[i]);

        if (place == NULL || i + 1 == argc) {
            fprintf(stderr, "agent: no such option, or its value is missing: %s\n%s", argv[i], usage);
            return STATUS_UNUSABLE;
        }
        *place = argv[i + 1];
    }
    if (arguments.listen == NULL && arguments.serial == NULL) {
        arguments.listen = "127.0.0.1:1161";
    }
    if (!start(&agent, &arguments, &why)) {
        fprintf(stderr, "agent: %s\n", why.words);
        return STATUS_UNUSABLE;
    }
    if (!serve(&agent, &why)) {
        fprintf(stderr, "agent: %s\n", why.words);
        serve_totals(&agent);
        return STATUS_NOT_KEPT;
    }
    serve_totals(&agent);
    return STATUS_ENDED;
}
