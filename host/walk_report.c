#include "walk_report.h"

#include <inttypes.h>
#include <stdio.h>

#include "message.h"

static uint64_t get_offset(const uint8_t *at)
{
    uint64_t offset = 0;

    for (size_t i = 0; i < sizeof offset; i++) {
        offset = offset << 8 | at[i];
    }
    return offset;
}

/* The binding that starts at an offset of a walk that was compared. */
static struct binding binding_at(const struct walk *walk, uint64_t offset)
{
    struct answer rest = {.octets = walk->octets, .count = walk->count, .place = offset};
    struct binding binding = {0};

    answer_binding(&rest, &binding);
    return binding;
}

static void print_content(const struct binding *binding)
{
    uint32_t ports = binding->value.count <= 8 ? 8 * (uint32_t)binding->value.count : 0;

    value_print(stdout, &binding->value, name_object(&binding->name), ports);
}

static void print_alone(const char *where, const struct binding *binding)
{
    printf("%s: ", where);
    name_print(stdout, &binding->name);
    fputs(" = ", stdout);
    print_content(binding);
    putchar('\n');
}

static void print_differing(const uint8_t *entry, const struct binding *ours, const struct binding *theirs)
{
    fputs("differs: ", stdout);
    name_print(stdout, &ours->name);
    fputs(": reference ", stdout);
    if (entry[RB_ENTRY_FIRST_PORT] == 0) {
        print_content(ours);
        fputs(", device ", stdout);
        print_content(theirs);
    } else {
        value_print_ports(stdout, &ours->value);
        printf(" (%u members), device ", entry[RB_ENTRY_REFERENCE_MEMBERS]);
        value_print_ports(stdout, &theirs->value);
        printf(" (%u members), first at port %u", entry[RB_ENTRY_DEVICE_MEMBERS], entry[RB_ENTRY_FIRST_PORT]);
    }
    putchar('\n');
}

static void print_entry(const struct walk *reference, const struct walk *device, const uint8_t *entry)
{
    struct binding ours = binding_at(reference, get_offset(entry + RB_ENTRY_REFERENCE_AT));
    struct binding theirs = binding_at(device, get_offset(entry + RB_ENTRY_DEVICE_AT));

    switch (entry[RB_ENTRY_KIND]) {
    case RB_REFERENCE_ONLY:
        print_alone("reference only", &ours);
        break;
    case RB_DEVICE_ONLY:
        print_alone("device only", &theirs);
        break;
    default:
        print_differing(entry, &ours, &theirs);
        break;
    }
}

/* The tail is counted here: the comparison stops before it. */
static void print_tail(const struct walk *walk, const rb_walks *walks)
{
    struct answer rest = {.octets = walk->octets, .count = walk->count, .place = walks->tail_at};
    struct binding first = binding_at(walk, walks->tail_at), binding;
    size_t instances = 0;

    if (walks->tail_len == 0) {
        puts("tail: none");
        return;
    }
    while (answer_binding(&rest, &binding)) {
        instances++;
    }
    printf("tail: the %s goes on from ", walks->side == RB_DEVICE ? "device" : "reference");
    name_print(stdout, &first.name);
    printf(", instances not compared: %zu\n", instances);
}

void walk_report(const struct walk *reference, const struct walk *device, const uint8_t *list, const rb_walks *walks)
{
    uint64_t entries = walks->reference_only + walks->switch_only + walks->differing;

    for (uint64_t i = 0; i < entries; i++) {
        print_entry(reference, device, list + RB_ENTRY_SIZE * i);
    }
    print_tail(walks->side == RB_DEVICE ? device : reference, walks);
    printf("%" PRIu64 " reference only, %" PRIu64 " device only, %" PRIu64 " differing\n", walks->reference_only,
           walks->switch_only, walks->differing);
}
