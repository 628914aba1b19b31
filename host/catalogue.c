#include "catalogue.h"

#include <inttypes.h>
#include <stdio.h>

#include "objects.h"
#include "refbridge.h"

static const char *const indexes[] = {
    [SCALAR] = "0",     [BY_PORT] = "port",           [BY_PORT_AND_PRIORITY] = "port.priority",
    [BY_VLAN] = "vlan", [BY_STATIC] = "address.port", [BY_PORT_PAIR] = "port.port",
};

static const char *const types[] = {
    [TYPE_INTEGER] = "integer", [TYPE_FRAME] = "integer", [TYPE_UNSIGNED] = "unsigned", [TYPE_COUNTER] = "counter",
    [TYPE_PORTS] = "ports",     [TYPE_OCTETS] = "hex",    [TYPE_TEXT] = "string",       [TYPE_TABLE] = "table",
};

/* Which devices have an object or a table. */
static const char *devices(const struct object *object)
{
    if (object->device == EVERY_DEVICE) {
        return "devices 1 and 2";
    }
    return object->device == RB_DEVICE_TRANSPARENT ? "device 1" : "device 2";
}

/* The name, in words and in numbers, and the devices that have it. */
static void print_name(const struct object *object)
{
    char words[80];
    int length = snprintf(words, sizeof words, "1.3.6.1.2.1.17");

    for (size_t i = 0; i < object->count; i++) {
        length += snprintf(words + length, sizeof words - (size_t)length, ".%u", object->sub[i]);
    }
    printf("%-30s%-30s%-17s", object->name, words, devices(object));
}

static void print_table(const struct object *table)
{
    print_name(table);
    puts(types[table->type]);
}

/* The range of a number, or of a string's length in octets. */
static void print_object(const struct object *object)
{
    char range[40];

    snprintf(range, sizeof range, "%" PRIu32 "..%" PRIu32 "%s", object->low, object->high,
             object_tag(object) == RB_TAG_STRING ? " octets" : "");
    print_name(object);
    printf("%-9s%-10s%-20s%s", types[object->type], object->access == WRITABLE ? "writable" : "read-only", range,
           indexes[object->index]);
    if (object->step != 1) {
        printf("    # edition 2: in steps of %" PRIu32, object->step);
    }
    puts(object->type == TYPE_FRAME ? "    # one of 64 numbers" : "");
}

void catalogue_print(void)
{
    const struct object *object, *table = NULL;

    print_table(object_table(object_at(0)));
    for (size_t i = 0; (object = object_at(i)) != NULL; i++) {
        if (object->index != SCALAR && object_table(object) != table) {
            table = object_table(object);
            print_table(table);
        }
        print_object(object);
    }
}
