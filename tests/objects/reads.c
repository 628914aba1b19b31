/* Type, index, device and range of an object by get. */
#include "compare.h"
#include "indexes.h"

static uint32_t number_in(const struct value *value)
{
    return (uint32_t)value->octets[0] << 24 | (uint32_t)value->octets[1] << 16 | (uint32_t)value->octets[2] << 8 |
           value->octets[3];
}

/* The number, or the length of a string. */
static uint32_t size_of(const struct value *value)
{
    return value->tag == RB_TAG_STRING ? (uint32_t)value->count : number_in(value);
}

/* True where the value is of the object's type, whatever its range. A frame is one of 64 numbers; a port set has as
 * many octets as the ports need, and no port above the last. */
static bool is_of_type(const struct bridge *bridge, const struct object *object, const struct value *value)
{
    struct object typed = {.type = object->type, .high = UINT32_MAX, .step = 1};

    if (value->tag != object_tag(object)) {
        return false;
    }
    if (object->type == TYPE_PORTS) {
        return value->count == (bridge->ports + 7) / 8 &&
               (bridge->ports % 8 == 0 || (value->octets[value->count - 1] & 0xFF >> bridge->ports % 8) == 0);
    }
    return value->tag == RB_TAG_STRING || object_takes(&typed, bridge->edition, bridge->device, number_in(value));
}

/* The low port of a pair is never the last one, nor the high port the first: both columns have the range of a port. A
 * counter has all numbers of its type, and that many rows are not removed here. */
static void see(struct seen *seen, const struct object *object, const struct index *index, uint32_t size)
{
    uint32_t low = size, high = size;

    if (object->index == BY_PORT_PAIR) {
        low = index->sub[0];
        high = index->sub[1];
    } else if (object->type == TYPE_COUNTER) {
        high = UINT32_MAX;
    }
    seen->low = low < seen->low ? low : seen->low;
    seen->high = high > seen->high ? high : seen->high;
}

static void compare_value(struct findings *findings, const struct bridge *bridge, const struct object *object,
                          const struct index *index, const struct value *got)
{
    struct value wanted = value_of(bridge, object, index->sub);
    uint32_t size = size_of(got);

    compare(findings, FACT_TYPE, is_of_type(bridge, object, got), bridge, object, "a get gives tag %02X, %zu octets",
            got->tag, got->count);
    compare(findings, FACT_LOW, size >= object->low, bridge, object, "a get gives %u", size);
    compare(findings, FACT_HIGH, size <= object->high, bridge, object, "a get gives %u", size);
    compare(findings, FACT_STEP, bridge->edition == RB_EDITION_OLD || size % object->step == 0, bridge, object,
            "a get gives %u", size);
    compare(findings, object->source == FROM_CELL ? FACT_FRESH : FACT_SOURCE,
            got->count == wanted.count && memcmp(got->octets, wanted.octets, got->count) == 0, bridge, object,
            "a get gives %u", size);
}

static void compare_right(struct findings *findings, const struct bridge *bridge, const struct object *object,
                          size_t number, struct seen *seen)
{
    struct index index = right_index(bridge, object, number);
    struct name name = instance_of(object, &index);
    struct value got = ask(bridge, RB_GET, &name).value;

    compare(findings, FACT_DEVICE, got.tag != RB_TAG_NO_SUCH_OBJECT, bridge, object, "a get gives noSuchObject");
    compare(findings, FACT_INDEX, got.tag != RB_TAG_NO_SUCH_INSTANCE, bridge, object, "a get gives noSuchInstance");
    if (got.tag != RB_TAG_NO_SUCH_OBJECT && got.tag != RB_TAG_NO_SUCH_INSTANCE) {
        compare_value(findings, bridge, object, &index, &got);
        see(seen, object, &index, size_of(&got));
    }
}

static void compare_no_instance(struct findings *findings, const struct bridge *bridge, const struct object *object,
                                const struct index *index)
{
    bool here = object_is_of(object, bridge->device);
    struct name name = instance_of(object, index);
    uint8_t tag = ask(bridge, RB_GET, &name).value.tag;

    compare(findings, FACT_DEVICE, here == (tag != RB_TAG_NO_SUCH_OBJECT), bridge, object, "a get gives tag %02X", tag);
    if (here) {
        compare(findings, FACT_INDEX, tag == RB_TAG_NO_SUCH_INSTANCE, bridge, object,
                "a get of no instance gives tag %02X", tag);
    }
}

static void compare_wrong(struct findings *findings, const struct bridge *bridge, const struct object *object)
{
    struct index wrong[WRONG_INDEXES_MAX], absent;
    size_t count = wrong_indexes(bridge, object, wrong);

    for (size_t i = 0; i < count; i++) {
        compare_no_instance(findings, bridge, object, &wrong[i]);
    }
    if (absent_index(bridge, object, &absent)) {
        compare_no_instance(findings, bridge, object, &absent);
    }
}

void compare_reads(struct findings *findings, const struct bridge *bridge, const struct object *object,
                   struct seen *seen)
{
    size_t count = index_count(bridge, object->index);

    compare_wrong(findings, bridge, object);
    if (!object_is_of(object, bridge->device) || count == 0) {
        return;
    }
    compare_right(findings, bridge, object, 0, seen);
    compare_right(findings, bridge, object, count - 1, seen);
}
