/* Access, type, range, step and index of an object by set. */
#include "compare.h"
#include "indexes.h"

/* The last sub-ids of two timers, and the row status numbers that make a row. */
enum { MAX_AGE = 12, HELLO_TIME = 13, CREATE_AND_GO = 4, CREATE_AND_WAIT = 5 };

/* A row and the instance that is written, and the table, which has the other two timers. */
struct probe {
    struct findings *findings;
    const struct bridge *bridge;
    const struct object *rows;
    const struct object *object;
    struct index index;
};

/* Sets the other timers so that the object may have any number of its range: HelloTime low, ForwardDelay high, and
 * MaxAge high beside a HelloTime and low beside a ForwardDelay. */
static void put_companions(struct octets *request, const struct object *rows, const struct object *object)
{
    const struct index scalar = {.count = 1};

    for (size_t i = 0; i < OBJECT_COUNT; i++) {
        const struct object *other = &rows[i];

        if (other != object && other->group == BRIDGE_TIMERS) {
            bool low = other->sub[1] == HELLO_TIME || (other->sub[1] == MAX_AGE && object->sub[1] != HELLO_TIME);
            struct value value = number_value(object_tag(other), low ? other->low : other->high);

            put(request, other, &scalar, &value);
        }
    }
}

static uint8_t answered(const struct probe *probe, const struct value *value)
{
    struct octets request;

    request_start(&request, RB_SET, 1);
    put(&request, probe->object, &probe->index, value);
    if (probe->object->group == BRIDGE_TIMERS) {
        put_companions(&request, probe->rows, probe->object);
    }
    return status_of(probe->bridge, &request);
}

static void expect(const struct probe *probe, enum fact fact, const struct value *value, uint8_t wanted)
{
    uint8_t got = answered(probe, value);

    compare(probe->findings, fact, got == wanted, probe->bridge, probe->object,
            "a set of %02X%02X%02X%02X, %zu octets, tag %02X, is answered with %u, not with %u", value->octets[0],
            value->octets[1], value->octets[2], value->octets[3], value->count, value->tag, got, wanted);
}

static bool is_string(const struct object *object)
{
    return object_tag(object) == RB_TAG_STRING;
}

/* The number, or a string of that length, at most the longest string of a message. */
static struct value value_sized(const struct object *object, uint32_t size)
{
    return is_string(object) ? string_value(size < STRING_MAX ? size : STRING_MAX)
                             : number_value(object_tag(object), size);
}

/* A VLAN row that is there is not made again: 4 and 5 are values of its status, but inconsistent. */
static void expect_size(const struct probe *probe, enum fact fact, uint32_t size, bool taken)
{
    struct value value = value_sized(probe->object, size);
    bool makes = probe->object->source == FROM_VLAN_STATUS && (size == CREATE_AND_GO || size == CREATE_AND_WAIT);

    if (taken) {
        expect(probe, fact, &value, makes ? RB_INCONSISTENT_VALUE : RB_NO_ERROR);
    } else {
        expect(probe, fact, &value, is_string(probe->object) ? RB_WRONG_LENGTH : RB_WRONG_VALUE);
    }
}

/* The step in the bridge's edition. */
static uint32_t step_of(const struct probe *probe)
{
    return probe->bridge->edition == RB_EDITION_NEW ? probe->object->step : 1;
}

/* The first and the last number of the range that are multiples of the step. */
static uint32_t first_of(const struct probe *probe)
{
    uint32_t step = step_of(probe);

    return (probe->object->low + step - 1) / step * step;
}

static uint32_t last_of(const struct probe *probe)
{
    return probe->object->high - probe->object->high % step_of(probe);
}

/* Only an integer has a number below 0. */
static void expect_range(const struct probe *probe)
{
    const struct object *object = probe->object;

    expect_size(probe, FACT_LOW, first_of(probe), true);
    expect_size(probe, FACT_HIGH, last_of(probe), true);
    if (object->low > 0 || object_tag(object) == RB_TAG_INTEGER) {
        expect_size(probe, FACT_LOW, object->low - 1, false);
    }
    if (object->high < (is_string(object) ? STRING_MAX : UINT32_MAX)) {
        expect_size(probe, FACT_HIGH, object->high + 1, false);
    }
}

static bool takes(const struct probe *probe, uint32_t size)
{
    return object_takes(probe->object, probe->bridge->edition, probe->bridge->device, size);
}

static void expect_steps(const struct probe *probe)
{
    const struct object *object = probe->object;
    uint32_t step = object->step;
    const uint32_t sizes[] = {object->low,  object->low + 1, step / 2, step - 1, step, step + 1, 3 * step, 3 * step + 1,
                              object->high, object->high - 1};

    for (size_t i = 0; i < sizeof sizes / sizeof sizes[0]; i++) {
        if (sizes[i] >= object->low && sizes[i] <= object->high) {
            expect_size(probe, FACT_STEP, sizes[i], takes(probe, sizes[i]));
        }
    }
}

/* A port set has no port above the last one; other strings have any octets. */
static void expect_last_port(const struct probe *probe)
{
    uint32_t ports = probe->bridge->ports;
    struct value value = string_value(ports / 8 + 1);

    value.octets[ports / 8] = (uint8_t)(0x80 >> ports % 8);
    if (ports < RB_PORTS_MAX) {
        expect(probe, FACT_TYPE, &value, probe->object->type == TYPE_PORTS ? RB_WRONG_VALUE : RB_NO_ERROR);
    }
}

/* A number that is no frame is taken unless the type is a frame. All frames are tried, and the numbers beside them. */
static void expect_frames(const struct probe *probe)
{
    const struct object *object = probe->object;
    uint32_t second = first_of(probe) + step_of(probe);
    bool before = false, here = takes(probe, object->low);

    expect_size(probe, FACT_TYPE, second, object->type != TYPE_FRAME || takes(probe, second));
    for (uint32_t n = object->low; object->type == TYPE_FRAME && n <= UINT16_MAX; n++) {
        bool after = takes(probe, n + 1);

        if (before || here || after) {
            expect_size(probe, FACT_TYPE, n, here);
        }
        before = here;
        here = after;
    }
}

static void expect_types(const struct probe *probe)
{
    for (uint8_t tag = RB_TAG_INTEGER; tag <= RB_TAG_COUNTER; tag++) {
        struct value value = tag == RB_TAG_STRING ? string_value(0) : number_value(tag, last_of(probe));

        if (tag != object_tag(probe->object)) {
            expect(probe, FACT_TYPE, &value, RB_WRONG_TYPE);
        }
    }
    if (is_string(probe->object)) {
        expect_last_port(probe);
    } else {
        expect_frames(probe);
    }
}

/* A value that is legal at any index that the bridge has. */
static struct value legal_value(const struct probe *probe)
{
    return value_sized(probe->object, is_string(probe->object) ? probe->object->low : last_of(probe));
}

static void expect_at_wrong(struct probe probe, enum fact fact, uint8_t wanted)
{
    struct index wrong[WRONG_INDEXES_MAX];
    size_t count = wrong_indexes(probe.bridge, probe.object, wrong);
    struct value value = legal_value(&probe);

    for (size_t i = 0; i < count; i++) {
        probe.index = wrong[i];
        expect(&probe, fact, &value, wanted);
    }
}

/* A status makes an absent row, or leaves it absent; no other column can be written. */
static void expect_at_absent(struct probe probe)
{
    enum object_source source = probe.object->source;
    bool status = source == FROM_VLAN_STATUS || source == FROM_STATIC_STATUS || source == FROM_PAIR_STATE;
    struct value value = legal_value(&probe);

    if (absent_index(probe.bridge, probe.object, &probe.index)) {
        expect(&probe, FACT_INDEX, &value, status ? RB_NO_ERROR : RB_INCONSISTENT_NAME);
    }
}

/* At the first and at the last instance. */
static void expect_at_right(struct probe probe, enum fact fact, uint8_t wanted)
{
    size_t count = index_count(probe.bridge, probe.object->index);
    struct value value = legal_value(&probe);

    for (size_t i = 0; i < count; i += count > 1 ? count - 1 : 1) {
        probe.index = right_index(probe.bridge, probe.object, i);
        expect(&probe, fact, &value, wanted);
    }
}

void compare_writes(struct findings *findings, const struct bridge *bridge, const struct object *rows,
                    const struct object *object)
{
    struct probe probe = {findings, bridge, rows, object, {0}};
    size_t count = index_count(bridge, object->index);
    enum fact fact = object_is_of(object, bridge->device) ? FACT_ACCESS : FACT_DEVICE;
    bool writable = fact == FACT_ACCESS && object->access == WRITABLE;

    expect_at_right(probe, fact, writable ? RB_NO_ERROR : RB_NOT_WRITABLE);
    expect_at_wrong(probe, writable ? FACT_INDEX : fact, writable ? RB_NO_CREATION : RB_NOT_WRITABLE);
    if (writable) {
        expect_at_absent(probe);
    }
    if (writable && count > 0) {
        probe.index = right_index(bridge, object, count - 1);
        expect_types(&probe);
        expect_range(&probe);
        expect_steps(&probe);
    }
}
