/* The group of an object by the check of a batch: two sets that name one row or scalar may not change places. */
#include "compare.h"
#include "indexes.h"

static void start_set(struct octets *request, const struct object *object, const struct index *index)
{
    const struct value value = number_value(RB_TAG_INTEGER, 1);

    request_start(request, RB_SET, 1);
    put(request, object, index, &value);
}

void compare_group(struct findings *findings, const struct bridge *bridge, const struct object *rows,
                   const struct object *object)
{
    size_t count = index_count(bridge, object->index);
    struct octets first, second;
    struct index index;

    if (!object_is_of(object, bridge->device) || count == 0) {
        return;
    }
    index = right_index(bridge, object, count - 1);
    start_set(&first, object, &index);
    for (size_t i = 0; i < OBJECT_COUNT; i++) {
        const struct object *other = &rows[i];
        bool shared = object->group != ALONE && object->group == other->group;

        if (other != object && other->index == object->index && object_is_of(other, bridge->device)) {
            start_set(&second, other, &index);
            compare(findings, FACT_GROUP, name_one_row(bridge, &first, &second) == shared, bridge, object,
                    "%s shares its rows: %s", other->name, shared ? "no" : "yes");
        }
    }
}
