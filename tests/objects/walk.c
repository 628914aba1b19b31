/* Order, index, device and values of all objects by get-next. */
#include "compare.h"
#include "indexes.h"

/* A walk, and the name that it has come to. */
struct walk {
    struct findings *findings;
    const struct bridge *bridge;
    struct name at;
};

static bool same_value(const struct value *got, const struct value *wanted)
{
    return got->tag == wanted->tag && got->count == wanted->count &&
           memcmp(got->octets, wanted->octets, got->count) == 0;
}

static void step_to(struct walk *walk, const struct object *object, const struct index *index)
{
    struct value wanted = value_of(walk->bridge, object, index->sub);
    struct name name = instance_of(object, index);
    struct binding next = ask(walk->bridge, RB_GET_NEXT, &walk->at);

    compare(walk->findings, FACT_ORDER, name_order(&next.name, &name) == 0, walk->bridge, object,
            "get-next gives another name");
    compare(walk->findings, object->source == FROM_CELL ? FACT_FRESH : FACT_SOURCE, same_value(&next.value, &wanted),
            walk->bridge, object, "get-next gives another value");
    walk->at = name;
}

void compare_walk(struct findings *findings, const struct bridge *bridge, const struct object *rows)
{
    struct walk walk = {.findings = findings, .bridge = bridge, .at = name_of("dot1dBridge", NULL, 0)};

    for (size_t i = 0; i < OBJECT_COUNT; i++) {
        size_t count = object_is_of(&rows[i], bridge->device) ? index_count(bridge, rows[i].index) : 0;

        for (size_t k = 0; k < count; k++) {
            struct index index = right_index(bridge, &rows[i], k);
            step_to(&walk, &rows[i], &index);
        }
    }
    compare(findings, FACT_ORDER, ask(bridge, RB_GET_NEXT, &walk.at).value.tag == RB_TAG_END_OF_MIB_VIEW, bridge,
            &rows[OBJECT_COUNT - 1], "the walk goes on");
}

bool rows_ascend(const struct object *rows)
{
    const struct index none = {.count = 0};

    for (size_t i = 0; i + 1 < OBJECT_COUNT; i++) {
        struct name name = instance_of(&rows[i], &none), next = instance_of(&rows[i + 1], &none);

        if (name_order(&name, &next) >= 0) {
            return false;
        }
    }
    return true;
}
