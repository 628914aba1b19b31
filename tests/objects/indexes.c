#include "indexes.h"

struct index right_index(const struct bridge *bridge, const struct object *object, size_t number)
{
    struct index index = {.count = object_index_subs(object)};

    index_at(bridge, object->index, number, index.sub);
    return index;
}

bool absent_index(const struct bridge *bridge, const struct object *object, struct index *index)
{
    bool none = index_count(bridge, object->index) == 0;

    switch (object->index) {
    case BY_VLAN:
        *index = (struct index){1, {none ? 1 : VLAN_MAX - 1}};
        return true;
    case BY_STATIC:
        *index = (struct index){INDEX_SUBS_MAX, {1, 1, 1, 1, 1, 1, 1}};
        return true;
    case BY_PORT_PAIR:
        *index = (struct index){2, {1, bridge->ports}};
        return bridge->ports > 1;
    default:
        return false;
    }
}

struct list {
    size_t count;
    struct index *at;
};

static void add(struct list *list, const uint32_t *sub, size_t count)
{
    struct index *index = &list->at[list->count++];

    REQUIRE(list->count <= WRONG_INDEXES_MAX && count <= INDEX_SUBS_MAX + 1, "too many wrong indexes or sub-ids");
    index->count = count;
    if (count > 0) {
        memcpy(index->sub, sub, count * sizeof *sub);
    }
}

/* Numbers from `low` to `high`. */
static void add_beside(struct list *list, uint32_t low, uint32_t high)
{
    if (low > 0) {
        add(list, INDEX(low - 1));
    }
    add(list, INDEX(high + 1));
    add(list, INDEX(low, low));
}

/* Every sub-id of an address in turn is an octet too large; then the port. */
static void add_beside_static(struct list *list, uint32_t ports)
{
    for (size_t i = 0; i < RB_ADDRESS_SIZE; i++) {
        uint32_t sub[INDEX_SUBS_MAX] = {0};

        sub[i] = 256;
        add(list, sub, INDEX_SUBS_MAX);
    }
    add(list, INDEX(0, 0, 0, 0, 0, 0, ports + 1));
    add(list, INDEX(0, 0, 0, 0, 0, 0, 0, 0));
}

static void add_beside_priority(struct list *list, uint32_t ports)
{
    add(list, INDEX(0, 0));
    add(list, INDEX(ports + 1, 0));
    add(list, INDEX(1, 8));
    add(list, INDEX(1, 0, 0));
}

static void add_beside_pair(struct list *list, uint32_t ports)
{
    add(list, INDEX(0, 1));
    add(list, INDEX(ports, ports + 1));
    add(list, INDEX(1, 1));
    add(list, INDEX(2, 1));
    add(list, INDEX(1, 2, 0));
}

/* The first index of every shape that has another number of sub-ids. */
static void add_other_shapes(struct list *list, const struct bridge *bridge, const struct object *object)
{
    for (enum object_index shape = SCALAR; shape <= BY_PORT_PAIR; shape++) {
        struct object other = {.index = shape};

        if (object_index_subs(&other) != object_index_subs(object) && index_count(bridge, shape) > 0) {
            struct index index = right_index(bridge, &other, 0);
            add(list, index.sub, index.count);
        }
    }
}

size_t wrong_indexes(const struct bridge *bridge, const struct object *object, struct index wrong[WRONG_INDEXES_MAX])
{
    struct list list = {0, wrong};

    add(&list, NULL, 0);
    switch (object->index) {
    case BY_PORT:
        add_beside(&list, 1, bridge->ports);
        break;
    case BY_PORT_AND_PRIORITY:
        add_beside_priority(&list, bridge->ports);
        break;
    case BY_VLAN:
        add_beside(&list, 1, VLAN_MAX);
        break;
    case BY_STATIC:
        add_beside_static(&list, bridge->ports);
        break;
    case BY_PORT_PAIR:
        add_beside_pair(&list, bridge->ports);
        break;
    default:
        add_beside(&list, 0, 0);
    }
    add_other_shapes(&list, bridge, object);
    return list.count;
}
