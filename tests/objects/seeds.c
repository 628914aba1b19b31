#include "seeds.h"

enum { WRONG_SUB = 100, WRONG_STEP = 7 };

/* The way-th of the numbers below `count` other than `right`; `count` after the last. */
static unsigned other_than(unsigned right, unsigned way, unsigned count)
{
    unsigned other = way < right ? way : way + 1;

    return other < count ? other : count;
}

/* The other devices, and a name that no device has. */
static bool wrong_device(struct object *row, unsigned way)
{
    if (way == 2) {
        row->sub[row->count - 1] += WRONG_SUB;
        return true;
    }
    row->device = other_than(row->device, way, 3);
    return way < 2;
}

/* A group that has another object with an index of this shape, or none where there is no such group. */
static bool wrong_group(struct object *row, unsigned way)
{
    switch (row->index) {
    case SCALAR:
        row->group = row->group == ALONE ? BRIDGE_TIMERS : ALONE;
        break;
    case BY_PORT:
        row->group = row->group == PORT_TABLE ? PORT_VLAN_TABLE : PORT_TABLE;
        break;
    case BY_PORT_AND_PRIORITY:
        row->group = row->group == REGEN_TABLE ? CLASS_TABLE : REGEN_TABLE;
        break;
    default:
        row->group = ALONE;
    }
    return way == 0;
}

/* The other types of values. The archive cannot tell octets from text, which differ only in how they are shown. */
static bool wrong_type(struct object *row, unsigned way)
{
    unsigned limit = row->type >= TYPE_OCTETS ? TYPE_OCTETS : TYPE_TABLE;

    row->type = (enum object_type)other_than(row->type, way, limit);
    return row->type < limit;
}

/* One more and one less, as far as there are such numbers. */
static bool wrong_number(uint32_t *number, unsigned way)
{
    bool less = way == 1 || *number == UINT32_MAX;

    if (way == 1 && (*number == 0 || *number == UINT32_MAX)) {
        return false;
    }
    *number += less ? UINT32_MAX : 1;
    return way < 2;
}

static bool wrong_step(struct object *row, unsigned way)
{
    if (row->step == 1) {
        row->step = WRONG_STEP;
        return way == 0;
    }
    row->step = way == 0 ? 1 : way == 1 ? row->step / 2 : row->step * 2;
    return way < 3;
}

bool make_wrong(struct object *row, enum fact fact, unsigned way)
{
    switch (fact) {
    case FACT_INDEX:
        row->index = (enum object_index)other_than(row->index, way, BY_PORT_PAIR + 1);
        return row->index <= BY_PORT_PAIR;
    case FACT_DEVICE:
        return wrong_device(row, way);
    case FACT_GROUP:
        return wrong_group(row, way);
    case FACT_TYPE:
        return wrong_type(row, way);
    case FACT_ACCESS:
        row->access = row->access == WRITABLE ? READ_ONLY : WRITABLE;
        return way == 0;
    case FACT_LOW:
        return wrong_number(&row->low, way);
    case FACT_HIGH:
        return wrong_number(&row->high, way);
    case FACT_STEP:
        return wrong_step(row, way);
    case FACT_SOURCE:
        row->source = row->source == FROM_PORT_COUNT ? FROM_DEVICE_TYPE : FROM_PORT_COUNT;
        return way == 0;
    case FACT_FRESH:
        row->fresh++;
        return way == 0 && row->source == FROM_CELL;
    default:
        return false;
    }
}
