#include "start.h"

#include <string.h>

#include "input.h"
#include "refbridge.h"

enum {
    ROWS = 256,
    PAIRS = 64,
    BRIDGE_NUMBERS = 16,
    AT_PORTS = 0,
    AT_VLAN_COUNT = 8,
    AT_STATIC_COUNT = 12,
    AT_VLAN_TOTAL = 22,
    AT_EDITION = 24,
    AT_DEVICE = 25,
    AT_PAIR_COUNT = 28,
    AT_VLAN_ROWS = 6196,
    VLAN_ROW = 60,
    AT_STATIC_ROWS = 21556,
    STATIC_ROW = 16,
    AT_PAIR_ROWS = 25652,
    PAIR_ROW = 4
};

static void put(uint8_t *at, uint64_t value, unsigned octets)
{
    for (unsigned i = octets; i > 0; i--) {
        at[i - 1] = (uint8_t)value;
        value >>= 8;
    }
}

/* Every second VLAN row is active. */
static void put_vlan_row(uint8_t *row, uint32_t i, uint64_t all_ports)
{
    /* Sixteen names as long as can be do not fit into one answer. */
    uint8_t name_length = i < 16 ? 32 : (uint8_t)(i % 33);

    memset(row, 0, VLAN_ROW);
    put(row, i + 1, 2);
    row[2] = (uint8_t)(1 + i % 2);
    row[3] = name_length;
    memset(row + 4, 'a', name_length);
    put(row + 36, all_ports & 0x8888888888888888u, 8);
    put(row + 44, all_ports & 0x4444444444444444u, 8);
    put(row + 52, all_ports, 8);
}

static void put_static_row(uint8_t *row, uint32_t i, uint64_t all_ports)
{
    memset(row, 0, STATIC_ROW);
    row[0] = 2;
    row[5] = (uint8_t)(i / 2);
    row[6] = (uint8_t)(i % 2);
    row[7] = (uint8_t)(3 + i % 3);
    put(row + 8, all_ports, 8);
}

struct bridge_kind kind_of(const uint8_t *block)
{
    return (struct bridge_kind){
        .ports = block[AT_PORTS + 3], .edition = block[AT_EDITION], .device = block[AT_DEVICE]};
}

/* The pairs of the ports, ascending, with any bridge numbers, enabled and disabled. */
static void put_pair_rows(uint8_t *block, uint32_t ports)
{
    uint32_t count = 0;

    for (uint32_t low = 1; low < ports; low++) {
        for (uint32_t high = low + 1; high <= ports && count < PAIRS; high++) {
            uint8_t *row = block + AT_PAIR_ROWS + PAIR_ROW * count++;

            row[0] = (uint8_t)low;
            row[1] = (uint8_t)high;
            row[2] = (uint8_t)(count % BRIDGE_NUMBERS);
            row[3] = (uint8_t)(1 + count % 2);
        }
    }
    put(block + AT_PAIR_COUNT, count, 4);
}

static void put_rows(uint8_t *block, uint32_t ports)
{
    uint64_t all_ports = UINT64_MAX << (64 - ports);

    put(block + AT_VLAN_COUNT, ROWS, 4);
    put(block + AT_STATIC_COUNT, ROWS, 4);
    put(block + AT_VLAN_TOTAL, ROWS / 2, 2);
    for (uint32_t i = 0; i < ROWS; i++) {
        put_vlan_row(block + AT_VLAN_ROWS + VLAN_ROW * i, i, all_ports);
        put_static_row(block + AT_STATIC_ROWS + STATIC_ROW * i, i, all_ports);
    }
}

void start_bridge(uint8_t *block, uint16_t start)
{
    static const uint8_t address[RB_ADDRESS_SIZE] = {0x00, 0x11, 0x22, 0x33, 0x44, 0x55};
    uint32_t ports = 1u + (start & START_PORTS);
    uint32_t edition = (start & START_EDITION) == 0 ? RB_EDITION_OLD : RB_EDITION_NEW;
    uint32_t device = (start & START_DEVICE) == 0 ? RB_DEVICE_TRANSPARENT : RB_DEVICE_SOURCE_ROUTING;

    rb_setup(block, RB_BLOCK_SIZE, ports, edition, device, address, sizeof address);
    if ((start & START_FULL) == 0) {
        return;
    }
    if (device == RB_DEVICE_SOURCE_ROUTING) {
        put_pair_rows(block, ports);
    } else {
        put_rows(block, ports);
    }
}
