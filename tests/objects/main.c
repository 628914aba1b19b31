/* The table of objects (host/objects.c) compared with the archive, object by object, on bridges of both devices and
 * editions; and copies of the table with one wrong fact, each of which the comparison must find. */
#include <stdio.h>
#include <string.h>

#include "../archive/requests.h"
#include "compare.h"
#include "seeds.h"

static struct bridge bridges[BRIDGES];

static void copy_table(struct object rows[OBJECT_COUNT])
{
    for (size_t i = 0; i < OBJECT_COUNT; i++) {
        rows[i] = *object_at(i);
    }
    REQUIRE(object_at(OBJECT_COUNT) == NULL, "there are over %u objects", OBJECT_COUNT);
}

/* A read-only object reaches both ends of its range on some bridge. */
static void compare_seen(struct findings *findings, const struct object *object, const struct seen *seen)
{
    if (object->access == READ_ONLY) {
        compare(findings, FACT_LOW, object->low == seen->low, NULL, object, "the least is %u", seen->low);
        compare(findings, FACT_HIGH, object->high == seen->high, NULL, object, "the greatest is %u", seen->high);
    }
}

/* Compares one row on all bridges, or up to the first on which the fact differs. */
static void compare_row(struct findings *findings, const struct object *rows, const struct object *object,
                        enum fact until)
{
    struct seen seen = {UINT32_MAX, 0};

    for (size_t i = 0; i < BRIDGES; i++) {
        compare_reads(findings, &bridges[i], object, &seen);
        compare_writes(findings, &bridges[i], rows, object);
        compare_group(findings, &bridges[i], rows, object);
        if (until != FACTS && findings->differing[until] > 0) {
            return;
        }
    }
    compare_seen(findings, object, &seen);
}

static void compare_table(struct findings *findings)
{
    struct object rows[OBJECT_COUNT];

    copy_table(rows);
    for (size_t i = 0; i < OBJECT_COUNT; i++) {
        compare_row(findings, rows, &rows[i], FACTS);
    }
    REQUIRE(rows_ascend(rows), "the rows of the table do not ascend");
    for (size_t i = 0; i < BRIDGES; i++) {
        compare_walk(findings, &bridges[i], rows);
    }
}

/* Every wrong fact of every row is found, as that fact; returns how many they are. */
static unsigned find_wrong_rows(enum fact fact)
{
    unsigned found = 0;

    for (size_t i = 0; i < OBJECT_COUNT; i++) {
        for (unsigned way = 0;; way++) {
            struct findings findings = {.quiet = true};
            struct object rows[OBJECT_COUNT];

            copy_table(rows);
            if (!make_wrong(&rows[i], fact, way)) {
                break;
            }
            compare_row(&findings, rows, &rows[i], fact);
            REQUIRE(findings.differing[fact] > 0, "%s: a wrong %s is not found, way %u", rows[i].name,
                    fact_words[fact], way);
            found++;
        }
    }
    return found;
}

/* True where one device has both rows, so that a walk over it tells their order. */
static bool walked_together(const struct object *first, const struct object *second)
{
    return first->device == EVERY_DEVICE || second->device == EVERY_DEVICE || first->device == second->device;
}

/* Every two rows in the wrong order are found by their names, and by a walk. */
static unsigned find_wrong_orders(void)
{
    unsigned found = 0;

    for (size_t i = 0; i + 1 < OBJECT_COUNT; i++) {
        struct findings findings = {.quiet = true};
        struct object rows[OBJECT_COUNT], row;

        copy_table(rows);
        row = rows[i];
        rows[i] = rows[i + 1];
        rows[i + 1] = row;
        REQUIRE(!rows_ascend(rows), "%s: rows that do not ascend are not found", row.name);
        for (size_t b = 0; b < BRIDGES && findings.differing[FACT_ORDER] == 0; b++) {
            compare_walk(&findings, &bridges[b], rows);
        }
        REQUIRE((findings.differing[FACT_ORDER] > 0) == walked_together(&rows[i], &row),
                "%s: a wrong order is not found by a walk", row.name);
        found++;
    }
    return found;
}

int main(void)
{
    struct findings findings = {.quiet = false};
    unsigned found = 0;

    bridges_prepare(bridges);
    compare_table(&findings);
    REQUIRE(differing_in_all(&findings) == 0, "%lu of %lu comparisons differ", differing_in_all(&findings),
            compared_in_all(&findings));
    for (enum fact fact = 0; fact < FACTS; fact++) {
        unsigned wrong = fact == FACT_ORDER ? find_wrong_orders() : find_wrong_rows(fact);

        printf("%s: %lu comparisons without a difference, %u wrong rows found\n", fact_words[fact],
               findings.compared[fact], wrong);
        found += wrong;
    }
    printf("counted: %u objects compared\n", OBJECT_COUNT);
    printf("counted: %lu object facts compared\n", compared_in_all(&findings));
    printf("counted: %u wrong object rows found\n", found);
    return 0;
}
