/* Javundiru's rules on packed plans, under the operators of the catalogue.
 *
 * A packed plan is a record of 14 bytes for each node, in prefix order; docs/records.md has the fields of a record.
 *
 * Each call reads the plan at `plan`, of `plan_len` bytes, and writes all `out_len` bytes at `out`:
 *
 *   granted   the answer is the node count of the new plan, above 0; `out` holds the new plan, which is 14 bytes for each
 *             node, and zeros behind it;
 *   refused   the answer is below 0, and `out` is all zeros. The answer is -(number * 8192 + place): javundiru_number and
 *             javundiru_place take it apart. The place is that of the first node or record that gave rise to the
 *             refusal, counted from 0, or 0 where none did.
 *
 * A plan may have 512 nodes at most, and the output must have 28 bytes for each node of the plan that comes in.
 * The two pieces of memory must not overlap. Neither pointer may be null, also where the length is 0.
 * A call allocates nothing, keeps nothing, and needs about 200 KB of stack. */
#ifndef JAVUNDIRU_H
#define JAVUNDIRU_H

#include <stddef.h>
#include <stdint.h>

#ifdef __cplusplus
extern "C" {
#endif

/* How many bytes a record has. */
#define JAVUNDIRU_RECORD 14

/* The most nodes that a plan may have. */
#define JAVUNDIRU_MAX_NODES 512

/* How many bytes of output are asked for each node of the plan. */
#define JAVUNDIRU_NODE_ROOM 28

/* The numbers of the refusals, in docs/refusals.md. */
enum javundiru_refusal {
    JAVUNDIRU_PACKED = 1,     /* the bytes are no records */
    JAVUNDIRU_COUNT = 2,      /* no nodes, or too many */
    JAVUNDIRU_ROOM = 3,       /* the output is too small */
    JAVUNDIRU_TREE = 4,       /* the nodes are not one tree */
    JAVUNDIRU_FIT = 5,        /* kind, parameter and child count do not fit */
    JAVUNDIRU_FIELDS = 6,     /* a number stands where it has no place */
    JAVUNDIRU_PARTITIONS = 7, /* a partition count is out of range */
    JAVUNDIRU_HINTS = 8,      /* a hint that the node above does not bear out */
    JAVUNDIRU_WINDOWS = 9,    /* windows that grow cannot add up */
    JAVUNDIRU_SUM = 10        /* a sum that is too large */
};

/* Limits go down a plan as far as they can. */
int32_t javundiru_sink(const uint8_t *plan, size_t plan_len, uint8_t *out, size_t out_len);

/* A limit goes past windows, grown by what they look ahead. */
int32_t javundiru_grow(const uint8_t *plan, size_t plan_len, uint8_t *out, size_t out_len);

/* A limit becomes a hint on the distinct aggregates right below it. */
int32_t javundiru_hint(const uint8_t *plan, size_t plan_len, uint8_t *out, size_t out_len);

/* The refusal's number, of an answer below 0. */
static inline int32_t javundiru_number(int32_t answer) {
    return -answer / 8192;
}

/* The refusal's place, of an answer below 0. */
static inline int32_t javundiru_place(int32_t answer) {
    return -answer % 8192;
}

#ifdef __cplusplus
}
#endif

#endif
