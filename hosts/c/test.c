/* Calls the library from C: grants, refusals, and every byte of the output. */
#include <stdio.h>
#include <string.h>

#include "../javundiru.h"

typedef int32_t rule(const uint8_t *, size_t, uint8_t *, size_t);

/* G(2,5) P H1 */
static const uint8_t plan[] = {
    2,  4, 0, 2, 0, 0, 0, 0, 5, 0, 0, 0, 0, 2, /* G(2,5): one child, fetch 5, skip 2 */
    4,  4, 0, 0, 0, 0, 0, 0, 0, 0, 0, 0, 0, 0, /* P: one child */
    16, 0, 0, 8, 0, 0, 0, 0, 0, 0, 0, 0, 0, 0, /* H1: parameter 1 */
};

/* P G(2,5) H1[7] */
static const uint8_t sunk[] = {
    4,  4, 0, 0, 0, 0, 0, 0, 0, 0, 0, 0, 0, 0, /* P */
    2,  4, 0, 2, 0, 0, 0, 0, 5, 0, 0, 0, 0, 2, /* G(2,5) */
    16, 0, 0, 10, 0, 0, 0, 0, 7, 0, 0, 0, 0, 0, /* H1[7]: fetch 7 */
};

static int failures = 0;

/* One call into `room` bytes that were not zero: the answer, and the bytes with zeros behind them. */
static void expect(const char *name, rule *call, const uint8_t *bytes, size_t len, size_t room, int32_t answer, const uint8_t *out, size_t out_len) {
    static uint8_t got[20000];
    memset(got, 0xff, sizeof got);
    int32_t told = call(bytes, len, got, room);
    int same = out_len <= room && memcmp(got, out, out_len) == 0;
    for (size_t i = out_len; i < room; i++) same = same && got[i] == 0;
    for (size_t i = room; i < sizeof got; i++) same = same && got[i] == 0xff;
    int good = told == answer && same;
    printf("%s: %ld%s\n", name, (long)told, good ? "" : " FAILED");
    if (!good) {
        printf("  expected %ld; got bytes", (long)answer);
        for (size_t i = 0; i < room && i < 84; i++) printf(" %02x", got[i]);
        printf("\n");
        failures++;
    }
}

static int32_t refused(int32_t number, int32_t place) {
    return -(number * 8192 + place);
}

int main(void) {
    static const uint8_t none[1];
    static uint8_t many[14 * 513 + 1];
    uint8_t changed[sizeof plan];

    expect("sink", javundiru_sink, plan, sizeof plan, 84, 3, sunk, sizeof sunk);
    expect("sink, zeros behind", javundiru_sink, plan, sizeof plan, 200, 3, sunk, sizeof sunk);
    expect("grow changes nothing here", javundiru_grow, plan, sizeof plan, 100, 3, plan, sizeof plan);
    expect("hint changes nothing here", javundiru_hint, plan, sizeof plan, 100, 3, plan, sizeof plan);
    expect("sink once more", javundiru_sink, sunk, sizeof sunk, 84, 3, sunk, sizeof sunk);

    expect("room", javundiru_sink, plan, sizeof plan, 83, refused(JAVUNDIRU_ROOM, 0), none, 0);
    expect("no records", javundiru_sink, plan, 41, 84, refused(JAVUNDIRU_PACKED, 0), none, 0);
    expect("no nodes", javundiru_sink, none, 0, 84, refused(JAVUNDIRU_COUNT, 0), none, 0);
    expect("513 nodes", javundiru_sink, many, 14 * 513, 20000, refused(JAVUNDIRU_COUNT, 0), none, 0);
    expect("more bytes, no records", javundiru_sink, many, 14 * 512 + 1, 20000, refused(JAVUNDIRU_COUNT, 0), none, 0);
    expect("512 nodes, no tree", javundiru_sink, many, 14 * 512, 20000, refused(JAVUNDIRU_TREE, 1), none, 0);
    expect("an open tree", javundiru_sink, plan, 28, 84, refused(JAVUNDIRU_TREE, 2), none, 0);

    memcpy(changed, plan, sizeof plan);
    changed[14 + 8] = 1;
    expect("a fetch without its bit", javundiru_sink, changed, sizeof plan, 84, refused(JAVUNDIRU_PACKED, 1), none, 0);
    memcpy(changed, plan, sizeof plan);
    changed[28] = 15;
    expect("a kind that never fits", javundiru_grow, changed, sizeof plan, 84, refused(JAVUNDIRU_FIT, 2), none, 0);

    int32_t answer = refused(JAVUNDIRU_TREE, 2);
    if (javundiru_number(answer) != JAVUNDIRU_TREE || javundiru_place(answer) != 2) failures++;
    printf(failures ? "%d failed\n" : "all passed\n", failures);
    return failures != 0;
}
