/*
 * Document 01's printed example by calls: script T, net A, four requests, a
 * line each. From the top of the repository:
 *
 *   (cd crates/exports && rt lib)
 *   cc -std=c99 -Wall -Wextra -pedantic -Iinclude include/printed_example.c \
 *      crates/exports/out/libexports.a -o printed_example
 */
#include "rewind.h"

#include <inttypes.h>
#include <stdio.h>
#include <string.h>

#define NONE REWIND_NONE

static uint8_t script[REWIND_SCRIPT_LENGTH];
static uint8_t net[REWIND_NET_LENGTH];

/* A node of 32 bytes: kind, next, other, target's tag and number, reference,
 * count of fields. Unused places are 0, an unused reference is none. */
static uint8_t *set_node(int number, uint8_t kind, uint8_t next, uint8_t other,
                         uint8_t target_tag, uint8_t target,
                         uint8_t reference) {
    uint8_t *node = script + 16 + 32 * number;
    const uint8_t head[] = {kind, next, other, target_tag, target, reference};
    memcpy(node, head, sizeof head);
    return node;
}

/* One more field: tags from byte 8 on, numbers from byte 12 on. */
static void add_field(uint8_t *node, uint8_t tag, uint8_t value) {
    uint8_t count = node[6]++;
    node[8 + count] = tag;
    node[12 + 4 * count] = value;
}

enum { NIL, OUT, IN, READ, NEWLOC, EVAL, SPLIT, ROLL };
enum { VALUE = 1, LITERAL, VARIABLE, FORMAL_VALUE, FORMAL_LOCALITY };

static void write_script_T(void) {
    uint8_t *node;
    memcpy(script, "RTS\0\1", 5);
    for (int number = 0; number < 64; number++) {
        set_node(number, NIL, 0, 0, 0, 0, NONE);
    }
    add_field(set_node(1, OUT, 2, 0, LITERAL, 0, 0), VALUE, 1);
    add_field(set_node(2, IN, 3, 0, LITERAL, 0, NONE), VALUE, 2);
    set_node(3, ROLL, 0, 0, 0, 0, 0);
    add_field(set_node(4, READ, 0, 0, LITERAL, 0, NONE), VALUE, 7);
    add_field(set_node(5, IN, 0, 0, LITERAL, 0, NONE), VALUE, 7);
    set_node(6, NEWLOC, 7, 0, VARIABLE, 0, NONE);
    set_node(7, EVAL, 0, 0, VARIABLE, 0, NONE);
    set_node(8, SPLIT, 4, 5, 0, 0, NONE);
    node = set_node(9, READ, 0, 0, LITERAL, 0, NONE);
    add_field(node, FORMAL_VALUE, 1);
    add_field(node, FORMAL_LOCALITY, 2);
}

/* A slot of 56 bytes: kind, locality, node or count of fields, and what it
 * made and used (none); tags from byte 8 on, numbers from 16 on, references
 * from 48 on (none). */
static uint8_t *set_slot(int key, uint8_t kind, uint8_t locality,
                         uint8_t node_or_count) {
    uint8_t *slot = net + 16 + 56 * key;
    const uint8_t head[] = {kind, locality, node_or_count, NONE, NONE, NONE, NONE};
    memcpy(slot, head, sizeof head);
    memset(slot + 48, NONE, 4);
    return slot;
}

enum { FREE, LIVE, PAST, TUPLE, CONSUMED };

static void write_net_A(void) {
    uint8_t *tuple;
    memcpy(net, "RTN\0\1\0\0\0\1", 9);
    set_slot(0, LIVE, 0, 1);
    tuple = set_slot(1, TUPLE, 0, 1);
    tuple[8] = VALUE;
    tuple[16] = 2;
}

static void call(const uint8_t request[REWIND_REQUEST_LENGTH]) {
    uint64_t word = rewind_call(script, sizeof script, net, sizeof net,
                                request, REWIND_REQUEST_LENGTH);
    printf("%d %d %08" PRIx32 "\n", rewind_answer_of(word),
           rewind_undone_of(word), rewind_touched_of(word));
}

int main(void) {
    static const uint8_t requests[][REWIND_REQUEST_LENGTH] = {
        {REWIND_FORWARD, 0, NONE, 2, 3, NONE},
        {REWIND_FORWARD, 2, 1, 4, NONE, NONE},
        {REWIND_BACKWARD, 0, NONE, NONE, NONE, NONE},
        {REWIND_ROLL, 4, NONE, NONE, NONE, NONE},
    };
    write_script_T();
    write_net_A();
    for (size_t at = 0; at < sizeof requests / sizeof requests[0]; at++) {
        call(requests[at]);
    }
    return 0;
}
