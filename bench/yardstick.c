/*
 * The yardstick: document 01 in plain C, without proofs, to hold the speed of
 * the proved program and library against. It makes every check that they make,
 * looks at the bytes where they lie, and writes the net in place.
 *
 *   cc -std=c11 -O3 bench/yardstick.c -o yardstick
 *   yardstick rewind    document 01's program
 *   yardstick calls     the calls (C) of a stream of `reference calls`, a line each
 *   yardstick time SCRIPT NET REQUESTS N
 *                       nanoseconds of a call, by N calls that take the
 *                       requests by turns
 *
 * `rewind_call` is that of include/rewind.h. Below in this order: images, sets,
 * the form of a script, the form of a net, the forward rules, which nets are
 * accepted, backward steps, requests, the modes.
 */
#include "../include/rewind.h"

#include <stdbool.h>
#include <stdio.h>
#include <stdlib.h>
#include <string.h>
#include <time.h>
#include <unistd.h>

/* ---- Names and images. Every member is bytes: an image may lie anywhere. */

#define NONE REWIND_NONE

enum { KEYS = 64, NODES = 64, LOCALITIES = 32, VARIABLES = 8, REFERENCES = 4, FIELDS = 4 };
enum { FIRST_MADE_LOCALITY = 8 };

enum kind { NIL, OUT, IN, READ, NEWLOC, EVAL, SPLIT, ROLL };
enum tag { UNSET, VALUE, LOCALITY, VARIABLE, FORMAL_VALUE, FORMAL_LOCALITY };
enum record { FREE, LIVE, PAST, TUPLE, CONSUMED };

struct node {
    uint8_t kind, next, other, target_tag, target, reference, count, zero;
    uint8_t tags[FIELDS], numbers[FIELDS][4], zeros[4];
};

struct script {
    uint8_t head[16];
    struct node nodes[NODES];
};

/* What an event holds: keys made, tuple used, locality made. */
enum held { FIRST, SECOND, USED, MADE, HELD };

struct slot {
    uint8_t kind, locality;
    union {
        uint8_t node, count;
    };
    uint8_t held[HELD], zero;
    uint8_t tags[VARIABLES], numbers[VARIABLES][4], references[REFERENCES], zeros[4];
};

struct net {
    uint8_t head[8], present[4], zeros[4];
    struct slot slots[KEYS];
};

_Static_assert(sizeof(struct script) == REWIND_SCRIPT_LENGTH, "a script has 2,064 bytes");
_Static_assert(sizeof(struct net) == REWIND_NET_LENGTH, "a net has 3,600 bytes");

/* "Numbers are little-endian." */
static uint32_t number_of(const uint8_t bytes[4]) {
    return bytes[0] | (uint32_t)bytes[1] << 8 | (uint32_t)bytes[2] << 16 | (uint32_t)bytes[3] << 24;
}

static void put_number(uint8_t bytes[4], uint32_t number) {
    for (int i = 0; i < 4; i++) bytes[i] = (uint8_t)(number >> 8 * i);
}

static bool is_same(const void *one, const void *other, size_t length) {
    return memcmp(one, other, length) == 0;
}

static bool is_zero(const void *bytes, size_t length) {
    static const uint8_t zeros[sizeof(struct slot)];
    return is_same(bytes, zeros, length);
}

/* ---- Sets of keys or of localities: bit n is name n. */

typedef uint64_t set;

static set just(unsigned name) { return (set)1 << name; }

static bool has(set names, unsigned name) { return names >> name & 1; }

/* Adds a name; false where it was there. */
static bool add(set *names, unsigned name) {
    bool was_there = has(*names, name);
    *names |= just(name);
    return !was_there;
}

/* The lowest: each of the 64 products has other bits at its top. */
static unsigned least(set names) {
    static const uint8_t place[64] = {
        0,  1,  2,  53, 3,  7,  54, 27, 4,  38, 41, 8,  34, 55, 48, 28,
        62, 5,  39, 46, 44, 42, 22, 9,  24, 35, 59, 56, 49, 18, 29, 11,
        63, 52, 6,  26, 37, 40, 33, 47, 61, 45, 43, 21, 23, 58, 17, 10,
        51, 25, 36, 32, 60, 20, 57, 16, 50, 31, 19, 15, 30, 14, 13, 12};
    return place[(names & -names) * 0x022fdd63cc95386dull >> 58];
}

static unsigned take_least(set *names) {
    unsigned name = least(*names);
    *names &= *names - 1;
    return name;
}

/* ---- "A table of eight rows says which places each kind uses." */

struct row {
    uint8_t next, other, target;     /* the greatest it may be: 0 where it is not used */
    uint8_t target_tags, field_tags; /* bit n where tag n may stand there */
    uint8_t references;              /* byte 5 is below this, */
    bool no_reference;               /* or 255 */
    bool finds_target;               /* the target is looked up */
    bool holds[HELD];                /* what its event holds, and its forward step needs */
};

#define BIT(tag) (1 << (tag))
#define TARGETS (BIT(LOCALITY) | BIT(VARIABLE))
#define ACTUALS (BIT(VALUE) | BIT(LOCALITY) | BIT(VARIABLE))
#define TEMPLATES (ACTUALS | BIT(FORMAL_VALUE) | BIT(FORMAL_LOCALITY))

static const struct row rows[] = {
    [NIL] = {0, 0, 0, BIT(UNSET), 0, 0, true, false, {0, 0, 0, 0}},
    [OUT] = {63, 0, 7, TARGETS, ACTUALS, 4, true, true, {1, 1, 0, 0}},
    [IN] = {63, 0, 7, TARGETS, TEMPLATES, 4, true, true, {1, 0, 1, 0}},
    [READ] = {63, 0, 7, TARGETS, TEMPLATES, 4, true, true, {1, 0, 1, 0}},
    [NEWLOC] = {63, 0, 7, BIT(VARIABLE), 0, 4, true, false, {1, 0, 0, 1}},
    [EVAL] = {63, 63, 7, TARGETS, 0, 4, true, true, {1, 1, 0, 0}},
    [SPLIT] = {63, 63, 0, BIT(UNSET), 0, 0, true, false, {1, 1, 0, 0}},
    [ROLL] = {0, 0, 0, BIT(UNSET), 0, 4, false, false, {0, 0, 0, 0}},
};

/* ---- Check 1: "Script, 2,064 bytes." */

/* "Formals of one template name distinct variables. A literal locality is
 * 0..7. Fields past the count are 0." */
static bool fields_have_form(const struct node *node, uint8_t tags) {
    set formals = 0;
    for (int i = 0; i < node->count; i++) {
        uint8_t tag = node->tags[i];
        uint32_t number = number_of(node->numbers[i]);
        if (tag > FORMAL_LOCALITY || !has(tags, tag) || (tag != VALUE && number > 7)) return false;
        if (tag >= FORMAL_VALUE && !add(&formals, number)) return false;
    }
    for (int i = node->count; i < FIELDS; i++)
        if (node->tags[i] != 0 || number_of(node->numbers[i]) != 0) return false;
    return true;
}

/* "A place not used is 0, byte 5 is 255." */
static bool node_has_form(const struct node *node) {
    static const struct node nil = {.kind = NIL, .reference = NONE};
    if (node->kind == NIL || node->kind > ROLL) return is_same(node, &nil, sizeof nil);
    const struct row *row = &rows[node->kind];
    if (node->next > row->next || node->other > row->other || node->target > row->target ||
        node->target_tag > VARIABLE || !has(row->target_tags, node->target_tag) ||
        node->zero != 0 || !is_zero(node->zeros, sizeof node->zeros))
        return false;
    if (node->reference >= row->references && !(row->no_reference && node->reference == NONE))
        return false;
    if (row->field_tags == 0)
        return node->count == 0 && is_zero(node->tags, sizeof node->tags) &&
               is_zero(node->numbers, sizeof node->numbers);
    return node->count >= 1 && node->count <= FIELDS && fields_have_form(node, row->field_tags);
}

static bool script_has_form(const struct script *script) {
    static const uint8_t head[16] = {'R', 'T', 'S', 0, 1};
    if (!is_same(script->head, head, sizeof head)) return false;
    for (int n = 0; n < NODES; n++)
        if (!node_has_form(&script->nodes[n])) return false;
    return true;
}

/* ---- Check 2, the form: "Net, 3,600 bytes." */

static bool is_key_or_none(uint8_t byte) { return byte < KEYS || byte == NONE; }

static bool is_locality_or_none(uint8_t byte) { return byte < LOCALITIES || byte == NONE; }

static bool holds_nothing(const uint8_t four[4]) { return number_of(four) == UINT32_MAX; }

/* "Unset has number 0, and a locality number is below 32." */
static bool datum_has_form(uint8_t tag, const uint8_t number[4]) {
    static const uint32_t greatest[] = {[UNSET] = 0, [VALUE] = UINT32_MAX, [LOCALITY] = 31};
    return tag <= LOCALITY && number_of(number) <= greatest[tag];
}

/* An event's bytes 3..6 are in range; which of them it holds, its rule says. */
static bool held_has_form(const struct slot *slot) {
    if (slot->kind == LIVE) return holds_nothing(slot->held);
    return is_key_or_none(slot->held[FIRST]) && is_key_or_none(slot->held[SECOND]) &&
           is_key_or_none(slot->held[USED]) && is_locality_or_none(slot->held[MADE]);
}

/* "Every process carries its eight variables." */
static bool process_has_form(const struct slot *slot) {
    if (slot->node >= NODES || !held_has_form(slot)) return false;
    for (int i = 0; i < VARIABLES; i++)
        if (!datum_has_form(slot->tags[i], slot->numbers[i])) return false;
    for (int i = 0; i < REFERENCES; i++)
        if (!is_key_or_none(slot->references[i])) return false;
    return true;
}

/* "A tuple uses the first tags and numbers as its fields, none unset, the
 * others 0." */
static bool tuple_has_form(const struct slot *slot) {
    if (slot->count < 1 || slot->count > FIELDS || !holds_nothing(slot->held) ||
        !holds_nothing(slot->references))
        return false;
    for (int i = 0; i < slot->count; i++)
        if (slot->tags[i] == UNSET || !datum_has_form(slot->tags[i], slot->numbers[i]))
            return false;
    for (int i = slot->count; i < VARIABLES; i++)
        if (slot->tags[i] != 0 || number_of(slot->numbers[i]) != 0) return false;
    return true;
}

/* "A free slot is all 0." */
static bool slot_has_form(const struct slot *slot) {
    if (slot->kind == FREE) return is_zero(slot, sizeof *slot);
    if (slot->kind > CONSUMED || slot->locality >= LOCALITIES || slot->zero != 0 ||
        !is_zero(slot->zeros, sizeof slot->zeros))
        return false;
    return slot->kind <= PAST ? process_has_form(slot) : tuple_has_form(slot);
}

static bool head_has_form(const struct net *net) {
    static const uint8_t head[8] = {'R', 'T', 'N', 0, 1};
    return is_same(net->head, head, sizeof head) && is_zero(net->zeros, sizeof net->zeros);
}

/* ---- The forward rules, by which steps are taken and events are judged. */

/* A field with its variable looked up. */
struct datum {
    uint8_t tag;
    const uint8_t *number;
};

/* "Fields are evaluated with the variables as they stand." */
static struct datum evaluate(const struct node *node, int field, const struct slot *process) {
    const uint8_t *number = node->numbers[field];
    if (node->tags[field] != VARIABLE) return (struct datum){node->tags[field], number};
    return (struct datum){process->tags[number[0]], process->numbers[number[0]]};
}

static bool fields_are_set(const struct node *node, const struct slot *process) {
    for (int i = 0; i < node->count; i++)
        if (evaluate(node, i, process).tag == UNSET) return false;
    return true;
}

/* The target, or 255 where it is unset or no locality. */
static uint8_t target_of(const struct node *node, const struct slot *process) {
    if (node->target_tag == LOCALITY) return node->target;
    return process->tags[node->target] == LOCALITY ? process->numbers[node->target][0] : NONE;
}

/* "Actual fields match the same kind and number; a formal for a value only a
 * value, for a locality only a locality." */
static bool field_matches(struct datum field, uint8_t tag, const uint8_t number[4]) {
    if (field.tag == FORMAL_VALUE) return tag == VALUE;
    if (field.tag == FORMAL_LOCALITY) return tag == LOCALITY;
    return tag == field.tag && number_of(number) == number_of(field.number);
}

/* "Same field count is needed to match." */
static bool matches(const struct node *node, const struct slot *process, const struct slot *tuple) {
    if (tuple->count != node->count) return false;
    for (int i = 0; i < node->count; i++)
        if (!field_matches(evaluate(node, i, process), tuple->tags[i], tuple->numbers[i]))
            return false;
    return true;
}

/* "An in or read binds its formals." */
static void bind_formals(struct slot *made, const struct node *node, const struct slot *tuple) {
    for (int i = 0; i < node->count; i++) {
        if (node->tags[i] < FORMAL_VALUE) continue;
        uint8_t variable = node->numbers[i][0];
        made->tags[variable] = tuple->tags[i];
        memcpy(made->numbers[variable], tuple->numbers[i], 4);
    }
}

/* A live process with the variables and references of another. */
static void make_process(struct slot *made, const struct slot *process, uint8_t locality,
                         uint8_t node) {
    *made = *process;
    made->kind = LIVE;
    made->locality = locality;
    made->node = node;
    memset(made->held, NONE, HELD);
}

/* "Its continuation is a new live process at the same locality, node next, same
 * variables and references, changed thus": held is what the event holds. */
static void make_continuation(struct slot *made, const struct slot *process, uint8_t key,
                              const struct node *node, const uint8_t held[HELD],
                              const struct slot *slots) {
    make_process(made, process, process->locality, node->next);
    if (held[USED] != NONE) bind_formals(made, node, &slots[held[USED]]);
    if (held[MADE] != NONE) {
        made->tags[node->target] = LOCALITY;
        put_number(made->numbers[node->target], held[MADE]);
    }
    if (node->reference != NONE) made->references[node->reference] = key;
}

static void make_tuple(struct slot *made, const struct slot *process, const struct node *node,
                       uint8_t target) {
    memset(made, 0, sizeof *made);
    made->kind = TUPLE;
    made->locality = target;
    made->count = node->count;
    memset(made->held, NONE, HELD);
    memset(made->references, NONE, REFERENCES);
    for (int i = 0; i < node->count; i++) {
        struct datum field = evaluate(node, i, process);
        made->tags[i] = field.tag;
        memcpy(made->numbers[i], field.number, 4);
    }
}

/* Byte 4: an out's tuple at the target; an eval's process there, "without the
 * new reference"; a split's right side. */
static void make_second(struct slot *made, const struct slot *process, const struct node *node,
                        uint8_t target) {
    if (node->kind == OUT) make_tuple(made, process, node, target);
    if (node->kind == EVAL) make_process(made, process, target, node->other);
    if (node->kind == SPLIT) make_process(made, process, process->locality, node->other);
}

/* ---- Check 2: "Which nets are accepted." */

/* An accepted net. Of each tuple: which past reads and which past in used it. */
struct machine {
    const struct script *script;
    struct net *net;
    set readers[KEYS], takers[KEYS];
};

static struct slot *slot_of(const struct machine *machine, unsigned key) {
    return &machine->net->slots[key];
}

static const struct node *node_of(const struct machine *machine, const struct slot *process) {
    return &machine->script->nodes[process->node];
}

static set present(const struct machine *machine) { return number_of(machine->net->present); }

/* What the net's records are, and what its events made and took. */
struct census {
    set records, events, consumed;
    set made, taken, localities;
};

/* Is the record as the rule made it, or past or consumed since? What it holds
 * as an event is another rule's; bytes not described are 0 by its form. */
static bool agrees(const struct slot *found, const struct slot *made) {
    return (found->kind == made->kind || found->kind == made->kind + 1) &&
           found->locality == made->locality && found->node == made->node &&
           is_same(found->tags, made->tags, sizeof made->tags) &&
           is_same(found->numbers, made->numbers, sizeof made->numbers) &&
           is_same(found->references, made->references, sizeof made->references);
}

/* An event holds exactly its kind's places. */
static bool holds_as_needed(const uint8_t held[HELD], const struct row *row) {
    for (int i = 0; i < HELD; i++)
        if ((held[i] != NONE) != row->holds[i]) return false;
    return true;
}

/* "A consumed tuple is used by exactly one past in, a live one by none, a past
 * read uses a live or consumed tuple"; it is at the target and matches. */
static bool use_agrees(struct machine *machine, struct census *census, unsigned key,
                       const struct node *node, uint8_t target) {
    const struct slot *event = slot_of(machine, key);
    uint8_t used = event->held[USED];
    const struct slot *tuple = slot_of(machine, used);
    if (tuple->locality != target || !fields_are_set(node, event) || !matches(node, event, tuple))
        return false;
    if (node->kind == IN) {
        machine->takers[used] = just(key);
        return tuple->kind == CONSUMED && add(&census->taken, used);
    }
    machine->readers[used] |= just(key);
    return tuple->kind == TUPLE || tuple->kind == CONSUMED;
}

/* "A key, or a locality 8..31, is made at most once, and no other locality is
 * made": places are counted, not events. */
static bool made_once(struct census *census, const uint8_t held[HELD]) {
    return add(&census->made, held[FIRST]) &&
           (held[SECOND] == NONE || add(&census->made, held[SECOND])) &&
           (held[MADE] == NONE ||
            (held[MADE] >= FIRST_MADE_LOCALITY && add(&census->localities, held[MADE])));
}

/* "Each past record and what it made agree with the rule above, targets
 * present; a past process is at kinds 1..6." */
static bool event_agrees(struct machine *machine, struct census *census, unsigned key) {
    const struct slot *event = slot_of(machine, key);
    const struct node *node = node_of(machine, event);
    const struct row *row = &rows[node->kind];
    struct slot made;
    uint8_t target = NONE;
    if (node->kind == NIL || node->kind == ROLL || !holds_as_needed(event->held, row) ||
        !made_once(census, event->held))
        return false;
    if (row->finds_target) {
        target = target_of(node, event);
        if (target == NONE || !has(present(machine), target)) return false;
    }
    if (row->holds[USED] && !use_agrees(machine, census, key, node, target)) return false;
    make_continuation(&made, event, (uint8_t)key, node, event->held, machine->net->slots);
    if (!agrees(slot_of(machine, event->held[FIRST]), &made)) return false;
    if (!row->holds[SECOND]) return true;
    if (node->kind == OUT && !fields_are_set(node, event)) return false;
    make_second(&made, event, node, target);
    return agrees(slot_of(machine, event->held[SECOND]), &made);
}

static bool take_census(struct machine *machine, struct census *census) {
    for (unsigned key = 0; key < KEYS; key++) {
        const struct slot *slot = slot_of(machine, key);
        if (!slot_has_form(slot)) return false;
        census->records |= (set)(slot->kind != FREE) << key;
        census->events |= (set)(slot->kind == PAST) << key;
        census->consumed |= (set)(slot->kind == CONSUMED) << key;
        if (slot->kind == PAST && !event_agrees(machine, census, key)) return false;
    }
    return true;
}

/* "A record nobody made lives at a present locality 0..7, names only
 * localities 0..7 (present or not) and holds no reference." */
static bool root_is_plain(const struct machine *machine, const struct slot *root) {
    if (root->locality >= FIRST_MADE_LOCALITY || !has(present(machine), root->locality) ||
        !holds_nothing(root->references))
        return false;
    for (int i = 0; i < VARIABLES; i++)
        if (root->tags[i] == LOCALITY && root->numbers[i][0] >= FIRST_MADE_LOCALITY) return false;
    return true;
}

static bool roots_are_plain(const struct machine *machine, set roots) {
    while (roots != 0)
        if (!root_is_plain(machine, slot_of(machine, take_least(&roots)))) return false;
    return true;
}

static set event_at(const struct machine *machine, uint8_t key) {
    return slot_of(machine, key)->kind == PAST ? just(key) : 0;
}

/* "Event f depends directly on event e when e made f's key; or e made the
 * tuple that f used; or f is an in of the tuple that the past read e used":
 * all f for one e. */
static set directly_on(const struct machine *machine, unsigned key) {
    const struct slot *event = slot_of(machine, key);
    const uint8_t *held = event->held;
    set found = event_at(machine, held[FIRST]);
    switch (node_of(machine, event)->kind) {
    case OUT: return found | machine->readers[held[SECOND]] | machine->takers[held[SECOND]];
    case EVAL:
    case SPLIT: return found | event_at(machine, held[SECOND]);
    case READ: return found | machine->takers[held[USED]];
    default: return found;
    }
}

/* "Dependence has no cycle": a path goes on to what depends on its last event
 * until it meets itself; an event on which nothing more depends is let go. */
static bool no_cycle(const struct machine *machine, set left) {
    uint8_t path[KEYS];
    set onward[KEYS], on_path = 0;
    int length = 0;
    while (left != 0) {
        set next = length == 0 ? left : onward[length - 1] & left;
        if ((next & on_path) != 0) return false;
        if (next == 0) {
            length--;
            on_path &= ~just(path[length]);
            left &= ~just(path[length]);
        } else {
            path[length] = (uint8_t)least(next);
            on_path |= just(path[length]);
            onward[length] = directly_on(machine, path[length]);
            length++;
        }
    }
    return true;
}

static bool accept(struct machine *machine) {
    struct census census = {0};
    memset(machine->readers, 0, sizeof machine->readers);
    memset(machine->takers, 0, sizeof machine->takers);
    if (!head_has_form(machine->net) || !take_census(machine, &census)) return false;
    /* "Localities 8..31 are present exactly when made." */
    set from_8 = present(machine) >> FIRST_MADE_LOCALITY << FIRST_MADE_LOCALITY;
    return census.taken == census.consumed && from_8 == census.localities &&
           roots_are_plain(machine, census.records & ~census.made) &&
           no_cycle(machine, census.events);
}

/* ---- "Backward steps and dependence." */

/* "A past process may be undone when all keys it made are live, a tuple it made
 * is in no past read, and, for a past read, its tuple is live." */
static bool is_undoable(const struct machine *machine, const struct slot *event) {
    const struct slot *slots = machine->net->slots;
    const uint8_t *held = event->held;
    if (slots[held[FIRST]].kind != LIVE) return false;
    switch (node_of(machine, event)->kind) {
    case OUT: return slots[held[SECOND]].kind == TUPLE && machine->readers[held[SECOND]] == 0;
    case EVAL:
    case SPLIT: return slots[held[SECOND]].kind == LIVE;
    case READ: return slots[held[USED]].kind == TUPLE;
    default: return true;
    }
}

/* "All reached in any number of direct steps, e included." */
static set dependents_of(const struct machine *machine, unsigned key) {
    set found = just(key), new = found;
    while (new != 0) {
        set next = directly_on(machine, take_least(&new)) & ~found;
        found |= next;
        new |= next;
    }
    return found;
}

static uint64_t word_of(unsigned answer, unsigned undone, set touched) {
    return answer | undone << 8 | touched << 32;
}

/* What becomes free, and which tuples are live again, where events are undone. */
struct undoing {
    set freed, released;
};

/* Takes one event's share out of the net's present localities and the users of
 * its tuple. */
static void forget(struct machine *machine, unsigned key, struct undoing *undoing) {
    const uint8_t *held = slot_of(machine, key)->held;
    undoing->freed |= just(held[FIRST]);
    if (held[SECOND] != NONE) undoing->freed |= just(held[SECOND]);
    if (held[MADE] != NONE)
        put_number(machine->net->present, (uint32_t)(present(machine) & ~just(held[MADE])));
    if (held[USED] != NONE) {
        undoing->released |= machine->takers[held[USED]] == just(key) ? just(held[USED]) : 0;
        machine->takers[held[USED]] &= ~just(key);
        machine->readers[held[USED]] &= ~just(key);
    }
}

/* "Then what it made becomes free or absent, a consumed tuple is live again,
 * and it is live as before": of several events at once, freeing wins. */
static uint64_t undo(struct machine *machine, set events) {
    struct undoing undoing = {0, 0};
    unsigned undone = 0;
    set touched = 0;
    for (set left = events; left != 0; undone++) forget(machine, take_least(&left), &undoing);
    for (set left = events & ~undoing.freed; left != 0;) {
        struct slot *event = slot_of(machine, take_least(&left));
        event->kind = LIVE;
        memset(event->held, NONE, HELD);
    }
    for (set left = undoing.released & ~undoing.freed; left != 0;)
        slot_of(machine, take_least(&left))->kind = TUPLE;
    for (set left = undoing.freed; left != 0;) {
        struct slot *slot = slot_of(machine, take_least(&left));
        touched |= just(slot->locality);
        memset(slot, 0, sizeof *slot);
    }
    return word_of(REWIND_DONE, undone, touched);
}

/* ---- "Requests and what comes back." */

/* Check 3: "request not 6 bytes; code above 3; key above 63; others neither 255
 * nor in range". */
static bool request_has_form(const uint8_t *bytes, size_t length) {
    return length == REWIND_REQUEST_LENGTH && bytes[0] <= REWIND_ROLL && bytes[1] < KEYS &&
           is_key_or_none(bytes[2]) && is_key_or_none(bytes[3]) && is_key_or_none(bytes[4]) &&
           is_locality_or_none(bytes[5]);
}

struct request {
    uint8_t code, key;
    uint8_t held[HELD]; /* its four places, as the event will hold them */
};

static struct request request_of(const uint8_t bytes[REWIND_REQUEST_LENGTH]) {
    return (struct request){bytes[0], bytes[1], {bytes[3], bytes[4], bytes[2], bytes[5]}};
}

/* Check 11: "a fresh key not free, both equal, or fresh locality below 8 or
 * present". */
static bool is_fresh(const struct machine *machine, const uint8_t held[HELD]) {
    if (slot_of(machine, held[FIRST])->kind != FREE) return false;
    if (held[SECOND] != NONE &&
        (slot_of(machine, held[SECOND])->kind != FREE || held[SECOND] == held[FIRST]))
        return false;
    return held[MADE] == NONE ||
           (held[MADE] >= FIRST_MADE_LOCALITY && !has(present(machine), held[MADE]));
}

/* Checks 5 to 11 of a forward step, in number order; finds its target. */
static unsigned check_forward(const struct machine *machine, const struct request *request,
                              uint8_t *target) {
    const struct slot *process = slot_of(machine, request->key);
    const struct node *node = node_of(machine, process);
    const struct row *row = &rows[node->kind];
    if (node->kind == NIL || node->kind == ROLL) return REWIND_WRONG_NODE;
    if (!holds_as_needed(request->held, row)) return REWIND_WRONG_PLACES;
    if (row->finds_target) {
        *target = target_of(node, process);
        if (*target == NONE || !fields_are_set(node, process)) return REWIND_UNSET;
        if (!has(present(machine), *target)) return REWIND_TARGET_ABSENT;
    }
    if (row->holds[USED]) {
        const struct slot *tuple = slot_of(machine, request->held[USED]);
        if (tuple->kind != TUPLE || tuple->locality != *target) return REWIND_NO_TUPLE;
        if (!matches(node, process, tuple)) return REWIND_NO_MATCH;
    }
    return is_fresh(machine, request->held) ? REWIND_DONE : REWIND_NOT_FRESH;
}

/* "The process becomes past and keeps its contents." */
static void take_step(struct machine *machine, const struct request *request, uint8_t target) {
    const uint8_t *held = request->held;
    struct slot *process = slot_of(machine, request->key);
    const struct node *node = node_of(machine, process);
    make_continuation(slot_of(machine, held[FIRST]), process, request->key, node, held,
                      machine->net->slots);
    if (held[SECOND] != NONE) make_second(slot_of(machine, held[SECOND]), process, node, target);
    if (held[MADE] != NONE)
        put_number(machine->net->present, (uint32_t)(present(machine) | just(held[MADE])));
    if (node->kind == IN) {
        slot_of(machine, held[USED])->kind = CONSUMED;
        machine->takers[held[USED]] = just(request->key);
    }
    if (node->kind == READ) machine->readers[held[USED]] |= just(request->key);
    process->kind = PAST;
    memcpy(process->held, held, HELD);
}

static uint64_t forward(struct machine *machine, const struct request *request) {
    uint8_t target = NONE;
    unsigned answer = check_forward(machine, request, &target);
    if (answer == REWIND_DONE) take_step(machine, request, target);
    return word_of(answer, 0, 0);
}

static uint64_t backward(struct machine *machine, const struct request *request) {
    if (!holds_nothing(request->held)) return REWIND_WRONG_PLACES;
    if (!is_undoable(machine, slot_of(machine, request->key))) return REWIND_NOT_UNDOABLE;
    return undo(machine, just(request->key));
}

/* "Rollback undoes all dependents." */
static uint64_t rollback(struct machine *machine, const struct request *request) {
    if (node_of(machine, slot_of(machine, request->key))->kind == SPLIT) return REWIND_WRONG_NODE;
    if (!holds_nothing(request->held)) return REWIND_WRONG_PLACES;
    return undo(machine, dependents_of(machine, request->key));
}

/* What a reference of an accepted net holds is an event. */
static uint64_t roll(struct machine *machine, const struct request *request) {
    const struct slot *process = slot_of(machine, request->key);
    const struct node *node = node_of(machine, process);
    if (node->kind != ROLL) return REWIND_WRONG_NODE;
    if (!holds_nothing(request->held)) return REWIND_WRONG_PLACES;
    uint8_t event = process->references[node->reference];
    return event == NONE ? REWIND_UNSET : undo(machine, dependents_of(machine, event));
}

/* Checks 3 to 12. Check 4: "key not a live process (0, 3) or past process (1,
 * 2)". */
static uint64_t answer(struct machine *machine, const uint8_t *bytes, size_t length) {
    if (!request_has_form(bytes, length)) return REWIND_BAD_REQUEST;
    struct request request = request_of(bytes);
    bool of_event = request.code == REWIND_BACKWARD || request.code == REWIND_ROLLBACK;
    if (slot_of(machine, request.key)->kind != (of_event ? PAST : LIVE))
        return REWIND_WRONG_PROCESS;
    switch (request.code) {
    case REWIND_FORWARD: return forward(machine, &request);
    case REWIND_BACKWARD: return backward(machine, &request);
    case REWIND_ROLLBACK: return rollback(machine, &request);
    default: return roll(machine, &request);
    }
}

/* Checks 1 and 2; the machine is then over these images. */
static unsigned open_images(struct machine *machine, const uint8_t *script, size_t script_length,
                            uint8_t *net, size_t net_length) {
    machine->script = (const struct script *)script;
    machine->net = (struct net *)net;
    if (script_length != REWIND_SCRIPT_LENGTH || !script_has_form(machine->script))
        return REWIND_BAD_SCRIPT;
    if (net_length != REWIND_NET_LENGTH || !accept(machine)) return REWIND_BAD_NET;
    return REWIND_DONE;
}

uint64_t rewind_call(const uint8_t *script, size_t script_length, uint8_t *net, size_t net_length,
                     const uint8_t *request, size_t request_length) {
    struct machine machine;
    unsigned bad = open_images(&machine, script, script_length, net, net_length);
    return bad != REWIND_DONE ? bad : answer(&machine, request, request_length);
}

/* ---- yardstick rewind: script and net are looked at once, then every request
 * is answered in place. What was read is answered before more is read. */

enum { BLOCK = 4096, LONGEST_LINE = sizeof "12 63 ffffffff\n" };

static size_t read_fully(uint8_t *bytes, size_t length) {
    size_t have = 0;
    ssize_t more;
    while (have < length && (more = read(STDIN_FILENO, bytes + have, length - have)) > 0)
        have += (size_t)more;
    return have;
}

static void write_fully(const char *bytes, size_t length) {
    while (length > 0) {
        ssize_t written = write(STDOUT_FILENO, bytes, length);
        if (written <= 0) exit(0);
        bytes += written;
        length -= (size_t)written;
    }
}

static char *put_decimal(char *at, unsigned number) {
    if (number >= 10) *at++ = (char)('0' + number / 10);
    *at++ = (char)('0' + number % 10);
    return at;
}

/* "Answer, undone in decimal, touched as 8 lower-case hex digits": mostly an
 * answer of one digit and twice nothing. */
static char *put_line(char *at, uint64_t word) {
    if (word < 10) {
        memcpy(at, "0 0 00000000\n", 13);
        *at += (char)word;
        return at + 13;
    }
    at = put_decimal(at, rewind_answer_of(word));
    *at++ = ' ';
    at = put_decimal(at, rewind_undone_of(word));
    *at++ = ' ';
    for (int shift = 60; shift >= 32; shift -= 4) *at++ = "0123456789abcdef"[word >> shift & 15];
    *at++ = '\n';
    return at;
}

static void write_line(uint64_t word) {
    char line[LONGEST_LINE];
    write_fully(line, (size_t)(put_line(line, word) - line));
}

/* Answers every whole request; how many bytes these were. */
static size_t answer_block(struct machine *machine, const uint8_t *requests, size_t length) {
    static char lines[BLOCK * LONGEST_LINE];
    char *end = lines;
    size_t at = 0;
    for (; length - at >= REWIND_REQUEST_LENGTH; at += REWIND_REQUEST_LENGTH)
        end = put_line(end, answer(machine, requests + at, REWIND_REQUEST_LENGTH));
    write_fully(lines, (size_t)(end - lines));
    return at;
}

static void answer_requests(struct machine *machine) {
    static uint8_t requests[BLOCK * REWIND_REQUEST_LENGTH];
    size_t have = 0;
    ssize_t more;
    while ((more = read(STDIN_FILENO, requests + have, sizeof requests - have)) > 0) {
        have += (size_t)more;
        size_t answered = answer_block(machine, requests, have);
        have -= answered;
        memmove(requests, requests + answered, have);
    }
    /* "1 to 5 bytes left over count as a request of wrong length." */
    if (have > 0) write_line(answer(machine, requests, have));
}

static int run_rewind(void) {
    static uint8_t script[REWIND_SCRIPT_LENGTH], net[REWIND_NET_LENGTH];
    struct machine machine;
    size_t script_length = read_fully(script, sizeof script);
    size_t net_length = read_fully(net, sizeof net);
    unsigned bad = open_images(&machine, script, script_length, net, net_length);
    if (bad != REWIND_DONE) write_line(bad);
    else answer_requests(&machine);
    return 0;
}

/* ---- yardstick calls: docs/REFERENCE.md, "calls". The finder and the helpers
 * are not answered. */

enum { LONGEST_IMAGE = 4096, LONGEST_REQUEST = 16 };

struct bytes {
    uint8_t bytes[LONGEST_IMAGE];
    size_t length;
};

static size_t next_number(void) {
    int low = getchar(), high = getchar();
    return high == EOF ? 0 : (size_t)(low | high << 8);
}

/* The end of the stream, or a length beyond the limit, ends the run. */
static void next_bytes(struct bytes *into, size_t length, size_t limit) {
    into->length = length;
    if (length > limit || fread(into->bytes, 1, length, stdin) != length) exit(0);
}

static void next_change(struct bytes *of) {
    size_t at = next_number();
    int byte = getchar();
    if (at < of->length) of->bytes[at] = (uint8_t)byte;
}

static uint32_t crc32(const struct bytes *of) {
    uint32_t crc = UINT32_MAX;
    for (size_t i = 0; i < of->length; i++) {
        crc ^= of->bytes[i];
        for (int bit = 0; bit < 8; bit++) crc = crc >> 1 ^ (crc & 1 ? 0xedb88320 : 0);
    }
    return ~crc;
}

static void answer_call(const struct bytes *script, struct bytes *net,
                        const struct bytes *request) {
    char line[LONGEST_LINE];
    uint64_t word = rewind_call(script->bytes, script->length, net->bytes, net->length,
                                request->bytes, request->length);
    int length = (int)(put_line(line, word) - line) - 1;
    printf("C %.*s %08x\n", length, line, (unsigned)crc32(net));
}

static int run_calls(void) {
    static struct bytes script, net, base, request;
    for (;;) {
        switch (getchar()) {
        case 'S': next_bytes(&script, next_number(), LONGEST_IMAGE); break;
        case 'N': next_bytes(&base, next_number(), LONGEST_IMAGE); net = base; break;
        case 'B': net = base; break;
        case 'P': next_change(&net); break;
        case 'C':
            next_bytes(&request, (size_t)getchar(), LONGEST_REQUEST);
            answer_call(&script, &net, &request);
            break;
        case 'F': getchar(); break;
        case 'K':
        case 'L': break;
        default: return 0;
        }
    }
}

/* ---- yardstick time. */

enum { MOST_REQUESTS = 1 << 16 };

static size_t read_file(uint8_t *into, size_t room, const char *name) {
    FILE *file = fopen(name, "rb");
    if (file == NULL) {
        perror(name);
        exit(1);
    }
    size_t length = fread(into, 1, room, file);
    fclose(file);
    return length;
}

static double nanoseconds_now(void) {
    struct timespec now;
    timespec_get(&now, TIME_UTC);
    return (double)now.tv_sec * 1e9 + (double)now.tv_nsec;
}

/* The compiler cannot see what is called, so that every call is made. */
static uint64_t (*volatile timed_call)(const uint8_t *, size_t, uint8_t *, size_t, const uint8_t *,
                                       size_t) = rewind_call;

static int run_time(char **files, long calls) {
    static uint8_t script[LONGEST_IMAGE], net[LONGEST_IMAGE];
    static uint8_t requests[MOST_REQUESTS * REWIND_REQUEST_LENGTH];
    size_t script_length = read_file(script, sizeof script, files[0]);
    size_t net_length = read_file(net, sizeof net, files[1]);
    size_t length = read_file(requests, sizeof requests, files[2]);
    double began = nanoseconds_now();
    for (size_t made = 0, at = 0; made < (size_t)calls; made++) {
        timed_call(script, script_length, net, net_length, requests + at, REWIND_REQUEST_LENGTH);
        at += REWIND_REQUEST_LENGTH;
        if (at + REWIND_REQUEST_LENGTH > length) at = 0;
    }
    printf("%.1f\n", (nanoseconds_now() - began) / (double)calls);
    return 0;
}

int main(int count, char **words) {
    if (count == 2 && strcmp(words[1], "rewind") == 0) return run_rewind();
    if (count == 2 && strcmp(words[1], "calls") == 0) return run_calls();
    if (count == 6 && strcmp(words[1], "time") == 0) return run_time(words + 2, atol(words[5]));
    fputs("yardstick rewind | calls | time SCRIPT NET REQUESTS N\n", stderr);
    return 2;
}
