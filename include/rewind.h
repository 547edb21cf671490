/*
 * The calls of rewind for C, and for any language that calls C.
 *
 * Link crates/exports/out/libexports.a (`rt lib` in crates/exports builds it,
 * for x86-64 Linux). It asks for memcpy and memset and for nothing else.
 *
 * Script, net and request are byte strings, each given as a pointer and a
 * length. Any bytes and any length are taken, and each has one outcome, which
 * document 01 fixes: there is no input that a caller must keep away from these
 * functions. What C itself asks remains:
 *
 *   - each pointer is to that many bytes. It is not null, also where the
 *     length is 0;
 *   - the net given to rewind_call shares no byte with the script or the
 *     request, and no other thread reads or writes it meanwhile.
 *
 * Nothing is kept between calls, nothing is allocated, and no file is read or
 * written. So any number of threads may call at once: on different nets, or
 * all questions (not rewind_call) on the same. A call always returns. It takes
 * about 5 KB of the caller's stack, which is measured and not proved.
 */
#ifndef REWIND_H
#define REWIND_H

#include <stddef.h>
#include <stdint.h>

#ifdef __cplusplus
extern "C" {
#endif

/* The lengths of what is not refused for its length. */
#define REWIND_SCRIPT_LENGTH 2064
#define REWIND_NET_LENGTH 3600
#define REWIND_REQUEST_LENGTH 6

/* The mark for none: in a request, and as a name that was not found. */
#define REWIND_NONE 255

/* The first byte of a request. */
enum rewind_code {
    REWIND_FORWARD = 0,
    REWIND_BACKWARD = 1,
    REWIND_ROLLBACK = 2,
    REWIND_ROLL = 3
};

/* Document 01's answers. Checks run in this order, so the least applies. */
enum rewind_answer {
    REWIND_DONE = 0,
    REWIND_BAD_SCRIPT = 1,     /* the script's length or form */
    REWIND_BAD_NET = 2,        /* the net is not accepted */
    REWIND_BAD_REQUEST = 3,    /* the request's length, or a byte out of range */
    REWIND_WRONG_PROCESS = 4,  /* the key is no live process, or no past one */
    REWIND_WRONG_NODE = 5,     /* the code has nothing to do with its node */
    REWIND_WRONG_PLACES = 6,   /* an unneeded place given, a needed one none */
    REWIND_UNSET = 7,          /* target, variable or reference not set */
    REWIND_TARGET_ABSENT = 8,  /* the target locality is absent */
    REWIND_NO_TUPLE = 9,       /* no live tuple at the target */
    REWIND_NO_MATCH = 10,      /* the tuple does not match */
    REWIND_NOT_FRESH = 11,     /* a fresh key or locality is not fresh */
    REWIND_NOT_UNDOABLE = 12   /* backward, and something depends on the step */
};

/*
 * One request. The result is a word, taken apart by the functions below:
 *
 *   bits 0 to 7     the answer, 0 to 12
 *   bits 8 to 15    undone: how many events were undone
 *   bits 16 to 31   0
 *   bits 32 to 63   touched: bit 32 + n where a slot at locality n became free
 *
 * Where the answer is 0, the net has its 3,600 bytes and they are the net
 * after the request. With any other answer undone and touched are 0 and no
 * byte of the net is changed. Script and request are only read.
 *
 * Answer 1 where the script does not have its length and form; else 2 where
 * the net is not accepted; else 3 where the request does not have 6 bytes in
 * range; else 4 to 12, or 0.
 */
uint64_t rewind_call(const uint8_t *script, size_t script_length,
                     uint8_t *net, size_t net_length,
                     const uint8_t *request, size_t request_length);

/*
 * Questions, which change nothing. The result is a word:
 *
 *   bits 0 to 7     the answer
 *   bits 8 to 15    the name that was found, or 255
 *   bits 16 to 63   0
 *
 * Script and net are looked at as by rewind_call: answers 1 and 2.
 */

/*
 * The finder: the least key of a live tuple that the process with this key,
 * at an in or a read, would meet. Any byte may be given as the key: 3 above
 * 63. Answers 0 to 5, 7, 8 and 9; with any but 0 the name is 255.
 */
uint64_t rewind_find(const uint8_t *script, size_t script_length,
                     const uint8_t *net, size_t net_length, uint8_t key);

/* The least free key, 0 to 63. Answer 0 with 255 where none is left. */
uint64_t rewind_free_key(const uint8_t *script, size_t script_length,
                         const uint8_t *net, size_t net_length);

/* The least absent locality from 8, to 31. Answer 0 with 255 where none is left. */
uint64_t rewind_free_locality(const uint8_t *script, size_t script_length,
                              const uint8_t *net, size_t net_length);

/* A word taken apart. */

static inline uint8_t rewind_answer_of(uint64_t word) {
    return (uint8_t)(word & 255);
}

/* Of rewind_call's word. */
static inline uint8_t rewind_undone_of(uint64_t word) {
    return (uint8_t)(word >> 8 & 255);
}

/* Of a question's word. */
static inline uint8_t rewind_name_of(uint64_t word) {
    return (uint8_t)(word >> 8 & 255);
}

static inline uint32_t rewind_touched_of(uint64_t word) {
    return (uint32_t)(word >> 32);
}

#ifdef __cplusplus
}
#endif

#endif
