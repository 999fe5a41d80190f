/* Snowdell's calls, for C (from C99) and C++ (from C++11). Link libsnowdell.a: `tools/build library` builds it, and an
 * installed one is found by pkg-config as `snowdell`. It is for x86-64 Linux and needs memcpy and memset of a C library,
 * nothing else.
 *
 * A policy file is judged as a whole: it is accepted, or refused with a number, the line at fault and a place in it.
 *
 *   snowdell_check     is the file accepted, and how many subjects, objects and actions has it?
 *   snowdell_compose   the answers to all accesses, one byte each
 *   snowdell_decide    the answer to the one access that three names ask for
 *
 * The caller lends all memory. The calls allocate nothing, keep nothing from one call to the next, have no global state,
 * and end on every input. Calls whose `result`, `memory` and `numbers` are separate may run side by side in several threads;
 * what is only read (file, names) may be shared.
 *
 * What the proof takes for granted, and nothing checks here: every pointer is not null, even where its length is 0, and
 * points to as many bytes, or aligned numbers, as its length says, all of them initialised; what is written to (result,
 * memory, numbers) overlaps nothing else that is passed; and no other thread uses it during the call. Nothing checks either
 * that the declarations below fit the library; snowdell_version tells one that is older or newer.
 *
 * The thread that calls needs a stack, whatever the input: snowdell_check at most SNOWDELL_CHECK_STACK bytes, snowdell_compose
 * and snowdell_decide at most SNOWDELL_STACK. That is tested (evaluator/compare/tests/stack.rs) and not proved. A stack that is too
 * small ends the process with a fault at the guard page below it, if the thread has one; a thread made by hand needs one too.
 */
#ifndef SNOWDELL_H
#define SNOWDELL_H

#include <stddef.h>
#include <stdint.h>

#ifdef __cplusplus
extern "C" {
#endif

/* The version of this header. */
#define SNOWDELL_VERSION_MAJOR 0
#define SNOWDELL_VERSION_MINOR 2
#define SNOWDELL_VERSION_PATCH 0
#define SNOWDELL_VERSION "0.2.0"
#define SNOWDELL_VERSION_NUMBER (SNOWDELL_VERSION_MAJOR * 10000 + SNOWDELL_VERSION_MINOR * 100 + SNOWDELL_VERSION_PATCH)

/* The version of the library, to be held against SNOWDELL_VERSION_NUMBER: 200 for 0.2.0. */
size_t snowdell_version(void);

/* Lengths in bytes. A longer file is refused with SNOWDELL_BAD_FILE, so read one byte more than this and never cut. */
#define SNOWDELL_LONGEST_FILE 32768
#define SNOWDELL_RESULT 4096  /* the least `result_len` */
#define SNOWDELL_MEMORY 65536 /* the least `memory_len` */
#define SNOWDELL_CHECK_STACK 131072
#define SNOWDELL_STACK 262144

/* The answer to an access. Undecided, which is no permit: a list that matters is away, or the limit of rounds is too low. */
enum { SNOWDELL_DENY = 0, SNOWDELL_UNDECIDED = 1, SNOWDELL_PERMIT = 2 };

/* What a call returns, which is also its first number: 0, or the number of the refusal. docs/REFUSALS.md says what to do.
 * The line counts from 1, and is 0 where this list says so. The place is 0 unless this list says what it is. */
enum {
    SNOWDELL_ACCEPTED = 0,
    SNOWDELL_SHORT_BUFFER = 1,    /* result or memory is too short; they are untouched. Line 0 */
    SNOWDELL_BAD_FILE = 2,        /* the file is empty, too long, or its last byte is no line feed. Line 0 */
    SNOWDELL_BAD_LINE = 3,        /* the line cannot be read */
    SNOWDELL_MISPLACED_LINE = 4,  /* the line stands in the wrong place */
    SNOWDELL_DECLARED_TWICE = 5,  /* a member or a table is declared a second time */
    SNOWDELL_NOT_DECLARED = 6,    /* the line names a parent, member, table or predicate that is not declared */
    SNOWDELL_TOO_MANY = 7,        /* one member, predicate, table, rule set, rule or body line too many; a limit over 4096 */
    SNOWDELL_BAD_COUNTS = 8,      /* a sort has no members, or there are more than 4,096 accesses */
    SNOWDELL_NO_EXPRESSION = 9,   /* there is no E line. Line 0 */
    SNOWDELL_GRANT_AWAY = 10,     /* a grant for a list that is away */
    SNOWDELL_TWO_SORTS = 11,      /* a variable of one rule stands for members of two sorts */
    SNOWDELL_BAD_EXPRESSION = 12, /* the expression is none; the place is how many of its bytes are still good */
    SNOWDELL_UNKNOWN_NAME = 13,   /* a name in the expression is not declared; the place is its first byte, from 0 */
    SNOWDELL_TOO_COMPLEX = 14,    /* the expression would hold more than 14 sets at once, or has more than 64 operators */
    SNOWDELL_UNKNOWN_ASKED = 15,  /* decide only: no such name as asked for. Line 0; place 1 subject, 2 object, 3 action */
    SNOWDELL_DEEP_TEMPLATES = 16, /* more than four templates, one within the other */

    /* No refusal: numbers_len is smaller than the call's count. Nothing at all was done, and `numbers` was not written to. */
    SNOWDELL_NO_ROOM = 256
};

/* What `numbers` holds after a call, by index. The first three are the same for every call; on a refusal all others are 0. */
enum { SNOWDELL_NUMBER = 0, SNOWDELL_LINE = 1, SNOWDELL_PLACE = 2 };

/* of snowdell_check */
enum { SNOWDELL_CHECK_SUBJECTS = 3, SNOWDELL_CHECK_OBJECTS = 4, SNOWDELL_CHECK_ACTIONS = 5, SNOWDELL_CHECK_NUMBERS = 6 };

/* of snowdell_compose: how many accesses there are, how many are permitted, how many undecided; the rounds of all closures */
enum {
    SNOWDELL_COMPOSE_ACCESSES = 3,
    SNOWDELL_COMPOSE_PERMITS = 4,
    SNOWDELL_COMPOSE_UNDECIDED = 5,
    SNOWDELL_COMPOSE_ROUNDS = 6,
    SNOWDELL_COMPOSE_NUMBERS = 7
};

/* of snowdell_decide */
enum { SNOWDELL_DECIDE_ANSWER = 3, SNOWDELL_DECIDE_ROUNDS = 4, SNOWDELL_DECIDE_NUMBERS = 5 };

/* The byte of `result` that answers an access. Members are numbered from 0, each sort for itself, in the order of the file;
 * `objects` and `actions` are the file's counts, which snowdell_check gives. */
static inline size_t snowdell_access(size_t subject, size_t object, size_t action, size_t objects, size_t actions) {
    return (subject * objects + object) * actions + action;
}

/* Each call returns SNOWDELL_ACCEPTED, a refusal, or SNOWDELL_NO_ROOM. A length belongs to the pointer before it.
 *
 * After a call the first SNOWDELL_MEMORY bytes of `memory` are 0, whatever they were before; with SNOWDELL_SHORT_BUFFER and
 * SNOWDELL_NO_ROOM they are as they were. Bytes of `memory` beyond these, and numbers beyond the call's count, always stay. */

/* Writes SNOWDELL_CHECK_NUMBERS numbers. */
size_t snowdell_check(const uint8_t *file, size_t file_len, size_t *numbers, size_t numbers_len);

/* Writes SNOWDELL_COMPOSE_NUMBERS numbers and, if the file is accepted, so many bytes of `result` as there are accesses. The
 * other bytes of `result` stay as they were, all of them if the file is refused. */
size_t snowdell_compose(const uint8_t *file, size_t file_len, uint8_t *result, size_t result_len, uint8_t *memory,
                        size_t memory_len, size_t *numbers, size_t numbers_len);

/* Writes SNOWDELL_DECIDE_NUMBERS numbers. The names are bytes with a length; no byte 0 closes them. */
size_t snowdell_decide(const uint8_t *file, size_t file_len, const uint8_t *subject, size_t subject_len, const uint8_t *object,
                       size_t object_len, const uint8_t *action, size_t action_len, uint8_t *memory, size_t memory_len,
                       size_t *numbers, size_t numbers_len);

#ifdef __cplusplus
}
#endif

#endif
