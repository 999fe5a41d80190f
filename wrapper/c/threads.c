/* Calls with separate buffers, side by side: two threads, each with a policy of its own, get what a lone call gets. */
#ifndef _DEFAULT_SOURCE
#define _DEFAULT_SOURCE
#endif
#include "snowdell.h"

#include "lent.h"

#include <pthread.h>

/* Often enough that the threads meet within a call. */
#define TURNS 500

/* One thread's policy, the access that it asks for, and the buffers that it lends. */
typedef struct {
    const char *text;
    const char *asked[3];
    uint8_t result[SNOWDELL_RESULT];
    uint8_t memory[SNOWDELL_MEMORY];
    size_t composed[SNOWDELL_COMPOSE_NUMBERS], decided[SNOWDELL_DECIDE_NUMBERS], checked[SNOWDELL_CHECK_NUMBERS];
} Work;

static Work works[2], alone[2];

/* A closure over a chain of eight weeks; a list that is away. */
static const char *const policies[2] = {
    "S,staff,-\nS,ann,staff\nO,wk8,-\nO,wk7,wk8\nO,wk6,wk7\nO,wk5,wk6\nO,wk4,wk5\nO,wk3,wk4\nO,wk2,wk3\nO,wk1,wk2\nA,read,-\n"
    "T,ward,here\nG,ward,staff,wk8,read\nR,down,?0,?1,?2\nB,grant,?0,?3,?2\nB,lt,O,?1,?3\nR,down,?0,?1,?2\nB,grant,?3,?1,?2\n"
    "B,le,S,?0,?3\nE,4096,ward*down\n",
    "S,cook,-\nS,temp,cook\nO,wk1,-\nO,wk2,wk1\nA,read,-\nA,write,-\nT,kitchen,away\nT,ward,here\nG,ward,temp,wk2,write\n"
    "E,4096,kitchen^[s=cook]+ward\n",
};
static const char *const asks[2][3] = {{"ann", "wk1", "read"}, {"cook", "wk2", "write"}};

static const uint8_t *bytes(const char *text) { return (const uint8_t *)text; }

static void all_calls(Work *w) {
    size_t len = strlen(w->text);
    snowdell_check(bytes(w->text), len, w->checked, SNOWDELL_CHECK_NUMBERS);
    snowdell_compose(bytes(w->text), len, w->result, sizeof w->result, w->memory, sizeof w->memory, w->composed,
                     SNOWDELL_COMPOSE_NUMBERS);
    snowdell_decide(bytes(w->text), len, bytes(w->asked[0]), strlen(w->asked[0]), bytes(w->asked[1]), strlen(w->asked[1]),
                    bytes(w->asked[2]), strlen(w->asked[2]), w->memory, sizeof w->memory, w->decided, SNOWDELL_DECIDE_NUMBERS);
}

static int same(const Work *x, const Work *y) {
    return memcmp(x->result, y->result, sizeof x->result) == 0 && memcmp(x->memory, y->memory, sizeof x->memory) == 0 &&
           memcmp(x->composed, y->composed, sizeof x->composed) == 0 && memcmp(x->decided, y->decided, sizeof x->decided) == 0 &&
           memcmp(x->checked, y->checked, sizeof x->checked) == 0;
}

static void start(Work *w, size_t i) {
    memset(w, 9, sizeof *w);
    w->text = policies[i];
    memcpy(w->asked, asks[i], sizeof w->asked);
}

/* How many turns gave something else than the lone call. */
static void *turns(void *argument) {
    const size_t i = *(const size_t *)argument;
    static size_t wrong[2];
    size_t turn;
    for (turn = 0; turn < TURNS; turn++) {
        start(&works[i], i);
        all_calls(&works[i]);
        wrong[i] += !same(&works[i], &alone[i]);
    }
    return &wrong[i];
}

int main(void) {
    static const size_t which[2] = {0, 1};
    pthread_t threads[2];
    size_t i;
    for (i = 0; i < 2; i++) {
        start(&alone[i], i);
        all_calls(&alone[i]);
        EXPECT("alone", alone[i].decided[SNOWDELL_DECIDE_ANSWER] == (i == 0 ? SNOWDELL_PERMIT : SNOWDELL_UNDECIDED));
    }
    for (i = 0; i < 2; i++)
        EXPECT("threads", pthread_create(&threads[i], NULL, turns, (void *)(uintptr_t)&which[i]) == 0);
    for (i = 0; i < 2; i++) {
        void *wrong = NULL;
        EXPECT("threads", pthread_join(threads[i], &wrong) == 0);
        EXPECT("threads", wrong != NULL && *(const size_t *)wrong == 0);
    }
    return counted();
}
