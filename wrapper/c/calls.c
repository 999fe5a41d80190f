/* Every kind of return of every call, in the words that C99 and C++11 share: it is built as both. Each number, each byte of
 * result and memory, and the bytes around them are looked at. */
#ifndef _DEFAULT_SOURCE
#define _DEFAULT_SOURCE /* mmap */
#endif
#include "snowdell.h"
/* twice does no harm */
#include "snowdell.h"

#include "lent.h"

/* Longer than a call needs: the bytes behind stay as they are. */
#define SPARE 80

/* Subjects staff and ann, objects week, mon and tue, actions read and write. */
#define MEMBERS "S,staff,-\nS,ann,staff\nO,week,-\nO,mon,week\nO,tue,week\nA,read,-\nA,write,-\n"

/* A grant of each kind, and a list that is away: all three answers. */
static const char three_answers[] =
    MEMBERS "T,ward,here\nT,kitchen,away\nG,ward,staff,week,read\nG,ward,ann,tue,write\nE,0,ward+kitchen^[a=write]^[o<week]\n";

/* One subject, object and action. */
#define ONES "S,x,-\nO,x,-\nA,x,-\n"

/* The calls have types with const where they only read. */
static size_t (*const check)(const uint8_t *, size_t, size_t *, size_t) = snowdell_check;
static size_t (*const compose)(const uint8_t *, size_t, uint8_t *, size_t, uint8_t *, size_t, size_t *,
                               size_t) = snowdell_compose;
static size_t (*const decide)(const uint8_t *, size_t, const uint8_t *, size_t, const uint8_t *, size_t, const uint8_t *, size_t,
                              uint8_t *, size_t, size_t *, size_t) = snowdell_decide;

/* What one call was lent and returned. */
typedef struct {
    Lent file, result, memory, numbers;
    size_t returned;
} Call;

static Call lend_call(const char *text, size_t len, size_t result_len, size_t memory_len, size_t count) {
    Call call;
    call.file = lend_text(text, len);
    call.result = lend(result_len);
    call.memory = lend(memory_len);
    call.numbers = lend(count * sizeof(size_t));
    call.returned = 999;
    return call;
}

static void end_call(Call *call) {
    give_back(&call->file);
    give_back(&call->result);
    give_back(&call->memory);
    give_back(&call->numbers);
}

static Call call_check(const char *text, size_t len, size_t count) {
    Call c = lend_call(text, len, 1, 1, count);
    c.returned = check(c.file.bytes, len, numbers_of(&c.numbers), count);
    return c;
}

static Call call_compose(const char *text, size_t len, size_t result_len, size_t memory_len, size_t count) {
    Call c = lend_call(text, len, result_len, memory_len, count);
    c.returned =
        compose(c.file.bytes, len, c.result.bytes, result_len, c.memory.bytes, memory_len, numbers_of(&c.numbers), count);
    return c;
}

static Call call_decide(const char *text, size_t len, const char *const names[3], size_t memory_len, size_t count) {
    Call c = lend_call(text, len, 1, memory_len, count);
    Lent s = lend_text(names[0], strlen(names[0])), o = lend_text(names[1], strlen(names[1]));
    Lent a = lend_text(names[2], strlen(names[2]));
    c.returned = decide(c.file.bytes, len, s.bytes, s.len, o.bytes, o.len, a.bytes, a.len, c.memory.bytes, memory_len,
                        numbers_of(&c.numbers), count);
    give_back(&s);
    give_back(&o);
    give_back(&a);
    return c;
}

/* Are the call's numbers these, and is `numbers` beyond them as it was? */
static int has_numbers(const Call *call, const size_t *expected, size_t count) {
    return memcmp(numbers_of(&call->numbers), expected, count * sizeof(size_t)) == 0 &&
           unchanged_from(&call->numbers, count * sizeof(size_t));
}

/* Is nothing at all written? */
static int untouched(const Call *call) {
    return unchanged_from(&call->result, 0) && unchanged_from(&call->memory, 0) && unchanged_from(&call->numbers, 0);
}

static const char *const anyone[3] = {"x", "x", "x"};

static void versions(void) {
    char text[32];
    snprintf(text, sizeof text, "%d.%d.%d", SNOWDELL_VERSION_MAJOR, SNOWDELL_VERSION_MINOR, SNOWDELL_VERSION_PATCH);
    EXPECT("version", strcmp(text, SNOWDELL_VERSION) == 0);
    EXPECT("version", SNOWDELL_VERSION_NUMBER == 200);
    EXPECT("version", snowdell_version() == SNOWDELL_VERSION_NUMBER);
}

static void names(void) {
    EXPECT("names", SNOWDELL_DENY == 0 && SNOWDELL_UNDECIDED == 1 && SNOWDELL_PERMIT == 2);
    EXPECT("names", SNOWDELL_CHECK_NUMBERS == 6 && SNOWDELL_COMPOSE_NUMBERS == 7 && SNOWDELL_DECIDE_NUMBERS == 5);
    EXPECT("names", SNOWDELL_NUMBER == 0 && SNOWDELL_LINE == 1 && SNOWDELL_PLACE == 2);
    EXPECT("names", SNOWDELL_NO_ROOM > 255); /* a refusal's number is a byte */
    EXPECT("names", snowdell_access(1, 2, 1, 3, 2) == 11);
}

static void accepted(void) {
    /* subjects outermost, actions innermost */
    static const uint8_t answers[12] = {2, 0, 0, 1, 0, 1, 0, 0, 0, 1, 0, 2};
    static const char *const subjects[] = {"staff", "ann"}, *const objects[] = {"week", "mon", "tue"},
                             *const actions[] = {"read", "write"};
    const size_t len = sizeof three_answers - 1, checked[] = {0, 0, 0, 2, 3, 2}, composed[] = {0, 0, 0, 12, 2, 3, 0};
    size_t s, o, a;

    Call c = call_check(three_answers, len, SNOWDELL_CHECK_NUMBERS + 2);
    EXPECT("check", c.returned == SNOWDELL_ACCEPTED);
    EXPECT("check", has_numbers(&c, checked, SNOWDELL_CHECK_NUMBERS));
    EXPECT("check", numbers_of(&c.numbers)[SNOWDELL_CHECK_SUBJECTS] == 2);
    EXPECT("check", numbers_of(&c.numbers)[SNOWDELL_CHECK_OBJECTS] == 3);
    EXPECT("check", numbers_of(&c.numbers)[SNOWDELL_CHECK_ACTIONS] == 2);
    end_call(&c);

    c = call_compose(three_answers, len, SNOWDELL_RESULT + SPARE, SNOWDELL_MEMORY + SPARE, SNOWDELL_COMPOSE_NUMBERS + 1);
    EXPECT("compose", c.returned == SNOWDELL_ACCEPTED);
    EXPECT("compose", has_numbers(&c, composed, SNOWDELL_COMPOSE_NUMBERS));
    EXPECT("compose", numbers_of(&c.numbers)[SNOWDELL_COMPOSE_ACCESSES] == sizeof answers);
    EXPECT("compose", numbers_of(&c.numbers)[SNOWDELL_COMPOSE_PERMITS] == 2);
    EXPECT("compose", numbers_of(&c.numbers)[SNOWDELL_COMPOSE_UNDECIDED] == 3);
    EXPECT("compose", memcmp(c.result.bytes, answers, sizeof answers) == 0 && unchanged_from(&c.result, sizeof answers));
    EXPECT("compose", zero_before(&c.memory, SNOWDELL_MEMORY));

    for (s = 0; s < 2; s++)
        for (o = 0; o < 3; o++)
            for (a = 0; a < 2; a++) {
                const char *const asked[3] = {subjects[s], objects[o], actions[a]};
                const size_t decided[] = {0, 0, 0, c.result.bytes[snowdell_access(s, o, a, 3, 2)], 0};
                Call d = call_decide(three_answers, len, asked, SNOWDELL_MEMORY + SPARE, SNOWDELL_DECIDE_NUMBERS + 1);
                EXPECT("decide", d.returned == SNOWDELL_ACCEPTED);
                EXPECT("decide", has_numbers(&d, decided, SNOWDELL_DECIDE_NUMBERS));
                EXPECT("decide", zero_before(&d.memory, SNOWDELL_MEMORY));
                end_call(&d);
            }
    end_call(&c);
}

/* The rounds: a grant is passed on to Ann in one. */
static void rounds(void) {
    static const char text[] = MEMBERS "T,ward,here\nG,ward,staff,week,read\nR,down,?0,?1,?2\nB,grant,?3,?1,?2\nB,le,S,?0,?3\n"
                                       "E,4096,ward*down\n";
    static const char *const ann[3] = {"ann", "week", "read"};
    const size_t composed[] = {0, 0, 0, 12, 2, 0, 1}, decided[] = {0, 0, 0, SNOWDELL_PERMIT, 1};
    Call c = call_compose(text, sizeof text - 1, SNOWDELL_RESULT, SNOWDELL_MEMORY, SNOWDELL_COMPOSE_NUMBERS);
    EXPECT("rounds", has_numbers(&c, composed, SNOWDELL_COMPOSE_NUMBERS));
    EXPECT("rounds", numbers_of(&c.numbers)[SNOWDELL_COMPOSE_ROUNDS] == 1);
    EXPECT("rounds", zero_before(&c.memory, SNOWDELL_MEMORY));
    end_call(&c);
    c = call_decide(text, sizeof text - 1, ann, SNOWDELL_MEMORY, SNOWDELL_DECIDE_NUMBERS);
    EXPECT("rounds", has_numbers(&c, decided, SNOWDELL_DECIDE_NUMBERS));
    EXPECT("rounds", numbers_of(&c.numbers)[SNOWDELL_DECIDE_ANSWER] == SNOWDELL_PERMIT);
    EXPECT("rounds", numbers_of(&c.numbers)[SNOWDELL_DECIDE_ROUNDS] == 1);
    end_call(&c);
}

/* A file that every call refuses. */
typedef struct {
    const char *text;
    size_t named;    /* the header's name */
    size_t first[3]; /* number, line and place */
} Refused;

static const Refused refused_files[] = {
    {"", SNOWDELL_BAD_FILE, {2, 0, 0}},
    {ONES "T,x,here\nE,0,x", SNOWDELL_BAD_FILE, {2, 0, 0}},
    {"\n", SNOWDELL_BAD_LINE, {3, 1, 0}},
    {ONES "T,x,here\r\nE,0,x\n", SNOWDELL_BAD_LINE, {3, 4, 0}},
    {"B,eq,S,x,x\n", SNOWDELL_MISPLACED_LINE, {4, 1, 0}},
    {"S,x,-\nS,x,-\n", SNOWDELL_DECLARED_TWICE, {5, 2, 0}},
    {"S,x,y\n", SNOWDELL_NOT_DECLARED, {6, 1, 0}},
    {ONES "E,9999,x\n", SNOWDELL_TOO_MANY, {7, 4, 0}},
    {"E,0,x\n", SNOWDELL_BAD_COUNTS, {8, 1, 0}},
    {"S,x,-\n", SNOWDELL_NO_EXPRESSION, {9, 0, 0}},
    {ONES "T,x,away\nG,x,x,x,x\n", SNOWDELL_GRANT_AWAY, {10, 5, 0}},
    {ONES "R,x,?0,?0,x\n", SNOWDELL_TWO_SORTS, {11, 4, 0}},
    {ONES "T,x,here\nE,0,x+\n", SNOWDELL_BAD_EXPRESSION, {12, 5, 2}},
    {ONES "T,x,here\nE,0,x+y\n", SNOWDELL_UNKNOWN_NAME, {13, 5, 2}},
    {ONES "T,x,here\nE,0,o(x,x,o(x,x,o(x,x,o(x,x,o(x,x,o(x,x,o(x,x,x)))))))\n", SNOWDELL_TOO_COMPLEX, {14, 5, 0}},
    {ONES "T,x,here\nE,0,(t:x.(t:x.(t:x.(t:x.(t:x.x)(x))(x))(x))(x))(x)\n", SNOWDELL_DEEP_TEMPLATES, {16, 5, 0}},
};

/* Every call returns the refusal's number and zeros besides line and place, leaves the result and clears its memory. */
static void refused_by_all(const char *text, size_t len, const size_t first[3]) {
    const size_t expected[SNOWDELL_COMPOSE_NUMBERS] = {first[0], first[1], first[2], 0, 0, 0, 0};
    char test[32];
    Call c = call_check(text, len, SNOWDELL_CHECK_NUMBERS);
    snprintf(test, sizeof test, "refusal %zu", first[0]);
    EXPECT(test, c.returned == first[0]);
    EXPECT(test, has_numbers(&c, expected, SNOWDELL_CHECK_NUMBERS));
    end_call(&c);

    c = call_compose(text, len, SNOWDELL_RESULT + SPARE, SNOWDELL_MEMORY + SPARE, SNOWDELL_COMPOSE_NUMBERS);
    EXPECT(test, c.returned == first[0]);
    EXPECT(test, has_numbers(&c, expected, SNOWDELL_COMPOSE_NUMBERS));
    EXPECT(test, unchanged_from(&c.result, 0));
    EXPECT(test, zero_before(&c.memory, SNOWDELL_MEMORY));
    end_call(&c);

    c = call_decide(text, len, anyone, SNOWDELL_MEMORY + SPARE, SNOWDELL_DECIDE_NUMBERS);
    EXPECT(test, c.returned == first[0]);
    EXPECT(test, has_numbers(&c, expected, SNOWDELL_DECIDE_NUMBERS));
    EXPECT(test, zero_before(&c.memory, SNOWDELL_MEMORY));
    end_call(&c);
}

static void refused(void) {
    size_t i;
    for (i = 0; i < sizeof refused_files / sizeof *refused_files; i++) {
        const Refused *r = &refused_files[i];
        EXPECT("names", r->named == r->first[0]);
        refused_by_all(r->text, strlen(r->text), r->first);
    }
}

/* The longest file is accepted, one byte more refused. */
static void longest(void) {
    static const char head[] = ONES "T,x,here\n", grant[] = "G,x,x,x,x\n", goal[] = "E,4096,(x)\n";
    static char text[SNOWDELL_LONGEST_FILE + 1];
    static const size_t too_long[3] = {2, 0, 0}, composed[] = {0, 0, 0, 1, 1, 0, 0};
    size_t len = strlen(head);
    Call c;
    memcpy(text, head, len);
    while (len + strlen(grant) + strlen(goal) <= SNOWDELL_LONGEST_FILE) {
        memcpy(text + len, grant, strlen(grant));
        len += strlen(grant);
    }
    memcpy(text + len, goal, strlen(goal));
    len += strlen(goal);
    EXPECT("longest", len == SNOWDELL_LONGEST_FILE);
    c = call_compose(text, len, SNOWDELL_RESULT, SNOWDELL_MEMORY, SNOWDELL_COMPOSE_NUMBERS);
    EXPECT("longest", c.returned == SNOWDELL_ACCEPTED);
    EXPECT("longest", has_numbers(&c, composed, SNOWDELL_COMPOSE_NUMBERS));
    EXPECT("longest", c.result.bytes[0] == SNOWDELL_PERMIT && unchanged_from(&c.result, 1));
    EXPECT("longest", zero_before(&c.memory, SNOWDELL_MEMORY));
    end_call(&c);
    text[len] = '\n';
    refused_by_all(text, len + 1, too_long);
}

/* A result or a memory that is a byte too short: number 1, and only the numbers are written. The file does not matter. */
static void short_buffers(void) {
    static const struct {
        size_t result, memory;
    } lengths[] = {{SNOWDELL_RESULT - 1, SNOWDELL_MEMORY}, {SNOWDELL_RESULT, SNOWDELL_MEMORY - 1}, {0, 0}};
    static const char *const files[] = {three_answers, "", "\n"};
    const size_t expected[SNOWDELL_COMPOSE_NUMBERS] = {SNOWDELL_SHORT_BUFFER, 0, 0, 0, 0, 0, 0};
    size_t i, j;
    EXPECT("short", SNOWDELL_SHORT_BUFFER == 1);
    for (i = 0; i < sizeof files / sizeof *files; i++) {
        const char *text = files[i];
        Call c;
        for (j = 0; j < sizeof lengths / sizeof *lengths; j++) {
            c = call_compose(text, strlen(text), lengths[j].result, lengths[j].memory, SNOWDELL_COMPOSE_NUMBERS);
            EXPECT("short", c.returned == SNOWDELL_SHORT_BUFFER);
            EXPECT("short", has_numbers(&c, expected, SNOWDELL_COMPOSE_NUMBERS));
            EXPECT("short", unchanged_from(&c.result, 0) && unchanged_from(&c.memory, 0));
            end_call(&c);
        }
        c = call_decide(text, strlen(text), anyone, SNOWDELL_MEMORY - 1, SNOWDELL_DECIDE_NUMBERS);
        EXPECT("short", c.returned == SNOWDELL_SHORT_BUFFER);
        EXPECT("short", has_numbers(&c, expected, SNOWDELL_DECIDE_NUMBERS));
        EXPECT("short", unchanged_from(&c.memory, 0));
        end_call(&c);
    }
}

/* Names that are not declared: the place says which is the first. */
static void unknown_asked(void) {
    static const struct {
        const char *asked[3];
        size_t place;
    } asks[] = {
        {{"nobody", "mon", "read"}, 1}, {{"ann", "sun", "read"}, 2}, {{"ann", "mon", "burn"}, 3},
        {{"ann", "sun", "burn"}, 2},    {{"", "", ""}, 1},           {{"ann", "week", "rea"}, 3},
    };
    size_t i;
    for (i = 0; i < sizeof asks / sizeof *asks; i++) {
        const size_t expected[] = {15, 0, asks[i].place, 0, 0};
        Call c =
            call_decide(three_answers, sizeof three_answers - 1, asks[i].asked, SNOWDELL_MEMORY + SPARE, SNOWDELL_DECIDE_NUMBERS);
        EXPECT("asked", c.returned == SNOWDELL_UNKNOWN_ASKED);
        EXPECT("asked", has_numbers(&c, expected, SNOWDELL_DECIDE_NUMBERS));
        EXPECT("asked", zero_before(&c.memory, SNOWDELL_MEMORY));
        end_call(&c);
    }
}

/* Too little room for the numbers, by one and altogether: nothing at all is done, whatever else is lent. */
static void no_room(void) {
    static const char *const files[] = {three_answers, "", "\n"};
    static const char *const ann[3] = {"ann", "mon", "write"};
    size_t i, less;
    for (i = 0; i < sizeof files / sizeof *files; i++)
        for (less = 1; less <= 5; less += 4) {
            const char *text = files[i];
            Call c = call_check(text, strlen(text), SNOWDELL_CHECK_NUMBERS - less);
            EXPECT("no room", c.returned == SNOWDELL_NO_ROOM && c.returned == 256);
            EXPECT("no room", untouched(&c));
            end_call(&c);
            c = call_compose(text, strlen(text), SNOWDELL_RESULT, SNOWDELL_MEMORY, SNOWDELL_COMPOSE_NUMBERS - less);
            EXPECT("no room", c.returned == SNOWDELL_NO_ROOM && untouched(&c));
            end_call(&c);
            c = call_compose(text, strlen(text), 0, 0, SNOWDELL_COMPOSE_NUMBERS - less);
            EXPECT("no room", c.returned == SNOWDELL_NO_ROOM && untouched(&c));
            end_call(&c);
            c = call_decide(text, strlen(text), ann, SNOWDELL_MEMORY, SNOWDELL_DECIDE_NUMBERS - less);
            EXPECT("no room", c.returned == SNOWDELL_NO_ROOM && untouched(&c));
            end_call(&c);
        }
}

int main(void) {
    versions();
    names();
    accepted();
    rounds();
    refused();
    longest();
    short_buffers();
    unknown_asked();
    no_room();
    return counted();
}
