/* Document 01's example round through the library, from C: the random list from raw bytes, keys, first messages, the service, the
 * replies to set 5 of round 7, the total 40, notices for other rounds, where the shares for each set start, the largest figure, a call for
 * each refusal, elements that come again, a round of signed figures, and rounds with false replies. Prints what it gets on standard error;
 * exit status 1 where anything is not as expected. */
#include <inttypes.h>
#include <stdio.h>
#include <string.h>

#include "cutawheno.h"

enum { USERS = 3, THRESHOLD = 2, COLLUSION = 1, BLOCKS = 1, SET = 5, TOTAL = 40, ROUND = 7, LIST_LEN = 7, KEY_LEN = 4, PLACES = 1 };
enum { BOUND = 21840, SIGNED_BOUND = 10920 };

#define PLAN USERS, THRESHOLD, COLLUSION, BLOCKS

/* 65521 and 65535 are skipped, and the last byte is unused. */
static const uint8_t bytes[] = {241, 255, 100, 0, 200, 0, 44, 1, 12, 0, 60, 0, 255, 255, 40, 0, 120, 0, 9};
static const uint16_t list[LIST_LEN] = {100, 200, 300, 12, 60, 40, 120};
static const uint16_t figures[USERS][PLACES] = {{10}, {20}, {30}};
static const uint16_t expected_keys[USERS][KEY_LEN] = {{100, 154, 220, 340}, {200, 103, 22017, 230}, {300, 112, 133, 174}};
static const uint16_t expected_messages[USERS][PLACES] = {{110}, {220}, {330}};
static const uint32_t expected_starts[USERS] = {2, 0, 1};
static const uint16_t expected_replies[USERS] = {220, 0, 112};

/* An airfield: its key, its first message and its end. */
typedef struct {
    uint16_t key[KEY_LEN];
    uint16_t message[PLACES];
    uint32_t end[CUTAWHENO_END];
} Airfield;

/* A service's state. */
typedef struct {
    uint32_t head[CUTAWHENO_HEAD];
    uint16_t first[CUTAWHENO_FIRSTS];
    uint16_t reply[CUTAWHENO_REPLIES];
} Service;

/* The arrays of a service in the order in which the calls take them. */
#define LEND(s) (s).head, (s).first, (s).reply

static int failures = 0;

static void expect(const char *what, uint32_t got, uint32_t wanted)
{
    if (got != wanted) {
        fprintf(stderr, "%s: %" PRIu32 ", expected %" PRIu32 "\n", what, got, wanted);
        failures++;
    }
}

static void expect_row(const char *what, const uint16_t *got, const uint16_t *wanted, size_t n)
{
    fprintf(stderr, "%s:", what);
    for (size_t i = 0; i < n; i++)
        fprintf(stderr, " %u", (unsigned)got[i]);
    fprintf(stderr, "\n");
    if (memcmp(got, wanted, n * sizeof *got) != 0) {
        fprintf(stderr, "%s: not as expected\n", what);
        failures++;
    }
}

static void expect_part(const char *what, CutawhenoPart got, CutawhenoPart wanted)
{
    expect(what, got.number, wanted.number);
    expect(what, got.start, wanted.start);
    expect(what, got.count, wanted.count);
}

static void expect_finished(const char *what, CutawhenoFinished got, uint32_t number, uint32_t aside)
{
    expect(what, got.number, number);
    expect(what, got.aside, aside);
}

/* Of an end, and of a service's head: both are eight numbers. */
static void expect_numbers(const char *what, const uint32_t got[CUTAWHENO_END], const uint32_t wanted[CUTAWHENO_END])
{
    for (size_t i = 0; i < CUTAWHENO_END; i++)
        expect(what, got[i], wanted[i]);
}

static void expect_same(const char *what, const Service *got, const Service *wanted)
{
    expect(what, memcmp(got, wanted, sizeof *got) == 0, 1);
}

/* The list from the bytes, which run out where the last number is cut; what is refused leaves the list as it came. */
static void run_list(void)
{
    uint16_t drawn[LIST_LEN] = {7, 7, 7, 7, 7, 7, 7};
    const uint16_t untouched[LIST_LEN] = {7, 7, 7, 7, 7, 7, 7};

    expect("list of bad plan", cutawheno_list_from_bytes(bytes, sizeof bytes, drawn, LIST_LEN, 3, 3, 1, 1), CUTAWHENO_BAD_PLAN);
    expect("short list", cutawheno_list_from_bytes(bytes, sizeof bytes, drawn, LIST_LEN - 1, PLAN), CUTAWHENO_BAD_LENGTH);
    expect("no list", cutawheno_list_from_bytes(bytes, sizeof bytes, NULL, 0, PLAN), CUTAWHENO_BAD_LENGTH);
    expect("cut bytes", cutawheno_list_from_bytes(bytes, sizeof bytes - 2, drawn, LIST_LEN, PLAN), CUTAWHENO_BYTES_RUN_OUT);
    expect("no bytes", cutawheno_list_from_bytes(NULL, 0, drawn, LIST_LEN, PLAN), CUTAWHENO_BYTES_RUN_OUT);
    expect_row("refused list", drawn, untouched, LIST_LEN);
    expect("list by the last byte", cutawheno_list_from_bytes(bytes, sizeof bytes - 1, drawn, LIST_LEN, PLAN), CUTAWHENO_TAKEN);
    expect_row("list by the last byte", drawn, list, LIST_LEN);
    memcpy(drawn, untouched, sizeof drawn);
    expect("list", cutawheno_list_from_bytes(bytes, sizeof bytes, drawn, LIST_LEN, PLAN), CUTAWHENO_TAKEN);
    expect_row("list", drawn, list, LIST_LEN);
}

/* Started where anything stood; sent. */
static Airfield report(uint32_t user)
{
    const size_t row = user - 1;
    Airfield a = {{0}, {0}, {7, 7, 7, 7, 7, 7, 7, 7}};

    expect("make_key", cutawheno_make_key(list, LIST_LEN, a.key, KEY_LEN, PLAN, user), CUTAWHENO_TAKEN);
    expect_row("key", a.key, expected_keys[row], KEY_LEN);
    expect("end_start", cutawheno_end_start(a.end, PLAN, user, CUTAWHENO_COUNTS, ROUND), CUTAWHENO_TAKEN);
    expect_numbers("fresh", a.end, (uint32_t[]){PLAN, user, CUTAWHENO_FRESH, CUTAWHENO_COUNTS, ROUND});
    expect("first_message", cutawheno_end_first_message(a.key, KEY_LEN, figures[row], PLACES, a.message, PLACES, a.end), CUTAWHENO_TAKEN);
    expect_numbers("sent", a.end, (uint32_t[]){PLAN, user, CUTAWHENO_SENT, CUTAWHENO_COUNTS, ROUND});
    expect_row("first message", a.message, expected_messages[row], PLACES);
    return a;
}

/* Answered: user 2 is not in set 5, and its end stays. Hands back the share. */
static uint16_t answer(Airfield *a, uint32_t user, uint32_t set)
{
    const size_t row = user - 1;

    CutawhenoPart part = cutawheno_end_reply(a->key, KEY_LEN, a->end, set, ROUND);
    if (user == 2) {
        expect_part("reply of user 2", part, (CutawhenoPart){CUTAWHENO_NOT_IN_SET, 0, 0});
        expect_numbers("end of user 2", a->end, (uint32_t[]){PLAN, user, CUTAWHENO_SENT, CUTAWHENO_COUNTS, ROUND});
        return 0;
    }
    expect_part("reply", part, (CutawhenoPart){CUTAWHENO_TAKEN, expected_starts[row], BLOCKS});
    expect_row("reply", a->key + part.start, &expected_replies[row], BLOCKS);
    expect_part("reply again", cutawheno_end_reply(a->key, KEY_LEN, a->end, set, ROUND), part);
    expect_part("other set", cutawheno_end_reply(a->key, KEY_LEN, a->end, 7, ROUND), (CutawhenoPart){CUTAWHENO_OTHER_SET, 0, 0});
    expect_numbers("answered", a->end, (uint32_t[]){PLAN, user, CUTAWHENO_ANSWERED + set, CUTAWHENO_COUNTS, ROUND});
    return a->key[part.start];
}

/* Airfields 1 and 3 report, 2 comes too late. */
static void run_round(void)
{
    Airfield airfields[USERS] = {report(1), report(2), report(3)};
    uint16_t totals[CUTAWHENO_MOST_PLACES] = {7, 7, 7}, expected[CUTAWHENO_MOST_PLACES] = {TOTAL};
    Service s = {{0}, {0}, {0}};

    expect("plan", cutawheno_service_plan(LEND(s), PLAN), CUTAWHENO_TAKEN);
    expect_numbers("planned", s.head, (uint32_t[]){CUTAWHENO_IDLE, PLAN, PLACES, 0, 0});
    expect("open", cutawheno_service_open(LEND(s), ROUND), CUTAWHENO_TAKEN);
    expect_numbers("opened", s.head, (uint32_t[]){CUTAWHENO_GATHERING, PLAN, PLACES, ROUND, 0});
    expect("first of 1", cutawheno_service_first_element(s.head, s.first, 1, 0, airfields[0].message[0]), CUTAWHENO_TAKEN);
    expect("first of 3", cutawheno_service_first_element(s.head, s.first, 3, 0, airfields[2].message[0]), CUTAWHENO_TAKEN);

    CutawhenoClosed closed = cutawheno_service_close(LEND(s));
    expect("close", closed.number, CUTAWHENO_TAKEN);
    expect("set", closed.set, SET);
    expect_numbers("closed", s.head, (uint32_t[]){CUTAWHENO_REPLYING, PLAN, PLACES, ROUND, SET});
    expect("late first of 2", cutawheno_service_first_element(s.head, s.first, 2, 0, airfields[1].message[0]), CUTAWHENO_OTHER_PHASE);
    expect("held of 1", s.first[0], 111);
    expect("held of 2", s.first[CUTAWHENO_MOST_PLACES], 0);
    expect("held of 3", s.first[2 * CUTAWHENO_MOST_PLACES], 331);

    for (uint32_t user = 1; user <= USERS; user++) {
        uint16_t share = answer(&airfields[user - 1], user, closed.set);
        expect("reply", cutawheno_service_reply_element(s.head, s.reply, user, 0, share), user == 2 ? CUTAWHENO_NO_SURVIVOR : CUTAWHENO_TAKEN);
    }
    expect_finished("finish", cutawheno_service_finish(LEND(s), totals), CUTAWHENO_TAKEN, 0);
    expect_row("totals", totals, expected, CUTAWHENO_MOST_PLACES);
    expect_same("finished", &s, &(Service){{CUTAWHENO_IDLE, PLAN, PLACES, ROUND, 0}, {0}, {0}});
}

/* Of a round that is not the end's: refused, whatever set was answered, and the end stays. */
static void expect_other_round(const uint16_t *key, uint32_t end[CUTAWHENO_END], uint32_t round)
{
    uint32_t before[CUTAWHENO_END];

    memcpy(before, end, sizeof before);
    expect_part("other round", cutawheno_end_reply(key, KEY_LEN, end, SET, round), (CutawhenoPart){CUTAWHENO_OTHER_ROUND, 0, 0});
    expect_part("other round, other set", cutawheno_end_reply(key, KEY_LEN, end, 7, round), (CutawhenoPart){CUTAWHENO_OTHER_ROUND, 0, 0});
    expect_part("other round, too few", cutawheno_end_reply(key, KEY_LEN, end, 1, round), (CutawhenoPart){CUTAWHENO_SET_UNUSABLE, 0, 0});
    expect_part("other round, others' set", cutawheno_end_reply(key, KEY_LEN, end, 6, round), (CutawhenoPart){CUTAWHENO_NOT_IN_SET, 0, 0});
    expect_numbers("end asked for another round", end, before);
}

/* Airfield 1 with ends for rounds from the first number to the last. Notices for other rounds, which differ from the own one in one of its
 * 32 bits, come before the own notice and after it, and are not answered; the own one is. */
static void run_other_rounds(void)
{
    static const uint32_t rounds[] = {0, 1, ROUND, 65536, 0x87654321, UINT32_MAX};
    const uint16_t *key = expected_keys[0];

    for (size_t i = 0; i < sizeof rounds / sizeof *rounds; i++) {
        uint32_t end[CUTAWHENO_END];
        uint16_t message[PLACES];
        expect("end_start", cutawheno_end_start(end, PLAN, 1, CUTAWHENO_COUNTS, rounds[i]), CUTAWHENO_TAKEN);
        expect("its round", end[CUTAWHENO_END_AT_ROUND], rounds[i]);
        expect_part("fresh", cutawheno_end_reply(key, KEY_LEN, end, SET, ~rounds[i]), (CutawhenoPart){CUTAWHENO_OUT_OF_TURN, 0, 0});
        expect("first_message", cutawheno_end_first_message(key, KEY_LEN, figures[0], PLACES, message, PLACES, end), CUTAWHENO_TAKEN);
        for (int times = 0; times < 2; times++) {
            for (uint32_t bit = 1; bit != 0; bit *= 2)
                expect_other_round(key, end, rounds[i] ^ bit);
            expect_part("own round", cutawheno_end_reply(key, KEY_LEN, end, SET, rounds[i]),
                        (CutawhenoPart){CUTAWHENO_TAKEN, expected_starts[0], BLOCKS});
            expect_numbers("own round", end, (uint32_t[]){PLAN, 1, CUTAWHENO_ANSWERED + SET, CUTAWHENO_COUNTS, rounds[i]});
        }
    }
}

/* Of a set, as asked and as a reply names it: a sent end of the user answers it with the same number and start. */
static void expect_start(const char *what, const uint32_t plan[4], uint32_t user, uint32_t set, uint32_t number, uint32_t start)
{
    static const uint16_t key[CUTAWHENO_LONGEST_KEY];
    const size_t key_len = cutawheno_key_len(plan[0], plan[1], plan[2], plan[3]);
    uint32_t end[CUTAWHENO_END] = {plan[0], plan[1], plan[2], plan[3], user, CUTAWHENO_SENT, CUTAWHENO_COUNTS, ROUND};
    CutawhenoStart found = cutawheno_reply_start(plan[0], plan[1], plan[2], plan[3], user, set);
    CutawhenoPart part = {number, start, number == CUTAWHENO_TAKEN ? plan[3] : 0};

    expect(what, found.number, number);
    expect(what, found.start, start);
    expect_part(what, cutawheno_end_reply(key, key_len, end, set, ROUND), part);
}

/* Where the shares start: document 01's keys are a mask and a share for each of three sets; of large plans, airfield 1's first set, behind
 * 16 masks and behind 96, and its last. */
static void run_starts(void)
{
    static const uint32_t plan[] = {PLAN}, large[] = {8, 2, 1, 16}, long_row[] = {8, 7, 1, 16};
    static const uint32_t sets[USERS][3] = {{3, 5, 7}, {3, 6, 7}, {5, 6, 7}};

    for (uint32_t user = 1; user <= USERS; user++)
        for (uint32_t share = 0; share < 3; share++)
            expect_start("start", plan, user, sets[user - 1][share], CUTAWHENO_TAKEN, 1 + share);
    expect_start("first set", large, 1, 3, CUTAWHENO_TAKEN, 16);
    expect_start("last set", large, 1, 255, CUTAWHENO_TAKEN, 2032);
    expect_start("first set behind a long row", long_row, 1, 127, CUTAWHENO_TAKEN, CUTAWHENO_MOST_PLACES);
}

/* Each refusal, the earliest where several apply, with the start 0. */
static void run_start_refusals(void)
{
    static const uint32_t plan[] = {PLAN}, bad[] = {3, 3, 1, 1}, too_long[] = {3, 2, 1, 17};
    static const struct {
        const char *what;
        const uint32_t *plan;
        uint32_t user, set, number;
    } refused[] = {
        {"bad plan", bad, 1, 7, CUTAWHENO_BAD_PLAN},
        {"17 blocks", too_long, 1, 5, CUTAWHENO_BAD_PLAN},
        {"bad plan, no user", bad, 0, 7, CUTAWHENO_BAD_PLAN},
        {"bad plan, no set", bad, 1, 0, CUTAWHENO_BAD_PLAN},
        {"bad plan, set of others", too_long, 1, 6, CUTAWHENO_BAD_PLAN},
        {"user 0", plan, 0, 7, CUTAWHENO_BAD_USER},
        {"user 4", plan, 4, 7, CUTAWHENO_BAD_USER},
        {"last user", plan, UINT32_MAX, 7, CUTAWHENO_BAD_USER},
        {"user 4, too few", plan, 4, 8, CUTAWHENO_BAD_USER},
        {"user 4, set with it", plan, 4, 9, CUTAWHENO_BAD_USER},
        {"no members", plan, 1, 0, CUTAWHENO_SET_UNUSABLE},
        {"too few", plan, 1, 1, CUTAWHENO_SET_UNUSABLE},
        {"too few, of others", plan, 1, 4, CUTAWHENO_SET_UNUSABLE},
        {"member 4", plan, 1, 9, CUTAWHENO_SET_UNUSABLE},
        {"member 4, of others", plan, 1, 10, CUTAWHENO_SET_UNUSABLE},
        {"member 9", plan, 1, 256 + 5, CUTAWHENO_SET_UNUSABLE},
        {"member 17", plan, 1, 65536 + 5, CUTAWHENO_SET_UNUSABLE},
        {"last set number", plan, 1, UINT32_MAX, CUTAWHENO_SET_UNUSABLE},
        {"set without 1", plan, 1, 6, CUTAWHENO_NOT_IN_SET},
        {"set without 2", plan, 2, 5, CUTAWHENO_NOT_IN_SET},
        {"set without 3", plan, 3, 3, CUTAWHENO_NOT_IN_SET},
    };

    for (size_t i = 0; i < sizeof refused / sizeof *refused; i++)
        expect_start(refused[i].what, refused[i].plan, refused[i].user, refused[i].set, refused[i].number, 0);
}

/* What the key maker refuses leaves its buffer as it came. */
static void run_key_refusals(void)
{
    uint16_t bad_list[LIST_LEN], made[KEY_LEN] = {7, 7, 7, 7};
    const uint16_t untouched[KEY_LEN] = {7, 7, 7, 7};

    memcpy(bad_list, list, sizeof list);
    bad_list[LIST_LEN - 1] = (uint16_t)CUTAWHENO_Q;
    expect("plan", cutawheno_make_key(list, LIST_LEN, made, KEY_LEN, 3, 3, 1, 1, 1), CUTAWHENO_BAD_PLAN);
    expect("user 0", cutawheno_make_key(list, LIST_LEN, made, KEY_LEN, PLAN, 0), CUTAWHENO_BAD_USER);
    expect("user 4", cutawheno_make_key(list, LIST_LEN, made, KEY_LEN, PLAN, 4), CUTAWHENO_BAD_USER);
    expect("short list", cutawheno_make_key(list, LIST_LEN - 1, made, KEY_LEN, PLAN, 1), CUTAWHENO_BAD_LENGTH);
    expect("short key", cutawheno_make_key(list, LIST_LEN, made, KEY_LEN - 1, PLAN, 1), CUTAWHENO_BAD_LENGTH);
    expect("no list", cutawheno_make_key(NULL, 0, made, KEY_LEN, PLAN, 1), CUTAWHENO_BAD_LENGTH);
    expect("no key", cutawheno_make_key(list, LIST_LEN, NULL, 0, PLAN, 1), CUTAWHENO_BAD_LENGTH);
    expect("element", cutawheno_make_key(bad_list, LIST_LEN, made, KEY_LEN, PLAN, 1), CUTAWHENO_BAD_ELEMENT);
    expect_row("key buffer", made, untouched, KEY_LEN);
}

/* An end of user 1 of a use and at a stage. */
#define END_OF(use, stage) {PLAN, 1, stage, use, ROUND}
#define END_AT(stage) END_OF(CUTAWHENO_COUNTS, stage)

/* What an end refuses leaves buffer and array as they came, whatever stands there. */
static void run_end_refusals(void)
{
    const uint16_t *key = expected_keys[0], bad[KEY_LEN] = {CUTAWHENO_Q}, untouched[PLACES] = {7};
    const uint32_t was_fresh[CUTAWHENO_END] = END_AT(CUTAWHENO_FRESH), was_sent[CUTAWHENO_END] = END_AT(CUTAWHENO_SENT);
    const uint32_t was_last[CUTAWHENO_END] = END_AT(UINT32_MAX), was_bad[CUTAWHENO_END] = {3, 3, 1, 1, 1, CUTAWHENO_SENT, 0, ROUND};
    uint32_t fresh[CUTAWHENO_END] = END_AT(CUTAWHENO_FRESH), sent[CUTAWHENO_END] = END_AT(CUTAWHENO_SENT);
    uint32_t last[CUTAWHENO_END] = END_AT(UINT32_MAX), no_plan[CUTAWHENO_END] = {3, 3, 1, 1, 1, CUTAWHENO_SENT, 0, ROUND};
    uint16_t message[PLACES] = {7};

    expect("start, plan", cutawheno_end_start(last, 3, 2, 1, 17, 1, CUTAWHENO_SIGNED, 9), CUTAWHENO_BAD_PLAN);
    expect("start, user 0", cutawheno_end_start(last, PLAN, 0, CUTAWHENO_SIGNED, 9), CUTAWHENO_BAD_USER);
    expect("start, user 4", cutawheno_end_start(last, PLAN, 4, CUTAWHENO_COUNTS, 9), CUTAWHENO_BAD_USER);
    expect("sent twice", cutawheno_end_first_message(key, KEY_LEN, figures[0], PLACES, message, PLACES, sent), CUTAWHENO_OUT_OF_TURN);
    expect("any stage", cutawheno_end_first_message(key, KEY_LEN, figures[0], PLACES, message, PLACES, last), CUTAWHENO_OUT_OF_TURN);
    expect("any plan", cutawheno_end_first_message(key, KEY_LEN, figures[0], PLACES, message, PLACES, no_plan), CUTAWHENO_BAD_PLAN);
    expect("no key", cutawheno_end_first_message(NULL, 0, figures[0], PLACES, message, PLACES, fresh), CUTAWHENO_BAD_LENGTH);
    expect("no figures", cutawheno_end_first_message(key, KEY_LEN, NULL, 0, message, PLACES, fresh), CUTAWHENO_BAD_LENGTH);
    expect("no room", cutawheno_end_first_message(key, KEY_LEN, figures[0], PLACES, NULL, 0, fresh), CUTAWHENO_BAD_LENGTH);
    expect("nothing", cutawheno_end_first_message(NULL, 0, NULL, 0, NULL, 0, fresh), CUTAWHENO_BAD_LENGTH);
    expect("bad key", cutawheno_end_first_message(bad, KEY_LEN, figures[0], PLACES, message, PLACES, fresh), CUTAWHENO_BAD_ELEMENT);
    expect("bad figures", cutawheno_end_first_message(key, KEY_LEN, bad, PLACES, message, PLACES, fresh), CUTAWHENO_BAD_ELEMENT);
    expect_row("message buffer", message, untouched, PLACES);

    expect_part("fresh", cutawheno_end_reply(key, KEY_LEN, fresh, SET, ROUND), (CutawhenoPart){CUTAWHENO_OUT_OF_TURN, 0, 0});
    expect_part("reply, no key", cutawheno_end_reply(NULL, 0, sent, SET, ROUND), (CutawhenoPart){CUTAWHENO_BAD_LENGTH, 0, 0});
    expect_part("reply, bad key", cutawheno_end_reply(bad, KEY_LEN, sent, SET, ROUND), (CutawhenoPart){CUTAWHENO_BAD_ELEMENT, 0, 0});
    expect_part("too few", cutawheno_end_reply(key, KEY_LEN, sent, 1, ROUND), (CutawhenoPart){CUTAWHENO_SET_UNUSABLE, 0, 0});
    expect_part("last set", cutawheno_end_reply(key, KEY_LEN, sent, UINT32_MAX, ROUND), (CutawhenoPart){CUTAWHENO_SET_UNUSABLE, 0, 0});
    expect_part("set of others", cutawheno_end_reply(key, KEY_LEN, sent, 6, ROUND), (CutawhenoPart){CUTAWHENO_NOT_IN_SET, 0, 0});
    expect_part("any stage", cutawheno_end_reply(key, KEY_LEN, last, SET, ROUND), (CutawhenoPart){CUTAWHENO_OTHER_SET, 0, 0});
    expect_part("any plan", cutawheno_end_reply(key, KEY_LEN, no_plan, SET, ROUND), (CutawhenoPart){CUTAWHENO_BAD_PLAN, 0, 0});
    expect_numbers("fresh end", fresh, was_fresh);
    expect_numbers("sent end", sent, was_sent);
    expect_numbers("end at any stage", last, was_last);
    expect_numbers("end under any plan", no_plan, was_bad);

    expect("first_message", cutawheno_end_first_message(key, KEY_LEN, figures[0], PLACES, message, PLACES, fresh), CUTAWHENO_TAKEN);
    expect_numbers("use and round stay", fresh, was_sent);
    expect_part("reply", cutawheno_end_reply(key, KEY_LEN, fresh, SET, ROUND),
                (CutawhenoPart){CUTAWHENO_TAKEN, expected_starts[0], BLOCKS});
    expect_numbers("use and round stay", fresh, (uint32_t[])END_AT(CUTAWHENO_ANSWERED + SET));
}

/* What a fresh end of user 1 answers to a figure, and what is then in the buffer: the element sent, or 7 after a refusal, which leaves
 * the end fresh. */
static void expect_figure_of(uint32_t use, const char *what, const uint16_t key[KEY_LEN], uint16_t figure, uint32_t number, uint16_t sent)
{
    uint32_t end[CUTAWHENO_END] = END_OF(use, CUTAWHENO_FRESH);
    uint16_t message[PLACES] = {7};

    expect(what, cutawheno_end_first_message(key, KEY_LEN, &figure, PLACES, message, PLACES, end), number);
    expect_row(what, message, &sent, PLACES);
    expect_numbers(what, end, (uint32_t[])END_OF(use, number == CUTAWHENO_TAKEN ? CUTAWHENO_SENT : CUTAWHENO_FRESH));
}

static void expect_figure(const char *what, const uint16_t key[KEY_LEN], uint16_t figure, uint32_t number, uint16_t sent)
{
    expect_figure_of(CUTAWHENO_COUNTS, what, key, figure, number, sent);
}

/* The largest figure and the next; what is no element, in figures or key, is refused as such. */
static void run_figures(void)
{
    const uint16_t *key = expected_keys[0], near_q[KEY_LEN] = {65511, 154, 220, 340}, bad[KEY_LEN] = {100, 154, 220, CUTAWHENO_Q};

    expect_figure("largest figure", key, BOUND, CUTAWHENO_TAKEN, 21940);
    expect_figure("larger figure", key, BOUND + 1, CUTAWHENO_FIGURE_BEYOND, 7);
    expect_figure("largest element", key, CUTAWHENO_Q - 1, CUTAWHENO_FIGURE_BEYOND, 7);
    expect_figure("no element", key, CUTAWHENO_Q, CUTAWHENO_BAD_ELEMENT, 7);
    expect_figure("larger figure, bad key", bad, BOUND + 1, CUTAWHENO_BAD_ELEMENT, 7);
    expect_figure("figure 10 with mask 65511", near_q, 10, CUTAWHENO_TAKEN, 0);
}

static void expect_reading(const char *what, CutawhenoReading got, uint32_t number, int32_t value)
{
    expect(what, got.number, number);
    expect(what, (uint32_t)got.value, (uint32_t)value);
}

static void expect_residue(const char *what, CutawhenoResidue got, uint32_t number, uint16_t element)
{
    expect(what, got.number, number);
    expect(what, got.element, element);
}

/* Both ends of the bound, as lent and as read. Any number but 0 is signed. */
static void run_signed_figures(void)
{
    const uint16_t *key = expected_keys[0], far_below = CUTAWHENO_Q - SIGNED_BOUND;

    expect_residue("furthest above", cutawheno_residue(SIGNED_BOUND, PLAN), CUTAWHENO_TAKEN, SIGNED_BOUND);
    expect_residue("furthest below", cutawheno_residue(-SIGNED_BOUND, PLAN), CUTAWHENO_TAKEN, far_below);
    expect_residue("above that", cutawheno_residue(SIGNED_BOUND + 1, PLAN), CUTAWHENO_FIGURE_BEYOND, 0);
    expect_residue("below that", cutawheno_residue(-SIGNED_BOUND - 1, PLAN), CUTAWHENO_FIGURE_BEYOND, 0);
    expect_residue("of bad plan", cutawheno_residue(INT32_MIN, 3, 3, 1, 1), CUTAWHENO_BAD_PLAN, 0);
    expect_figure("-1, of counts", key, CUTAWHENO_Q - 1, CUTAWHENO_FIGURE_BEYOND, 7);
    for (uint32_t use = CUTAWHENO_SIGNED; use != 0; use *= 256) {
        expect_figure_of(use, "-1", key, CUTAWHENO_Q - 1, CUTAWHENO_TAKEN, 99);
        expect_figure_of(use, "furthest above", key, SIGNED_BOUND, CUTAWHENO_TAKEN, 11020);
        expect_figure_of(use, "furthest below", key, far_below, CUTAWHENO_TAKEN, 54701);
        expect_figure_of(use, "above that", key, SIGNED_BOUND + 1, CUTAWHENO_FIGURE_BEYOND, 7);
        expect_figure_of(use, "below that", key, far_below - 1, CUTAWHENO_FIGURE_BEYOND, 7);
        expect_figure_of(use, "no element", key, CUTAWHENO_Q, CUTAWHENO_BAD_ELEMENT, 7);
        expect_reading("zero", cutawheno_read_total(0, use), CUTAWHENO_TAKEN, 0);
        expect_reading("largest", cutawheno_read_total(CUTAWHENO_SIGNED_REACH, use), CUTAWHENO_TAKEN, 32760);
        expect_reading("smallest", cutawheno_read_total(CUTAWHENO_SIGNED_REACH + 1, use), CUTAWHENO_TAKEN, -32760);
        expect_reading("no total", cutawheno_read_total(CUTAWHENO_Q, use), CUTAWHENO_BAD_ELEMENT, 0);
    }
    expect_reading("largest of counts", cutawheno_read_total(CUTAWHENO_Q - 1, CUTAWHENO_COUNTS), CUTAWHENO_TAKEN, 65520);
    expect_reading("no total of counts", cutawheno_read_total(UINT32_MAX, CUTAWHENO_COUNTS), CUTAWHENO_BAD_ELEMENT, 0);
}

/* Changes of -14 at airfield 1 and 5 at airfield 3, 2 is silent: in as residues, and out as -9. */
static void run_signed_round(void)
{
    const int32_t changes[USERS] = {-14, 0, 5};
    uint16_t totals[CUTAWHENO_MOST_PLACES], message[PLACES];
    Service s = {{0}, {0}, {0}};

    expect("plan", cutawheno_service_plan(LEND(s), PLAN), CUTAWHENO_TAKEN);
    expect("open", cutawheno_service_open(LEND(s), ROUND), CUTAWHENO_TAKEN);
    for (uint32_t user = 1; user <= USERS; user += 2) {
        uint32_t end[CUTAWHENO_END];
        CutawhenoResidue lent = cutawheno_residue(changes[user - 1], PLAN);
        expect("residue", lent.number, CUTAWHENO_TAKEN);
        expect("end_start", cutawheno_end_start(end, PLAN, user, CUTAWHENO_SIGNED, ROUND), CUTAWHENO_TAKEN);
        expect("its use", end[CUTAWHENO_END_AT_USE], CUTAWHENO_SIGNED);
        expect("first_message", cutawheno_end_first_message(expected_keys[user - 1], KEY_LEN, &lent.element, PLACES, message, PLACES, end),
               CUTAWHENO_TAKEN);
        expect("first", cutawheno_service_first_element(s.head, s.first, user, 0, message[0]), CUTAWHENO_TAKEN);
    }
    expect("set", cutawheno_service_close(LEND(s)).set, SET);
    for (uint32_t user = 1; user <= USERS; user += 2)
        expect("reply", cutawheno_service_reply_element(s.head, s.reply, user, 0, expected_replies[user - 1]), CUTAWHENO_TAKEN);
    expect_finished("finish", cutawheno_service_finish(LEND(s), totals), CUTAWHENO_TAKEN, 0);
    expect("total", totals[0], 65512);
    expect_reading("total, as it is meant", cutawheno_read_total(totals[0], CUTAWHENO_SIGNED), CUTAWHENO_TAKEN, -9);
}

enum { FOUR = 4, EVERYONE = 15, FOUR_LIST_LEN = 15, FOUR_KEY_LEN = 8, TOTAL_OF_FOUR = 100 };

#define PLAN_OF_FOUR FOUR, THRESHOLD, COLLUSION, BLOCKS

/* A service to which four airfields have sent the figures 10, 20, 30 and 40, and the first so many their replies, those of a set false. */
static Service service_of_four(uint32_t replies, uint32_t false_set)
{
    static const uint16_t list_of_four[FOUR_LIST_LEN] = {100, 200, 300, 400, 12, 60, 40, 120, 9, 8, 7, 6, 5, 4, 3};
    uint16_t keys[FOUR][FOUR_KEY_LEN];
    uint32_t ends[FOUR][CUTAWHENO_END];
    Service s = {{0}, {0}, {0}};

    expect("plan", cutawheno_service_plan(LEND(s), PLAN_OF_FOUR), CUTAWHENO_TAKEN);
    expect("open", cutawheno_service_open(LEND(s), ROUND), CUTAWHENO_TAKEN);
    for (uint32_t user = 1; user <= FOUR; user++) {
        uint16_t *key = keys[user - 1], figure = (uint16_t)(10 * user), message[PLACES];
        uint32_t *end = ends[user - 1];
        expect("make_key", cutawheno_make_key(list_of_four, FOUR_LIST_LEN, key, FOUR_KEY_LEN, PLAN_OF_FOUR, user), CUTAWHENO_TAKEN);
        expect("end_start", cutawheno_end_start(end, PLAN_OF_FOUR, user, CUTAWHENO_COUNTS, ROUND), CUTAWHENO_TAKEN);
        expect("first_message", cutawheno_end_first_message(key, FOUR_KEY_LEN, &figure, PLACES, message, PLACES, end), CUTAWHENO_TAKEN);
        expect("first", cutawheno_service_first_element(s.head, s.first, user, 0, message[0]), CUTAWHENO_TAKEN);
    }
    expect("set of four", cutawheno_service_close(LEND(s)).set, EVERYONE);
    for (uint32_t user = 1; user <= replies; user++) {
        CutawhenoPart part = cutawheno_end_reply(keys[user - 1], FOUR_KEY_LEN, ends[user - 1], EVERYONE, ROUND);
        uint32_t share = (keys[user - 1][part.start] + (false_set >> (user - 1) & 1)) % CUTAWHENO_Q;
        expect("reply", cutawheno_service_reply_element(s.head, s.reply, user, 0, share), CUTAWHENO_TAKEN);
    }
    return s;
}

/* Finishes a round of four: the answer and the total, and the state that the answer leaves. */
static void expect_finish(const char *what, Service s, uint32_t number, uint32_t aside, uint16_t total)
{
    uint16_t totals[CUTAWHENO_MOST_PLACES] = {7};
    const Service before = s, idle = {{CUTAWHENO_IDLE, PLAN_OF_FOUR, PLACES, ROUND, 0}, {0}, {0}};

    expect_finished(what, cutawheno_service_finish(LEND(s), totals), number, aside);
    expect(what, totals[0], total);
    expect_same(what, &s, number == CUTAWHENO_TAKEN ? &idle : &before);
}

/* Of four replies where two must come, one that is false is set aside, whoever sent it. Of three none is, but another reply mends that.
 * Two false replies leave no total. One of two is not seen, and makes the total false. */
static void run_asides(void)
{
    Service s = service_of_four(3, 1), all = service_of_four(FOUR, 0), two = service_of_four(2, 1);
    uint16_t totals[CUTAWHENO_MOST_PLACES];

    expect_finish("no false reply", all, CUTAWHENO_TAKEN, 0, TOTAL_OF_FOUR);
    for (uint32_t user = 1; user <= FOUR; user++)
        expect_finish("a false reply", service_of_four(FOUR, 1u << (user - 1)), CUTAWHENO_TAKEN, user, TOTAL_OF_FOUR);
    expect_finish("false among three", s, CUTAWHENO_UNEXPLAINED, 0, 7);
    expect("a fourth reply", cutawheno_service_reply_element(s.head, s.reply, FOUR, 0, all.reply[3 * CUTAWHENO_MOST_BLOCKS] - 1u),
           CUTAWHENO_TAKEN);
    expect_finish("false among four now", s, CUTAWHENO_TAKEN, 1, TOTAL_OF_FOUR);
    expect_finish("two false replies", service_of_four(FOUR, 3), CUTAWHENO_UNEXPLAINED, 0, 7);
    expect_finished("false among two", cutawheno_service_finish(LEND(two), totals), CUTAWHENO_TAKEN, 0);
    expect("a false total", totals[0] != TOTAL_OF_FOUR, 1);
}

/* The three report; then what is refused leaves every array as it came, and so does an element that comes again. */
static void run_service_refusals(void)
{
    const uint16_t untouched[CUTAWHENO_MOST_PLACES] = {7}, shares[USERS] = {340, 230, 175};
    uint16_t totals[CUTAWHENO_MOST_PLACES] = {7};
    Service s = {{0}, {0}, {0}}, before = s;

    expect("open unplanned", cutawheno_service_open(LEND(s), 1), CUTAWHENO_PLAN_ORDER);
    expect("bad plan", cutawheno_service_plan(LEND(s), 3, 2, 1, 17), CUTAWHENO_BAD_PLAN);
    expect_same("unplanned", &s, &before);
    expect("plan", cutawheno_service_plan(LEND(s), PLAN), CUTAWHENO_TAKEN);
    expect("open", cutawheno_service_open(LEND(s), UINT32_MAX - 1), CUTAWHENO_TAKEN);
    expect("first", cutawheno_service_first_element(s.head, s.first, 1, 0, 110), CUTAWHENO_TAKEN);

    before = s;
    expect("second plan", cutawheno_service_plan(LEND(s), PLAN), CUTAWHENO_PLAN_ORDER);
    expect("old round", cutawheno_service_open(LEND(s), UINT32_MAX - 1), CUTAWHENO_OLD_ROUND);
    expect("user 4", cutawheno_service_first_element(s.head, s.first, 4, 0, 440), CUTAWHENO_BAD_USER);
    expect("place 1", cutawheno_service_first_element(s.head, s.first, 2, 1, 220), CUTAWHENO_BAD_PLACE);
    expect("element", cutawheno_service_first_element(s.head, s.first, 2, 0, CUTAWHENO_Q), CUTAWHENO_BAD_ELEMENT);
    expect("element of 17 bits", cutawheno_service_first_element(s.head, s.first, 2, 0, 65536 + 220), CUTAWHENO_BAD_ELEMENT);
    expect("last element", cutawheno_service_first_element(s.head, s.first, 2, 0, UINT32_MAX), CUTAWHENO_BAD_ELEMENT);
    expect("first again", cutawheno_service_first_element(s.head, s.first, 1, 0, 110), CUTAWHENO_TAKEN);
    expect("another first", cutawheno_service_first_element(s.head, s.first, 1, 0, 111), CUTAWHENO_HELD);
    expect("first behind another", cutawheno_service_first_element(s.head, s.first, 1, 0, 110), CUTAWHENO_TAKEN);
    expect("first of 17 bits", cutawheno_service_first_element(s.head, s.first, 1, 0, 65536 + 110), CUTAWHENO_BAD_ELEMENT);
    expect("early reply", cutawheno_service_reply_element(s.head, s.reply, 1, 0, 340), CUTAWHENO_OTHER_PHASE);
    expect_finished("early finish", cutawheno_service_finish(LEND(s), totals), CUTAWHENO_OTHER_PHASE, 0);
    CutawhenoClosed closed = cutawheno_service_close(LEND(s));
    expect("too few", closed.number, CUTAWHENO_TOO_FEW);
    expect("too few, set", closed.set, 0);
    expect_same("gathering", &s, &before);

    expect("first", cutawheno_service_first_element(s.head, s.first, 2, 0, 220), CUTAWHENO_TAKEN);
    expect("first", cutawheno_service_first_element(s.head, s.first, 3, 0, 330), CUTAWHENO_TAKEN);
    expect("set of all", cutawheno_service_close(LEND(s)).set, 7);
    expect_finished("too few replies", cutawheno_service_finish(LEND(s), totals), CUTAWHENO_TOO_FEW, 0);
    for (uint32_t user = 1; user <= USERS; user++)
        expect("reply", cutawheno_service_reply_element(s.head, s.reply, user, 0, shares[user - 1]), CUTAWHENO_TAKEN);
    before = s;
    expect_finished("unexplained", cutawheno_service_finish(LEND(s), totals), CUTAWHENO_UNEXPLAINED, 0);
    expect("reply again", cutawheno_service_reply_element(s.head, s.reply, 3, 0, 175), CUTAWHENO_TAKEN);
    expect("another reply", cutawheno_service_reply_element(s.head, s.reply, 3, 0, 174), CUTAWHENO_HELD);
    expect("reply behind another", cutawheno_service_reply_element(s.head, s.reply, 3, 0, 175), CUTAWHENO_TAKEN);
    expect("block 1", cutawheno_service_reply_element(s.head, s.reply, 3, 1, 174), CUTAWHENO_BAD_PLACE);
    expect("second close", cutawheno_service_close(LEND(s)).number, CUTAWHENO_OTHER_PHASE);
    expect_same("replying", &s, &before);
    expect_row("totals buffer", totals, untouched, CUTAWHENO_MOST_PLACES);

    expect("last round", cutawheno_service_open(LEND(s), UINT32_MAX), CUTAWHENO_TAKEN);
    expect_same("opened anew", &s, &(Service){{CUTAWHENO_GATHERING, PLAN, PLACES, UINT32_MAX, 0}, {0}, {0}});
    expect("no round after it", cutawheno_service_open(LEND(s), UINT32_MAX), CUTAWHENO_OLD_ROUND);

    /* arrays that no call has written */
    memset(&s, 0xff, sizeof s);
    before = s;
    expect("any first", cutawheno_service_first_element(s.head, s.first, UINT32_MAX, UINT32_MAX, UINT32_MAX), CUTAWHENO_OTHER_PHASE);
    expect("any reply", cutawheno_service_reply_element(s.head, s.reply, UINT32_MAX, UINT32_MAX - 1, 1), CUTAWHENO_BAD_PLACE);
    expect_finished("any finish", cutawheno_service_finish(LEND(s), totals), CUTAWHENO_TOO_FEW, 0);
    expect_same("any arrays", &s, &before);
}

int main(void)
{
    expect("row_len", cutawheno_row_len(PLAN), PLACES);
    expect("list_len", cutawheno_list_len(PLAN), LIST_LEN);
    expect("key_len", cutawheno_key_len(PLAN), KEY_LEN);
    expect("figure_bound", cutawheno_figure_bound(PLAN), BOUND);
    expect("signed_bound", cutawheno_signed_bound(PLAN), SIGNED_BOUND);
    expect("list_len of 8 2 1 16", cutawheno_list_len(8, 2, 1, 16), 4080);
    expect("longest row", cutawheno_row_len(8, 7, 1, 16), CUTAWHENO_MOST_PLACES);
    expect("longest list", cutawheno_list_len(8, 4, 3, 16), CUTAWHENO_LONGEST_LIST);
    expect("longest key", cutawheno_key_len(8, 2, 1, 16), CUTAWHENO_LONGEST_KEY);
    expect("figure_bound of 8 2 1 16", cutawheno_figure_bound(8, 2, 1, 16), 8190);
    expect("signed_bound of 8 2 1 16", cutawheno_signed_bound(8, 2, 1, 16), 4095);
    expect("row_len of 3 2 2 1", cutawheno_row_len(3, 2, 2, 1), 0);
    expect("list_len of 3 3 1 1", cutawheno_list_len(3, 3, 1, 1), 0);
    expect("key_len of 3 2 1 17", cutawheno_key_len(3, 2, 1, 17), 0);
    expect("figure_bound of 3 3 1 1", cutawheno_figure_bound(3, 3, 1, 1), 0);
    expect("signed_bound of 3 3 1 1", cutawheno_signed_bound(3, 3, 1, 1), 0);
    expect("version", CUTAWHENO_VERSION, 900);
    run_list();
    run_round();
    run_other_rounds();
    run_starts();
    run_start_refusals();
    run_key_refusals();
    run_end_refusals();
    run_figures();
    run_signed_figures();
    run_signed_round();
    run_asides();
    run_service_refusals();
    printf("C: %s\n", failures == 0 ? "the example round, as expected" : "NOT as expected");
    return failures != 0;
}
