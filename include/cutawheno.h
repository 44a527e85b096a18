/* Key maker, airfield end and pooling service of document 01, and of document 02 the random list from raw bytes, the bound of figures,
 * signed figures, finding a set's shares, setting one false reply aside and the round of a key, for C: the functions of crates/capi,
 * which crates/capi_c exports (tools/prove writes libcapi.a).
 *
 * A plan is four numbers: users (K), threshold (U), collusion (T) and blocks (M). A user is an airfield's number, 1 to K; a set of
 * users is a number whose bit k - 1 stands for user k. An element is a number below CUTAWHENO_Q. A row of figures, and a first
 * message, has blocks * (threshold - collusion) elements.
 *
 * The use of an end, chosen at its start, says what its figures are. Counts are from 0 to 65520 / users, rounded down. Signed figures lie
 * within 32760 / users of zero, rounded down, and are lent as their residues: -14 as CUTAWHENO_Q - 14 (cutawheno_residue). Where the
 * survivors of a round are all of one use, a total read by that use (cutawheno_read_total) is the whole-number sum of their figures. The
 * service is told no use, and a total says none: whoever reads it must know.
 *
 * The round of an end, chosen at its start and any number, is the round that its key belongs to: a set that is announced for another round
 * is not answered. All ends whose keys come from one random list are started with one round, and a list serves no second round.
 *
 * An end is an array of CUTAWHENO_END numbers that the caller keeps and lends to each call: cutawheno_end_start makes it, whatever
 * stood there, and the other calls move its stage themselves. The array may be read and stored at any time: store it after each call
 * that is taken, before anything of the call's answer is sent. Whoever goes on from an older copy, or writes another round into it, gives
 * up what stage and round are for: an end that answers a single set. Any numbers are an end, so that BAD_PLAN and BAD_USER are tested at
 * each call.
 *
 * A service is three arrays that the caller keeps and lends to each call, all zero for a new service: the head, whose eight numbers
 * are named below, the first elements and the replies. An element that is held stands there as itself plus 1, and 0 where none is
 * held: user k's at (k - 1) * CUTAWHENO_MOST_PLACES + place, and at (k - 1) * CUTAWHENO_MOST_BLOCKS + block. The arrays may be read,
 * copied and stored at any time. Plan, open and finish, where they are taken, clear both arrays of elements, and close clears the
 * replies. Whatever the arrays hold, a call answers; as long as only calls write them, they are a service of document 01 after the
 * same records.
 *
 * Each call answers CUTAWHENO_TAKEN or the earliest refusal that applies, in the order that its comment gives. A refused call
 * leaves every lent buffer and array as it came; where an element call answers HELD it may have written the held element back. No
 * input makes a call fail in any other way, provided that each pointer leads to as many elements as the length beside it or in its
 * brackets says, and that what is to be written overlaps nothing else that is lent. A list of length 0 may come with any pointer, also a
 * null pointer.
 */
#ifndef CUTAWHENO_H
#define CUTAWHENO_H

#include <stddef.h>
#include <stdint.h>

/* Three parts, and one number of them that rises with each version. */
#define CUTAWHENO_VERSION_MAJOR 0
#define CUTAWHENO_VERSION_MINOR 9
#define CUTAWHENO_VERSION_PATCH 0
#define CUTAWHENO_VERSION (CUTAWHENO_VERSION_MAJOR * 10000 + CUTAWHENO_VERSION_MINOR * 100 + CUTAWHENO_VERSION_PATCH)

/* An answer that is not read is a warning, from compilers that know how. */
#if defined(__GNUC__) || defined(__clang__)
#define CUTAWHENO_ANSWER __attribute__((warn_unused_result))
#else
#define CUTAWHENO_ANSWER
#endif

#ifdef __cplusplus
extern "C" {
#endif

enum {
    CUTAWHENO_Q = 65521,            /* elements are below it */
    CUTAWHENO_SIGNED_REACH = 32760, /* a total of signed figures up to it is read as itself, above it as itself less CUTAWHENO_Q */
    CUTAWHENO_LEAST_USERS = 3,
    CUTAWHENO_MOST_USERS = 8,
    CUTAWHENO_MOST_BLOCKS = 16,
    CUTAWHENO_MOST_PLACES = 96,     /* of a row of figures: plan 8 7 1 16 */
    CUTAWHENO_LONGEST_LIST = 7952,  /* of all plans' random lists: plan 8 4 3 16 */
    CUTAWHENO_LONGEST_KEY = 2048,   /* of all plans' keys: plan 8 2 1 16 */
    CUTAWHENO_END = 8,              /* length of an end's array */
    CUTAWHENO_HEAD = 8,             /* lengths of a service's arrays */
    CUTAWHENO_FIRSTS = 768,
    CUTAWHENO_REPLIES = 128
};

/* What stands where in an end. */
enum {
    CUTAWHENO_END_AT_USERS = 0,
    CUTAWHENO_END_AT_THRESHOLD = 1,
    CUTAWHENO_END_AT_COLLUSION = 2,
    CUTAWHENO_END_AT_BLOCKS = 3,
    CUTAWHENO_END_AT_USER = 4,
    CUTAWHENO_END_AT_STAGE = 5,
    CUTAWHENO_END_AT_USE = 6,  /* as it was given at the start; 0 in an array of a version that had counts alone */
    CUTAWHENO_END_AT_ROUND = 7 /* as it was given at the start; 0 in an array of a version that had no rounds */
};

/* The use of an end, and of a total; a number above 1 is read as signed. */
enum {
    CUTAWHENO_COUNTS = 0,
    CUTAWHENO_SIGNED = 1
};

/* The stage of an end; one that has answered the set v is at CUTAWHENO_ANSWERED + v. */
enum {
    CUTAWHENO_FRESH = 0,
    CUTAWHENO_SENT = 1,
    CUTAWHENO_ANSWERED = 2
};

/* What stands where in a service's head. */
enum {
    CUTAWHENO_AT_PHASE = 0,
    CUTAWHENO_AT_USERS = 1,
    CUTAWHENO_AT_THRESHOLD = 2,
    CUTAWHENO_AT_COLLUSION = 3,
    CUTAWHENO_AT_BLOCKS = 4,
    CUTAWHENO_AT_PLACES = 5,   /* of a row of the plan */
    CUTAWHENO_AT_ROUND = 6,    /* the last that was opened */
    CUTAWHENO_AT_SURVIVORS = 7 /* a set; 0 but while replying */
};

/* The phase of a service; a number above 3, which no call leaves, is read as replying. */
enum {
    CUTAWHENO_UNPLANNED = 0,
    CUTAWHENO_IDLE = 1,
    CUTAWHENO_GATHERING = 2,
    CUTAWHENO_REPLYING = 3
};

/* Why a call is refused. Number 7 is the record stream's alone: an unknown kind, or a record cut short by the end; and there is no 9, no
 * 10 and none from 20 to 30. */
enum {
    CUTAWHENO_TAKEN = 0,
    CUTAWHENO_BAD_PLAN = 1,       /* plan outside its ranges */
    CUTAWHENO_BAD_LENGTH = 2,     /* a lent list or buffer is not of the plan's length */
    CUTAWHENO_BAD_ELEMENT = 3,    /* an element, or a total to be read, above 65520 */
    CUTAWHENO_BAD_USER = 4,       /* user 0 or above the plan's users */
    CUTAWHENO_SET_UNUSABLE = 5,   /* fewer than the threshold in the set, or a user that the plan has not */
    CUTAWHENO_NOT_IN_SET = 6,     /* the user is not in the set */
    CUTAWHENO_BAD_PLACE = 8,      /* a place or block that the plan has not */
    CUTAWHENO_PLAN_ORDER = 11,    /* no plan yet, or a second plan */
    CUTAWHENO_OTHER_PHASE = 12,   /* not in this phase */
    CUTAWHENO_HELD = 13,          /* another element is held at that place or block */
    CUTAWHENO_NO_SURVIVOR = 14,   /* the user is not a survivor */
    CUTAWHENO_TOO_FEW = 15,       /* fewer complete users than the threshold */
    CUTAWHENO_UNEXPLAINED = 16,   /* complete replies disagree, and are threshold + 1 or no single user can be set aside */
    CUTAWHENO_OLD_ROUND = 17,     /* the round is not above the last one opened */
    CUTAWHENO_OUT_OF_TURN = 18,   /* first message already given, or a reply asked of a fresh end */
    CUTAWHENO_OTHER_SET = 19,     /* a set other than the one answered */
    CUTAWHENO_BYTES_RUN_OUT = 31, /* the bytes run out before the list is full */
    CUTAWHENO_FIGURE_BEYOND = 32, /* a count above 65520 / users, or a signed figure further from zero than 32760 / users, rounded down */
    CUTAWHENO_OTHER_ROUND = 33    /* a set announced for a round other than the end's */
};

/* What finding a set's shares answers: the refusal or 0; where in the user's key they start, 0 after a refusal. */
typedef struct {
    uint32_t number;
    uint32_t start;
} CutawhenoStart;

/* What a reply answers: the refusal or 0; the shares, which are the `count` elements of the key from `start` on (none after a
 * refusal). */
typedef struct {
    uint32_t number;
    uint32_t start;
    uint32_t count;
} CutawhenoPart;

/* What closing a round answers: the refusal or 0; the survivors' set, 0 after a refusal. */
typedef struct {
    uint32_t number;
    uint32_t set;
} CutawhenoClosed;

/* What finishing a round answers: the refusal or 0; the user whose reply was set aside, 0 where there is none and after a refusal. */
typedef struct {
    uint32_t number;
    uint32_t aside;
} CutawhenoFinished;

/* What reading a total answers: the refusal or 0; the whole number that the total stands for, 0 after a refusal. */
typedef struct {
    uint32_t number;
    int32_t value;
} CutawhenoReading;

/* What the residue of a signed figure answers: the refusal or 0; the element to lend, 0 after a refusal. */
typedef struct {
    uint32_t number;
    uint16_t element;
} CutawhenoResidue;

/* The length of a row of figures of a plan, and of a first message; 0 for a plan outside its ranges. */
CUTAWHENO_ANSWER
uint32_t cutawheno_row_len(uint32_t users, uint32_t threshold, uint32_t collusion, uint32_t blocks);

/* The length of the random list of a plan; 0 for a plan outside its ranges. */
CUTAWHENO_ANSWER
uint32_t cutawheno_list_len(uint32_t users, uint32_t threshold, uint32_t collusion, uint32_t blocks);

/* The length of a key of a plan, the same for every user; 0 for a plan outside its ranges. */
CUTAWHENO_ANSWER
uint32_t cutawheno_key_len(uint32_t users, uint32_t threshold, uint32_t collusion, uint32_t blocks);

/* The largest count of a plan, the same for every user and place: 65520 / users, rounded down; 0 for a plan outside its ranges. */
CUTAWHENO_ANSWER
uint32_t cutawheno_figure_bound(uint32_t users, uint32_t threshold, uint32_t collusion, uint32_t blocks);

/* How far from zero, below and above, a signed figure of a plan may lie: 32760 / users, rounded down; 0 for a plan outside its ranges. */
CUTAWHENO_ANSWER
uint32_t cutawheno_signed_bound(uint32_t users, uint32_t threshold, uint32_t collusion, uint32_t blocks);

/* Tells where in the user's key the shares for a set start: they are the `blocks` elements from there on, behind the masks and the shares
 * for the smaller usable sets that hold the user. No key is looked at, and no share handed out. cutawheno_end_reply names the same place;
 * send shares only as it names them, since it is the end that refuses a second set and another round.
 * Refusals, the earliest: BAD_PLAN, BAD_USER, SET_UNUSABLE, NOT_IN_SET. */
CUTAWHENO_ANSWER
CutawhenoStart cutawheno_reply_start(uint32_t users, uint32_t threshold, uint32_t collusion, uint32_t blocks, uint32_t user, uint32_t set);

/* Fills the random list of a plan from raw random bytes: two bytes are a number, low byte first, each number above 65520 is skipped, and
 * bytes behind the last element of the list are unused, as is a byte that stands alone. The list has cutawheno_list_len elements; the
 * bytes may have any length.
 * Refusals, the earliest: BAD_PLAN, BAD_LENGTH (of the list), BYTES_RUN_OUT. */
CUTAWHENO_ANSWER
uint32_t cutawheno_list_from_bytes(const uint8_t *bytes, size_t bytes_len, uint16_t *list, size_t list_len,
                                   uint32_t users, uint32_t threshold, uint32_t collusion, uint32_t blocks);

/* Writes the user's key, made from the random list. The list has cutawheno_list_len elements, the key cutawheno_key_len.
 * Refusals, the earliest: BAD_PLAN, BAD_USER, BAD_LENGTH, BAD_ELEMENT (in the list). */
CUTAWHENO_ANSWER
uint32_t cutawheno_make_key(const uint16_t *list, size_t list_len, uint16_t *key, size_t key_len,
                            uint32_t users, uint32_t threshold, uint32_t collusion, uint32_t blocks, uint32_t user);

/* Starts a fresh end of a user under a plan, for counts or, where is_signed is not 0, for signed figures, and for a round, any number.
 * Refusals, the earliest: BAD_PLAN, BAD_USER. */
CUTAWHENO_ANSWER
uint32_t cutawheno_end_start(uint32_t end[CUTAWHENO_END],
                             uint32_t users, uint32_t threshold, uint32_t collusion, uint32_t blocks, uint32_t user, uint32_t is_signed,
                             uint32_t round);

/* The element as which a signed figure is lent to the end of any user: itself from 0 on, and below 0 itself plus CUTAWHENO_Q.
 * Refusals, the earliest: BAD_PLAN, FIGURE_BEYOND. */
CUTAWHENO_ANSWER
CutawhenoResidue cutawheno_residue(int32_t value, uint32_t users, uint32_t threshold, uint32_t collusion, uint32_t blocks);

/* Writes the first message: figures plus masks, place by place. Figures and message have cutawheno_row_len elements. No count is above
 * cutawheno_figure_bound; a signed figure is at most cutawheno_signed_bound, or at least CUTAWHENO_Q less that. The end must be fresh, and
 * has then sent.
 * Refusals, the earliest: BAD_PLAN, BAD_USER, OUT_OF_TURN, BAD_LENGTH, BAD_ELEMENT (in key or figures), FIGURE_BEYOND. */
CUTAWHENO_ANSWER
uint32_t cutawheno_end_first_message(const uint16_t *key, size_t key_len, const uint16_t *figures, size_t figures_len,
                                     uint16_t *message, size_t message_len, uint32_t end[CUTAWHENO_END]);

/* Tells where in the key the shares for the set lie that is announced for the round. The end must have sent, and has then answered the
 * set; the same set asked again for the end's round gets the same part.
 * Refusals, the earliest: BAD_PLAN, BAD_USER, OUT_OF_TURN, BAD_LENGTH, BAD_ELEMENT (in the key), SET_UNUSABLE, NOT_IN_SET, OTHER_ROUND,
 * OTHER_SET. */
CUTAWHENO_ANSWER
CutawhenoPart cutawheno_end_reply(const uint16_t *key, size_t key_len, uint32_t end[CUTAWHENO_END], uint32_t set, uint32_t round);

/* Gives a new service its plan; it is idle then. Refusals, the earliest: PLAN_ORDER, BAD_PLAN. */
CUTAWHENO_ANSWER
uint32_t cutawheno_service_plan(uint32_t head[CUTAWHENO_HEAD], uint16_t first[CUTAWHENO_FIRSTS], uint16_t reply[CUTAWHENO_REPLIES],
                                uint32_t users, uint32_t threshold, uint32_t collusion, uint32_t blocks);

/* Opens a round, in any phase: drops what was held, and begins gathering. Refusals, the earliest: PLAN_ORDER, OLD_ROUND. */
CUTAWHENO_ANSWER
uint32_t cutawheno_service_open(uint32_t head[CUTAWHENO_HEAD], uint16_t first[CUTAWHENO_FIRSTS], uint16_t reply[CUTAWHENO_REPLIES],
                                uint32_t round);

/* Holds an element of a user's first message, while gathering. Where the same element is held already it is a repeat: the answer is
 * CUTAWHENO_TAKEN, and nothing changes.
 * Refusals, the earliest: PLAN_ORDER, OTHER_PHASE, BAD_USER, BAD_PLACE, BAD_ELEMENT, HELD. */
CUTAWHENO_ANSWER
uint32_t cutawheno_service_first_element(const uint32_t head[CUTAWHENO_HEAD], uint16_t first[CUTAWHENO_FIRSTS],
                                         uint32_t user, uint32_t place, uint32_t element);

/* Closes the round, while gathering: the users with all places held survive, and replying begins, with no reply held.
 * Refusals, the earliest: PLAN_ORDER, OTHER_PHASE, TOO_FEW. */
CUTAWHENO_ANSWER
CutawhenoClosed cutawheno_service_close(uint32_t head[CUTAWHENO_HEAD], const uint16_t first[CUTAWHENO_FIRSTS],
                                        uint16_t reply[CUTAWHENO_REPLIES]);

/* Holds an element of a survivor's reply, while replying. Where the same element is held already it is a repeat: the answer is
 * CUTAWHENO_TAKEN, and nothing changes.
 * Refusals, the earliest: PLAN_ORDER, OTHER_PHASE, BAD_USER, BAD_PLACE, BAD_ELEMENT, NO_SURVIVOR, HELD. */
CUTAWHENO_ANSWER
uint32_t cutawheno_service_reply_element(const uint32_t head[CUTAWHENO_HEAD], uint16_t reply[CUTAWHENO_REPLIES],
                                         uint32_t user, uint32_t block, uint32_t element);

/* Writes the survivors' total, place by place, and 0 behind the places of the plan; the service is idle then, and holds nothing. The
 * complete replies agree if one choice of sums and noise explains them, as it always does where they are just as many as the threshold.
 * Where threshold + 2 or more disagree, the reply of the one user without which all others agree is set aside (there is at most one such
 * user): the total comes from the others' replies, and the user's first message stays in it. Where all that is held of the survivors is
 * what cutawheno_end_first_message wrote and cutawheno_end_reply told for their set, each under its user's key of one random list, but for
 * one reply among threshold + 2 or more, this is the sum of their figures modulo CUTAWHENO_Q: of counts the whole-number sum, of signed
 * figures its residue, which cutawheno_read_total reads.
 * Refusals, the earliest: PLAN_ORDER, OTHER_PHASE, TOO_FEW, UNEXPLAINED. A further reply may mend TOO_FEW, and
 * UNEXPLAINED of threshold + 1 replies; of more it stays. */
CUTAWHENO_ANSWER
CutawhenoFinished cutawheno_service_finish(uint32_t head[CUTAWHENO_HEAD], uint16_t first[CUTAWHENO_FIRSTS],
                                           uint16_t reply[CUTAWHENO_REPLIES], uint16_t totals[CUTAWHENO_MOST_PLACES]);

/* Reads a total of counts, which is itself, or, where is_signed is not 0, of signed figures: up to CUTAWHENO_SIGNED_REACH it is itself,
 * above it itself less CUTAWHENO_Q. Refusal: BAD_ELEMENT (the total, in either use). */
CUTAWHENO_ANSWER
CutawhenoReading cutawheno_read_total(uint32_t total, uint32_t is_signed);

#ifdef __cplusplus
}
#endif

#endif
