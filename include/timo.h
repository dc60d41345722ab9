/* The proved step engine for TiMo as a library, for C99 and C++11 on x86-64.
 *
 * A network is a script, 111,888 words that reading writes and no other call
 * changes, and a state, the components. Every call on a network takes tables of
 * any content and first asks question 17: does the table stand for a network? A
 * call that is refused answers the question's number as its code; what was lent
 * to it is unchanged. Code 0 is no refusal. Every call is lent the components,
 * with the number in use. Action, tick, both steps and proposal leave in them what
 * they do, and all but the action answer the number in use from then on, which a
 * refusal leaves as it was; an action never changes it.
 *
 * What is lent. A pointer to a script or to components is never null. Where a
 * number says how many bytes or records are lent and it is 0, the pointer is not
 * looked at and may be null. What a call writes must not overlap anything else
 * that it is lent; what it only reads may: timo_same can be given one network
 * twice. Nothing else may write any of it during the call.
 *
 * Editions. A text is read under edition 1 or 2 of the script guild's rules,
 * which stays with the network. Under edition 1 an `in` or `out` takes its Q at a
 * tick with timer 0, under edition 2 with timer 0 or 1; nothing else but
 * timo_same depends on it. The script has it in one word, TIMO_EDITION, which
 * reading writes; a text that is written does not show it.
 *
 * Rights. A text is read with rights, which stay with the network too: for each
 * location a row with a right to send and a right to receive on each channel, and
 * a right to leave for each other location, by the numbers of locations and
 * channels. A communication needs both rights of its location for its channel, a
 * move the right to leave for its target, a call none; a move to its own location
 * needs none, and that right is not looked at. An action that lacks its right
 * cannot fire: as a single action or in a proposal it is refused by 20, a step
 * passes over it, no tick waits for it, and a `go` with timer 0 keeps timer 0.
 * So a component stands only where what it came from was read, or where a chain
 * of rights to leave leads from there. Rows and rights of numbers that the text
 * does not have are not looked at. Nothing else depends on rights: a text that is
 * written does not show them, and timo_same passes over them.
 *
 * Waits and messages. A component has a wait: 0 when it is read, marked,
 * unmarked or split off and when it takes its Q, and one more for each tick at its
 * location that lowers its timer or keeps it, up to TIMO_WAIT. So `inf` waits and a
 * `go` at timer 0 without its right does; `stop`, which has no timer, does not. A
 * communication adds the wait of its sender, as it stood before, to a total and
 * one to a count of messages, which the state holds behind its components; both
 * are 0 after reading. timo_mean divides one by the other. At most TIMO_MESSAGES
 * are counted: past them a communication is refused by 18, alone, in a step or in a
 * proposal. That is a matter of space, as 13 is: a pair that could meet still stops
 * the tick, and timo_forced reports it. A host that wants to go on writes 0 into
 * the count and both words of the total. Nothing else depends on waits and
 * messages: a text that is written does not show them, and timo_same passes over
 * them.
 *
 * Words that are not in use. No call looks at the spare words of a component,
 * at those behind the count of messages or at positions past the components in
 * use. After an accepted action, tick, step or proposal all of them are as they
 * were; reading returns zeros there. Of the words of a script behind the row of
 * its last part the calls look at TIMO_EDITION, at the rights and, in a table made
 * by hand, at names that a scope has there; reading writes TIMO_EDITION and the
 * rights and leaves the others as they were. A later version may give such words
 * a meaning: a host that makes tables itself sets them to 0, but writes 1 or 2
 * into TIMO_EDITION, and 1 where a right is given.
 *
 * Threads. The calls share nothing and keep nothing, so that several threads
 * may call at the same time, also with one script.
 *
 * Stack, as measured (docs/LIMITS.md; nothing proves it): 2 MiB are enough
 * for reading, 4 MiB for the printout, 1 MiB for every other call.
 *
 * The words of a script and of a state, and what they stand for, are set out in
 * docs/LAYOUT.md, the contract of each call in crates/timo/src/lib.rt. The
 * questions, with an example of each, are listed in docs/PRINTOUT.md.
 */
#ifndef TIMO_H
#define TIMO_H

#include <stdbool.h>
#include <stddef.h>
#include <stdint.h>

#ifdef __cplusplus
extern "C" {
#endif

#define TIMO_WORDS 111888     /* words of a script */
#define TIMO_EDITION 99592    /* the word of a script that holds its edition, 1 or 2 */
#define TIMO_RIGHTS 99600     /* where in a script the rights begin, in the order of timo_settings: 1 is a right, any other word none */
#define TIMO_COMPONENTS 256   /* components of a state; no step has more actions */
#define TIMO_LOCATIONS 64     /* most locations of a network */
#define TIMO_CHANNELS 64      /* most channels of a network */
#define TIMO_UNMARKED 64      /* the mark of a component that has none */
#define TIMO_INF 1000001      /* the timer inf */
#define TIMO_WAIT 1000000     /* where a wait halts */
#define TIMO_MESSAGES 1000000 /* most messages that are counted */

#define TIMO_CALL 1           /* the kinds of actions */
#define TIMO_MOVE 2
#define TIMO_COMMUNICATION 3

/* So many bytes hold every such text; none of them ends with a zero byte. */
#define TIMO_TEXT 65535       /* a text that is read */
#define TIMO_NAME 16          /* the name of a location or a channel */
#define TIMO_LABEL 51         /* a label */
#define TIMO_LINE 13329       /* the line of a step, with its line feed */
#define TIMO_PRINTOUT 3477768 /* a printout */

/* The rights of a location: to send and to receive on a channel, and to leave for
 * another location, by number. */
struct timo_row {
    bool send[TIMO_CHANNELS];
    bool receive[TIMO_CHANNELS];
    bool leave[TIMO_LOCATIONS];
};

/* What is given with a text at reading; later versions add to it.
 * timo_all_rights has an edition with all rights. */
struct timo_settings {
    uint32_t edition;         /* 1 or 2 */
    struct timo_row rights[TIMO_LOCATIONS]; /* a row for each location */
};

/* A component: the numbers of its location and its owner, the place of its
 * part, its timer, the location that each slot of its scope has, its wait, and
 * three words that are not used. Question 17
 * asks of each component in use that loc and all eight of vals, also those of
 * slots that nothing reads, are below the number of locations, that mark is too
 * or is TIMO_UNMARKED, that timer is at most TIMO_INF, marked or not, and that wait
 * is at most TIMO_WAIT. */
struct timo_comp {
    uint32_t loc, mark, place, timer;
    uint32_t vals[8];
    uint32_t wait;
    uint32_t spare[3];
};

/* What is lent to a call as components: all of them, and behind them the messages
 * so far: how long their senders had waited in all, in two words, total_low +
 * 2^32 * total_high, and how many there were. Question 17 asks that messages is at
 * most TIMO_MESSAGES and the total at most TIMO_WAIT times messages. Then words
 * that are not used. */
struct timo_comps {
    struct timo_comp at[TIMO_COMPONENTS];
    uint32_t total_low, total_high, messages;
    uint32_t spare[13];
};

/* The first n components are in use. */
struct timo_state {
    struct timo_comps c;
    size_t n;
};

/* A label in numbers. kind 1: the definition a is called. kind 2: the move to
 * location a. kind 3: location b is sent on channel a. It fires at location at.
 * timo_action_label has its text. */
struct timo_label {
    uint32_t kind, a, b, at;
};

/* An action of a proposal; for kinds 1 and 2 q is not looked at. */
struct timo_record {
    uint32_t kind, p, q;
};

struct timo_reading {
    uint32_t code;
    struct timo_state state;
};

struct timo_acted {
    uint32_t code;
    struct timo_label label;  /* zeros where code is not 0 */
};

struct timo_ticked {
    uint32_t code;
    size_t n;                 /* components in use from now on */
};

struct timo_stepped {
    uint32_t code;
    size_t count;             /* records written */
    size_t n;                 /* components in use from now on */
};

struct timo_report {
    uint32_t code;
    uint64_t set;             /* bit l: the tick at location l is not allowed */
    uint32_t count, lowest;   /* how many; the lowest, 64 for none */
};

struct timo_averaged {
    uint32_t code;
    uint32_t count;           /* messages; 0 says that there were none */
    uint32_t quotient;        /* the total divided by count */
    uint32_t remainder;       /* what is left, below count; all three are 0 where code is not 0 */
};

struct timo_written {
    uint32_t code;
    size_t len;               /* bytes written; 0 where code is not 0 */
};

struct timo_compared {
    uint32_t code;
    bool yes;
};

struct timo_tested {
    uint32_t code;
    bool yes;                 /* false where code is not 0 */
};

struct timo_counted {
    uint32_t code;
    uint32_t count;           /* 0 where code is not 0 */
};

/* An edition with all rights, to be read with or to take rights from. It is never
 * refused: an edition that is neither 1 nor 2 is refused at reading. */
struct timo_settings timo_all_rights(uint32_t edition);

/* Reading: the network of a text of n bytes under the edition and with the rights
 * given, its script in the words lent and its components in the state returned.
 * The words may hold anything before. Locations and channels are numbered by first
 * place in the text, which timo_location_name and timo_channel_name show of a
 * network read with all rights; components stand in text order, unmarked. A
 * refusal leaves the words unchanged and returns a state of zeros. Refusals: 21
 * for an edition that is neither 1 nor 2, then 1 to 7; none is about rights. It
 * goes one level deeper for each level of
 * nesting in the text, at most 9,361, and needs up to 1.8 MiB of stack. A text of
 * no bytes is refused by 2. */
struct timo_reading timo_read(const uint8_t *text, size_t n, struct timo_settings settings, uint32_t script[TIMO_WORDS]);

/* Question 17. */
bool timo_valid(const uint32_t script[TIMO_WORDS], const struct timo_comps *c, size_t n);

/* A single action of kind 1 (call at p), 2 (move at p) or 3 (output at p,
 * input at q). For kinds 1 and 2 q is not looked at. Refusals: 17, 8, 9, 10,
 * 11, 20, 18, in this order. */
struct timo_acted timo_action(const uint32_t script[TIMO_WORDS], struct timo_comps *c, size_t n, uint32_t kind, size_t p, size_t q);

/* The tick at location l: what is ready there is lowered by one or, if it is an
 * `in` or `out` that has no tick left under the script's edition, becomes its Q,
 * with timers as they stand. Refusals: 17, 8, 12, 13; a full count of messages does
 * not matter. */
struct timo_ticked timo_tick(const uint32_t script[TIMO_WORDS], struct timo_comps *c, size_t n, uint32_t l);

/* The step at location l: its actions as records (kind, p, q) in the records
 * lent, then the tick, all in the components lent. Of the ready inputs that an
 * output may meet when its turn comes, the one with the least timer is served,
 * inf last, the lowest position among equals; a single action and a proposal may
 * take any of them. Records past the count are
 * unchanged; a refusal leaves components, n and records unchanged. Refusals: 17,
 * 8, 15, 18, 13; 18 if the messages so far and the communications of this step are
 * more than TIMO_MESSAGES, so that a step without communications is never
 * refused by it. From a network without marks, steps at two locations may be done in
 * either order if neither moves a component to the other's: docs/EXCHANGE.md. */
struct timo_stepped timo_step(const uint32_t script[TIMO_WORDS], struct timo_comps *c, size_t n, uint32_t l, uint32_t (*records)[3], size_t lent);

/* Whether location l conforms to the single-outcome profile: no ready `go` there
 * has a timer above 0, inf included, and each channel has at most one ready `out`
 * and at most one ready `in` there. What is marked is not ready; neither rights nor
 * the edition nor calls play a part. Where it conforms, all whole steps at l that
 * the rules allow, accepted proposals and the step among them, end in the same
 * network, with the same components at the same positions, and have the same labels,
 * each as often, in whatever order they fire. A no is no refusal. Refusals: 17, 8. */
struct timo_tested timo_conforms(const uint32_t script[TIMO_WORDS], const struct timo_comps *c, size_t n, uint32_t l);

/* The step at location l if it conforms, and else the refusal 26: docs/PROFILE.md.
 * In all else it is timo_step. Refusals: 17, 8, 26, then 15, 18, 13. */
struct timo_stepped timo_step_conforming(const uint32_t script[TIMO_WORDS], struct timo_comps *c, size_t n, uint32_t l, uint32_t (*records)[3], size_t lent);

/* A proposal at location l: the records in order, so many as are given, then
 * the tick, all or none. Refusals: 17, 8 for the location, for each record 8, 9,
 * 10, 11, 20, 18, 16, then 12, 13; a communication is counted before the next
 * record is asked. */
struct timo_ticked timo_propose(const uint32_t script[TIMO_WORDS], struct timo_comps *c, size_t n, uint32_t l, const struct timo_record *records, size_t given);

/* The locations where the tick is not allowed, whatever the count of messages.
 * Refusal: 17. */
struct timo_report timo_forced(const uint32_t script[TIMO_WORDS], const struct timo_comps *c, size_t n);

/* For how many ticks the senders of all messages had waited on the whole: the total
 * divided by the count, exactly. Refusal: 17. */
struct timo_averaged timo_mean(const uint32_t script[TIMO_WORDS], const struct timo_comps *c, size_t n);

/* The network as text in the bytes lent; it shows neither the edition nor the
 * rights, and is to be read back under the script's own edition and with rights
 * given again, by the numbers that names have in it. Waits and messages are not
 * shown either, and are 0 when it is read back. Bytes past the length are unchanged.
 * Refusals: 17, 14, 15. What a text of at most TIMO_TEXT bytes gives can still
 * be longer than that, with values put in. */
struct timo_written timo_write(const uint32_t script[TIMO_WORDS], const struct timo_comps *c, size_t n, uint8_t *bytes, size_t lent);

/* Whether two networks are the same: of one edition, with the same definitions
 * as a set and, in any order, the same components, each as often, location and
 * owner by name, parts letter by letter with values put in. The numbers that names have do not count,
 * nor does a name that no longer occurs, nor do waits, total and count of messages. yes is false where code is not 0.
 * Refusal: 17, for either network. */
struct timo_compared timo_same(const uint32_t script_a[TIMO_WORDS], const struct timo_comps *a, size_t n, const uint32_t script_b[TIMO_WORDS], const struct timo_comps *b, size_t m);

/* ---- In letters. None of these changes a network. Bytes past the length are
 * unchanged; a refusal leaves them all as they were. ---- */

/* How many locations there are; they are numbered from 0. Refusal: 17. */
struct timo_counted timo_locations(const uint32_t script[TIMO_WORDS], const struct timo_comps *c, size_t n);

/* The name of location l. Refusals: 17, 8, 15. */
struct timo_written timo_location_name(const uint32_t script[TIMO_WORDS], const struct timo_comps *c, size_t n, uint32_t l, uint8_t *bytes, size_t lent);

/* How many channels there are, and the name of channel h. Refusals: 17; and 17, 8,
 * 15. */
struct timo_counted timo_channels(const uint32_t script[TIMO_WORDS], const struct timo_comps *c, size_t n);
struct timo_written timo_channel_name(const uint32_t script[TIMO_WORDS], const struct timo_comps *c, size_t n, uint32_t h, uint8_t *bytes, size_t lent);

/* The label of an action, `id@l`, `v@l` or `c<v>@l`. Refusals: 17, then 8, 9,
 * 10, 11, 20 as for timo_action, then 15; nothing is counted, so that 18 is not
 * asked. For a record of a step it is asked with
 * the components as they were before the step, for each of its records alike:
 * an action of a step has the same label there (the law step-before of
 * crates/run_line). */
struct timo_written timo_action_label(const uint32_t script[TIMO_WORDS], const struct timo_comps *c, size_t n, uint32_t kind, size_t p, size_t q, uint8_t *bytes, size_t lent);

/* The line of the step at location l as timorun prints it: the location, each
 * label after one space, a line feed. The components are those before the step.
 * Refusals: 17, 8, 18, 13 as for the step, then 15. */
struct timo_written timo_step_line(const uint32_t script[TIMO_WORDS], const struct timo_comps *c, size_t n, uint32_t l, uint8_t *bytes, size_t lent);

/* The whole printout of a text of n bytes, as timorun prints it, under edition 1
 * and with all rights, refusals included, and without one the mean on its last line,
 * rounded to a whole tick, exactly at the half the even one, or `-` if there were
 * no messages. It returns the printout's length, at most TIMO_PRINTOUT, whatever is
 * lent. Fewer bytes get the printout's first ones; with more, those past the
 * length are unchanged. */
size_t timo_printout(const uint8_t *text, size_t n, uint8_t *bytes, size_t lent);

/* ---- The layout that the library was compiled with. ---- */
#if defined(__cplusplus)
#define TIMO_ASSERT(test) static_assert(test, "timo.h: layout");
#elif defined(__STDC_VERSION__) && __STDC_VERSION__ >= 201112L
#define TIMO_ASSERT(test) _Static_assert(test, "timo.h: layout");
#else
#define TIMO_ASSERT(test)
#endif
TIMO_ASSERT(sizeof(size_t) == 8 && sizeof(bool) == 1)
TIMO_ASSERT(sizeof(struct timo_row) == 192 && offsetof(struct timo_row, receive) == 64 && offsetof(struct timo_row, leave) == 128)
TIMO_ASSERT(sizeof(struct timo_settings) == 12292 && offsetof(struct timo_settings, rights) == 4)
TIMO_ASSERT(sizeof(struct timo_comp) == 64 && offsetof(struct timo_comp, vals) == 16 && offsetof(struct timo_comp, wait) == 48 && offsetof(struct timo_comp, spare) == 52)
TIMO_ASSERT(sizeof(struct timo_comps) == 16448 && offsetof(struct timo_comps, total_low) == 16384 && offsetof(struct timo_comps, total_high) == 16388)
TIMO_ASSERT(offsetof(struct timo_comps, messages) == 16392 && offsetof(struct timo_comps, spare) == 16396)
TIMO_ASSERT(sizeof(struct timo_state) == 16456 && offsetof(struct timo_state, n) == 16448)
TIMO_ASSERT(sizeof(struct timo_label) == 16 && offsetof(struct timo_label, at) == 12)
TIMO_ASSERT(sizeof(struct timo_record) == 12 && offsetof(struct timo_record, q) == 8)
TIMO_ASSERT(sizeof(struct timo_reading) == 16464 && offsetof(struct timo_reading, state) == 8)
TIMO_ASSERT(sizeof(struct timo_acted) == 20 && offsetof(struct timo_acted, label) == 4)
TIMO_ASSERT(sizeof(struct timo_ticked) == 16 && offsetof(struct timo_ticked, n) == 8)
TIMO_ASSERT(sizeof(struct timo_stepped) == 24 && offsetof(struct timo_stepped, count) == 8 && offsetof(struct timo_stepped, n) == 16)
TIMO_ASSERT(sizeof(struct timo_report) == 24 && offsetof(struct timo_report, set) == 8 && offsetof(struct timo_report, count) == 16)
TIMO_ASSERT(sizeof(struct timo_averaged) == 16 && offsetof(struct timo_averaged, count) == 4)
TIMO_ASSERT(offsetof(struct timo_averaged, quotient) == 8 && offsetof(struct timo_averaged, remainder) == 12)
TIMO_ASSERT(sizeof(struct timo_written) == 16 && offsetof(struct timo_written, len) == 8)
TIMO_ASSERT(sizeof(struct timo_compared) == 8 && offsetof(struct timo_compared, yes) == 4)
TIMO_ASSERT(sizeof(struct timo_tested) == 8 && offsetof(struct timo_tested, yes) == 4)
TIMO_ASSERT(sizeof(struct timo_counted) == 8 && offsetof(struct timo_counted, count) == 4)
#undef TIMO_ASSERT

#ifdef __cplusplus
}
#endif

#endif
