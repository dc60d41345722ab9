/* The library from C, and as it stands from C++: document 01's network read,
 * stepped and printed as timorun prints it, then the single calls, what is
 * refused, a text under both editions, an embargo by rights, two index heads of
 * which the more urgent one is served, how long articles waited, steps in either
 * order, and steps that do not depend on a choice. Every function of timo.h is
 * called. */
#include <stdio.h>
#include <string.h>
#include "timo.h"

static const char page[] =
    "Page(x) = go(0,x,out(c,1,x,stop,stop)) .\n"
    "A[Page(B)] | B[in(c,2,y,go(0,y,stop),stop)] .\n";

/* A pair at timer 1, and an output at 1 that nobody hears, with an input at 1 as
 * its Q. */
static const char chances[] =
    "A[out(c,1,A,stop,stop) | in(c,1,x,stop,stop)] | B[out(c,1,B,stop,in(d,1,y,stop,go(1,B,stop)))] .\n";

/* A page from the scanner and two from the vault that all want to be shelved in
 * the public index, one of them by way of the desk. */
static const char pages[] =
    "Scanner[go(0,Public,out(shelf,1,Public,stop,go(inf,Scanner,stop)))] | "
    "Vault[go(0,Public,out(shelf,1,Public,stop,stop)) | go(0,Desk,go(0,Public,out(shelf,1,Public,stop,stop)))] | "
    "Public[in(shelf,inf,x,stop,stop)] .\n";

/* A page and two index heads, of which the second is about to time out. */
static const char heads[] =
    "Index[out(page,inf,Monday,stop,stop) | in(page,3,x,stop,stop) | in(page,0,x,stop,go(0,Missed,stop))] .\n";

/* Three articles at the desk, and two readers that come later. */
static const char articles[] =
    "Desk[out(page,9,Monday,stop,stop) | out(page,9,Tuesday,stop,stop) | out(page,9,Friday,stop,stop) | "
    "go(1,Desk,in(page,9,x,stop,stop)) | go(2,Desk,in(page,9,x,stop,stop))] .\n";

/* Two desks that send articles to the index, as examples/either_order.timo. */
static const char desks[] =
    "North[in(page,1,x,go(0,x,out(file,1,x,stop,stop)) | go(1,x,stop),stop)] | "
    "South[go(0,Index,stop) | go(3,Index,stop)] | "
    "North[out(page,0,Index,stop,stop)] | "
    "Index[in(file,1,y,stop,go(0,Missed,stop))] .\n";

/* An article that may leave the desk within a tick, and an index that waits for it. */
static const char leaves[] =
    "Desk[go(1,Index,out(file,1,Monday,stop,stop))] | Index[in(file,3,x,stop,stop)] .\n";

static uint32_t script[TIMO_WORDS], other[TIMO_WORDS];

static struct timo_reading read_with(const char *text, struct timo_settings settings, uint32_t words[TIMO_WORDS])
{
    return timo_read((const uint8_t *)text, strlen(text), settings, words);
}

static struct timo_reading read_text(const char *text, uint32_t edition, uint32_t words[TIMO_WORDS])
{
    return read_with(text, timo_all_rights(edition), words);
}

static void refused(const char *what, uint32_t code)
{
    printf("%s: refused %u\n", what, (unsigned)code);
}

/* The bytes that a call wrote, or its refusal. */
static void put(struct timo_written written, const uint8_t *bytes)
{
    if (written.code != 0)
        refused("text", written.code);
    else
        fwrite(bytes, 1, written.len, stdout);
}

static void put_network(const struct timo_state *state)
{
    uint8_t text[512];
    put(timo_write(script, &state->c, state->n, text, sizeof text), text);
}

static void put_location(const struct timo_state *state, uint32_t l)
{
    uint8_t name[TIMO_NAME];
    put(timo_location_name(script, &state->c, state->n, l, name, sizeof name), name);
}

static void put_channel(const struct timo_state *state, uint32_t h)
{
    uint8_t name[TIMO_NAME];
    put(timo_channel_name(script, &state->c, state->n, h, name, sizeof name), name);
}

/* A mean in whole ticks, as timorun prints it: the nearest, and exactly at the half
 * the even one. There were messages. */
static uint32_t whole_ticks(struct timo_averaged mean)
{
    uint32_t rest = mean.count - mean.remainder;

    if (mean.remainder == rest)
        return mean.quotient + mean.quotient % 2;
    return mean.quotient + (mean.remainder > rest);
}

/* For how many ticks the senders of all messages had waited, on the whole, and as
 * timorun prints it. */
static void put_mean(const struct timo_state *state)
{
    struct timo_averaged mean = timo_mean(script, &state->c, state->n);

    if (mean.count == 0)
        printf("mean wait: no messages\n");
    else
        printf("mean wait: %u and %u/%u, in whole ticks %u\n", (unsigned)mean.quotient, (unsigned)mean.remainder, (unsigned)mean.count, (unsigned)whole_ticks(mean));
}

/* The longest wait of a component that is in use. */
static void put_longest_wait(const struct timo_state *state)
{
    uint32_t longest = 0;
    size_t p;

    for (p = 0; p < state->n; p++)
        if (state->c.at[p].wait > longest)
            longest = state->c.at[p].wait;
    printf("longest wait: %u\n", (unsigned)longest);
}

/* What there is, what must happen, and the line of the step to come. */
static uint32_t look(const struct timo_state *state)
{
    uint8_t line[TIMO_LINE];
    struct timo_counted locations = timo_locations(script, &state->c, state->n);
    struct timo_counted channels = timo_channels(script, &state->c, state->n);
    struct timo_report forced = timo_forced(script, &state->c, state->n);
    uint32_t l, h;

    put_network(state);
    printf("%u locations:", (unsigned)locations.count);
    for (l = 0; l < locations.count; l++) {
        putchar(' ');
        put_location(state, l);
    }
    printf("; %u channel:", (unsigned)channels.count);
    for (h = 0; h < channels.count; h++) {
        putchar(' ');
        put_channel(state, h);
    }
    printf("\nforced: %u, the lowest ", (unsigned)forced.count);
    put_location(state, forced.lowest);
    printf("\nto come: ");
    put(timo_step_line(script, &state->c, state->n, 0, line, sizeof line), line);
    return locations.count;
}

/* timo_step or timo_step_conforming. */
typedef struct timo_stepped step_call(const uint32_t *, struct timo_comps *, size_t, uint32_t, uint32_t (*)[3], size_t);

/* A step at location l, and its line: the location and the label of each
 * record, asked of the components before the step. */
static void step_by(step_call *call, struct timo_state *state, uint32_t l)
{
    struct timo_state before = *state;
    uint32_t records[TIMO_COMPONENTS][3];
    struct timo_stepped stepped = call(script, &state->c, state->n, l, records, TIMO_COMPONENTS);
    size_t k;

    if (stepped.code != 0) {
        refused("step", stepped.code);
        return;
    }
    state->n = stepped.n;
    put_location(&before, l);
    for (k = 0; k < stepped.count; k++) {
        uint8_t label[TIMO_LABEL];
        putchar(' ');
        put(timo_action_label(script, &before.c, before.n, records[k][0], records[k][1], records[k][2], label, sizeof label), label);
    }
    putchar('\n');
}

static void step(struct timo_state *state, uint32_t l)
{
    step_by(timo_step, state, l);
}

/* An action and then the tick, and the two as a proposal. */
static void single_calls(struct timo_state state)
{
    struct timo_record records[1] = {{TIMO_CALL, 0, 0}};
    struct timo_state one = state, other = state;
    struct timo_acted acted;
    struct timo_ticked proposed;
    struct timo_compared compared;

    refused("tick first", timo_tick(script, &one.c, one.n, 0).code);
    acted = timo_action(script, &one.c, one.n, TIMO_CALL, 0, 0);
    printf("action: kind %u, definition %u, at location %u\n", (unsigned)acted.label.kind, (unsigned)acted.label.a, (unsigned)acted.label.at);
    refused("the action again", timo_action(script, &one.c, one.n, TIMO_CALL, 0, 0).code);
    refused("writing a mark", timo_write(script, &one.c, one.n, NULL, 0).code);
    one.n = timo_tick(script, &one.c, one.n, 0).n;
    proposed = timo_propose(script, &other.c, other.n, 0, records, 1);
    compared = timo_same(script, &one.c, one.n, script, &other.c, proposed.n);
    printf("proposal: code %u, same %s\n", (unsigned)proposed.code, compared.yes ? "yes" : "no");
    refused("a proposal of nothing", timo_propose(script, &state.c, state.n, 0, NULL, 0).code);
}

static void refusals(struct timo_state state, uint32_t locations)
{
    refused("no text", timo_read(NULL, 0, timo_all_rights(1), other).code);
    refused("edition 3", read_text(page, 3, other).code);
    refused("no text, no edition", read_text("", 0, other).code);
    refused("unbound variable", read_text("A[go(1,x,stop)] .", 1, other).code);
    refused("no such location", timo_location_name(script, &state.c, state.n, locations, NULL, 0).code);
    refused("no bytes", timo_location_name(script, &state.c, state.n, 0, NULL, 0).code);
    refused("no records", timo_step(script, &state.c, state.n, 0, NULL, 0).code);
    printf("valid: %s\n", timo_valid(script, &state.c, state.n) ? "yes" : "no");
    state.c.at[0].vals[7] = locations;
    printf("valid with a value out of range: %s\n", timo_valid(script, &state.c, state.n) ? "yes" : "no");
    state.n = 0;
    refused("no component", timo_tick(script, &state.c, state.n, 0).code);
}

/* Under both editions the pair stops the tick and meets. The output at timer 1
 * is lowered under edition 1 and takes its Q under edition 2; that Q is not
 * lowered in the same tick. */
static void editions(void)
{
    struct timo_state one = read_text(chances, 1, other).state, state;
    uint32_t edition, round;

    for (edition = 1; edition <= 2; edition++) {
        state = read_text(chances, edition, script).state;
        printf("edition %u:\n", (unsigned)script[TIMO_EDITION]);
        refused("tick first", timo_tick(script, &state.c, state.n, 0).code);
        step(&state, 0);
        for (round = 0; round < 3; round++) {
            step(&state, 1);
            put_network(&state);
        }
    }
    state = read_text(chances, 2, script).state;
    printf("same text, other edition: same %s\n", timo_same(other, &one.c, one.n, script, &state.c, state.n).yes ? "yes" : "no");
    script[TIMO_EDITION] = 0;
    refused("no edition in the table", timo_tick(script, &state.c, state.n, 1).code);
}

/* The number of a location by its name, which the network must have. */
static uint32_t number_of(const struct timo_state *state, const char *wanted)
{
    uint8_t name[TIMO_NAME];
    uint32_t l;

    for (l = 0; l < timo_locations(script, &state->c, state->n).count; l++) {
        struct timo_written written = timo_location_name(script, &state->c, state->n, l, name, sizeof name);
        if (written.len == strlen(wanted) && memcmp(name, wanted, written.len) == 0)
            break;
    }
    return l;
}

/* Two rounds of steps over all locations, and what they leave. */
static void rounds(struct timo_state state)
{
    uint32_t l;
    int round;

    for (round = 0; round < 2; round++)
        for (l = 0; l < timo_locations(script, &state.c, state.n).count; l++)
            step(&state, l);
    put_network(&state);
}

/* An embargo: no right leads out of the vault and the desk. So neither page from
 * the vault reaches the public index, the one that may go to the desk included. No
 * tick waits for them, and their timers stay 0. Then the public index may not
 * receive: the page that is there takes its time-out. */
static void rights(void)
{
    static const char *const inside[] = {"Vault", "Desk"}, *const outside[] = {"Scanner", "Public"};
    struct timo_settings settings = timo_all_rights(1);
    struct timo_state state = read_with(pages, settings, script).state, open = state;
    uint32_t index = number_of(&state, "Public");
    int i, o;

    for (i = 0; i < 2; i++)
        for (o = 0; o < 2; o++)
            settings.rights[number_of(&state, inside[i])].leave[number_of(&state, outside[o])] = false;
    printf("embargo:\n");
    state = read_with(pages, settings, other).state;
    printf("same text, other rights: same %s\n", timo_same(script, &open.c, open.n, other, &state.c, state.n).yes ? "yes" : "no");
    read_with(pages, settings, script);
    refused("from the vault", timo_action(script, &state.c, state.n, TIMO_MOVE, 1, 0).code);
    rounds(state);
    settings.rights[index].receive[0] = false;
    printf("nothing is received on ");
    put_channel(&state, 0);
    printf(" there:\n");
    rounds(read_with(pages, settings, script).state);
}

/* The step serves the head that is about to time out. A proposal may name the
 * other one, and then the first takes its Q. */
static void urgent(void)
{
    struct timo_record records[1] = {{TIMO_COMMUNICATION, 0, 1}};
    struct timo_state state = read_text(heads, 1, script).state, proposed = state;

    printf("two heads:\n");
    step(&state, 0);
    put_network(&state);
    proposed.n = timo_propose(script, &proposed.c, proposed.n, 0, records, 1).n;
    put_network(&proposed);
}

/* Articles that wait for their readers. Then the count of messages is full: a pair
 * that could meet stops the tick and may not meet, until the host counts anew. */
static void waits(void)
{
    struct timo_state state = read_text(articles, 1, script).state, full = state;
    uint32_t records[TIMO_COMPONENTS][3];
    int round;

    printf("articles:\n");
    for (round = 0; round < 5; round++) {
        if (round == 3)
            full = state;
        put_longest_wait(&state);
        put_mean(&state);
        step(&state, 0);
    }
    put_longest_wait(&state);
    put_mean(&state);
    printf("a full count:\n");
    full.c.messages = TIMO_MESSAGES;
    refused("tick", timo_tick(script, &full.c, full.n, 0).code);
    refused("step", timo_step(script, &full.c, full.n, 0, records, TIMO_COMPONENTS).code);
    full.c.messages = full.c.total_low = full.c.total_high = 0;
    step(&full, 0);
    put_mean(&full);
    full.c.at[2].wait = TIMO_WAIT + 1;
    refused("a wait past the longest", timo_mean(script, &full.c, full.n).code);
}

/* Whether the step at l would move a component to m, by the labels of its records as
 * numbers: as text a call of m and a move to m look alike. */
static bool moves_to(struct timo_state state, uint32_t l, uint32_t m)
{
    struct timo_state after = state;
    uint32_t records[TIMO_COMPONENTS][3];
    struct timo_stepped stepped = timo_step(script, &after.c, after.n, l, records, TIMO_COMPONENTS);
    size_t k;

    for (k = 0; k < stepped.count; k++) {
        struct timo_acted acted = timo_action(script, &state.c, state.n, records[k][0], records[k][1], records[k][2]);
        if (acted.label.kind == TIMO_MOVE && acted.label.a == m)
            return true;
    }
    return false;
}

/* The steps at two locations in either order, from the same network: whether neither
 * moves a component to the other's location, and whether they lead to the same one. */
static struct timo_state either(struct timo_state state, const char *one, const char *two)
{
    struct timo_state turned = state;
    uint32_t l = number_of(&state, one), m = number_of(&state, two);
    bool exchangeable = !moves_to(state, l, m) && !moves_to(state, m, l);

    step(&state, l);
    step(&state, m);
    printf("in the other order:\n");
    step(&turned, m);
    step(&turned, l);
    printf("%s and %s: may be exchanged %s, same %s\n", one, two, exchangeable ? "yes" : "no",
        timo_same(script, &state.c, state.n, script, &turned.c, turned.n).yes ? "yes" : "no");
    return state;
}

/* The two desks may be exchanged. A desk and the index may not: its article arrives, and
 * the head there is still waiting or has just timed out. */
static void either_order(void)
{
    struct timo_state state = read_text(desks, 1, script).state;

    printf("two desks:\n");
    state = either(state, "North", "South");
    step(&state, number_of(&state, "Index"));
    printf("a desk and the index:\n");
    either(state, "North", "Index");
}

/* The step at location l if it does not depend on a choice. */
static void step_if_it_conforms(struct timo_state *state, uint32_t l)
{
    struct timo_tested tested = timo_conforms(script, &state->c, state->n, l);

    put_location(state, l);
    printf(" conforms: %s\n", tested.yes ? "yes" : "no");
    step_by(timo_step_conforming, state, l);
}

/* An article that may go or stay is a choice, so the desk does not conform, and its
 * conforming step is refused. A step lets the timer come down to 0; then the article has
 * to go, and every whole step ends alike. */
static void one_outcome(void)
{
    struct timo_state state = read_text(leaves, 1, script).state;
    uint32_t desk = number_of(&state, "Desk"), locations = timo_locations(script, &state.c, state.n).count;

    printf("one outcome:\n");
    step_if_it_conforms(&state, desk);
    step(&state, desk);
    step_if_it_conforms(&state, desk);
    step_if_it_conforms(&state, number_of(&state, "Index"));
    put_network(&state);
    refused("no such location", timo_conforms(script, &state.c, state.n, locations).code);
}

int main(void)
{
    struct timo_reading reading = read_text(page, 1, script);
    struct timo_state state = reading.state;
    static uint8_t printed[TIMO_PRINTOUT];
    uint32_t locations, l;
    size_t length;
    int round;

    if (reading.code != 0) {
        refused("text", reading.code);
        return 1;
    }
    locations = look(&state);
    for (round = 0; round < 4; round++)
        for (l = 0; l < locations; l++)
            step(&state, l);
    put_network(&state);
    put_mean(&state);
    single_calls(reading.state);
    refusals(reading.state, locations);
    editions();
    rights();
    urgent();
    waits();
    either_order();
    one_outcome();
    length = timo_printout((const uint8_t *)page, strlen(page), printed, sizeof printed);
    printf("printout: %zu bytes, %zu where none are lent\n", length, timo_printout((const uint8_t *)page, strlen(page), NULL, 0));
    fwrite(printed, 1, length, stdout);
    return 0;
}
