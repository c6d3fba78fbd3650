/* A host in C: searches a small model for a run that matches a rule, shows a refusal, tells which states are half
 * drawn, searches a model that two formulas give, follows events by the rule's table and by its rows, and steps a walker
 * for each of two clinics. From the repository's root:
 *
 *     tools/staticlib
 *     cc -Iinclude examples/check.c target/staticlib/libexports.a -o target/check && target/check
 */
#include "gongcollar.h"

#include <inttypes.h>
#include <stdio.h>

#if GONGCOLLAR_VERSION < 9
#error "gc_formula_model and gc_rows_of are of this page"
#endif

enum { ENTRIES = 4096 };

/* p0;{p1[*];p2}: p0, then any number of p1, then p2 */
static const uint8_t rule[] = {0x12, 0x10, 0x01, 0x00, 0x12, 0x17, 0x10, 0x01, 0x01, 0x10, 0x01, 0x02};

/* each state: its kind, its letter, whether it is initial, and the set of its successors in 8 bytes */
static const uint8_t model[] = {
    0x20, 0x01, 0x01, 0x02, 0, 0, 0, 0, 0, 0, 0, /* state 0: p0, initial, goes to state 1 */
    0x20, 0x02, 0x00, 0x06, 0, 0, 0, 0, 0, 0, 0, /* state 1: p1, goes to states 1 and 2 */
    0x20, 0x04, 0x00, 0x01, 0, 0, 0, 0, 0, 0, 0, /* state 2: p2, goes to state 0 */
};

/* what a search is lent; it can be lent again and again */
static uint64_t table[ENTRIES];
static uint16_t work1[ENTRIES], work2[ENTRIES];
static uint8_t run[ENTRIES];

static gc_searched search(size_t rule_len, size_t model_len) {
    return gc_search(rule, rule_len, model, model_len, table, ENTRIES, work1, ENTRIES, work2, ENTRIES, run, ENTRIES);
}

/* Whether an answer is a refusal, which is then told. Asked before anything else is read of it: the rest is then 0. */
static int is_refused(const char *what, uint64_t refused, uint64_t place) {
    if (refused)
        printf("%s: refused %" PRIu64 " at %" PRIu64 "\n", what, refused, place);
    return refused != 0;
}

static void show(const char *what, gc_searched answer) {
    if (is_refused(what, answer.refused, answer.place))
        return;
    printf("%s: ", what);
    if (!answer.found) {
        printf("no run of any length matches; %" PRIu64 " pairs\n", answer.pairs);
        return;
    }
    printf("a run of %" PRIu64 " states matches:", answer.length);
    for (uint64_t i = 0; i < answer.length; i++)
        printf(" %d", run[i]);
    printf("; %" PRIu64 " pairs\n", answer.pairs);
}

/* the same model, but state 2 goes nowhere */
static const uint8_t half_drawn[] = {
    0x20, 0x01, 0x01, 0x02, 0, 0, 0, 0, 0, 0, 0,
    0x20, 0x02, 0x00, 0x06, 0, 0, 0, 0, 0, 0, 0,
    0x20, 0x04, 0x00, 0x00, 0, 0, 0, 0, 0, 0, 0,
};

static void tell_dead_ends(const char *what, const uint8_t *bytes, size_t count) {
    gc_lasts answer = gc_lasting(bytes, count);
    if (is_refused(what, answer.refused, answer.place))
        return;
    printf("%s: of %" PRIu64 " states no endless run leaves:", what, answer.states);
    for (uint64_t s = 0; s < answer.states; s++)
        if (!(answer.lasting >> s & 1))
            printf(" %" PRIu64, s);
    printf("\n");
}

/* A scheduler of three flags: hourly values are written (p0), they are verified (p1), quarter-hour values are deleted
 * (p2). At first nothing is done; what is done stays done; nothing is verified or deleted before it is written. */
static const uint8_t scheduler[] = {
    0x30, 0x05, 0x05, 0x04, 0x01, 0x00, 0x04, 0x01, 0x01, 0x04, 0x01, 0x02, /* not p0, not p1, not p2 */
    0x31, 0x05, 0x05, 0x05, 0x05,                                           /* all of these: */
    0x06, 0x04, 0x01, 0x00, 0x07, 0x00,                                     /* not p0, or p0 next */
    0x06, 0x04, 0x01, 0x01, 0x07, 0x01,                                     /* not p1, or p1 next */
    0x06, 0x04, 0x01, 0x02, 0x07, 0x02,                                     /* not p2, or p2 next */
    0x06, 0x04, 0x07, 0x01, 0x01, 0x00,                                     /* not p1 next, or p0 */
    0x06, 0x04, 0x07, 0x02, 0x01, 0x00,                                     /* not p2 next, or p0 */
};

/* {{true}[*];(p2&!p1)}: at some time values are deleted, and not verified */
static const uint8_t too_early[] = {0x12, 0x17, 0x10, 0x02, 0x10, 0x05, 0x01, 0x02, 0x04, 0x01, 0x01};

static void search_scheduler(void) {
    static uint8_t states[704];
    gc_written written = gc_formula_model(scheduler, sizeof scheduler, states, sizeof states);
    if (is_refused("the scheduler", written.refused, written.place))
        return;
    show("the scheduler", gc_search(too_early, sizeof too_early, states, written.length, table, ENTRIES, work1, ENTRIES,
                                    work2, ENTRIES, run, ENTRIES));
}

static void tell_match(const char *what, gc_moved answer) {
    if (!is_refused(what, answer.refused, answer.place))
        printf("%s: %s\n", what, answer.matches ? "they match" : "they do not match");
}

/* whether the rule accepts the events; its table stands in `table` and has these finals */
static void follow(const char *what, uint64_t finals, const uint8_t *events, size_t count) {
    tell_match(what, gc_follow(table, ENTRIES, finals, events, count));
}

/* the same over the table stored as rows by letter, which takes less time */
static void follow_rows(uint64_t finals, const uint8_t *events, size_t count) {
    static uint64_t rows[ENTRIES];
    gc_done stored = gc_rows_of(table, ENTRIES, rows, ENTRIES);
    if (!is_refused("rows", stored.refused, stored.place))
        tell_match("by rows", gc_follow_rows(rows, ENTRIES, finals, events, count));
}

/* what the host keeps of a clinic, with the walker in it */
typedef struct {
    const char *name;
    gc_walker walker;
} clinic;

static void tell(const clinic *c) {
    printf("%s: %" PRIu32 " events, ", c->name, c->walker.taken);
    if (c->walker.matched)
        printf("matched first after %" PRIu32 "\n", c->walker.first);
    else
        printf("no match\n");
}

/* events as they come in, each for its clinic, whose walker is stepped where it stands */
static void day(uint64_t finals) {
    clinic clinics[] = {{"north", gc_start(finals)}, {"south", gc_start(finals)}};
    static const uint8_t events[][2] = {{0, 1}, {1, 4}, {0, 2}, {1, 1}, {0, 4}, {0, 4}};
    for (size_t i = 0; i < sizeof events / sizeof *events; i++) {
        gc_moved answer = gc_step_lent(&clinics[events[i][0]].walker, table, ENTRIES, events[i][1]);
        if (answer.refused)
            printf("event %zu: refused %" PRIu64 " at %" PRIu64 "\n", i, answer.refused, answer.place);
    }
    tell(&clinics[0]);
    tell(&clinics[1]);
}

int main(void) {
    show("the whole model", search(sizeof rule, sizeof model));
    show("a model with no states", search(sizeof rule, 0));
    show("a rule without its last byte", search(sizeof rule - 1, sizeof model));

    tell_dead_ends("a half-drawn job", half_drawn, sizeof half_drawn);
    search_scheduler();

    /* p0, p1, p1, p2, and a byte that is no letter */
    static const uint8_t events[] = {1, 2, 2, 4, 64};
    gc_built built = gc_build(rule, sizeof rule, table, ENTRIES);
    if (is_refused("the rule", built.refused, built.place))
        return 1;
    follow("four events", built.finals, events, 4);
    follow("the first three of them", built.finals, events, 3);
    follow("five events", built.finals, events, 5);
    follow("no events", built.finals, NULL, 0);
    follow_rows(built.finals, events, 4);
    day(built.finals);
    return 0;
}
