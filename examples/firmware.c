/* A tower controller's loop in small: it compiles rules, packs their tables, makes their states, steps them once a
 * tick, prints each verdict, or 2 while a watch is idle, and keeps a latch for each. How long a 0 has to stand before
 * it is a fault is decided for each rule, since many rules are 0 at first and a verdict may return to 1. */
#include <stdio.h>
#include <string.h>

#include "towerwatch.h"

_Static_assert(TOWERWATCH_VERSION_MAJOR == 5, "written for a same rule that takes parameters");
_Static_assert(TOWERWATCH_TABLE_NUMBERS == 4 * TOWERWATCH_EQUATIONS, "an equation has four numbers");
_Static_assert(TOWERWATCH_RULE_EQUATIONS <= TOWERWATCH_EQUATIONS, "a rule's table is a table");

/* When a 0 is a fault: at once, after some further ticks in a row, or only at the last tick of a piece. */
enum policy { AT_ONCE, STANDING, AT_END };

struct watch {
    const char *rule;
    enum policy policy;
    uint32_t further; /* ticks, for STANDING */
    uint32_t low;     /* how many ticks in a row have the verdict 0 */
    int fault;        /* the latch: it stays until somebody clears it */
    size_t compiled;  /* how many equations the rule was compiled to, */
    size_t n;         /* and how many its packed table has, which is the one that is kept and stepped */
    uint32_t table[4 * TOWERWATCH_RULE_EQUATIONS];
    uint32_t state[TOWERWATCH_RULE_EQUATIONS];
};

/* Lent to every compile, every pack and every step in turn: what they hold between two calls does not matter. */
static uint32_t room[TOWERWATCH_TABLE_NUMBERS], packed[TOWERWATCH_TABLE_NUMBERS];
static uint32_t values[TOWERWATCH_RULE_EQUATIONS];

static uint32_t parameters[TOWERWATCH_PARAMETERS] = {2};

/* Compiles a watch's rule, packs the table and makes the state of the packed one: 0, or the refusal. The state comes
 * last, since its cells belong to the equations of one table. */
static uint32_t prepare(struct watch *w) {
    struct towerwatch_answer a =
        towerwatch_compile((const uint8_t *)w->rule, strlen(w->rule), room, TOWERWATCH_TABLE_NUMBERS);
    if (a.refusal != 0) return a.refusal;
    w->compiled = a.result;
    a = towerwatch_pack(room, 4 * w->compiled, w->compiled, packed, TOWERWATCH_TABLE_NUMBERS);
    if (a.refusal != 0) return a.refusal;
    w->n = a.result;
    memcpy(w->table, packed, 4 * w->n * sizeof *packed);
    return towerwatch_fresh_state(w->table, 4 * w->n, w->n, w->state, w->n).refusal;
}

/* One tick of a watch. A refused step is no tick: the state, the latch and the count stay as they are. An idle watch
 * has no verdict: it is neither in order nor at fault, so that a latch that is set stays set. */
static struct towerwatch_answer tick(struct watch *w, uint32_t start, uint64_t signals, uint32_t velocity, int last) {
    struct towerwatch_answer a =
        towerwatch_step(w->table, 4 * w->n, w->n, w->state, w->n, values, w->n, start, signals, velocity, parameters);
    if (a.refusal != 0 || a.result == TOWERWATCH_IDLE) return a;
    w->low = a.result == 0 ? w->low + 1 : 0;
    if (w->policy == AT_ONCE) w->fault |= a.result == 0;
    if (w->policy == STANDING) w->fault |= w->low > w->further;
    if (w->policy == AT_END) w->fault |= last && a.result == 0;
    return a;
}

static struct watch watches[] = {
    /* 0 where the drive is on for longer than k0 ticks; it returns to 1 with the drive, so the latch keeps the fault */
    {.rule = "age[s0] <= k0", .policy = AT_ONCE},
    /* it can only fall: after a tick with both drives it stays 0 until the next start, with no latch */
    {.rule = "sum[s0 & s1] = 0 & !end[s0 & s1]", .policy = AT_ONCE},
    /* 0 at first; the contact may be away for two ticks in a row */
    {.rule = "end[s2]", .policy = STANDING, .further = 2},
    /* 0 while the lead holds; it has to be 1 when the piece ends */
    {.rule = "kept[s0] then end[s2]", .policy = AT_END},
    /* 0 once the contact was away at a tick before which the drive had been on for k0 ticks; it can only fall, too */
    {.rule = "lag[s0, k0, s2]", .policy = AT_ONCE},
    /* 0 at a tick with a stroke that is too hard, and 1 at the next: the latch keeps the fault */
    {.rule = "end[v <= 110]", .policy = AT_ONCE},
};
enum { WATCHES = sizeof watches / sizeof *watches };

/* A tick before the first start, then two pieces of five ticks each; the watches are told of a piece's last tick. A
 * velocity is that of the hardest stroke in its tick; the one of 127 is not judged, since nothing was started yet. */
static void run_pieces(void) {
    static const uint32_t starts[11] = {0, 1, 0, 0, 0, 0, 1, 0, 0, 0, 0};
    static const uint64_t signals[11] = {0, 1, 1, 5, 4, 4, 1, 3, 0, 0, 0};
    static const uint32_t velocities[11] = {127, 0, 0, 90, 0, 110, 111, 40, 0, 0, 0};
    for (int i = 0; i < 11; i++) {
        printf("tick %2d:", i);
        for (int w = 0; w < WATCHES; w++) {
            struct towerwatch_answer a = tick(&watches[w], starts[i], signals[i], velocities[i], i == 5 || i == 10);
            if (a.refusal != 0) printf("  refused=%u", (unsigned)a.refusal);
            else printf("  verdict=%u fault=%d", (unsigned)a.result, watches[w].fault);
        }
        printf("\n");
    }
}

/* A step that is refused is no tick: the next one goes on from the same state. */
static void show_refused_step(struct watch *w) {
    uint32_t before[TOWERWATCH_RULE_EQUATIONS];
    memcpy(before, w->state, sizeof before);
    parameters[0] = TOWERWATCH_LAST_NUMBER + 1;
    struct towerwatch_answer a = tick(w, 1, 0, 0, 0);
    printf("a step with a parameter too high: refused=%u, the state is %s\n", (unsigned)a.refusal,
           memcmp(before, w->state, sizeof before) == 0 ? "kept" : "changed");
    parameters[0] = 2;
    a = tick(w, 1, 0, TOWERWATCH_LAST_VELOCITY + 1, 0);
    printf("a step with a velocity too high: refused=%u, the state is %s\n", (unsigned)a.refusal,
           memcmp(before, w->state, sizeof before) == 0 ? "kept" : "changed");
    a = tick(w, 0, 0, 0, 0);
    printf("the next step: refused=%u verdict=%u\n", (unsigned)a.refusal, (unsigned)a.result);
}

/* A state that is made fresh, as after a restart of the controller, is idle until the next start. */
static void show_fresh_state(struct watch *w) {
    towerwatch_fresh_state(w->table, 4 * w->n, w->n, w->state, w->n);
    struct towerwatch_answer before = tick(w, 0, 0, 0, 1), at = tick(w, 1, 0, 0, 0);
    printf("after a fresh state: verdict=%u, with a start: verdict=%u, the latch is %s\n", (unsigned)before.result,
           (unsigned)at.result, w->fault ? "kept" : "cleared");
}

int main(void) {
    for (int w = 0; w < WATCHES; w++) {
        uint32_t refusal = prepare(&watches[w]);
        if (refusal != 0) return printf("%s: refused=%u\n", watches[w].rule, (unsigned)refusal), 1;
        printf("%s: %zu equations, packed %zu\n", watches[w].rule, watches[w].compiled, watches[w].n);
    }
    run_pieces();
    show_refused_step(&watches[1]);
    show_fresh_state(&watches[1]);
    struct watch broken = {.rule = "kept[s0] then"};
    printf("%s: refused=%u\n", broken.rule, (unsigned)prepare(&broken));
    return 0;
}
