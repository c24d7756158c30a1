/* Whether a rule table conforms to a policy, by decision diagrams (BuDDy), for bench/solvers.
 *
 *     diagrams NUMBERS
 *
 * It reads what `convert numbers` writes and prints `conforms` or `faults`, and how many nodes were made. A variable is a bit
 * of the packet, in the order of its fields, the highest bit of each first. */

#include <bdd.h>
#include <stdio.h>
#include <stdlib.h>

enum { FIELDS = 4, BITS = 88 };

static const int bits[FIELDS] = {32, 32, 8, 16};
static const int first[FIELDS] = {0, 32, 64, 72};

/* The packets that the rules accept and deny, and those for which the policy asks accept and deny: by action, deny first. Those
 * that a rule so far holds. */
static BDD decided[2], asked[2], met;

/* A directive's action, its packets, and those of its exceptions. */
struct directive {
    int action;
    BDD held, excepted;
};

static struct directive *directives;
static int count;

/* Puts a diagram in the place of another, and counts both as BuDDy wants it. */
static void put(BDD *place, BDD made)
{
    bdd_addref(made);
    bdd_delref(*place);
    *place = made;
}

/* The numbers of a field that are at least the bound, from the lowest bit up. */
static BDD at_least(int field, unsigned long long bound)
{
    BDD made = bddtrue;
    if (bound >> bits[field])
        return bddfalse;
    for (int place = 0; place < bits[field]; place++) {
        BDD bit = bdd_ithvar(first[field] + bits[field] - 1 - place);
        put(&made, bound >> place & 1 ? bdd_and(bit, made) : bdd_or(bit, made));
    }
    return made;
}

static BDD read_block(void)
{
    BDD block = bddtrue;
    for (int field = 0; field < FIELDS; field++) {
        unsigned long long low, high;
        if (scanf("%llu %llu", &low, &high) != 2)
            exit(2);
        BDD from = at_least(field, low), past = at_least(field, high + 1);
        put(&from, bdd_apply(from, past, bddop_diff));
        put(&block, bdd_and(block, from));
        bdd_delref(from);
        bdd_delref(past);
    }
    return block;
}

/* A rule decides what no rule before it holds. */
static void add_rule(int action, BDD block)
{
    BDD own = bdd_addref(bdd_apply(block, met, bddop_diff));
    put(&decided[action], bdd_or(decided[action], own));
    put(&met, bdd_or(met, block));
    bdd_delref(own);
    bdd_delref(block);
}

static void add_directive(int number, int action, BDD block)
{
    struct directive *directive = &directives[number - 1];
    directive->action = action;
    directive->held = block;
    directive->excepted = bddfalse;
}

static void add_exception(int number, BDD block)
{
    struct directive *directive = &directives[number - 1];
    put(&directive->excepted, bdd_or(directive->excepted, block));
    bdd_delref(block);
}

/* A directive asks its action where no exception of its own is, and the opposite on these. */
static void ask(struct directive *directive)
{
    BDD *same = &asked[directive->action], *opposite = &asked[1 - directive->action];
    BDD kept = bdd_addref(bdd_apply(directive->held, directive->excepted, bddop_diff));
    put(same, bdd_or(*same, kept));
    put(opposite, bdd_or(*opposite, directive->excepted));
    bdd_delref(kept);
}

/* The lines as convert.rs writes them; only their form is looked at. */
static void read_numbers(void)
{
    char letter;
    int number, head;
    while (scanf(" %c %d", &letter, &number) == 2) {
        if (letter == 'R')
            continue;
        if (scanf("%d", &head) != 1)
            exit(2);
        if (letter == 'P') {
            count = number;
            directives = calloc(count + 1, sizeof *directives);
            continue;
        }
        BDD block = read_block();
        if (letter == 'r')
            add_rule(head, block);
        else if (letter == 'd')
            add_directive(number, head, block);
        else
            add_exception(head, block);
    }
}

int main(int words_count, char **words)
{
    bddStat told;
    if (words_count != 2 || !freopen(words[1], "r", stdin)) {
        fprintf(stderr, "usage: diagrams NUMBERS\n");
        return 2;
    }
    /* Of six pairs of sizes tried, the one that takes least time on a gateway of 64 rules. */
    bdd_init(30000, 3000);
    bdd_setcacheratio(4);
    bdd_setmaxincrease(1000000);
    bdd_gbc_hook(NULL);
    bdd_setvarnum(BITS);
    read_numbers();
    for (int i = 0; i < count; i++)
        ask(&directives[i]);
    /* A diagram has one form, so equal sets of packets are the same number. */
    int conforms = bdd_and(asked[0], asked[1]) == bddfalse && asked[0] == decided[0] && asked[1] == decided[1];
    bdd_stats(&told);
    printf("%s\nnodes %ld\n", conforms ? "conforms" : "faults", told.produced);
    return 0;
}
