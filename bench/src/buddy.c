/* BuDDy as a peer of the diagram: the same condition built by apply. BuDDy has no complement
   edges, so its nodes are the library's inner nodes. */
#include <bdd.h>
#include <stddef.h>
#include <stdint.h>

enum { BOTH = 16, EITHER = 17, MOST_OPERANDS = 32 };

/* Fresh nodes and caches of these sizes. */
void buddy_open(int columns, int nodes, int cache)
{
    bdd_init(nodes, cache);
    bdd_gbc_hook(NULL);
    bdd_setmaxincrease(100000);
    bdd_setvarnum(columns);
}

void buddy_close(void)
{
    bdd_done();
}

/* Puts the joined operand in place of the first and lets both go. */
static void join(BDD *first, BDD second, int operator)
{
    BDD joined = bdd_addref(bdd_apply(*first, second, operator));
    bdd_delref(*first);
    bdd_delref(second);
    *first = joined;
}

/* The need: its marks name operands before their join. No need, which has no marks, is true. */
static BDD needed(const uint16_t *marks, size_t count)
{
    BDD waiting[MOST_OPERANDS] = { bddtrue };
    size_t operands = 0;
    for (size_t i = 0; i < count; i++) {
        if (marks[i] == BOTH || marks[i] == EITHER) {
            operands--;
            int operator = marks[i] == BOTH ? bddop_and : bddop_or;
            join(&waiting[operands - 1], waiting[operands], operator);
        } else {
            waiting[operands++] = bdd_addref(bdd_ithvar(marks[i]));
        }
    }
    return waiting[0];
}

/* That a set is not contained: some column of it is missing. From the last column up, so that
   each step adds one node on top. */
static BDD missing(uint16_t set)
{
    BDD some = bddfalse;
    for (int column = 15; column >= 0; column--)
        if (set >> column & 1)
            join(&some, bdd_addref(bdd_nithvar(column)), bddop_or);
    return some;
}

/* The forbidden sets first and the need last: on these jobs the faster of the two orders. */
BDD buddy_build(const uint16_t *forbidden, size_t sets, const uint16_t *marks, size_t count)
{
    BDD condition = bddtrue;
    for (size_t i = 0; i < sets; i++)
        join(&condition, missing(forbidden[i]), bddop_and);
    join(&condition, needed(marks, count), bddop_and);
    return condition;
}

int buddy_nodes(BDD condition)
{
    return bdd_nodecount(condition);
}

void buddy_release(BDD condition)
{
    bdd_delref(condition);
}
