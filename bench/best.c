/* Request 10/13 of document 02 in plain C. The clause that a function follows stands above it. */
#include "best.h"

#include <string.h>

#define WHOLE ((uint64_t)1 << 48)
#define MOST_WAYS 16
#define MOST_STATES 64
#define MOST_TRACKED 16
#define MOST_NODES 64
#define MOST_ACCESSES 4096
#define MOST_MASK 65535
#define WORKING_STATES 5184
#define MOST_SUCCESSORS (17 * MOST_STATES)

struct table {
    size_t count;
    struct best_state states[MOST_SUCCESSORS];
};

struct node_table {
    size_t count;
    struct best_state states[MOST_STATES];
};

/* ---- Tables in order ---- */

/* "Exact states are listed by mask, misses and hits, and open ones after them by misses and hits": less than, equal to or more than 0. */
static int compare(const struct best_state *a, const struct best_state *b)
{
    if (a->exact != b->exact)
        return a->exact ? -1 : 1;
    if (a->mask != b->mask)
        return a->mask < b->mask ? -1 : 1;
    if (a->misses != b->misses)
        return a->misses < b->misses ? -1 : 1;
    if (a->hits != b->hits)
        return a->hits < b->hits ? -1 : 1;
    return 0;
}

/* "only wholly equal states are added"; states of 0 units vanish. */
static void put(struct table *table, struct best_state state)
{
    size_t place = 0;
    if (state.units == 0)
        return;
    while (place < table->count && compare(&table->states[place], &state) < 0)
        place++;
    if (place < table->count && compare(&table->states[place], &state) == 0) {
        table->states[place].units += state.units;
        return;
    }
    memmove(&table->states[place + 1], &table->states[place], (table->count - place) * sizeof state);
    table->states[place] = state;
    table->count++;
}

static void take_out(struct table *table, size_t place)
{
    table->count--;
    memmove(&table->states[place], &table->states[place + 1], (table->count - place) * sizeof table->states[0]);
}

static unsigned block_count(uint64_t mask)
{
    return (unsigned)__builtin_popcount((unsigned)mask);
}

static uint64_t smaller(uint64_t a, uint64_t b)
{
    return a < b ? a : b;
}

static uint64_t apart(uint64_t a, uint64_t b)
{
    return a < b ? b - a : a - b;
}

/* ---- One access ---- */

/* "Exact states step as the machine does; remainders that 4/13 doesn't send on become open with one more miss; an open state never counts
 * again." 4/13: where the state holds no block of the accessed set, all ways lead to one successor, and the remainder goes there. */
static void follow(struct table *after, const struct best_state *s, uint64_t bit, uint64_t mates, uint32_t ways)
{
    struct best_state t = *s;
    uint64_t held = s->mask & mates, part = s->units / ways, rest = s->units % ways;
    if (!s->exact) {
        put(after, t);
        return;
    }
    if (s->mask & bit) {
        t.hits++;
        put(after, t);
        return;
    }
    t.misses++;
    for (unsigned i = 0; i < MOST_TRACKED; i++)
        if (held >> i & 1) {
            t.mask = (s->mask & ~((uint64_t)1 << i)) | bit;
            t.units = part;
            put(after, t);
        }
    t.mask = s->mask | bit;
    t.units = (ways - block_count(held)) * part + (held == 0 ? rest : 0);
    put(after, t);
    t.exact = 0;
    t.mask = 0;
    t.units = held == 0 ? 0 : rest;
    put(after, t);
}

/* ---- Folds and joins ---- */

/* "an open state shares no blocks" */
static unsigned shared(const struct best_state *a, const struct best_state *b)
{
    return a->exact && b->exact ? block_count(a->mask & b->mask) : 0;
}

/* "Folding chooses as in 01, with misses nearest and then hits nearest" */
static bool is_closer(const struct best_state *s, const struct best_state *t, const struct best_state *u)
{
    if (shared(s, t) != shared(s, u))
        return shared(s, t) > shared(s, u);
    if (apart(s->misses, t->misses) != apart(s->misses, u->misses))
        return apart(s->misses, t->misses) < apart(s->misses, u->misses);
    return apart(s->hits, t->hits) < apart(s->hits, u->hits);
}

/* "A fold makes an open state with the smaller of each count." */
static void fold(struct table *table, uint32_t limit)
{
    while (table->count > limit) {
        size_t fewest = 0, partner = 0;
        bool found = false;
        struct best_state s, t;
        for (size_t i = 1; i < table->count; i++)
            if (table->states[i].units < table->states[fewest].units)
                fewest = i;
        s = table->states[fewest];
        take_out(table, fewest);
        for (size_t i = 0; i < table->count; i++)
            if (!found || is_closer(&s, &table->states[i], &table->states[partner])) {
                partner = i;
                found = true;
            }
        t = table->states[partner];
        take_out(table, partner);
        put(table, (struct best_state){ 0, 0, smaller(s.misses, t.misses), smaller(s.hits, t.hits), s.units + t.units });
    }
}

/* "A join pairs units as before: equal contents stay exact, others become open, and each takes the smaller counts." */
static void join(struct table *out, const struct node_table *a, const struct node_table *b)
{
    size_t i = 0, j = 0;
    uint64_t left = a->states[0].units, right = b->states[0].units;
    out->count = 0;
    while (i < a->count && j < b->count) {
        const struct best_state *s = &a->states[i], *t = &b->states[j];
        uint64_t units = smaller(left, right);
        bool same = s->exact && t->exact && s->mask == t->mask;
        put(out, (struct best_state){ same, same ? s->mask : 0, smaller(s->misses, t->misses), smaller(s->hits, t->hits), units });
        left -= units;
        right -= units;
        if (left == 0 && ++i < a->count)
            left = a->states[i].units;
        if (right == 0 && ++j < b->count)
            right = b->states[j].units;
    }
}

static void keep(struct node_table *node, const struct table *table)
{
    memcpy(node->states, table->states, table->count * sizeof table->states[0]);
    node->count = table->count;
}

static void give(struct table *table, const struct node_table *node)
{
    memcpy(table->states, node->states, node->count * sizeof table->states[0]);
    table->count = node->count;
}

/* ---- The graph ---- */

static int place_of(const struct best_input *in, uint32_t block)
{
    for (size_t i = 0; i < in->tracked_count; i++)
        if (in->tracked[i] == block)
            return (int)i;
    return -1;
}

static void run(struct node_table *node, const struct best_input *in, const uint32_t *accesses, size_t count)
{
    static struct table now, after;
    give(&now, node);
    for (size_t k = 0; k < count; k++) {
        uint64_t mates = 0;
        for (size_t i = 0; i < in->tracked_count; i++)
            if (in->tracked[i] % in->sets == accesses[k] % in->sets)
                mates |= (uint64_t)1 << i;
        after.count = 0;
        for (size_t i = 0; i < now.count; i++)
            follow(&after, &now.states[i], (uint64_t)1 << place_of(in, accesses[k]), mates, in->ways);
        fold(&after, in->limit);
        now = after;
    }
    keep(node, &now);
}

static bool edges_kept(const struct best_input *in)
{
    const uint32_t *e = in->edges;
    if (in->edge_numbers % 2 != 0)
        return false;
    for (size_t i = 0; i < in->edge_numbers; i += 2) {
        if (e[i] >= e[i + 1] || e[i + 1] >= in->nodes)
            return false;
        if (i > 0 && !(e[i - 1] < e[i + 1] || (e[i - 1] == e[i + 1] && e[i - 2] < e[i])))
            return false;
    }
    for (size_t j = 0; j < in->nodes; j++) {
        bool comes = j == 0, leaves = j + 1 == in->nodes;
        for (size_t i = 0; i < in->edge_numbers; i += 2) {
            comes = comes || e[i + 1] == j;
            leaves = leaves || e[i] == j;
        }
        if (!comes || !leaves)
            return false;
    }
    return true;
}

/* "Refusals: 17, an accessed block that is not tracked, after 5; 18, revision 2, directly after 11." */
static int refusal(const struct best_input *in, size_t result_states, size_t work_states)
{
    uint64_t sum = 0;
    if (in->ways < 1 || in->ways > MOST_WAYS)
        return 1;
    if (in->sets != 1 && in->sets != 2 && in->sets != 4 && in->sets != 8 && in->sets != 16)
        return 10;
    if (in->revision < 1 || in->revision > 2)
        return 11;
    if (in->revision == 2)
        return 18;
    if (in->limit < 1 || in->limit > MOST_STATES)
        return 2;
    if (in->tracked_count > MOST_TRACKED)
        return 3;
    for (size_t i = 0; i < in->tracked_count; i++)
        for (size_t j = 0; j < i; j++)
            if (in->tracked[i] == in->tracked[j])
                return 3;
    if (in->access_count > MOST_ACCESSES)
        return 4;
    if (in->nodes < 1 || in->nodes > MOST_NODES)
        return 5;
    for (size_t j = 0; j < in->nodes; j++)
        sum += in->runs[j];
    if (sum != in->access_count || !edges_kept(in))
        return 5;
    for (size_t k = 0; k < in->access_count; k++)
        if (place_of(in, in->accesses[k]) < 0)
            return 17;
    if (result_states < in->limit || work_states < WORKING_STATES)
        return 6;
    return 0;
}

int best_graph(const struct best_input *in, size_t result_states, size_t work_states, struct best_state *table, size_t *states)
{
    static struct node_table nodes[MOST_NODES];
    static struct table joined;
    const uint32_t *accesses = in->accesses;
    int refused = refusal(in, result_states, work_states);
    if (refused)
        return refused;
    for (size_t j = 0; j < in->nodes; j++) {
        struct node_table *node = &nodes[j];
        bool entered = false;
        for (size_t i = 0; i < in->edge_numbers; i += 2)
            if (in->edges[i + 1] == j) {
                if (entered) {
                    join(&joined, node, &nodes[in->edges[i]]);
                    fold(&joined, in->limit);
                    keep(node, &joined);
                } else
                    *node = nodes[in->edges[i]];
                entered = true;
            }
        if (!entered) {
            node->count = 1;
            node->states[0] = (struct best_state){ 1, 0, 0, 0, WHOLE };
        }
        run(node, in, accesses, in->runs[j]);
        accesses += in->runs[j];
    }
    *states = nodes[in->nodes - 1].count;
    memset(table, 0, result_states * sizeof *table);
    memcpy(table, nodes[in->nodes - 1].states, *states * sizeof *table);
    return 0;
}

/* ---- The spreads ---- */

/* "read from a row as in section 4, hits at most 4,096, open masks 0" */
bool best_is_table(const struct best_state *row, size_t states)
{
    uint64_t left = WHOLE;
    if (states < 1 || states > MOST_STATES)
        return false;
    for (size_t i = 0; i < states; i++) {
        const struct best_state *s = &row[i];
        if (i > 0 && compare(&row[i - 1], s) >= 0)
            return false;
        if (s->mask > MOST_MASK || (!s->exact && s->mask != 0))
            return false;
        if (s->misses > MOST_ACCESSES || s->hits > MOST_ACCESSES || s->units < 1 || s->units > left)
            return false;
        left -= s->units;
    }
    return left == 0;
}

int best_spread(const struct best_state *row, size_t states, bool of_hits, uint64_t *room, size_t length, uint64_t *largest)
{
    uint64_t most = 0;
    if (!best_is_table(row, states))
        return 7;
    for (size_t i = 0; i < states; i++) {
        uint64_t count = of_hits ? row[i].hits : row[i].misses;
        most = count > most ? count : most;
    }
    if (length < most + 1)
        return 8;
    memset(room, 0, length * sizeof *room);
    for (size_t i = 0; i < states; i++)
        room[of_hits ? row[i].hits : row[i].misses] += row[i].units;
    *largest = most;
    return 0;
}
