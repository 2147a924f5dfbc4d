/* Document 01 in plain C, with requests 1/13, 3/13, 4/13, 6/13 and 12/13 of document 02. The clause that a function follows stands above
 * it. */
#include "plain.h"

#include <inttypes.h>
#include <stdio.h>
#include <string.h>

#define WHOLE PLAIN_WHOLE
#define MOST_WAYS 16
#define MOST_SETS 16
#define MOST_STATES 64
#define MOST_TRACKED 16
#define MOST_NODES 64
#define MOST_ACCESSES 4096
#define MOST_MASK 65535
#define MOST_FILLED 16
#define STATE_WORDS PLAIN_STATE_WORDS
#define WORKING_STATES 5184

/* Section 7: the longest text, the most digits of a number. */
#define MOST_BYTES 65536
#define MOST_DIGITS 10

/* Section 3: "One access from K states gives at most 17xK before adding." */
#define MOST_SUCCESSORS (17 * MOST_STATES)

/* A table at work: states in order, with room for all successors of a full table. */
struct table {
    size_t count;
    struct plain_state states[MOST_SUCCESSORS];
};

/* 3/13: the block that was accessed directly before on every path that leads here, where that is known. */
struct last {
    bool known;
    uint32_t block;
};

/* What a node ends with: the table after the fold, and the last block. */
struct node_table {
    size_t count;
    struct plain_state states[MOST_STATES];
    struct last last;
};

/* ---- Tables in order ---- */

/* 6/13: "Table order is mask, misses, filled numbers, set 0 first." */
static bool is_before(const struct plain_state *a, const struct plain_state *b)
{
    if (a->mask != b->mask)
        return a->mask < b->mask;
    if (a->misses != b->misses)
        return a->misses < b->misses;
    return a->filled[0] != b->filled[0] ? a->filled[0] < b->filled[0] : a->filled[1] < b->filled[1];
}

/* 6/13: "States are added together only where all of these are equal". */
static bool are_alike(const struct plain_state *a, const struct plain_state *b)
{
    return a->mask == b->mask && a->misses == b->misses && a->filled[0] == b->filled[0] && a->filled[1] == b->filled[1];
}

/* The place of the first state of the table that is not before the given one. */
static size_t find_place(const struct table *table, const struct plain_state *state)
{
    size_t low = 0, high = table->count;
    while (low < high) {
        size_t middle = low + (high - low) / 2;
        if (is_before(&table->states[middle], state))
            low = middle + 1;
        else
            high = middle;
    }
    return low;
}

/* Section 3: equal states "are added together; states of 0 units vanish." */
static void put(struct table *table, const struct plain_state *state)
{
    if (state->units == 0)
        return;
    size_t place = find_place(table, state);
    struct plain_state *at = &table->states[place];
    if (place < table->count && are_alike(at, state)) {
        at->units += state->units;
        return;
    }
    memmove(at + 1, at, (table->count - place) * sizeof *at);
    *at = *state;
    table->count++;
}

/* Takes a state out of the table. */
static void take_out(struct table *table, size_t place)
{
    struct plain_state *at = &table->states[place];
    table->count--;
    memmove(at, at + 1, (table->count - place) * sizeof *at);
}

static void copy_states(struct table *to, const struct plain_state *states, size_t count)
{
    memcpy(to->states, states, count * sizeof *states);
    to->count = count;
}

/* Section 3: "The set-aside count over all nodes stops at WHOLE". No amount of units is above WHOLE. */
static void set_aside(uint64_t *aside, uint64_t units)
{
    *aside = units >= WHOLE - *aside ? WHOLE : *aside + units;
}

/* How many blocks a mask holds; it has at most 16 bits. */
static unsigned block_count(uint64_t mask)
{
    return (unsigned)__builtin_popcount((unsigned)mask);
}

/* ---- 6/13, filled numbers ---- */

/* Where the filled number of a set stands: in which word, and how far up. */
struct filled_place {
    size_t word;
    unsigned shift;
};

static struct filled_place place_of_set(uint32_t set)
{
    return (struct filled_place){set / 8, 56 - 8 * (set % 8)};
}

/* The larger of each two bytes, all of them below 128. */
static uint64_t larger_bytes(uint64_t a, uint64_t b)
{
    const uint64_t high = 0x8080808080808080u;
    uint64_t at_least = (((a | high) - b) & high) >> 7;
    uint64_t of_a = at_least * 255;
    return (a & of_a) | (b & ~of_a);
}

/* Section 3, the start: "one state: nothing held, 0 misses, WHOLE units". 6/13: "The number is 0 at the start"; "For the first revision the
 * numbers are all N"; "sets beyond the count have 0". 12/13: "For revision 2 this needs starting filled numbers of N". */
static void start_table(struct table *table, const struct plain_input *graph)
{
    uint64_t number = graph->revision == 2 && graph->start == PLAIN_COLD ? 0 : graph->ways;
    table->count = 1;
    table->states[0] = (struct plain_state){.units = WHOLE};
    for (uint32_t set = 0; set < graph->sets; set++) {
        struct filled_place place = place_of_set(set);
        table->states[0].filled[place.word] |= number << place.shift;
    }
}

/* What two states become in a fold or a join: "the shared blocks, the larger miss count"; 6/13: "the larger at a fold or join". */
static struct plain_state made_one(const struct plain_state *a, const struct plain_state *b, uint64_t units)
{
    return (struct plain_state){
        .mask = a->mask & b->mask,
        .misses = a->misses > b->misses ? a->misses : b->misses,
        .filled = {larger_bytes(a->filled[0], b->filled[0]), larger_bytes(a->filled[1], b->filled[1])},
        .units = units,
    };
}

/* ---- Section 3, the fold ---- */

/* "take the state of fewest units (the earliest in table order if tied)" */
static size_t find_fewest(const struct table *table)
{
    size_t found = 0;
    uint64_t fewest = table->states[0].units;
    for (size_t i = 1; i < table->count; i++) {
        if (table->states[i].units < fewest) {
            found = i;
            fewest = table->states[i].units;
        }
    }
    return found;
}

/* "Its partner is the other state that shares most blocks with it; if tied, the one nearest in misses; then the earliest." */
static size_t find_partner(const struct table *table, size_t one)
{
    const struct plain_state *state = &table->states[one];
    size_t found = table->count;
    unsigned most_shared = 0;
    uint64_t least_distance = 0;
    for (size_t i = 0; i < table->count; i++) {
        if (i == one)
            continue;
        const struct plain_state *other = &table->states[i];
        unsigned shared = block_count(state->mask & other->mask);
        uint64_t distance = state->misses > other->misses ? state->misses - other->misses : other->misses - state->misses;
        if (found == table->count || shared > most_shared || (shared == most_shared && distance < least_distance)) {
            found = i;
            most_shared = shared;
            least_distance = distance;
        }
    }
    return found;
}

/* "Both are replaced by one [...] The units of each of the two whose mask or misses changed are added to the set-aside count." 6/13: "a
 * state whose filled numbers alone change in a fold counts as changed". */
static void fold_once(struct table *table, uint64_t *aside)
{
    size_t one = find_fewest(table);
    size_t two = find_partner(table, one);
    const struct plain_state a = table->states[one], b = table->states[two];
    const struct plain_state folded = made_one(&a, &b, a.units + b.units);
    if (!are_alike(&a, &folded))
        set_aside(aside, a.units);
    if (!are_alike(&b, &folded))
        set_aside(aside, b.units);
    take_out(table, one > two ? one : two);
    take_out(table, one > two ? two : one);
    put(table, &folded);
}

/* "Fold, after each access and each join, only while more than K states remain" */
static void fold(struct table *table, size_t limit, uint64_t *aside)
{
    while (table->count > limit)
        fold_once(table, aside);
}

/* ---- Section 3, accesses ---- */

/* Section 2: "Looking up an accessed block finds its place in the list or finds it untracked". Gives the bit of that place, or 0. */
static uint64_t look_up(const struct plain_input *graph, uint32_t block)
{
    for (size_t i = 0; i < graph->tracked_count; i++) {
        if (graph->tracked[i] == block)
            return (uint64_t)1 << i;
    }
    return 0;
}

/* What an access is aimed at: the bit of its block, or 0; the bits of the tracked blocks of its set, which a miss can evict; and where that
 * set's filled number stands. */
struct target {
    uint64_t bit, mates;
    struct filled_place filled;
};

/* 1/13: "a block belongs to the set given by its number modulo the set count" */
static void find_mates(const struct plain_input *graph, uint64_t mates[MOST_SETS])
{
    memset(mates, 0, MOST_SETS * sizeof *mates);
    for (size_t i = 0; i < graph->tracked_count; i++)
        mates[graph->tracked[i] % graph->sets] |= (uint64_t)1 << i;
}

/* Counts a miss; gives the blocks that it can evict. 6/13: "one more at each miss up to N [...] While it is below N the miss evicts
 * nothing, sets nothing aside, and moves all units to contents with the accessed block." */
static uint64_t count_miss(struct plain_state *state, struct target to, uint32_t ways)
{
    uint64_t number = state->filled[to.filled.word] >> to.filled.shift & 255;
    state->misses++;
    if (number >= ways)
        return state->mask & to.mates;
    state->filled[to.filled.word] += (uint64_t)1 << to.filled.shift;
    return 0;
}

/* "Access to block b, from a state holding set C, with m misses and w units". 1/13: "q units go to the loss of each held block of that set,
 * and (N - held blocks of that set)xq to losing none. The remainder goes where it did." 4/13: "When a missing state holds no known block
 * (of the accessed set), all ways lead to one successor. The remainder then goes there and is not added to the set-aside count." 6/13:
 * "Remainders keep the miss's filled numbers." */
static void step_from(struct table *next, const struct plain_state *from, struct target to, uint32_t ways, uint64_t *aside)
{
    if ((from->mask & to.bit) != 0) {
        put(next, from);
        return;
    }
    struct plain_state miss = *from;
    uint64_t at_risk = count_miss(&miss, to, ways);
    miss.mask = from->mask | to.bit;
    if (at_risk == 0) {
        put(next, &miss);
        return;
    }
    uint64_t share = from->units / ways;
    uint64_t rest = from->units - share * ways;
    miss.units = (ways - block_count(at_risk)) * share;
    put(next, &miss);
    miss.units = share;
    for (unsigned i = 0; i < MOST_TRACKED; i++) {
        uint64_t evicted = (uint64_t)1 << i;
        if ((at_risk & evicted) != 0) {
            miss.mask = (from->mask & ~evicted) | to.bit;
            put(next, &miss);
        }
    }
    miss.mask = to.bit;
    miss.units = rest;
    put(next, &miss);
    set_aside(aside, rest);
}

/* One access from a whole table, and the fold after it. */
static void step(const struct table *table, struct table *next, struct target to, const struct plain_input *graph, uint64_t *aside)
{
    next->count = 0;
    for (size_t i = 0; i < table->count; i++)
        step_from(next, &table->states[i], to, graph->ways, aside);
    fold(next, graph->limit, aside);
}

/* 3/13: "An access to the untracked block that was accessed directly before on the path is a hit and changes nothing." The bit of an
 * untracked block is 0. */
static bool is_repeated(const struct last *last, uint64_t bit, uint32_t block)
{
    return bit == 0 && last->known && last->block == block;
}

/* Section 2: "Each node's run is a stretch of the one access list". 3/13: "An empty run passes the last block on". */
static void work_run(struct table *table, struct last *last, const struct plain_input *graph, const uint64_t *mates, size_t first,
                     size_t length, uint64_t *aside)
{
    struct table next;
    for (size_t i = first; i < first + length; i++) {
        uint32_t block = graph->accesses[i], set = block % graph->sets;
        struct target to = {look_up(graph, block), mates[set], place_of_set(set)};
        if (is_repeated(last, to.bit, block))
            continue;
        step(table, &next, to, graph, aside);
        copy_states(table, next.states, next.count);
        *last = (struct last){true, block};
    }
}

/* ---- Section 3, joins and nodes ---- */

/* "Walk both tables from the front; pair as many units as the smaller remaining amount allows; a pair gives the shared blocks and the
 * larger misses." Both total WHOLE, so they end together. */
static void join(struct table *joined, const struct table *left, const struct node_table *right)
{
    size_t i = 0, j = 0;
    uint64_t left_units = left->states[0].units, right_units = right->states[0].units;
    joined->count = 0;
    while (i < left->count && j < right->count) {
        const struct plain_state *a = &left->states[i], *b = &right->states[j];
        uint64_t paired = left_units < right_units ? left_units : right_units;
        const struct plain_state pair = made_one(a, b, paired);
        put(joined, &pair);
        left_units -= paired;
        right_units -= paired;
        if (left_units == 0 && ++i < left->count)
            left_units = left->states[i].units;
        if (right_units == 0 && ++j < right->count)
            right_units = right->states[j].units;
    }
}

/* 3/13: "at a join it is known only where all predecessors agree" */
static void join_last(struct last *last, const struct last *other)
{
    last->known = last->known && other->known && last->block == other->block;
}

/* "start from the lowest predecessor's table and join the others in rising order, one table at a time; each is a join of its own, folded
 * before the next." The edges of a node stand together, beginning with number `edge`; gives the number of the first after them. */
static size_t enter_node(struct table *table, struct last *last, const struct plain_input *graph, const struct node_table *done,
                         size_t node, size_t edge, uint64_t *aside)
{
    struct table joined;
    const struct node_table *lowest = &done[graph->edges[2 * edge]];
    copy_states(table, lowest->states, lowest->count);
    *last = lowest->last;
    for (edge++; edge < graph->edge_numbers / 2 && graph->edges[2 * edge + 1] == node; edge++) {
        const struct node_table *other = &done[graph->edges[2 * edge]];
        join(&joined, table, other);
        fold(&joined, graph->limit, aside);
        copy_states(table, joined.states, joined.count);
        join_last(last, &other->last);
    }
    return edge;
}

/* "Each node is worked once." The table of the last is the finished one. */
static void work_nodes(const struct plain_input *graph, struct table *table, uint64_t *aside)
{
    struct node_table done[MOST_NODES];
    uint64_t mates[MOST_SETS];
    struct last last = {false, 0}; /* 12/13: "Before the first access no last block is known." */
    size_t edge = 0, first = 0;
    find_mates(graph, mates);
    for (size_t node = 0; node < graph->nodes; node++) {
        if (node == 0)
            start_table(table, graph);
        else
            edge = enter_node(table, &last, graph, done, node, edge, aside);
        work_run(table, &last, graph, mates, first, graph->runs[node], aside);
        first += graph->runs[node];
        done[node].count = table->count;
        memcpy(done[node].states, table->states, table->count * sizeof *table->states);
        done[node].last = last;
    }
}

/* ---- Section 5, refusals of the graph call ---- */

/* Refusal 3: "more than 16 tracked blocks, or one listed twice" */
static bool tracked_accepted(const struct plain_input *graph)
{
    if (graph->tracked_count > MOST_TRACKED)
        return false;
    for (size_t i = 0; i < graph->tracked_count; i++) {
        for (size_t j = 0; j < i; j++) {
            if (graph->tracked[i] == graph->tracked[j])
                return false;
        }
    }
    return true;
}

/* Refusal 5: "run lengths not summing to the accesses". At most 64 lengths below 2^32 are summed. */
static bool runs_accepted(const struct plain_input *graph)
{
    uint64_t sum = 0;
    for (size_t i = 0; i < graph->nodes; i++)
        sum += graph->runs[i];
    return sum == graph->access_count;
}

/* Section 2: "from lower than to and to below the node count, listed strictly rising by to and then by from" */
static bool edges_in_order(const struct plain_input *graph)
{
    for (size_t i = 0; i < graph->edge_numbers; i += 2) {
        uint32_t from = graph->edges[i], to = graph->edges[i + 1];
        if (from >= to || to >= graph->nodes)
            return false;
        if (i == 0)
            continue;
        uint32_t from_before = graph->edges[i - 2], to_before = graph->edges[i - 1];
        if (to < to_before || (to == to_before && from <= from_before))
            return false;
    }
    return true;
}

/* Section 2: "Every node but 0 has an edge in; every node but the last has an edge out." */
static bool nodes_connected(const struct plain_input *graph)
{
    bool has_in[MOST_NODES] = {false}, has_out[MOST_NODES] = {false};
    for (size_t i = 0; i < graph->edge_numbers; i += 2) {
        has_out[graph->edges[i]] = true;
        has_in[graph->edges[i + 1]] = true;
    }
    for (size_t node = 0; node < graph->nodes; node++) {
        if (node != 0 && !has_in[node])
            return false;
        if (node + 1 != graph->nodes && !has_out[node])
            return false;
    }
    return true;
}

/* Refusal 5. Half an edge is an edge rule broken. */
static bool nodes_accepted(const struct plain_input *graph)
{
    if (graph->nodes < 1 || graph->nodes > MOST_NODES)
        return false;
    return runs_accepted(graph) && graph->edge_numbers % 2 == 0 && edges_in_order(graph) && nodes_connected(graph);
}

/* 1/13: "1, 2, 4, 8 or 16 sets" */
static bool sets_accepted(uint32_t sets)
{
    return sets == 1 || sets == 2 || sets == 4 || sets == 8 || sets == 16;
}

/* "Checked in this order; the first that applies is given." 1/13: "10, another set count, directly after 1". 6/13: "11, a revision other
 * than 1 or 2, after 10" */
static int refusal(const struct plain_input *graph, size_t result_words, size_t work_words)
{
    if (graph->ways < 1 || graph->ways > MOST_WAYS)
        return 1;
    if (!sets_accepted(graph->sets))
        return 10;
    if (graph->revision != 1 && graph->revision != 2)
        return 11;
    if (graph->limit < 1 || graph->limit > MOST_STATES)
        return 2;
    if (!tracked_accepted(graph))
        return 3;
    if (graph->access_count > MOST_ACCESSES)
        return 4;
    if (!nodes_accepted(graph))
        return 5;
    if (result_words / STATE_WORDS < graph->limit || work_words / STATE_WORDS < WORKING_STATES)
        return 6;
    return 0;
}

int plain_graph(uint32_t sets, uint32_t ways, uint32_t revision, uint32_t start, uint32_t limit,
                const uint32_t *tracked, size_t tracked_count,
                const uint32_t *runs, size_t nodes,
                const uint32_t *accesses, size_t access_count,
                const uint32_t *edges, size_t edge_numbers,
                size_t result_words, size_t work_words,
                struct plain_state *table, size_t *states, uint64_t *aside)
{
    const struct plain_input graph = {
        sets, ways, revision, start, limit, tracked, tracked_count, runs, nodes, accesses, access_count, edges, edge_numbers,
    };
    struct table finished;
    int number = refusal(&graph, result_words, work_words);
    if (number != 0)
        return number;
    *aside = 0;
    work_nodes(&graph, &finished, aside);
    *states = finished.count;
    memcpy(table, finished.states, finished.count * sizeof *table);
    memset(table + finished.count, 0, (result_words / STATE_WORDS - finished.count) * sizeof *table);
    return 0;
}

/* ---- Section 4, the questions ---- */

/* Whether every byte is at most 16: none reaches 128, also with 111 more in its low bits. */
static bool bytes_fit(uint64_t word)
{
    const uint64_t high = 0x8080808080808080u, more = (uint64_t)(127 - MOST_FILLED) * 0x0101010101010101u;
    return ((((word & ~high) + more) | word) & high) == 0;
}

/* "Accepted as a table: 1 to 64 states, rising as above, masks at most 65,535, misses at most 4,096, each state with at least 1 unit, and
 * a true total (not one that wrapped) of exactly WHOLE." The total is kept at WHOLE or below, so it cannot wrap. 6/13: "A table handed in
 * may have filled numbers up to 16." */
bool plain_is_table(const struct plain_state *row, size_t states)
{
    uint64_t total = 0;
    if (states < 1 || states > MOST_STATES)
        return false;
    for (size_t i = 0; i < states; i++) {
        if (row[i].mask > MOST_MASK || row[i].misses > MOST_ACCESSES)
            return false;
        if (!bytes_fit(row[i].filled[0]) || !bytes_fit(row[i].filled[1]))
            return false;
        if (row[i].units < 1 || row[i].units > WHOLE - total)
            return false;
        if (i > 0 && !is_before(&row[i - 1], &row[i]))
            return false;
        total += row[i].units;
    }
    return total == WHOLE;
}

/* "the units above a budget (misses strictly greater)" */
static uint64_t units_above(const struct plain_state *row, size_t states, uint64_t budget)
{
    uint64_t units = 0;
    for (size_t i = 0; i < states; i++) {
        if (row[i].misses > budget)
            units += row[i].units;
    }
    return units;
}

static uint64_t largest_misses(const struct plain_state *row, size_t states)
{
    uint64_t largest = 0;
    for (size_t i = 0; i < states; i++) {
        if (row[i].misses > largest)
            largest = row[i].misses;
    }
    return largest;
}

int plain_above(const struct plain_state *row, size_t states, uint64_t budget, uint64_t *units)
{
    if (!plain_is_table(row, states))
        return 7;
    *units = units_above(row, states, budget);
    return 0;
}

/* "The last always exists": at the largest miss count there are 0 units above. */
int plain_smallest_budget(const struct plain_state *row, size_t states, uint64_t allowance, uint64_t *budget)
{
    uint64_t tried = 0;
    if (!plain_is_table(row, states))
        return 7;
    while (units_above(row, states, tried) > allowance)
        tried++;
    *budget = tried;
    return 0;
}

/* "the spread (units at each miss count from 0 to the largest present)" */
int plain_spread(const struct plain_state *row, size_t states, uint64_t *counts, size_t room, uint64_t *largest)
{
    if (!plain_is_table(row, states))
        return 7;
    uint64_t last = largest_misses(row, states);
    if (room < last + 1)
        return 8;
    memset(counts, 0, room * sizeof *counts);
    for (size_t i = 0; i < states; i++)
        counts[row[i].misses] += row[i].units;
    *largest = last;
    return 0;
}

/* ---- Section 7, the curve program ---- */

static bool is_gap(unsigned char byte)
{
    return byte == ' ' || byte == '\n';
}

static bool is_digit(unsigned char byte)
{
    return byte >= '0' && byte <= '9';
}

/* "decimal numbers of 1 to 10 digits, each at most 4294967295", from `at` on. Gives how many digits it has, or 0 if it is malformed; ten
 * digits cannot wrap 64 bits. What ends it is a gap or the end of the text. */
static size_t read_number(const unsigned char *text, size_t bytes, size_t at, uint32_t *number)
{
    uint64_t value = 0;
    size_t digits = 0;
    while (at + digits < bytes && is_digit(text[at + digits])) {
        if (digits == MOST_DIGITS)
            return 0;
        value = 10 * value + (uint64_t)(text[at + digits] - '0');
        digits++;
    }
    if (at + digits < bytes && !is_gap(text[at + digits]))
        return 0;
    if (value > UINT32_MAX)
        return 0;
    *number = (uint32_t)value;
    return digits;
}

/* "at most 65,536 bytes and 16,384 decimal numbers [...] separated by one or more spaces or newlines, which may also lead and trail" */
static bool read_numbers(const unsigned char *text, size_t bytes, struct plain_numbers *numbers)
{
    size_t at = 0;
    numbers->count = 0;
    numbers->taken = 0;
    if (bytes > MOST_BYTES)
        return false;
    while (at < bytes) {
        if (is_gap(text[at])) {
            at++;
            continue;
        }
        if (numbers->count == PLAIN_NUMBERS)
            return false;
        size_t digits = read_number(text, bytes, at, &numbers->list[numbers->count]);
        if (digits == 0)
            return false;
        numbers->count++;
        at += digits;
    }
    return true;
}

static bool take_number(struct plain_numbers *numbers, uint32_t *number)
{
    if (numbers->taken == numbers->count)
        return false;
    *number = numbers->list[numbers->taken++];
    return true;
}

/* A count, and then as many groups of `each` numbers as it says. */
static bool take_list(struct plain_numbers *numbers, size_t each, const uint32_t **list, size_t *length)
{
    uint32_t count;
    if (!take_number(numbers, &count))
        return false;
    uint64_t wanted = (uint64_t)count * each;
    if (wanted > numbers->count - numbers->taken)
        return false;
    *list = numbers->list + numbers->taken;
    *length = (size_t)wanted;
    numbers->taken += *length;
    return true;
}

/* "ways, K, tracked count, tracked blocks, node count, run lengths, access count, accesses, edge count, edges. Anything else, a missing
 * number or one left over gives 9." 1/13: "the curve program keeps one" set. 6/13: it "stays on the first revision", in which
 * both starts are the same. */
static bool take_graph(struct plain_numbers *numbers, struct plain_input *graph)
{
    graph->sets = 1;
    graph->revision = 1;
    graph->start = PLAIN_COLD;
    return take_number(numbers, &graph->ways)
        && take_number(numbers, &graph->limit)
        && take_list(numbers, 1, &graph->tracked, &graph->tracked_count)
        && take_list(numbers, 1, &graph->runs, &graph->nodes)
        && take_list(numbers, 1, &graph->accesses, &graph->access_count)
        && take_list(numbers, 2, &graph->edges, &graph->edge_numbers)
        && numbers->taken == numbers->count;
}

bool plain_read(const unsigned char *text, size_t bytes, struct plain_numbers *numbers, struct plain_input *graph)
{
    return read_numbers(text, bytes, numbers) && take_graph(numbers, graph);
}

/* Puts a line behind what has been written; gives the new length. */
static size_t add_line(unsigned char *output, size_t length, const char *line)
{
    size_t bytes = strlen(line);
    memcpy(output + length, line, bytes);
    return length + bytes;
}

/* "A refusal prints one line: `refused`, a space and the number." */
static size_t write_refusal(unsigned char *output, int number)
{
    char line[32];
    snprintf(line, sizeof line, "refused %d\n", number);
    return add_line(output, 0, line);
}

/* "a line with the number of states and the set-aside count, then for each miss count from 0 to the largest: misses, units there, units
 * above" */
static size_t write_curve(unsigned char *output, const struct plain_state *row, size_t states, uint64_t aside)
{
    uint64_t counts[MOST_ACCESSES + 1], largest;
    char line[80];
    int number = plain_spread(row, states, counts, MOST_ACCESSES + 1, &largest);
    if (number != 0)
        return write_refusal(output, number);
    snprintf(line, sizeof line, "states %zu aside %" PRIu64 "\n", states, aside);
    size_t length = add_line(output, 0, line);
    for (uint64_t misses = 0; misses <= largest; misses++) {
        uint64_t above = units_above(row, states, misses);
        snprintf(line, sizeof line, "%" PRIu64 " %" PRIu64 " %" PRIu64 "\n", misses, counts[misses], above);
        length = add_line(output, length, line);
    }
    return length;
}

size_t plain_curve(const unsigned char *text, size_t bytes, unsigned char *output)
{
    struct plain_numbers numbers;
    struct plain_input graph;
    struct plain_state row[MOST_STATES];
    size_t states;
    uint64_t aside;
    if (!plain_read(text, bytes, &numbers, &graph))
        return write_refusal(output, 9);
    int number = plain_graph(graph.sets, graph.ways, graph.revision, graph.start, graph.limit, graph.tracked, graph.tracked_count,
                             graph.runs, graph.nodes, graph.accesses, graph.access_count, graph.edges, graph.edge_numbers,
                             MOST_STATES * STATE_WORDS, WORKING_STATES * STATE_WORDS, row, &states, &aside);
    if (number != 0)
        return write_refusal(output, number);
    return write_curve(output, row, states, aside);
}
