/* Makers of inputs. Every maker draws from the generator it is given and from nothing else. */
#include "inputs.h"

#include <inttypes.h>
#include <stdio.h>
#include <string.h>

#define WHOLE PLAIN_WHOLE
#define MOST_POOL 24
#define WORDS PLAIN_STATE_WORDS
#define ENOUGH_RESULT (WORDS * 64)
#define ENOUGH_WORK (WORDS * 5184)

/* ---- The generator ---- */

uint64_t draw(struct generator *from)
{
    from->state += 0x9e3779b97f4a7c15u;
    uint64_t mixed = from->state;
    mixed = (mixed ^ (mixed >> 30)) * 0xbf58476d1ce4e5b9u;
    mixed = (mixed ^ (mixed >> 27)) * 0x94d049bb133111ebu;
    return mixed ^ (mixed >> 31);
}

uint32_t draw_below(struct generator *from, uint32_t bound)
{
    return (uint32_t)((draw(from) >> 32) * bound >> 32);
}

/* The generator of one numbered case: neighbouring numbers have nothing in common. */
struct generator generator_of(uint64_t seed, uint64_t number)
{
    struct generator of_seed = {seed};
    struct generator made = {draw(&of_seed) ^ (number * 0xd1342543de82ef95u)};
    made.state = draw(&made);
    return made;
}

static uint32_t draw_between(struct generator *from, uint32_t least, uint32_t most)
{
    return least + draw_below(from, most - least + 1);
}

/* True once in so many times. */
static bool one_in(struct generator *from, uint32_t times)
{
    return draw_below(from, times) == 0;
}

static void shuffle(struct generator *from, uint32_t *list, size_t count)
{
    for (size_t i = count; i > 1; i--) {
        size_t j = draw_below(from, (uint32_t)i);
        uint32_t kept = list[i - 1];
        list[i - 1] = list[j];
        list[j] = kept;
    }
}

/* ---- Graph inputs ---- */

/* Different block numbers: small ones, around the largest, or spread over all 32 bits; in all sets, in some or in one. */
static void make_pool(struct generator *from, uint32_t *pool, size_t count)
{
    uint32_t step = one_in(from, 2) ? 1 : (uint32_t)draw(from) | 1;
    step <<= one_in(from, 2) ? 0 : draw_below(from, 5);
    uint32_t first = one_in(from, 2) ? 0 : one_in(from, 2) ? 4294967295u : (uint32_t)draw(from);
    for (size_t i = 0; i < count; i++)
        pool[i] = first + step * (uint32_t)i;
    shuffle(from, pool, count);
}

/* The tracked blocks are the first of a pool; the accesses are drawn from all of it, in every second input often the one before again. */
static void take_blocks(struct generator *from, struct input *input, const uint32_t *pool, size_t pool_count)
{
    bool again = one_in(from, 2);
    memcpy(input->tracked, pool, input->tracked_count * sizeof *pool);
    for (size_t i = 0; i < input->access_count; i++) {
        bool repeated = again && i > 0 && one_in(from, 3);
        input->accesses[i] = repeated ? input->accesses[i - 1] : pool[draw_below(from, (uint32_t)pool_count)];
    }
}

static void make_blocks(struct generator *from, struct input *input, size_t pool_count)
{
    uint32_t pool[MOST_POOL];
    make_pool(from, pool, pool_count);
    take_blocks(from, input, pool, pool_count);
}

/* Blocks of two sets, most of them of one; a few are tracked. */
static void make_blocks_in_two_sets(struct generator *from, struct input *input)
{
    uint32_t pool[MOST_POOL], one = draw_below(from, input->sets), two = (one + draw_between(from, 1, input->sets - 1)) % input->sets;
    uint32_t count = draw_between(from, 4, 7);
    for (uint32_t i = 0; i < count; i++)
        pool[i] = (i == 0 || one_in(from, 4) ? two : one) + input->sets * i;
    input->tracked_count = draw_between(from, 2, 4);
    take_blocks(from, input, pool, count);
}

/* Cuts the accesses into a run for each node, by random cuts in order; some runs are empty. */
static void make_runs(struct generator *from, struct input *input)
{
    memset(input->runs, 0, sizeof input->runs);
    uint32_t left = (uint32_t)input->access_count;
    for (size_t node = 0; node + 1 < input->nodes; node++) {
        uint32_t fair = 2 * left / (uint32_t)(input->nodes - node);
        uint32_t length = one_in(from, 4) ? 0 : draw_between(from, 0, fair);
        input->runs[node] = length > left ? left : length;
        left -= input->runs[node];
    }
    if (input->nodes > 0)
        input->runs[input->nodes - 1] = left;
}

static void add_edge(struct input *input, uint32_t from_node, uint32_t to_node)
{
    input->edges[input->edge_numbers] = from_node;
    input->edges[input->edge_numbers + 1] = to_node;
    input->edge_numbers += 2;
}

/* Lists the edges that are there, rising by to and then by from. */
static void list_edges(struct input *input, bool there[64][64])
{
    input->edge_numbers = 0;
    for (uint32_t to_node = 0; to_node < input->nodes; to_node++) {
        for (uint32_t from_node = 0; from_node < to_node; from_node++) {
            if (there[from_node][to_node])
                add_edge(input, from_node, to_node);
        }
    }
}

/* A legal graph: each possible edge once in so many times, then an edge in and an edge out wherever one is missing. */
static void make_edges(struct generator *from, struct input *input, uint32_t times)
{
    bool there[64][64] = {{false}}, has_out[64] = {false};
    uint32_t nodes = (uint32_t)input->nodes;
    for (uint32_t to_node = 1; to_node < nodes; to_node++) {
        there[draw_below(from, to_node)][to_node] = true;
        for (uint32_t from_node = 0; from_node < to_node; from_node++) {
            there[from_node][to_node] = there[from_node][to_node] || one_in(from, times);
            has_out[from_node] = has_out[from_node] || there[from_node][to_node];
        }
    }
    for (uint32_t from_node = 0; from_node + 1 < nodes; from_node++) {
        if (!has_out[from_node])
            there[from_node][draw_between(from, from_node + 1, nodes - 1)] = true;
    }
    list_edges(input, there);
}

/* Rooms that are enough, exactly or with some words over. */
static void make_rooms(struct generator *from, struct input *input)
{
    input->result_words = one_in(from, 2) ? ENOUGH_RESULT : WORDS * (size_t)input->limit + draw_below(from, 60);
    input->work_words = one_in(from, 2) ? ENOUGH_WORK : ENOUGH_WORK + draw_below(from, 40);
}

/* How many accesses: mostly a few, sometimes some hundred; a graph often has some for each node. */
static uint32_t draw_access_count(struct generator *from, uint32_t nodes)
{
    static const uint32_t most[8] = {6, 12, 12, 25, 25, 50, 100, 300};
    uint32_t for_each = nodes > 1 && one_in(from, 2) ? draw_between(from, 1, 4) : 0;
    return nodes * for_each + draw_between(from, 0, most[draw_below(from, 8)]);
}

/* Sets, ways and blocks of every kind. */
static void choose_any(struct generator *from, struct input *input)
{
    static const uint32_t most_ways[4] = {2, 4, 8, 16}, most_limit[4] = {3, 8, 24, 64};
    static const uint32_t most_nodes[8] = {1, 1, 3, 4, 6, 10, 20, 64};
    input->sets = one_in(from, 2) ? 1 : 2u << draw_below(from, 4);
    input->ways = draw_between(from, 1, most_ways[draw_below(from, 4)]);
    input->revision = draw_between(from, 1, 2);
    input->start = one_in(from, 3) ? PLAIN_WARM : PLAIN_COLD;
    input->limit = draw_between(from, 1, most_limit[draw_below(from, 4)]);
    input->nodes = draw_between(from, 1, most_nodes[draw_below(from, 8)]);
    input->access_count = draw_access_count(from, (uint32_t)input->nodes);
    size_t pool = draw_between(from, 1, one_in(from, 2) ? 6 : MOST_POOL);
    input->tracked_count = draw_between(from, 0, pool > 16 ? 16 : (uint32_t)pool);
    make_blocks(from, input, pool);
}

/* The second revision with few ways, which are soon filled and do not always divide units evenly. What a remainder, a fold or a join
 * forgets of a set is missed there later, so that states come to differ in filled numbers alone. */
static void choose_filling(struct generator *from, struct input *input)
{
    input->sets = 2u << draw_below(from, 4);
    input->ways = one_in(from, 4) ? draw_between(from, 2, 5) : 3;
    input->revision = 2;
    input->start = PLAIN_COLD;
    input->limit = draw_between(from, 8, 16);
    input->nodes = one_in(from, 4) ? draw_between(from, 2, 4) : 1;
    input->access_count = draw_between(from, 12, 40);
    make_blocks_in_two_sets(from, input);
}

void make_random_input(struct generator *from, struct input *input)
{
    if (one_in(from, 5))
        choose_filling(from, input);
    else
        choose_any(from, input);
    make_runs(from, input);
    make_edges(from, input, draw_between(from, 2, 40));
    make_rooms(from, input);
}

/* Inputs at the largest that is accepted, in one or several respects. Where there are many accesses the limit is low, so that they stay
 * quick. */
void make_border_input(struct generator *from, struct input *input)
{
    make_random_input(from, input);
    bool many_accesses = one_in(from, 4), many_nodes = one_in(from, 3), many_edges = one_in(from, 4);
    input->ways = one_in(from, 3) ? 1 : one_in(from, 2) ? 16 : input->ways;
    input->limit = many_accesses ? draw_between(from, 1, 4) : one_in(from, 2) ? 64 : 1;
    if (many_accesses)
        input->access_count = 4096;
    if (many_nodes || many_edges)
        input->nodes = 64;
    input->tracked_count = one_in(from, 2) ? 16 : 0;
    make_blocks(from, input, 16 + draw_below(from, 3));
    make_runs(from, input);
    make_edges(from, input, many_edges ? 1 : 20);
    input->result_words = WORDS * (size_t)input->limit;
    input->work_words = ENOUGH_WORK;
}

/* ---- Damage to graph inputs ---- */

static void damage_bounds(struct generator *from, struct input *input)
{
    static const uint32_t wrong_ways[4] = {0, 17, 4294967295u, 256}, wrong_limit[4] = {0, 65, 4294967295u, 256};
    static const uint32_t wrong_sets[8] = {0, 3, 6, 12, 15, 17, 32, 2147483648u}, wrong_revision[4] = {0, 3, 4294967295u, 257};
    uint32_t which = draw_below(from, 4);
    if (which == 0 || one_in(from, 4))
        input->ways = wrong_ways[draw_below(from, 4)];
    if (which == 1 || one_in(from, 4))
        input->limit = wrong_limit[draw_below(from, 4)];
    if (which == 2 || one_in(from, 4))
        input->sets = wrong_sets[draw_below(from, 8)];
    if (which == 3 || one_in(from, 4))
        input->revision = wrong_revision[draw_below(from, 4)];
}

/* A tracked block twice, or 17 different ones; sometimes 16, which is legal. */
static void damage_tracked(struct generator *from, struct input *input)
{
    if (one_in(from, 2) && input->tracked_count >= 2) {
        uint32_t count = (uint32_t)input->tracked_count, one = draw_below(from, count);
        input->tracked[one] = input->tracked[(one + draw_between(from, 1, count - 1)) % count];
        return;
    }
    input->tracked_count = draw_between(from, 16, 18);
    make_pool(from, input->tracked, input->tracked_count);
}

/* As many accesses as are accepted, or one or two more; the last run is made to fit, or not. */
static void damage_access_count(struct generator *from, struct input *input)
{
    size_t wanted = draw_between(from, 4095, 4098);
    bool fits = !one_in(from, 4);
    for (size_t i = input->access_count; i < wanted; i++)
        input->accesses[i] = input->tracked_count > 0 ? input->tracked[i % input->tracked_count] : (uint32_t)i;
    if (fits && input->nodes > 0)
        input->runs[input->nodes - 1] += (uint32_t)(wanted - input->access_count);
    input->access_count = wanted;
    if (input->limit > 4 && input->limit <= 64)
        input->limit = draw_between(from, 1, 4);
}

/* Run lengths that do not sum to the accesses, also such as would if 32 bits wrapped. */
static void damage_runs(struct generator *from, struct input *input)
{
    size_t one = draw_below(from, (uint32_t)input->nodes), two = draw_below(from, (uint32_t)input->nodes);
    switch (draw_below(from, 4)) {
    case 0:
        input->runs[one]++;
        break;
    case 1:
        input->runs[one]--;
        break;
    case 2:
        input->runs[one] ^= 0x80000000u;
        input->runs[two] ^= 0x80000000u;
        break;
    default:
        input->access_count = draw_below(from, (uint32_t)input->access_count + 1);
        break;
    }
}

/* No nodes, or a chain behind the last node up to 64 nodes, which is legal, or to 65, which is not. */
static void damage_nodes(struct generator *from, struct input *input)
{
    if (one_in(from, 4)) {
        input->nodes = 0;
        input->edge_numbers = 0;
        input->access_count = one_in(from, 2) ? 0 : input->access_count;
        return;
    }
    size_t wanted = draw_between(from, 64, 65);
    while (input->nodes < wanted) {
        add_edge(input, (uint32_t)input->nodes - 1, (uint32_t)input->nodes);
        input->runs[input->nodes++] = 0;
    }
}

static void drop_edge(struct input *input, size_t place)
{
    input->edge_numbers -= 2;
    memmove(input->edges + place, input->edges + place + 2, (input->edge_numbers - place) * sizeof *input->edges);
}

static void insert_edge(struct input *input, size_t place, uint32_t from_node, uint32_t to_node)
{
    memmove(input->edges + place + 2, input->edges + place, (input->edge_numbers - place) * sizeof *input->edges);
    input->edges[place] = from_node;
    input->edges[place + 1] = to_node;
    input->edge_numbers += 2;
}

static void swap_edges(struct input *input, size_t one, size_t two)
{
    uint32_t from_node = input->edges[one], to_node = input->edges[one + 1];
    input->edges[one] = input->edges[two];
    input->edges[one + 1] = input->edges[two + 1];
    input->edges[two] = from_node;
    input->edges[two + 1] = to_node;
}

/* Puts a random edge where it belongs, which is legal if it is new and rising. */
static void add_random_edge(struct generator *from, struct input *input)
{
    uint32_t nodes = (uint32_t)input->nodes, a = draw_below(from, nodes), b = draw_below(from, nodes);
    uint32_t from_node = a < b ? a : b, to_node = a < b ? b : a;
    size_t place = 0;
    while (place < input->edge_numbers
           && (input->edges[place + 1] < to_node || (input->edges[place + 1] == to_node && input->edges[place] < from_node)))
        place += 2;
    insert_edge(input, place, from_node, to_node);
}

/* Drops every edge into a node, or out of it; what is left is in order. */
static void isolate_node(struct generator *from, struct input *input)
{
    uint32_t node = draw_below(from, (uint32_t)input->nodes);
    size_t end = draw_below(from, 2), kept = 0;
    for (size_t i = 0; i < input->edge_numbers; i += 2) {
        if (input->edges[i + end] == node)
            continue;
        input->edges[kept] = input->edges[i];
        input->edges[kept + 1] = input->edges[i + 1];
        kept += 2;
    }
    input->edge_numbers = kept;
}

/* Damage to one edge of a list that has some; the last is drawn more often than others. */
static void damage_edge(struct generator *from, struct input *input)
{
    static const uint32_t past[4] = {0, 1, 64, 4294967295u};
    uint32_t edges = (uint32_t)input->edge_numbers / 2;
    size_t one = 2 * (size_t)(one_in(from, 4) ? edges - 1 : draw_below(from, edges)), two = 2 * (size_t)draw_below(from, edges);
    uint32_t *edge = input->edges + one;
    switch (draw_below(from, 9)) {
    case 0:
        swap_edges(input, one, two);
        break;
    case 1:
        drop_edge(input, one);
        break;
    case 2:
        insert_edge(input, one, edge[0], edge[1]);
        break;
    case 3:
        insert_edge(input, one, edge[1], edge[0]);
        break;
    case 4:
        edge[0] = one_in(from, 2) ? edge[1] : past[draw_below(from, 4)];
        break;
    case 5:
        edge[1] = one_in(from, 2) ? (uint32_t)input->nodes : past[draw_below(from, 4)];
        break;
    case 6:
        input->edge_numbers--;
        break;
    case 7:
        isolate_node(from, input);
        break;
    default:
        input->edge_numbers = 0;
        break;
    }
}

static void damage_edges(struct generator *from, struct input *input)
{
    if (input->edge_numbers > 0 && !one_in(from, 6)) {
        damage_edge(from, input);
    } else if (one_in(from, 3)) {
        input->edges[input->edge_numbers] = draw_below(from, 2);
        input->edge_numbers++;
    } else {
        add_random_edge(from, input);
    }
}

/* Rooms one word short, exactly enough, of no words or of any number. */
static void damage_rooms(struct generator *from, struct input *input)
{
    uint32_t needed = WORDS * (input->limit <= 64 ? input->limit : 64);
    switch (draw_below(from, 6)) {
    case 0:
        input->result_words = needed > 0 ? needed - 1 : 0;
        break;
    case 1:
        input->result_words = needed;
        break;
    case 2:
        input->result_words = draw_below(from, needed + 1);
        break;
    case 3:
        input->work_words = ENOUGH_WORK - 1;
        break;
    case 4:
        input->work_words = draw_below(from, ENOUGH_WORK);
        break;
    default:
        input->result_words = 0;
        input->work_words = 0;
        break;
    }
}

void damage_input(struct generator *from, struct input *input)
{
    uint32_t kind = draw_below(from, 10);
    bool odd = input->edge_numbers % 2 != 0;
    if (kind == 0)
        damage_bounds(from, input);
    else if (kind == 1)
        damage_tracked(from, input);
    else if (kind == 2)
        damage_access_count(from, input);
    else if (kind <= 4 && input->nodes > 0)
        damage_runs(from, input);
    else if (kind == 5 && input->nodes > 0 && !odd)
        damage_nodes(from, input);
    else if (kind <= 8 && input->nodes > 0 && !odd)
        damage_edges(from, input);
    else
        damage_rooms(from, input);
}

/* ---- Rows ---- */

static bool comes_before(const struct plain_state *a, const struct plain_state *b)
{
    const uint64_t numbers[4] = {a->mask, a->misses, a->filled[0], a->filled[1]};
    const uint64_t others[4] = {b->mask, b->misses, b->filled[0], b->filled[1]};
    for (size_t i = 0; i < 4; i++) {
        if (numbers[i] != others[i])
            return numbers[i] < others[i];
    }
    return false;
}

/* Filled numbers up to so many: the same in every set, or in some sets any number. */
static void fill_sets(struct generator *from, struct plain_state *state, uint32_t most)
{
    uint64_t same = draw_between(from, 0, most);
    bool any = one_in(from, 2);
    for (unsigned set = 0; set < 16; set++) {
        uint64_t number = any && one_in(from, 4) ? draw_between(from, 0, most) : same;
        state->filled[set / 8] |= number << (56 - 8 * (set % 8));
    }
}

/* Puts a state of 0 units where it belongs, unless there is an equal one. */
static void place_state(struct row *row, struct plain_state state)
{
    size_t place = 0;
    while (place < row->states && comes_before(&row->list[place], &state))
        place++;
    struct plain_state *at = &row->list[place];
    if (place < row->states && !comes_before(&state, at))
        return;
    memmove(at + 1, at, (row->states - place) * sizeof *at);
    *at = state;
    row->states++;
}

/* Deals WHOLE out over the states, at least one unit each: few or many to the early ones. */
static void deal_units(struct generator *from, struct row *row)
{
    uint64_t left = WHOLE - row->states;
    for (size_t i = 0; i + 1 < row->states; i++) {
        uint64_t most = one_in(from, 3) ? 10 : one_in(from, 2) ? left / 4 : WHOLE / row->states;
        uint64_t given = draw(from) % ((most < left ? most : left) + 1);
        row->list[i].units = 1 + given;
        left -= given;
    }
    row->list[row->states - 1].units = 1 + left;
}

void make_row(struct generator *from, struct row *row)
{
    static const uint32_t most_mask[3] = {3, 255, 65535}, most_misses[4] = {0, 5, 60, 4096}, most_filled[3] = {0, 4, 16};
    uint32_t masks = most_mask[draw_below(from, 3)], misses = most_misses[draw_below(from, 4)], filled = most_filled[draw_below(from, 3)];
    size_t wanted = one_in(from, 4) ? 64 : draw_between(from, 1, 64);
    memset(row, 0, sizeof *row);
    if (one_in(from, 4))
        place_state(row, (struct plain_state){.mask = 65535, .misses = 4096});
    for (int tries = 0; tries < 200 && row->states < wanted; tries++) {
        struct plain_state state = {.mask = draw_between(from, 0, masks), .misses = draw_between(from, 0, misses)};
        fill_sets(from, &state, filled);
        place_state(row, state);
    }
    deal_units(from, row);
    row->words = WORDS * row->states + draw_below(from, 8);
}

/* Splits a state into two that are equal. */
static void split_state(struct row *row, size_t place)
{
    struct plain_state *at = &row->list[place];
    memmove(at + 1, at, (row->states - place) * sizeof *at);
    row->states++;
    at[1].units = at->units / 2;
    at->units -= at[1].units;
}

/* Puts states behind the last until there are so many, mostly otherwise a table: their units are taken from the state that has most. */
static void lengthen_row(struct row *row, size_t wanted)
{
    size_t most = 0;
    for (size_t i = 1; i < row->states; i++)
        most = row->list[i].units > row->list[most].units ? i : most;
    for (; row->states < wanted; row->states++) {
        const struct plain_state *last = &row->list[row->states - 1];
        row->list[row->states] = (struct plain_state){.mask = 65535, .misses = last->mask == 65535 ? last->misses + 1 : 0, .units = 1};
        row->list[most].units--;
    }
}

/* Damage to the units of a row: of one state, or of two so that the total stays WHOLE or stays so only if it wraps. */
static void damage_units(struct generator *from, struct row *row)
{
    size_t one = draw_below(from, (uint32_t)row->states), two = (one + 1) % row->states;
    uint64_t half = (uint64_t)1 << 63;
    switch (draw_below(from, 6)) {
    case 0:
        row->list[one].units++;
        break;
    case 1:
        row->list[one].units--;
        break;
    case 2:
        row->list[two].units += row->list[one].units;
        row->list[one].units = 0;
        break;
    case 3:
        row->list[one].units += half;
        row->list[two].units += half;
        break;
    case 4:
        row->list[one].units += WHOLE + 1;
        row->list[two].units -= WHOLE + 1;
        break;
    default:
        row->list[one].units = draw(from);
        break;
    }
}

/* Damage to filled numbers: one too large or at the most, all of them any number, or those of two states exchanged. */
static void damage_filled(struct generator *from, struct row *row)
{
    static const uint64_t wrong[4] = {16, 17, 128, 255};
    struct plain_state *one = &row->list[draw_below(from, (uint32_t)row->states)];
    struct plain_state *two = &row->list[draw_below(from, (uint32_t)row->states)];
    size_t word = draw_below(from, 2), shift = 8 * draw_below(from, 8);
    uint64_t kept = one->filled[word];
    switch (draw_below(from, 4)) {
    case 0:
        one->filled[word] = draw(from);
        break;
    case 1:
        one->filled[word] = two->filled[word];
        two->filled[word] = kept;
        break;
    default:
        one->filled[word] = (kept & ~((uint64_t)255 << shift)) | wrong[draw_below(from, 4)] << shift;
        break;
    }
}

static void damage_place(struct generator *from, struct row *row)
{
    size_t one = draw_below(from, (uint32_t)row->states), two = draw_below(from, (uint32_t)row->states);
    struct plain_state kept = row->list[one];
    switch (draw_below(from, 6)) {
    case 0:
        row->list[one] = row->list[two];
        row->list[two] = kept;
        break;
    case 1:
        split_state(row, one);
        break;
    case 2:
        row->list[row->states - 1].mask = draw_between(from, 65534, 65537);
        break;
    case 3:
        row->list[row->states - 1].mask = draw(from);
        break;
    case 4:
        row->list[one].misses = draw_between(from, 4095, 4098);
        break;
    default:
        row->list[one].misses = draw(from);
        break;
    }
}

/* Damage to how many states there are said to be or to how many words are lent; the state beyond the last is made wrong or left zero. */
static void damage_length(struct generator *from, struct row *row)
{
    switch (draw_below(from, 6)) {
    case 0:
        row->states = 0;
        break;
    case 1:
        row->states--;
        break;
    case 2:
        row->states++;
        break;
    case 3:
        row->words = WORDS * row->states - draw_between(from, 1, WORDS);
        return;
    default:
        lengthen_row(row, draw_between(from, 64, 65));
        break;
    }
    row->words = WORDS * row->states + draw_below(from, WORDS);
}

void damage_row(struct generator *from, struct row *row)
{
    uint32_t kind = draw_below(from, 4);
    if (kind == 0)
        damage_units(from, row);
    else if (kind == 1)
        damage_place(from, row);
    else if (kind == 2)
        damage_length(from, row);
    else
        damage_filled(from, row);
    if (kind != 2)
        row->words = WORDS * row->states + draw_below(from, 8);
}

/* ---- Texts ---- */

static void add_number(struct number_list *numbers, uint32_t number)
{
    numbers->list[numbers->count++] = number;
}

static void add_numbers(struct number_list *numbers, const uint32_t *list, size_t count)
{
    memcpy(numbers->list + numbers->count, list, count * sizeof *list);
    numbers->count += count;
}

void numbers_of_input(const struct input *input, struct number_list *numbers)
{
    numbers->count = 0;
    add_number(numbers, input->ways);
    add_number(numbers, input->limit);
    add_number(numbers, (uint32_t)input->tracked_count);
    add_numbers(numbers, input->tracked, input->tracked_count);
    add_number(numbers, (uint32_t)input->nodes);
    add_numbers(numbers, input->runs, input->nodes);
    add_number(numbers, (uint32_t)input->access_count);
    add_numbers(numbers, input->accesses, input->access_count);
    add_number(numbers, (uint32_t)input->edge_numbers / 2);
    add_numbers(numbers, input->edges, input->edge_numbers);
}

/* 16,383 to 16,385 numbers that leave none over: too many of one list, so that they are refused even where there are not too many. */
void make_border_numbers(struct generator *from, struct number_list *numbers)
{
    uint32_t count = draw_between(from, 16383, 16385), which = draw_below(from, 3);
    numbers->count = 0;
    add_number(numbers, 2);
    add_number(numbers, 4);
    for (uint32_t list = 0; list < 4; list++) {
        uint32_t length = list == which ? count - 6 : 0;
        add_number(numbers, length);
        for (uint32_t i = 0; i < length; i++)
            add_number(numbers, i % 10);
    }
}

/* A number changed, dropped, put in or left over. */
void damage_numbers(struct generator *from, struct number_list *numbers)
{
    static const uint32_t others[6] = {0, 1, 17, 65, 4294967295u, 2147483648u};
    size_t place = draw_below(from, (uint32_t)numbers->count);
    uint32_t *at = numbers->list + place;
    switch (draw_below(from, 6)) {
    case 0:
        *at += one_in(from, 2) ? 1 : 4294967295u;
        break;
    case 1:
        *at = others[draw_below(from, 6)];
        break;
    case 2:
        numbers->count--;
        memmove(at, at + 1, (numbers->count - place) * sizeof *at);
        break;
    case 3:
        memmove(at + 1, at, (numbers->count - place) * sizeof *at);
        *at = others[draw_below(from, 6)];
        numbers->count++;
        break;
    case 4:
        add_number(numbers, draw_below(from, 3));
        break;
    default:
        numbers->count = place;
        break;
    }
}

static void add_byte(struct text *text, unsigned char byte)
{
    if (text->bytes < INPUT_TEXT_ROOM)
        text->list[text->bytes++] = byte;
}

static void add_gap(struct generator *from, struct text *text, uint32_t most)
{
    uint32_t length = one_in(from, 6) ? most : 1;
    for (uint32_t i = 0; i < length; i++)
        add_byte(text, one_in(from, 8) ? '\n' : ' ');
}

/* A number in decimal, sometimes with zeros before it up to ten digits. */
static void add_decimal(struct generator *from, struct text *text, uint32_t number)
{
    unsigned char digits[10];
    size_t count = 0, least = one_in(from, 30) ? draw_between(from, 1, 10) : 1;
    while (number > 0 || count < least) {
        digits[count++] = (unsigned char)('0' + number % 10);
        number /= 10;
    }
    while (count > 0)
        add_byte(text, digits[--count]);
}

void text_of_numbers(struct generator *from, const struct number_list *numbers, struct text *text)
{
    text->bytes = 0;
    if (one_in(from, 4))
        add_gap(from, text, 3);
    for (size_t i = 0; i < numbers->count; i++) {
        if (i > 0)
            add_gap(from, text, numbers->count > 6000 ? 1 : 3);
        add_decimal(from, text, numbers->list[i]);
    }
    if (one_in(from, 2))
        add_gap(from, text, 3);
}

static void insert_bytes(struct text *text, size_t place, const void *bytes, size_t count)
{
    if (text->bytes + count > INPUT_TEXT_ROOM)
        return;
    memmove(text->list + place + count, text->list + place, text->bytes - place);
    memcpy(text->list + place, bytes, count);
    text->bytes += count;
}

/* Any byte, mostly one that matters. */
static unsigned char draw_byte(struct generator *from)
{
    static const char likely[] = "0123456789 \n\t\r\v\f-+.,x/:";
    return one_in(from, 4) ? (unsigned char)draw_below(from, 256) : (unsigned char)likely[draw_below(from, sizeof likely - 1)];
}

/* Makes the number at this place larger by 2^32, so that it is too large and its low 32 bits are what they were. */
static void enlarge_number(struct text *text, size_t place)
{
    uint64_t value = 0;
    char digits[24];
    while (place > 0 && text->list[place - 1] > ' ')
        place--;
    size_t end = place;
    while (end < text->bytes && text->list[end] > ' ')
        value = 10 * value + (uint64_t)(text->list[end++] - '0');
    memmove(text->list + place, text->list + end, text->bytes - end);
    text->bytes -= end - place;
    int count = snprintf(digits, sizeof digits, "%" PRIu64, value + 4294967296u);
    insert_bytes(text, place, digits, (size_t)count);
}

/* Makes it as long as a text may be, or one byte shorter or longer, by gaps at the end. */
static void lengthen_text(struct generator *from, struct text *text)
{
    size_t wanted = draw_between(from, 65535, 65537);
    while (text->bytes < wanted)
        add_gap(from, text, 1);
}

void damage_text(struct generator *from, struct text *text)
{
    static const char *const pieces[8] = {
        "0000000000", "4294967295", " 4294967296 ", " 9999999999 ", " 42949672950 ", "\t", "\r\n", " - ",
    };
    const char *piece = pieces[draw_below(from, 8)];
    size_t place = text->bytes > 0 ? draw_below(from, (uint32_t)text->bytes) : 0;
    unsigned char byte = draw_byte(from);
    switch (draw_below(from, 8)) {
    case 0:
    case 1:
        if (text->bytes > 0)
            text->list[place] = byte;
        break;
    case 2:
        if (text->bytes > 0)
            memmove(text->list + place, text->list + place + 1, --text->bytes - place);
        break;
    case 3:
        insert_bytes(text, place, &byte, 1);
        break;
    case 4:
        insert_bytes(text, one_in(from, 2) ? text->bytes : place, piece, strlen(piece));
        break;
    case 5:
        text->bytes = one_in(from, 2) ? place : 0;
        break;
    case 6:
        enlarge_number(text, place);
        break;
    default:
        lengthen_text(from, text);
        break;
    }
}

/* ---- Heavy inputs ---- */

enum order { SHUFFLED, RANDOM, CYCLIC };

/* Accesses to the 16 tracked blocks: each permutation of them after another, drawn one by one, or round and round. */
static void order_accesses(struct generator *from, struct input *input, enum order order)
{
    uint32_t permutation[16];
    for (uint32_t i = 0; i < 16; i++)
        permutation[i] = i;
    for (size_t i = 0; i < input->access_count; i++) {
        if (order == SHUFFLED && i % 16 == 0)
            shuffle(from, permutation, 16);
        size_t place = order == SHUFFLED ? permutation[i % 16] : order == RANDOM ? draw_below(from, 16) : i % 16;
        input->accesses[i] = input->tracked[place];
    }
}

static void make_straight_run(struct input *input, enum order order, size_t accesses, uint32_t ways, uint32_t limit)
{
    struct generator from = generator_of(2, order);
    input->sets = 1;
    input->revision = 1;
    input->start = PLAIN_COLD;
    input->ways = ways;
    input->limit = limit;
    input->tracked_count = 16;
    for (uint32_t i = 0; i < 16; i++)
        input->tracked[i] = 1000 + 64 * i;
    input->access_count = accesses;
    order_accesses(&from, input, order);
    input->nodes = 1;
    input->runs[0] = (uint32_t)accesses;
    input->edge_numbers = 0;
    input->result_words = ENOUGH_RESULT;
    input->work_words = ENOUGH_WORK;
}

/* The random run in four sets of three ways, over which the tracked blocks are spread evenly, on the core of that revision. */
static void make_run_in_sets(struct input *input, uint32_t revision)
{
    make_straight_run(input, RANDOM, 4096, 3, 64);
    input->sets = 4;
    input->revision = revision;
    for (size_t i = 0; i < input->access_count; i++)
        input->accesses[i] = 1000 + (input->accesses[i] - 1000) / 64;
    for (uint32_t i = 0; i < 16; i++)
        input->tracked[i] = 1000 + i;
}

/* 64 nodes of 64 accesses; edges from every node to so many that follow it. */
static void make_wide_graph(struct input *input, uint32_t reach)
{
    make_straight_run(input, RANDOM, 4096, 16, 64);
    input->nodes = 64;
    for (uint32_t to_node = 0; to_node < 64; to_node++) {
        input->runs[to_node] = 64;
        for (uint32_t from_node = to_node < reach ? 0 : to_node - reach; from_node < to_node; from_node++)
            add_edge(input, from_node, to_node);
    }
}

/* A fan of 64 nodes: node 0 with so many accesses, 62 nodes that follow it with so many each, and a last one, without any, that joins them all. */
static void make_fan(struct input *input, size_t first, size_t each)
{
    input->access_count = first + 62 * each;
    input->nodes = 64;
    for (uint32_t node = 0; node < 64; node++)
        input->runs[node] = node == 0 ? (uint32_t)first : node == 63 ? 0 : (uint32_t)each;
    for (uint32_t node = 1; node < 63; node++)
        add_edge(input, 0, node);
    for (uint32_t node = 1; node < 63; node++)
        add_edge(input, node, 63);
}

/* All ties, and wide tables: in the second revision node 0 fills the cache with the tracked blocks, which is one state. From there each of 62 nodes accesses
 * four untracked blocks, which leaves up to 657 states before they are folded, many with as many units, misses and blocks as each other. */
static void make_ties(struct input *input)
{
    make_straight_run(input, CYCLIC, 16, 16, 64);
    input->revision = 2;
    make_fan(input, 16, 4);
    for (uint32_t i = 16; i < input->access_count; i++)
        input->accesses[i] = 5000 + i;
}

/* The widest tables: an access that leaves 1,088 states, as many as there is room for, in each of 62 nodes. Two sets of 16 ways in the second revision. While
 * no other tracked block is held, node 0 accesses the one of the odd set 250 times, each time after one to four untracked blocks, which may have evicted it: that
 * leaves 64 states that hold it alone, each with another number of misses. Then it fills the even set with the other 15 tracked blocks and an untracked
 * one, which evicts nothing. What follows is an untracked block of the even set: each state leaves one for each of the 15 blocks that it may lose, one that
 * loses none, and one for the remainder, which none is without. */
static void make_widest(struct input *input)
{
    struct generator from = generator_of(3, 2);
    size_t at = 0;
    make_straight_run(input, CYCLIC, 0, 16, 64);
    input->sets = 2;
    input->revision = 2;
    for (uint32_t i = 0; i < 16; i++)
        input->tracked[i] = i == 0 ? 1001 : 1000 + 2 * i;
    for (size_t round = 0; round < 250; round++) {
        uint32_t others = 1 + draw_below(&from, 4);
        for (uint32_t i = 0; i < others; i++)
            input->accesses[at++] = 2001 + 2 * (i % 2);
        input->accesses[at++] = input->tracked[0];
    }
    for (uint32_t i = 1; i < 16; i++)
        input->accesses[at++] = input->tracked[i];
    input->accesses[at++] = 3000;
    make_fan(input, at, 1);
    while (at < input->access_count)
        input->accesses[at++] = 3002;
}

const char *make_heavy_input(size_t which, struct input *input)
{
    static const char *const names[HEAVY_INPUTS + GROWTH_INPUTS] = {
        "shuffled", "random", "cyclic", "random-8-ways", "random-limit-8", "graph-two-edges", "graph-all-edges",
        "random-4-sets", "random-revision-2", "random-limit-1", "cyclic-2-ways", "graph-ties", "graph-widest",
        "random-512", "random-1024", "random-2048", "random-4096",
    };
    if (which >= HEAVY_INPUTS + GROWTH_INPUTS)
        return NULL;
    if (which < 3)
        make_straight_run(input, which == 0 ? SHUFFLED : which == 1 ? RANDOM : CYCLIC, 4096, 16, 64);
    else if (which == 3)
        make_straight_run(input, RANDOM, 4096, 8, 64);
    else if (which == 4)
        make_straight_run(input, RANDOM, 4096, 16, 8);
    else if (which < 7)
        make_wide_graph(input, which == 5 ? 2 : 63);
    else if (which < 9)
        make_run_in_sets(input, which == 7 ? 1 : 2);
    else if (which == 9)
        make_straight_run(input, RANDOM, 4096, 16, 1);
    else if (which == 10)
        make_straight_run(input, CYCLIC, 4096, 2, 64);
    else if (which == 11)
        make_ties(input);
    else if (which == 12)
        make_widest(input);
    else
        make_straight_run(input, RANDOM, (size_t)512 << (which - HEAVY_INPUTS), 16, 64);
    return names[which];
}
