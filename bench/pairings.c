/* Document 02, request 11/13, in plain C. The clause that a function follows stands above it. */
#include "plain.c"

#include "pairings.h"

/* "Accept it exactly when it has this form, every place exists and each state's units are used exactly." What is left of each state is counted down, so that no sum wraps. */
static bool is_accepted(const struct table *left, const struct node_table *right, const uint64_t *rows, uint64_t count)
{
    uint64_t left_units[MOST_STATES], right_units[MOST_STATES];
    for (size_t i = 0; i < left->count; i++)
        left_units[i] = left->states[i].units;
    for (size_t j = 0; j < right->count; j++)
        right_units[j] = right->states[j].units;
    for (uint64_t k = 0; k < count; k++) {
        uint64_t i = rows[3 * k], j = rows[3 * k + 1], units = rows[3 * k + 2];
        if (units == 0 || i >= left->count || j >= right->count || units > left_units[i] || units > right_units[j])
            return false;
        left_units[i] -= units;
        right_units[j] -= units;
    }
    for (size_t i = 0; i < left->count; i++)
        if (left_units[i] != 0)
            return false;
    for (size_t j = 0; j < right->count; j++)
        if (right_units[j] != 0)
            return false;
    return true;
}

/* "Pairs are added and folded as before." */
static void join_by(struct table *joined, const struct table *left, const struct node_table *right, const uint64_t *rows, uint64_t count)
{
    joined->count = 0;
    for (uint64_t k = 0; k < count; k++) {
        const struct plain_state pair = made_one(&left->states[rows[3 * k]], &right->states[rows[3 * k + 1]], rows[3 * k + 2]);
        put(joined, &pair);
    }
}

/* The entry for the next join: rows, and how many. */
struct entry {
    uint64_t count;
    const uint64_t *rows;
};

/* Where entries come from, one after the other. */
struct source {
    struct entry (*next)(struct source *source, const struct table *left, const struct node_table *right);
    const struct plain_entries *entries;
    size_t join, row;
    plain_planner *planner;
    void *from;
    uint64_t *counts, *rows;
};

/* "Where none is given, the walk of 01 stands." False where a pairing is not accepted. */
static bool join_next(struct source *source, struct table *joined, const struct table *left, const struct node_table *right)
{
    struct entry entry = source->next(source, left, right);
    if (entry.count == PLAIN_NO_PAIRING) {
        join(joined, left, right);
        return true;
    }
    if (!is_accepted(left, right, entry.rows, entry.count))
        return false;
    join_by(joined, left, right, entry.rows, entry.count);
    return true;
}

/* As enter_node, with entries. */
static bool enter_by(struct source *source, struct table *table, struct last *last, const struct plain_input *graph, const struct node_table *done, size_t node,
                     size_t *edge, uint64_t *aside)
{
    struct table joined;
    const struct node_table *lowest = &done[graph->edges[2 * *edge]];
    copy_states(table, lowest->states, lowest->count);
    *last = lowest->last;
    for (++*edge; *edge < graph->edge_numbers / 2 && graph->edges[2 * *edge + 1] == node; ++*edge) {
        const struct node_table *other = &done[graph->edges[2 * *edge]];
        if (!join_next(source, &joined, table, other))
            return false;
        fold(&joined, graph->limit, aside);
        copy_states(table, joined.states, joined.count);
        join_last(last, &other->last);
    }
    return true;
}

/* As work_nodes, with entries. */
static bool work_by(struct source *source, const struct plain_input *graph, struct table *table, uint64_t *aside)
{
    struct node_table done[MOST_NODES];
    uint64_t mates[MOST_SETS];
    struct last last = {false, 0};
    size_t edge = 0, first = 0;
    find_mates(graph, mates);
    for (size_t node = 0; node < graph->nodes; node++) {
        if (node == 0)
            start_table(table, graph);
        else if (!enter_by(source, table, &last, graph, done, node, &edge, aside))
            return false;
        work_run(table, &last, graph, mates, first, graph->runs[node], aside);
        first += graph->runs[node];
        done[node].count = table->count;
        memcpy(done[node].states, table->states, table->count * sizeof *table->states);
        done[node].last = last;
    }
    return true;
}

/* ---- The entries that are handed in ---- */

/* Every edge but the first into a node is a join. */
static size_t count_joins(const struct plain_input *graph)
{
    size_t joins = 0;
    for (size_t i = 2; i + 1 < graph->edge_numbers; i += 2)
        joins += graph->edges[i + 1] == graph->edges[i - 1];
    return joins;
}

/* "at most 1,088 rows", an entry for each join, and just the rows that the entries say. */
static bool in_form(const struct plain_input *graph, const struct plain_entries *entries)
{
    size_t rows = 0;
    if (entries->joins != count_joins(graph))
        return false;
    for (size_t i = 0; i < entries->joins; i++) {
        if (entries->counts[i] == PLAIN_NO_PAIRING)
            continue;
        if (entries->counts[i] > PLAIN_PAIRING_ROWS)
            return false;
        rows += entries->counts[i];
    }
    return entries->row_numbers == 3 * rows;
}

static struct entry handed_in(struct source *source, const struct table *left, const struct node_table *right)
{
    struct entry entry = {source->entries->counts[source->join++], source->entries->rows + source->row};
    (void)left;
    (void)right;
    if (entry.count != PLAIN_NO_PAIRING)
        source->row += 3 * entry.count;
    return entry;
}

int plain_graph_paired(const struct plain_input *graph, const struct plain_entries *entries, size_t result_words, size_t work_words, struct plain_state *table,
                       size_t *states, uint64_t *aside)
{
    struct source source = {.next = handed_in, .entries = entries};
    struct table finished;
    uint64_t counted = 0;
    int number = refusal(graph, result_words, work_words);
    if (number != 0)
        return number;
    if (!in_form(graph, entries) || !work_by(&source, graph, &finished, &counted))
        return 19;
    *aside = counted;
    *states = finished.count;
    memcpy(table, finished.states, finished.count * sizeof *table);
    memset(table + finished.count, 0, (result_words / STATE_WORDS - finished.count) * sizeof *table);
    return 0;
}

/* ---- Entries that are planned ---- */

static struct entry planned(struct source *source, const struct table *left, const struct node_table *right)
{
    struct plain_join join = {left->states, right->states, left->count, right->count};
    uint64_t *rows = source->rows + source->row;
    uint64_t count = source->planner(source->from, &join, rows);
    source->counts[source->join++] = count;
    if (count != PLAIN_NO_PAIRING)
        source->row += 3 * count;
    return (struct entry){count, rows};
}

size_t plain_plan(const struct plain_input *graph, plain_planner *planner, void *from, uint64_t *counts, uint64_t *rows, size_t *row_numbers)
{
    struct source source = {.next = planned, .planner = planner, .from = from, .counts = counts, .rows = rows};
    struct table finished;
    uint64_t aside = 0;
    size_t joins = count_joins(graph);
    work_by(&source, graph, &finished, &aside);
    while (source.join < joins)
        counts[source.join++] = PLAIN_NO_PAIRING;
    *row_numbers = source.row;
    return joins;
}
