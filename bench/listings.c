/* Document 02, request 8/13, in plain C. The clause that a function follows stands above it. First the form is looked at, then the graph is written until it is
 * complete or too large. */
#include "listings.h"

#include <stdbool.h>

/* "Branches and loops together nest at most 8 deep." */
#define MOST_DEEP 8

/* "a count from 1 to 64" */
#define MOST_ROUNDS 64

/* "Tokens are numbers: 1 and a block is an access; 2, sequence, 3, sequence, 4 is a two-way branch; 5, a count .., sequence, 6 is a loop" */
enum token { ACCESS = 1, BRANCH = 2, OTHER_ARM = 3, BRANCH_END = 4, LOOP = 5, LOOP_END = 6 };

struct tokens {
    const uint32_t *list;
    size_t count;
};

/* ---- The form ---- */

static bool take_token(const struct tokens *tokens, size_t *at, uint32_t token)
{
    if (*at >= tokens->count || tokens->list[*at] != token)
        return false;
    ++*at;
    return true;
}

/* "A sequence holds items, and an item may hold sequences." The items from place `*at` on, so deep inside others, as long as they come. */
static bool pass_sequence(const struct tokens *tokens, size_t *at, unsigned depth)
{
    for (;;) {
        if (take_token(tokens, at, ACCESS)) {
            if (*at >= tokens->count)
                return false;
            ++*at;
        } else if (take_token(tokens, at, BRANCH)) {
            if (depth == MOST_DEEP || !pass_sequence(tokens, at, depth + 1) || !take_token(tokens, at, OTHER_ARM)
                || !pass_sequence(tokens, at, depth + 1) || !take_token(tokens, at, BRANCH_END))
                return false;
        } else if (take_token(tokens, at, LOOP)) {
            if (depth == MOST_DEEP || *at >= tokens->count || tokens->list[*at] < 1 || tokens->list[*at] > MOST_ROUNDS)
                return false;
            ++*at;
            if (!pass_sequence(tokens, at, depth + 1) || !take_token(tokens, at, LOOP_END))
                return false;
        } else {
            return true;
        }
    }
}

static bool has_form(const struct tokens *tokens)
{
    size_t at = 0;
    return pass_sequence(tokens, &at, 0) && at == tokens->count;
}

/* ---- The graph. A function that writes gives false where the graph is too large. ---- */

static uint32_t open_node(const struct plain_listed *graph)
{
    return (uint32_t)graph->nodes - 1;
}

/* "an access goes to the end of the open node's run" */
static bool add_access(struct plain_listed *graph, uint32_t block)
{
    if (graph->access_count == PLAIN_LISTING_ACCESSES)
        return false;
    graph->accesses[graph->access_count++] = block;
    graph->runs[open_node(graph)]++;
    return true;
}

/* An edge from a node to the one that is opened next. */
static void add_edge(struct plain_listed *graph, uint32_t from)
{
    uint32_t *edge = graph->edges + 2 * graph->edge_count++;
    edge[0] = from;
    edge[1] = (uint32_t)graph->nodes;
}

static bool add_node(struct plain_listed *graph)
{
    if (graph->nodes == PLAIN_LISTING_NODES)
        return false;
    graph->runs[graph->nodes++] = 0;
    return true;
}

static bool add_sequence(const struct tokens *tokens, size_t *at, struct plain_listed *graph);

/* "A branch opens a new node for each arm in turn, with an edge from the node that was open before, and then a new node with an edge from the node last open in each
 * arm." The place is behind the branch's first token. */
static bool add_branch(const struct tokens *tokens, size_t *at, struct plain_listed *graph)
{
    uint32_t before = open_node(graph), ends[2];
    for (int arm = 0; arm < 2; arm++) {
        add_edge(graph, before);
        if (!add_node(graph) || !add_sequence(tokens, at, graph))
            return false;
        ends[arm] = open_node(graph);
        ++*at;
    }
    add_edge(graph, ends[0]);
    add_edge(graph, ends[1]);
    return add_node(graph);
}

/* "a loop run exactly that often". A round that adds nothing adds nothing again. The place is at the count. */
static bool add_loop(const struct tokens *tokens, size_t *at, struct plain_listed *graph)
{
    uint32_t rounds = tokens->list[*at];
    size_t body = *at + 1, nodes = graph->nodes, accesses = graph->access_count;
    for (uint32_t round = 0; round < rounds; round++) {
        *at = body;
        if (!add_sequence(tokens, at, graph))
            return false;
        if (graph->nodes == nodes && graph->access_count == accesses)
            break;
    }
    ++*at;
    return true;
}

static bool add_sequence(const struct tokens *tokens, size_t *at, struct plain_listed *graph)
{
    for (;;) {
        bool fits = true;
        if (take_token(tokens, at, ACCESS))
            fits = add_access(graph, tokens->list[(*at)++]);
        else if (take_token(tokens, at, BRANCH))
            fits = add_branch(tokens, at, graph);
        else if (take_token(tokens, at, LOOP))
            fits = add_loop(tokens, at, graph);
        else
            return true;
        if (!fits)
            return false;
    }
}

/* "22, room for fewer than 64 run lengths, 4,096 accesses or 2,016 edges; 14, a listing that is not of this form; 15, an expansion beyond 64 nodes or 4,096 accesses" */
int plain_listing(const uint32_t *tokens, size_t count, size_t runs_room, size_t accesses_room, size_t edge_numbers_room,
                  struct plain_listed *graph)
{
    const struct tokens all = {tokens, count};
    size_t at = 0;
    if (runs_room < PLAIN_LISTING_NODES || accesses_room < PLAIN_LISTING_ACCESSES || edge_numbers_room < 2 * PLAIN_LISTING_EDGES)
        return 22;
    if (!has_form(&all))
        return 14;
    /* "Node 0 is open first" */
    graph->nodes = graph->access_count = graph->edge_count = 0;
    add_node(graph);
    return add_sequence(&all, &at, graph) ? 0 : 15;
}
