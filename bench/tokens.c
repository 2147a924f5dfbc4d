/* Makers of listings. Every maker draws from the generator it is given and from nothing else. */
#include "tokens.h"

#include <string.h>

#define MOST_DEEP 8

/* Tokens are not added beyond this many, so that what is open can still be closed. */
#define ENOUGH_TOKENS 2000

static void add(struct token_list *tokens, uint32_t token)
{
    if (tokens->count < TOKENS_ROOM)
        tokens->list[tokens->count++] = token;
}

/* Room that is just enough, or somewhat more. */
static void make_rooms(struct generator *from, struct token_list *tokens)
{
    bool more = draw_below(from, 2) == 0;
    tokens->runs_room = 64 + (more ? draw_below(from, 8) : 0);
    tokens->accesses_room = 4096 + (more ? draw_below(from, 8) : 0);
    tokens->edge_numbers_room = 4032 + (more ? draw_below(from, 8) : 0);
}

/* Most counts are small, so that an expansion is not often too large. */
static uint32_t draw_count(struct generator *from)
{
    return draw_below(from, 8) == 0 ? 1 + draw_below(from, 64) : 1 + draw_below(from, 4);
}

static uint32_t draw_block(struct generator *from)
{
    return draw_below(from, 4) == 0 ? (uint32_t)draw(from) : draw_below(from, 8);
}

/* Up to so many items, of which more are accesses the deeper they stand. */
static void add_items(struct generator *from, struct token_list *tokens, unsigned depth, uint32_t most)
{
    uint32_t items = draw_below(from, most + 1);
    for (uint32_t i = 0; i < items; i++) {
        uint32_t kind = depth == MOST_DEEP || tokens->count > ENOUGH_TOKENS ? 0 : draw_below(from, 4 + depth);
        if (kind == 1 || kind == 2) {
            add(tokens, kind == 1 ? 2 : 5);
            if (kind == 2)
                add(tokens, draw_count(from));
            add_items(from, tokens, depth + 1, most);
            if (kind == 1) {
                add(tokens, 3);
                add_items(from, tokens, depth + 1, most);
            }
            add(tokens, kind == 1 ? 4 : 6);
        } else {
            add(tokens, 1);
            add(tokens, draw_block(from));
        }
    }
}

void make_listing(struct generator *from, struct token_list *tokens)
{
    tokens->count = 0;
    make_rooms(from, tokens);
    add_items(from, tokens, 0, 1 + draw_below(from, 5));
}

/* So many branches of nothing in a row. */
static void add_branches(struct token_list *tokens, uint32_t many)
{
    for (uint32_t i = 0; i < many; i++) {
        add(tokens, 2);
        add(tokens, 3);
        add(tokens, 4);
    }
}

/* Loops in each other, each run so often, around nothing or an access. */
static void add_loops(struct token_list *tokens, uint32_t deep, uint32_t rounds, bool access)
{
    for (uint32_t i = 0; i < deep; i++) {
        add(tokens, 5);
        add(tokens, rounds);
    }
    if (access) {
        add(tokens, 1);
        add(tokens, 7);
    }
    for (uint32_t i = 0; i < deep; i++)
        add(tokens, 6);
}

/* 64 nodes, or more; 4,096 accesses, or more; eight in each other, or nine; as many rounds of nothing as there can be. Something random may stand before it. */
void make_border_listing(struct generator *from, struct token_list *tokens)
{
    tokens->count = 0;
    make_rooms(from, tokens);
    if (draw_below(from, 4) == 0)
        add_items(from, tokens, 0, 1);
    switch (draw_below(from, 6)) {
    case 0:
        add_branches(tokens, 20 + draw_below(from, 3));
        break;
    case 1:
        add_loops(tokens, 2, 64, true);
        for (uint32_t i = draw_below(from, 2); i > 0; i--)
            add_loops(tokens, 1, 1, true);
        break;
    case 2:
        add_loops(tokens, 8 + draw_below(from, 2), 1, true);
        break;
    case 3:
        add_loops(tokens, 8, 64, draw_below(from, 4) == 0);
        break;
    case 4:
        add_loops(tokens, 1, draw_below(from, 2) * 64 + draw_below(from, 2), true);
        break;
    default:
        break;
    }
}

static void remove_token(struct token_list *tokens, size_t place)
{
    memmove(tokens->list + place, tokens->list + place + 1, (tokens->count - place - 1) * sizeof *tokens->list);
    tokens->count--;
}

void damage_listing(struct generator *from, struct token_list *tokens)
{
    size_t place = draw_below(from, (uint32_t)tokens->count + 1);
    switch (draw_below(from, 6)) {
    case 0:
        tokens->runs_room = draw_below(from, 65);
        break;
    case 1:
        tokens->accesses_room = 4096 - draw_below(from, 2);
        tokens->edge_numbers_room = 4032 - draw_below(from, 2);
        break;
    case 2:
        if (place < tokens->count)
            remove_token(tokens, place);
        break;
    case 3:
        add(tokens, draw_below(from, 8));
        break;
    default:
        if (place < tokens->count)
            tokens->list[place] = draw_below(from, 8) == 0 ? (uint32_t)draw(from) : draw_below(from, 8);
        break;
    }
}
