/* Listings for comparing: random ones, on the border of what is accepted, and damaged. */
#ifndef TOKENS_H
#define TOKENS_H

#include "inputs.h"

#define TOKENS_ROOM 4096

/* The tokens of a listing, and how many run lengths, accesses and numbers of edges there is room for. */
struct token_list {
    size_t count, runs_room, accesses_room, edge_numbers_room;
    uint32_t list[TOKENS_ROOM];
};

/* A random listing, which is of the form; one on the border; and damage to one, its tokens or its rooms, which sometimes leaves it as good. */
void make_listing(struct generator *from, struct token_list *tokens);
void make_border_listing(struct generator *from, struct token_list *tokens);
void damage_listing(struct generator *from, struct token_list *tokens);

#endif
