/* Document 02, request 8/13, in plain C: a listing expanded into a graph. */
#ifndef LISTINGS_H
#define LISTINGS_H

#include <stddef.h>
#include <stdint.h>

#define PLAIN_LISTING_NODES 64
#define PLAIN_LISTING_ACCESSES 4096
#define PLAIN_LISTING_EDGES 2016

/* A graph as document 01 takes it: run lengths, all accesses, edges of two numbers each. */
struct plain_listed {
    size_t nodes, access_count, edge_count;
    uint32_t runs[PLAIN_LISTING_NODES];
    uint32_t accesses[PLAIN_LISTING_ACCESSES];
    uint32_t edges[2 * PLAIN_LISTING_EDGES];
};

/* The graph of the tokens, with room for so many run lengths, accesses and numbers of edges. Gives 0, or the first of 22, 14 and 15 that applies; the graph then
 * says nothing. */
int plain_listing(const uint32_t *tokens, size_t count, size_t runs_room, size_t accesses_room, size_t edge_numbers_room,
                  struct plain_listed *graph);

#endif
