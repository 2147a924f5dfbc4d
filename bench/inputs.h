/* Inputs for comparing and measuring: a seeded generator, and makers of random, damaged, border and heavy inputs. The same seed gives the
 * same inputs everywhere. */
#ifndef INPUTS_H
#define INPUTS_H

#include <stdbool.h>
#include <stddef.h>
#include <stdint.h>

#include "plain.h"

/* Room for the largest accepted input and somewhat more, so that damaged ones fit. */
#define INPUT_TRACKED_ROOM 20
#define INPUT_NODES_ROOM 68
#define INPUT_ACCESSES_ROOM 4100
#define INPUT_EDGES_ROOM 4100
#define INPUT_RESULT_ROOM 400
#define INPUT_WORK_ROOM 26000
#define INPUT_ROW_ROOM 68

/* Room for more numbers and more bytes than a text may have. */
#define INPUT_NUMBERS_ROOM 16400
#define INPUT_TEXT_ROOM 70000

/* A generator of random numbers (splitmix64). */
struct generator {
    uint64_t state;
};

/* Everything the graph call takes; the rooms are how many words are lent. */
struct input {
    uint32_t sets, ways, revision, start, limit;
    size_t tracked_count, nodes, access_count, edge_numbers, result_words, work_words;
    uint32_t tracked[INPUT_TRACKED_ROOM];
    uint32_t runs[INPUT_NODES_ROOM];
    uint32_t accesses[INPUT_ACCESSES_ROOM];
    uint32_t edges[INPUT_EDGES_ROOM];
};

/* A row of states as it is put to the questions: `words` is how much of it is lent, a fifth as many states. */
struct row {
    size_t states, words;
    struct plain_state list[INPUT_ROW_ROOM];
};

/* The numbers of a text. */
struct number_list {
    size_t count;
    uint32_t list[INPUT_NUMBERS_ROOM];
};

/* A text for the curve. */
struct text {
    size_t bytes;
    unsigned char list[INPUT_TEXT_ROOM];
};

struct generator generator_of(uint64_t seed, uint64_t number);
uint64_t draw(struct generator *from);
uint32_t draw_below(struct generator *from, uint32_t bound);

/* Graph inputs: a random one, which is legal; one on the border of what is accepted; and damage to one, which sometimes leaves it
 * legal. */
void make_random_input(struct generator *from, struct input *input);
void make_border_input(struct generator *from, struct input *input);
void damage_input(struct generator *from, struct input *input);

/* Rows: a random table, and damage to a row. */
void make_row(struct generator *from, struct row *row);
void damage_row(struct generator *from, struct row *row);

/* Texts: the numbers of an input, numbers on the border of how many there may be, damage to numbers, numbers as text with random gaps,
 * and damage to a text. */
void numbers_of_input(const struct input *input, struct number_list *numbers);
void make_border_numbers(struct generator *from, struct number_list *numbers);
void damage_numbers(struct generator *from, struct number_list *numbers);
void text_of_numbers(struct generator *from, const struct number_list *numbers, struct text *text);
void damage_text(struct generator *from, struct text *text);

/* The heavy inputs by number from 0; those from HEAVY_INPUTS on are for growth, with rising numbers of accesses. Gives the name, or NULL
 * past the last. */
#define HEAVY_INPUTS 13
#define GROWTH_INPUTS 4
const char *make_heavy_input(size_t which, struct input *input);

#endif
