// reads cases, one line each: sets ways revision start K W, n tracked, n runs, n accesses, n edge numbers, result cells, working words (-1: as many as needed); prints number contents aside words : row
#include <stdio.h>
#include <stdlib.h>
#include <string.h>
#include "tight.h"
static uint32_t *list(size_t *n) { if (scanf("%zu", n) != 1) exit(0); uint32_t *l = malloc((*n + 1) * 4); for (size_t i = 0; i < *n; i++) if (scanf("%u", l + i) != 1) exit(2); return l; }
int main(void)
{
    struct tight_input in;
    while (scanf("%u %u %u %u %u %u", &in.sets, &in.ways, &in.revision, &in.start, &in.contents, &in.cells) == 6) {
        uint32_t *t = list(&in.tracked_count), *r = list(&in.nodes), *a = list(&in.access_count), *e = list(&in.edge_numbers);
        long rc, ww; if (scanf("%ld %ld", &rc, &ww) != 2) return 2;
        in.tracked = t; in.runs = r; in.accesses = a; in.edges = e;
        uint64_t words = tight_words(&in), aside = 77; size_t contents = 77; (void)contents;
        if (ww < 0) ww = words;
        uint64_t *row = malloc((rc + 1) * 8), *work = malloc((ww + 1) * 8);
        memset(row, 0xa5, (rc + 1) * 8); memset(work, 0xa5, (ww + 1) * 8);
        int n = tight_curve(&in, row, rc, work, ww, &aside);
        int bad = row[rc] != 0xa5a5a5a5a5a5a5a5u || work[ww] != 0xa5a5a5a5a5a5a5a5u;
        for (long i = 0; i < ww; i++) bad |= work[i] != (n ? 0xa5a5a5a5a5a5a5a5u : 0);
        for (long i = 0; i < rc && n; i++) bad |= row[i] != 0xa5a5a5a5a5a5a5a5u;
        for (long i = in.access_count + 1; i < rc && !n; i++) bad |= row[i] != 0;
        printf("%d %zu %lu %lu %d :", n, contents, aside, words, bad);
        if (!n) for (size_t i = 0; i <= in.access_count; i++) printf(" %lu", row[i]);
        printf("\n"); fflush(stdout);
        free(t); free(r); free(a); free(e); free(row); free(work);
    }
}
