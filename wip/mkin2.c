#include <stdio.h>
#include <stdlib.h>
#include "inputs.h"
int main(int c,char**v){ static struct input in; const char*n=make_heavy_input(atoi(v[1]),&in); if(in.sets!=1||in.revision!=1){ return 1; } fprintf(stderr,"%s ",n); printf("%u %u %zu",in.ways,in.limit,in.tracked_count); for(size_t i=0;i<in.tracked_count;i++) printf(" %u",in.tracked[i]); printf(" %u",in.nodes); for(size_t i=0;i<in.nodes;i++) printf(" %u",in.runs[i]); printf(" %zu",in.access_count); for(size_t i=0;i<in.access_count;i++) printf(" %u",in.accesses[i]); printf(" %zu",in.edge_numbers/2); for(size_t i=0;i<in.edge_numbers;i++) printf(" %u",in.edges[i]); printf("\n"); }
