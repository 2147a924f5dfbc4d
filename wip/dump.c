
#include <stdio.h>
#include <string.h>
#include "inputs.h"
#include "plain.h"
FILE *dumpf;
int main(int c, char **v){ static struct input input; const char *name;
 for (size_t w=0; w<12; w++){ name=make_heavy_input(w,&input); char f[99]; sprintf(f,"%s.dump",name); dumpf=fopen(f,"wb");
  static struct plain_state table[64]; size_t st; uint64_t as;
  plain_graph(input.sets,input.ways,input.revision,input.start,input.limit,input.tracked,input.tracked_count,input.runs,input.nodes,input.accesses,input.access_count,input.edges,input.edge_numbers,5*64,5*5184,table,&st,&as);
  fclose(dumpf); printf("%s %zu\n",name,st);} }
