// isl's dataflow analysis of one program, as a peer of `compaan deps`.
//
// Standard input has lines: all writes, the order, and then one line for each read, each a union map as isl reads it. For each read the
// map from its points to the last writers and the set of its points that have none are printed. It is built against isl's library alone,
// whose functions are declared here as its headers have them: cc -O2 -o flow flow.c -l:libisl.so.23
#include <stdio.h>
#include <stdlib.h>
#include <string.h>

typedef struct isl_ctx isl_ctx;
typedef struct isl_union_map isl_union_map;
typedef struct isl_union_access_info isl_union_access_info;
typedef struct isl_union_flow isl_union_flow;

isl_ctx *isl_ctx_alloc(void);
isl_union_map *isl_union_map_read_from_str(isl_ctx *, const char *);
isl_union_map *isl_union_map_copy(isl_union_map *);
isl_union_map *isl_union_map_free(isl_union_map *);
char *isl_union_map_to_str(isl_union_map *);
isl_union_access_info *isl_union_access_info_from_sink(isl_union_map *);
isl_union_access_info *isl_union_access_info_set_must_source(isl_union_access_info *, isl_union_map *);
isl_union_access_info *isl_union_access_info_set_schedule_map(isl_union_access_info *, isl_union_map *);
isl_union_flow *isl_union_access_info_compute_flow(isl_union_access_info *);
isl_union_map *isl_union_flow_get_must_dependence(isl_union_flow *);
isl_union_map *isl_union_flow_get_must_no_source(isl_union_flow *);
isl_union_flow *isl_union_flow_free(isl_union_flow *);

static char *line;
static size_t room;

static isl_union_map *next_map(isl_ctx *context) {
  if (getline(&line, &room, stdin) < 0) return NULL;
  return isl_union_map_read_from_str(context, line);
}

static void print(isl_union_map *map) {
  char *text = isl_union_map_to_str(map);
  if (!text || puts(text) < 0) exit(1);
  free(text);
  isl_union_map_free(map);
}

int main(void) {
  isl_ctx *context = isl_ctx_alloc();
  isl_union_map *writes = next_map(context), *order = next_map(context), *read;
  if (!writes || !order) return 1;
  while ((read = next_map(context))) {
    isl_union_access_info *info = isl_union_access_info_from_sink(read);
    info = isl_union_access_info_set_must_source(info, isl_union_map_copy(writes));
    info = isl_union_access_info_set_schedule_map(info, isl_union_map_copy(order));
    isl_union_flow *flow = isl_union_access_info_compute_flow(info);
    if (!flow) return 1;
    print(isl_union_flow_get_must_dependence(flow));
    print(isl_union_flow_get_must_no_source(flow));
    isl_union_flow_free(flow);
  }
  return 0;
}
