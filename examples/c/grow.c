/* The paper's record built row by row through the proved library: a row that is wrong is refused and changes nothing, one is taken
 * back, and the last one, asked about first, closes the tableau. */
#include <stdio.h>

#include "paper.h"
#include "zorambi.h"

/* What is lent to every call: here with room for the seven nodes and fourteen members that will be held. */
static int32_t nodes[7 * 9], members[14], shown[1], waiting[1033];
static size_t held[2];

#define FORMULAS schema, COUNT(schema), COUNT(schema) / 4, proof, COUNT(proof), COUNT(proof) / 4, 4, 1
#define TABLEAU nodes, COUNT(nodes), members, COUNT(members), held, shown

static void print(const char *what, uint64_t packed) {
  unsigned answer = zorambi_answer(packed);
  const char *tableau = shown[0] ? "closed" : "open";
  if (answer == ZORAMBI_ACCEPTED)
    printf("%s: nodes %u, links %u, %s\n", what, zorambi_nodes(packed), zorambi_links(packed), tableau);
  else
    printf("%s: refused %u at %d, %s\n", what, answer, zorambi_place(packed), tableau);
}

/* up rule on with other to by, then the set. */
static void add(int32_t up, int32_t rule, int32_t on, int32_t with, int32_t other, int32_t to, int32_t by, size_t count,
                const int32_t *set) {
  const int32_t row[7] = {up, rule, on, with, other, to, by};
  print("add", zorambi_add(FORMULAS, TABLEAU, row, set, count, waiting));
}

/* The row that would close the tableau: asked about, then added as it waits. */
static void ask_and_commit(void) {
  const int32_t row[7] = {4, 6, 6, 8, -1, -1, 0}, set[2] = {6, 8};
  print("with it", zorambi_enquire(FORMULAS, TABLEAU, row, set, 2, waiting));
  print("commit", zorambi_commit(FORMULAS, TABLEAU, waiting));
  print("commit", zorambi_commit(FORMULAS, TABLEAU, waiting)); /* nothing waits */
}

int main(void) {
  print("begin", zorambi_begin(FORMULAS, TABLEAU, waiting));
  add(-1, 0, 4, -1, -1, -1, 0, 1, (const int32_t[]){4});
  add(0, 2, -1, -1, -1, -1, 0, 2, (const int32_t[]){2, 3});
  add(1, 7, 2, -1, -1, -1, 0, 2, (const int32_t[]){2, 3});
  add(1, 3, 3, 7, 8, -1, 0, 2, (const int32_t[]){2, 3});
  add(3, 4, 2, 5, 6, -1, 0, 3, (const int32_t[]){2, 7, 8});
  add(4, 8, -1, -1, -1, 1, 2, 2, (const int32_t[]){5, 7}); /* by 2: a bound */
  add(4, 8, -1, -1, -1, 1, 1, 2, (const int32_t[]){5, 7});
  print("back", zorambi_take_back(FORMULAS, TABLEAU, waiting));
  add(4, 8, -1, -1, -1, 1, 1, 2, (const int32_t[]){5, 7});
  ask_and_commit();
  add(4, 6, 6, 8, -1, -1, 0, 2, (const int32_t[]){6, 8}); /* no room */
  return 0;
}
