/* The paper's record, and its neighbour with node 5 linking by 2, through the proved check. */
#include <stdio.h>

#include "paper.h"
#include "zorambi.h"

/* up rule on with other to by, then the set's start among the members and its length. */
static int32_t node_rows[] = {
    -1, 0, 4, -1, -1, -1, 0, 0, 1,
    0, 2, -1, -1, -1, -1, 0, 1, 2,
    1, 7, 2, -1, -1, -1, 0, 3, 2,
    1, 3, 3, 7, 8, -1, 0, 5, 2,
    3, 4, 2, 5, 6, -1, 0, 7, 3,
    4, 8, -1, -1, -1, 1, 1, 10, 2,
    4, 6, 6, 8, -1, -1, 0, 12, 2,
};

static const int32_t members[] = {4, 2, 3, 2, 3, 2, 3, 2, 7, 8, 5, 7, 6, 8};

static uint64_t check(void) {
  return zorambi_check(schema, COUNT(schema), COUNT(schema) / 4, proof, COUNT(proof), COUNT(proof) / 4, 4, 1,
                       node_rows, COUNT(node_rows), COUNT(node_rows) / 9, members, COUNT(members), COUNT(members));
}

static void print(uint64_t packed) {
  unsigned answer = zorambi_answer(packed);
  if (answer == ZORAMBI_ACCEPTED) {
    unsigned nodes = zorambi_nodes(packed), links = zorambi_links(packed);
    printf("accepted: %u node%s, %u link%s\n", nodes, nodes == 1 ? "" : "s", links, links == 1 ? "" : "s");
  } else if (answer >= ZORAMBI_SET && answer <= ZORAMBI_CHILDREN && zorambi_place(packed) >= 0) {
    printf("refused: %u at node %d\n", answer, zorambi_place(packed));
  } else {
    printf("refused: %u\n", answer);
  }
}

int main(void) {
  print(check());
  node_rows[5 * 9 + 6] = 2; /* by */
  print(check());
  return 0;
}
