/* producer FOLDER: writes the paper's record, schema.txt and proof.txt, into the folder, and checks it. */
#include <stdio.h>

#include "paper.h"
#include "zorambi.h"

static int32_t nodes[9 * 1024], members[8192];
static size_t node_count, member_count;

/* Adds a node: up rule on with other to by, then its set. */
static void node(const int32_t row[7], size_t length, const int32_t *set) {
  int32_t *to = nodes + 9 * node_count++;
  for (int k = 0; k < 7; k++) to[k] = row[k];
  to[7] = (int32_t)member_count;
  to[8] = (int32_t)length;
  for (size_t k = 0; k < length; k++) members[member_count++] = set[k];
}

#define ROW(...) (const int32_t[7]){__VA_ARGS__}
#define SET(...) sizeof((int32_t[]){__VA_ARGS__}) / sizeof(int32_t), (const int32_t[]){__VA_ARGS__}

/* Writes a text, if it was made, to a file in the folder. */
static int save(const char *folder, const char *name, uint64_t packed, const uint8_t *text) {
  char path[4096];
  FILE *file;
  int length = snprintf(path, sizeof path, "%s/%s", folder, name);
  if (zorambi_answer(packed) != 0 || length < 0 || (size_t)length >= sizeof path || !(file = fopen(path, "wb"))) return 0;
  size_t bytes = zorambi_bytes(packed);
  int is_written = fwrite(text, 1, bytes, file) == bytes;
  return fclose(file) == 0 && is_written;
}

int main(int argc, char **argv) {
  static uint8_t text[65536];
  if (argc != 2) return 2;
  node(ROW(-1, 0, 4, -1, -1, -1, 0), SET(4));      /* 0: and; its child has both parts */
  node(ROW(0, 2, -1, -1, -1, -1, 0), SET(2, 3));   /* 1: split; n = 1, or n from 2 up */
  node(ROW(1, 7, 2, -1, -1, -1, 0), SET(2, 3));    /* 2: void; at n = 1 there is no i from 2 to n */
  node(ROW(1, 3, 3, 7, 8, -1, 0), SET(2, 3));      /* 3: the big and unfolded, into rows 7 and 8 */
  node(ROW(3, 4, 2, 5, 6, -1, 0), SET(2, 7, 8));   /* 4: the big or unfolded, into row 5 or row 6 */
  node(ROW(4, 8, -1, -1, -1, 1, 1), SET(5, 7));    /* 5: a link to node 1, with n - 1 for n */
  node(ROW(4, 6, 6, 8, -1, -1, 0), SET(6, 8));     /* 6: clash of p_n and not p_n */
  uint64_t packed = zorambi_write_schema(schema, COUNT(schema), COUNT(schema) / 4, 4, 1, text, sizeof text);
  if (!save(argv[1], "schema.txt", packed, text)) return 2;
  packed = zorambi_write_proof(proof, COUNT(proof), COUNT(proof) / 4, nodes, 9 * node_count, node_count, members,
                               member_count, member_count, text, sizeof text);
  if (!save(argv[1], "proof.txt", packed, text)) return 2;
  packed = zorambi_check(schema, COUNT(schema), COUNT(schema) / 4, proof, COUNT(proof), COUNT(proof) / 4, 4, 1, nodes,
                         9 * node_count, node_count, members, member_count, member_count);
  printf("%u %d %u %u\n", zorambi_answer(packed), zorambi_place(packed), zorambi_nodes(packed), zorambi_links(packed));
  return zorambi_answer(packed) != 0;
}
