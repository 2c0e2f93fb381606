/* How much stack each entry takes: it is called on a stack whose bytes are known, and what it wrote over is counted. The inputs are the
 * records in the folders that are named, and formulas of the full depth, in which the library goes down the furthest. With --print
 * the most that each entry took is printed; --deep K writes the texts of one of these formulas, K from 0 to 3, to the folder where it is
 * run, for the programs. */
#include <pthread.h>
#include <stdio.h>
#include <stdlib.h>
#include <string.h>
#include <sys/mman.h>

#include "zorambi.h"

#define SPACE (1 << 20)
#define UNTOUCHED 0xa5

static unsigned char *space;
static size_t taken;
static void (*call)(void);

/* A record, its texts and its tables, and room for results. */
static uint8_t schema_text[65537], proof_text[65537], text_out[65536];
static size_t schema_bytes, proof_bytes;
static int32_t schema[4096], proof[4096], nodes[9216], members[8192], pairs[8192];
static int32_t of_schema[3], of_proof[3], results[6], more[4][9216];
static size_t held[2], span[2];
static int32_t shown[1], waiting[1033];
/* The node that is added, and its set. */
static int32_t row[7], *set;
static size_t set_len;

#define SCHEMA schema, 4096, (size_t)of_schema[2]
#define TABLES SCHEMA, proof, 4096, (size_t)of_proof[0], of_schema[0], of_schema[1]
#define RECORD TABLES, nodes, 9216, (size_t)of_proof[1], members, 8192, (size_t)of_proof[2]
#define ROOM more[0], 9216, more[1], 8192, held, shown

static void nothing(void) {}
static void check(void) { zorambi_check(RECORD); }
static void check_older(void) { zorambi_check_older(RECORD); }
static void check_model(void) { zorambi_check_model(SCHEMA, of_schema[0], of_schema[1], of_schema[1] + 2, pairs, 8192, 0); }
static void read_schema(void) { zorambi_read_schema(schema_text, schema_bytes, more[0], 4096, results); }
static void read_proof(void) { zorambi_read_proof(proof_text, proof_bytes, more[0], 4096, more[1], 9216, more[2], 8192, results); }
static void read_model(void) { zorambi_read_model(proof_text, proof_bytes, more[0], 8192, results); }
static void write_schema(void) { zorambi_write_schema(SCHEMA, of_schema[0], of_schema[1], text_out, 65536); }
static void write_proof(void) {
  zorambi_write_proof(proof, 4096, (size_t)of_proof[0], nodes, 9216, (size_t)of_proof[1], members, 8192, (size_t)of_proof[2],
                      text_out, 65536);
}
static void write_model(void) { zorambi_write_model(3, pairs, 8192, 4096, text_out, 65536); }
static void line(void) { zorambi_line(proof_text, proof_bytes, 3, span); }
static void check_texts(void) { zorambi_check_texts(schema_text, schema_bytes, proof_text, proof_bytes); }
static void check_older_texts(void) { zorambi_check_older_texts(schema_text, schema_bytes, proof_text, proof_bytes); }
static void check_model_texts(void) { zorambi_check_model_texts(schema_text, schema_bytes, proof_text, proof_bytes); }
static void find_model(void) { zorambi_find_model(SCHEMA, of_schema[0], of_schema[1], of_schema[1] + 2, more[0], 8192, results); }
static void convert(void) { zorambi_convert(SCHEMA, of_schema[0], of_schema[1], more[0], 4096, results); }
static void next_small(void) { zorambi_next_small(schema, 12, 3, more[0], 12); }
static void tidy(void) { zorambi_tidy(RECORD, more[0], 4096, more[1], 9216, more[2], 8192, results); }
static void join(void) { zorambi_join(RECORD, RECORD, more[0], 4096, more[1], 4096, more[2], 9216, more[3], 8192, results); }
static void begin(void) { zorambi_begin(TABLES, ROOM, waiting); }
static void add(void) { zorambi_add(TABLES, ROOM, row, set, set_len, waiting); }
static void take_back(void) { zorambi_take_back(TABLES, ROOM, waiting); }
static void enquire(void) { zorambi_enquire(TABLES, ROOM, row, set, set_len, waiting); }
static void commit(void) { zorambi_commit(TABLES, ROOM, waiting); }

/* The entries, with what the header says of each. */
static struct {
  const char *name;
  void (*call)(void);
  size_t most, allowed;
} entries[] = {
#define ENTRY(name, allowed) {#name, name, 0, allowed}
    ENTRY(check, ZORAMBI_STACK_CHECK), ENTRY(check_older, ZORAMBI_STACK_CHECK), ENTRY(check_model, ZORAMBI_STACK_CHECK),
    ENTRY(read_schema, ZORAMBI_STACK_CHECK), ENTRY(read_proof, ZORAMBI_STACK_CHECK), ENTRY(read_model, ZORAMBI_STACK_CHECK),
    ENTRY(write_schema, ZORAMBI_STACK_CHECK), ENTRY(write_proof, ZORAMBI_STACK_CHECK), ENTRY(write_model, ZORAMBI_STACK_CHECK),
    ENTRY(line, ZORAMBI_STACK_CHECK), ENTRY(check_texts, ZORAMBI_STACK), ENTRY(check_older_texts, ZORAMBI_STACK),
    ENTRY(check_model_texts, ZORAMBI_STACK), ENTRY(find_model, ZORAMBI_STACK_GROW),
    ENTRY(convert, ZORAMBI_STACK_CHECK), ENTRY(next_small, ZORAMBI_STACK_CHECK), ENTRY(tidy, ZORAMBI_STACK_CHECK),
    ENTRY(join, ZORAMBI_STACK_JOIN), ENTRY(begin, ZORAMBI_STACK_GROW), ENTRY(enquire, ZORAMBI_STACK_GROW),
    ENTRY(commit, ZORAMBI_STACK_GROW), ENTRY(take_back, ZORAMBI_STACK_GROW), ENTRY(add, ZORAMBI_STACK_GROW)};
#define ENTRIES (sizeof entries / sizeof entries[0])
/* Those that grow a tableau are the last, in the order in which they are called for each node: it is asked about, committed, taken back
 * and added. */
#define GROWING 4

/* The thread whose stack is looked at: from this frame on. */
static void *calls(void *unused) {
  unsigned char here;
  call();
  size_t at = 0;
  while (space[at] == UNTOUCHED) at++;
  taken = (size_t)(&here - (space + at));
  return unused;
}

static size_t takes(void (*what)(void)) {
  pthread_t thread;
  pthread_attr_t with;
  call = what;
  memset(space, UNTOUCHED, SPACE);
  pthread_attr_init(&with);
  pthread_attr_setstack(&with, space, SPACE);
  if (pthread_create(&thread, &with, calls, NULL) != 0 || pthread_join(thread, NULL) != 0) return SPACE;
  pthread_attr_destroy(&with);
  return taken;
}

static size_t own;

static void measure(size_t k) {
  size_t bytes = takes(entries[k].call) - own;
  if (bytes > entries[k].most) entries[k].most = bytes;
}

/* Returns how many nodes a growing tableau took. */
static size_t all_entries(void) {
  own = takes(nothing);
  for (size_t k = 0; k < ENTRIES - GROWING; k++) measure(k);
  for (int32_t j = 0; j < of_proof[1]; j++) {
    memcpy(row, nodes + 9 * j, sizeof row);
    set = members + nodes[9 * j + 7];
    set_len = (size_t)nodes[9 * j + 8];
    for (size_t k = ENTRIES - GROWING; k < ENTRIES; k++) measure(k);
  }
  return held[0];
}

static size_t load(const char *folder, const char *name, uint8_t *text) {
  char path[4096];
  snprintf(path, sizeof path, "%s/%s", folder, name);
  FILE *file = fopen(path, "rb");
  if (file == NULL) return 0;
  size_t bytes = fread(text, 1, 65537, file);
  fclose(file);
  return bytes;
}

/* The tables of the texts. */
static int read_texts(void) {
  uint64_t one = zorambi_read_schema(schema_text, schema_bytes, schema, 4096, of_schema);
  uint64_t other = zorambi_read_proof(proof_text, proof_bytes, proof, 4096, nodes, 9216, members, 8192, of_proof);
  return zorambi_answer(one) == 0 && zorambi_answer(other) == 0;
}

/* A chain of ands or ors of the full depth, over a literal on n or, as a body, on i. Node 0 splits, node 1 is taken apart, node 2 links to
 * node 0, so that the chain is held against itself lowered; or node 0 unfolds, and the body is held against its instance. */
static int deep(int kind, int body) {
  char *at = (char *)schema_text;
  int depth = body ? 63 : 64;
  at += sprintf(at, "root least\n%d 0\nkind a b c\n2 0 %d 0\n", body ? depth : depth - 1, body ? 2 : 1);
  for (int k = 1; k < depth; k++) at += sprintf(at, "%d %d 0 0\n", kind, k - 1);
  if (body) at += sprintf(at, "6 %d 0 0\n", depth - 1);
  schema_bytes = (size_t)(at - (char *)schema_text);
  at = (char *)proof_text;
  at += sprintf(at, "kind a b c\n");
  if (body) {
    at += sprintf(at, "6 %d 0 1\n2 0 1 0\n", depth - 1);
    for (int k = 1; k < depth; k++) at += sprintf(at, "%d %d %d 0\n", kind, depth + 1 + k, depth + 2);
    at += sprintf(at, "up rule on with other to by set\n-1 3 %d %d %d -1 0 %d\n", depth, depth + 1, 2 * depth + 1, depth);
  } else {
    at += sprintf(at, "up rule on with other to by set\n-1 2 -1 -1 -1 -1 0 %d\n0 %d %d -1 -1 -1 0 %d\n0 8 -1 -1 -1 0 1 %d\n1 5 0 -1 -1 -1 0\n",
                  depth - 1, kind - 4, depth - 1, depth - 1, depth - 1);
  }
  proof_bytes = (size_t)(at - (char *)proof_text);
  return read_texts();
}

static int save(const char *name, const uint8_t *text, size_t bytes) {
  FILE *file = fopen(name, "wb");
  if (file == NULL) return 0;
  size_t written = fwrite(text, 1, bytes, file);
  return fclose(file) == 0 && written == bytes;
}

static int save_deep(int which) {
  return deep(4 + which / 2, which % 2) && save("schema.txt", schema_text, schema_bytes) && save("proof.txt", proof_text, proof_bytes);
}

int main(int count, char **words) {
  if (count == 3 && strcmp(words[1], "--deep") == 0) return !save_deep(atoi(words[2]));
  int passed = 0, failed = 0, print = count > 1 && strcmp(words[1], "--print") == 0;
  size_t grown = 0;
  space = mmap(NULL, SPACE, PROT_READ | PROT_WRITE, MAP_PRIVATE | MAP_ANONYMOUS, -1, 0);
  if (space == MAP_FAILED) return 2;
  for (int32_t k = 0; k < 4096; k++) pairs[2 * k] = k / 64, pairs[2 * k + 1] = k % 64;
  for (int k = print ? 2 : 1; k < count; k++) {
    schema_bytes = load(words[k], "schema.txt", schema_text);
    proof_bytes = load(words[k], "proof.txt", proof_text);
    if (!read_texts()) {
      printf("FAILED to read %s\n", words[k]);
      failed++;
    }
    grown += all_entries();
  }
  for (int kind = 4; kind <= 5; kind++) {
    for (int body = 0; body <= 1; body++) {
      /* They reach the comparison: what is refused is the link's row, or the number of children. */
      unsigned expected = body ? ZORAMBI_CHILDREN : ZORAMBI_LOWERED;
      int read = deep(kind, body);
      unsigned answer = zorambi_answer(zorambi_check(RECORD));
      if (read && (answer == expected || (kind == 5 && !body && answer == ZORAMBI_CHILDREN))) {
        passed++;
      } else {
        printf("FAILED the deep record: %d, read %d, answer %u\n", 10 * kind + body, read, answer);
        failed++;
      }
      all_entries();
    }
  }
  if (print) printf("%zu nodes grown\n", grown);
  for (size_t k = 0; k < ENTRIES; k++) {
    if (print) printf("%-18s %6zu bytes of %6zu\n", entries[k].name, entries[k].most, entries[k].allowed);
    if (entries[k].most > 0 && entries[k].most <= entries[k].allowed) {
      passed++;
    } else {
      printf("FAILED %s takes %zu bytes of stack, more than %zu\n", entries[k].name, entries[k].most, entries[k].allowed);
      failed++;
    }
  }
  printf("%d passed, %d failed\n", passed, failed);
  return failed != 0;
}
