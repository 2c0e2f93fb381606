/* Every slice of every entry empty, with the pointer NULL: the answers are those of the paper for an empty table or text. And
 * small cases of each entry: proof rows written twice, and what the later changes of the paper bring. */
#include <stdio.h>
#include <string.h>

#include "zorambi.h"

static int passed, failed;
static const char *which = "";

static void test(const char *name, int right) {
  if (right) {
    passed++;
  } else {
    failed++;
    printf("FAILED %s%s\n", name, which);
  }
}

static void answers(const char *name, uint64_t packed, unsigned answer, int place) {
  test(name, zorambi_answer(packed) == answer && zorambi_place(packed) == place);
}

/* The answer of a check of texts, its place, and the line that it points to. */
static void points(const char *name, uint64_t packed, unsigned answer, int place, int second, unsigned line) {
  answers(name, packed, answer, place);
  test(name, zorambi_fault_second(packed) == second && zorambi_fault_line(packed) == line);
}

/* The paper's schema, the rows of its proof, and its first node. */
static const int32_t schema[] = {2, 0, 2, 0, 3, 0, 2, 0, 7, 0, 2, 0, 6, 1, 2, 0, 4, 2, 3, 0};
static const int32_t proof[] = {7, 0, 2, 1, 2, 0, 1, 0, 6, 1, 2, 1, 3, 0, 1, 0};
static const int32_t node[] = {-1, 0, 4, -1, -1, -1, 0, 0, 1};
static const int32_t member[] = {4};
static const char schema_text[] = "root least\n4 1\nkind a b c\n2 0 2 0\n3 0 2 0\n7 0 2 0\n6 1 2 0\n4 2 3 0\n";

/* The check or the older one. */
typedef uint64_t checks(const int32_t *, size_t, size_t, const int32_t *, size_t, size_t, int32_t, int32_t, const int32_t *, size_t,
                        size_t, const int32_t *, size_t, size_t);

static void check(checks *by) {
  answers("nothing at all", by(NULL, 0, 0, NULL, 0, 0, 0, 0, NULL, 0, 0, NULL, 0, 0), ZORAMBI_ROOT, -1);
  answers("no proof row, node or member", by(schema, 20, 5, NULL, 0, 0, 4, 1, NULL, 0, 0, NULL, 0, 0), ZORAMBI_PARENT, -1);
  answers("no proof row", by(schema, 20, 5, NULL, 0, 0, 4, 1, node, 9, 1, member, 1, 1), ZORAMBI_CHILDREN, 0);
  answers("no member", by(schema, 20, 5, proof, 16, 4, 4, 1, node, 9, 1, NULL, 0, 0), ZORAMBI_SET, 0);
  answers("schema rows counted", by(NULL, 0, 5, proof, 16, 4, 4, 1, node, 9, 1, member, 1, 1), ZORAMBI_TABLE_TOO_SHORT, -1);
  answers("proof rows counted", by(schema, 20, 5, NULL, 0, 4, 4, 1, node, 9, 1, member, 1, 1), ZORAMBI_TABLE_TOO_SHORT, -1);
  answers("nodes counted", by(schema, 20, 5, proof, 16, 4, 4, 1, NULL, 0, 1, member, 1, 1), ZORAMBI_TABLE_TOO_SHORT, -1);
  answers("members counted", by(schema, 20, 5, proof, 16, 4, 4, 1, node, 9, 1, NULL, 0, 1), ZORAMBI_TABLE_TOO_SHORT, -1);
}

/* A proof row that is the row before it, or a schema row: 27 in the check, and no node in the older one. */
static void repeated(void) {
  static const int32_t twice[] = {7, 0, 2, 1, 7, 0, 2, 1};
  answers("a proof row twice", zorambi_check(schema, 20, 5, twice, 8, 2, 4, 1, NULL, 0, 0, NULL, 0, 0), ZORAMBI_REPEATED, 6);
  answers("a proof row twice, older", zorambi_check_older(schema, 20, 5, twice, 8, 2, 4, 1, NULL, 0, 0, NULL, 0, 0),
          ZORAMBI_PARENT, -1);
  answers("a schema row again", zorambi_check(schema, 20, 5, schema, 20, 5, 4, 1, NULL, 0, 0, NULL, 0, 0), ZORAMBI_REPEATED, 5);
  answers("a schema row again, older", zorambi_check_older(schema, 20, 5, schema, 20, 5, 4, 1, NULL, 0, 0, NULL, 0, 0),
          ZORAMBI_PARENT, -1);

  static const uint8_t proof_text[] = "kind a b c\n7 0 2 1\n7 0 2 1\nup rule on with other to by set\n";
  const uint8_t *text = (const uint8_t *)schema_text;
  const size_t length = strlen(schema_text);
  points("a line twice", zorambi_check_texts(text, length, proof_text, sizeof proof_text - 1), ZORAMBI_REPEATED, 6, 1, 3);
  points("a line twice, older", zorambi_check_older_texts(text, length, proof_text, sizeof proof_text - 1), ZORAMBI_PARENT, -1, 0, 0);
}

static void check_model(void) {
  answers("a model of nothing", zorambi_check_model(NULL, 0, 0, 0, 0, 0, NULL, 0, 0), ZORAMBI_ROOT, -1);
  answers("root 3, no pair", zorambi_check_model(schema, 20, 5, 3, 1, 1, NULL, 0, 0), ZORAMBI_ACCEPTED, 0);
  answers("schema rows of a model counted", zorambi_check_model(NULL, 0, 5, 3, 1, 1, NULL, 0, 0), ZORAMBI_TABLE_TOO_SHORT, -1);
  answers("pairs counted", zorambi_check_model(schema, 20, 5, 3, 1, 1, NULL, 0, 1), ZORAMBI_TABLE_TOO_SHORT, -1);
}

static int all_zero(const int32_t *numbers, size_t count) {
  for (size_t i = 0; i < count; i++)
    if (numbers[i] != 0) return 0;
  return 1;
}

static int32_t table[4096], nodes[9216], members[8192];

static void read_schema(void) {
  int32_t results[3] = {7, 7, 7};
  memset(table, 7, sizeof table);
  answers("no schema text", zorambi_read_schema(NULL, 0, table, 4096, results), ZORAMBI_HEADING, 1);
  test("no schema text, memory", all_zero(table, 4096) && all_zero(results, 3));
  const uint8_t *text = (const uint8_t *)schema_text;
  answers("no table", zorambi_read_schema(text, strlen(schema_text), NULL, 0, results), ZORAMBI_TABLE_TOO_SHORT, 0);
  answers("neither", zorambi_read_schema(NULL, 0, NULL, 0, results), ZORAMBI_TABLE_TOO_SHORT, 0);
}

static void read_proof(void) {
  static const uint8_t text[] = "kind a b c\nup rule on with other to by set\n";
  const size_t length = sizeof text - 1;
  int32_t results[3] = {7, 7, 7};
  answers("no proof text", zorambi_read_proof(NULL, 0, table, 4096, nodes, 9216, members, 8192, results), ZORAMBI_HEADING, 1);
  answers("no proof rows' table", zorambi_read_proof(text, length, NULL, 0, nodes, 9216, members, 8192, results),
          ZORAMBI_TABLE_TOO_SHORT, 0);
  answers("no nodes' table", zorambi_read_proof(text, length, table, 4096, NULL, 0, members, 8192, results),
          ZORAMBI_TABLE_TOO_SHORT, 0);
  answers("no members' table", zorambi_read_proof(text, length, table, 4096, nodes, 9216, NULL, 0, results),
          ZORAMBI_TABLE_TOO_SHORT, 0);
  answers("no table for a proof", zorambi_read_proof(NULL, 0, NULL, 0, NULL, 0, NULL, 0, results), ZORAMBI_TABLE_TOO_SHORT, 0);
  answers("a proof without rows", zorambi_read_proof(text, length, table, 4096, nodes, 9216, members, 8192, results),
          ZORAMBI_ACCEPTED, 0);
}

static void read_model(void) {
  static const uint8_t text[] = "n\n1\nsymbol index\n";
  int32_t results[2] = {7, 7};
  answers("no model text", zorambi_read_model(NULL, 0, members, 8192, results), ZORAMBI_HEADING, 1);
  answers("no pairs' table", zorambi_read_model(text, sizeof text - 1, NULL, 0, results), ZORAMBI_TABLE_TOO_SHORT, 0);
  answers("nothing for a model", zorambi_read_model(NULL, 0, NULL, 0, results), ZORAMBI_TABLE_TOO_SHORT, 0);
}

static void wrote(const char *name, uint64_t packed, const uint8_t *out, const char *text) {
  answers(name, packed, ZORAMBI_ACCEPTED, 0);
  test(name, zorambi_bytes(packed) == strlen(text) && memcmp(out, text, strlen(text)) == 0);
}

static void writing(void) {
  uint8_t out[100];
  wrote("a schema without rows", zorambi_write_schema(NULL, 0, 0, 4, 1, out, sizeof out), out, "root least\n4 1\nkind a b c\n");
  answers("rows to write counted", zorambi_write_schema(NULL, 0, 1, 4, 1, out, sizeof out), ZORAMBI_TABLE_TOO_SHORT, -1);
  answers("no output for a schema", zorambi_write_schema(schema, 20, 5, 4, 1, NULL, 0), ZORAMBI_OUTPUT, -1);

  wrote("a proof without nodes", zorambi_write_proof(NULL, 0, 0, NULL, 0, 0, NULL, 0, 0, out, sizeof out), out,
        "kind a b c\nup rule on with other to by set\n");
  answers("proof rows to write counted", zorambi_write_proof(NULL, 0, 1, node, 9, 1, member, 1, 1, out, sizeof out),
          ZORAMBI_TABLE_TOO_SHORT, -1);
  answers("nodes to write counted", zorambi_write_proof(proof, 16, 4, NULL, 0, 1, member, 1, 1, out, sizeof out),
          ZORAMBI_TABLE_TOO_SHORT, -1);
  answers("members to write counted", zorambi_write_proof(proof, 16, 4, node, 9, 1, NULL, 0, 1, out, sizeof out),
          ZORAMBI_TABLE_TOO_SHORT, -1);
  answers("no output for a proof", zorambi_write_proof(proof, 16, 4, node, 9, 1, member, 1, 1, NULL, 0), ZORAMBI_OUTPUT, -1);

  wrote("a model without pairs", zorambi_write_model(3, NULL, 0, 0, out, sizeof out), out, "n\n3\nsymbol index\n");
  answers("pairs to write counted", zorambi_write_model(3, NULL, 0, 1, out, sizeof out), ZORAMBI_TABLE_TOO_SHORT, -1);
  answers("no output for a model", zorambi_write_model(3, NULL, 0, 0, NULL, 0), ZORAMBI_OUTPUT, -1);
}

/* There and back: a text that is read is written as it was, rows that are written are read as they were. */
static void again(void) {
  int32_t results[3] = {7, 7, 7};
  uint8_t out[100];
  answers("a schema read", zorambi_read_schema((const uint8_t *)schema_text, strlen(schema_text), table, 4096, results),
          ZORAMBI_ACCEPTED, 0);
  uint64_t packed = zorambi_write_schema(table, 4096, (size_t)results[2], results[0], results[1], out, sizeof out);
  wrote("a schema written again", packed, out, schema_text);
  packed = zorambi_write_schema(schema, 20, 5, 3, 2, out, sizeof out);
  answers("rows read again", zorambi_read_schema(out, zorambi_bytes(packed), table, 4096, results), ZORAMBI_ACCEPTED, 0);
  test("rows read again, results", results[0] == 3 && results[1] == 2 && results[2] == 5);
  test("rows read again, rows", memcmp(table, schema, sizeof schema) == 0 && all_zero(table + 20, 4076));
}

static void lines(void) {
  size_t span[2] = {7, 7};
  zorambi_line(NULL, 0, 1, span);
  test("a line of no text", span[0] == 0 && span[1] == 0);
  const uint8_t *text = (const uint8_t *)schema_text;
  const size_t length = strlen(schema_text);
  points("no texts", zorambi_check_texts(NULL, 0, NULL, 0), ZORAMBI_HEADING, 1, 0, 1);
  points("no schema text", zorambi_check_texts(NULL, 0, text, length), ZORAMBI_HEADING, 1, 0, 1);
  points("no proof text", zorambi_check_texts(text, length, NULL, 0), ZORAMBI_HEADING, 1, 1, 1);
  points("no texts, older", zorambi_check_older_texts(NULL, 0, NULL, 0), ZORAMBI_HEADING, 1, 0, 1);
  points("no schema text, older", zorambi_check_older_texts(NULL, 0, text, length), ZORAMBI_HEADING, 1, 0, 1);
  points("no proof text, older", zorambi_check_older_texts(text, length, NULL, 0), ZORAMBI_HEADING, 1, 1, 1);
  points("no texts of a model", zorambi_check_model_texts(NULL, 0, NULL, 0), ZORAMBI_HEADING, 1, 0, 1);
  points("no schema text of a model", zorambi_check_model_texts(NULL, 0, text, length), ZORAMBI_HEADING, 1, 0, 1);
  points("no model text", zorambi_check_model_texts(text, length, NULL, 0), ZORAMBI_HEADING, 1, 1, 1);
}

/* ---- A failing width. */

/* Root 2 wants some p_i for i from 2 to n, root 4 also none of them: p_3 alone is the first model of root 2 at 3. */
static void find_model(void) {
  int32_t results[2] = {7, 7};
  memset(members, 7, sizeof members);
  uint64_t packed = zorambi_find_model(schema, 20, 5, 2, 1, 3, members, 8192, results);
  answers("a model found", packed, ZORAMBI_ACCEPTED, 0);
  test("a model found, results", zorambi_nodes(packed) == 1 && results[0] == 3 && results[1] == 1);
  test("a model found, pairs", members[0] == 0 && members[1] == 3 && all_zero(members + 2, 8190));
  answers("a model found, checked", zorambi_check_model(schema, 20, 5, 2, 1, 3, members, 8192, 1), ZORAMBI_ACCEPTED, 0);
  packed = zorambi_find_model(schema, 20, 5, 4, 1, 3, members, 8192, results);
  answers("no model", packed, ZORAMBI_ACCEPTED, 0);
  test("no model, memory", zorambi_nodes(packed) == 0 && all_zero(members, 8192) && all_zero(results, 2));
  answers("16 pairs", zorambi_find_model(schema, 20, 5, 4, 1, 17, members, 8192, results), ZORAMBI_ACCEPTED, 0);
  answers("17 pairs", zorambi_find_model(schema, 20, 5, 4, 1, 18, members, 8192, results), ZORAMBI_WIRES, -1);
  answers("n below least", zorambi_find_model(schema, 20, 5, 4, 1, 0, members, 8192, results), ZORAMBI_WIDTH, -1);
  answers("no schema to find a model of", zorambi_find_model(NULL, 0, 0, 0, 0, 0, members, 8192, results), ZORAMBI_ROOT, -1);
  answers("rows to find a model of counted", zorambi_find_model(NULL, 0, 5, 4, 1, 3, members, 8192, results),
          ZORAMBI_TABLE_TOO_SHORT, -1);
  answers("no table for a model", zorambi_find_model(NULL, 0, 5, 4, 1, 3, NULL, 0, results), ZORAMBI_TABLE_TOO_SHORT, 0);
}

/* ---- Connectives as designers write them. */

/* Some p_i other than itself: rows 0, 1 of the literal, 2 to 4 and 5 to 7 of the exclusive or, 8, 9 of the big or. */
static void convert(void) {
  static const int32_t wide[] = {2, 0, 2, 0, 11, 0, 0, 0, 7, 1, 0, 0};
  static const int32_t plain[] = {2, 0, 2, 0, 3, 0, 2, 0, 4, 0, 1, 0, 4, 1, 0, 0, 5, 2, 3, 0,
                                  4, 0, 0, 0, 4, 1, 1, 0, 5, 5, 6, 0, 7, 4, 0, 0, 6, 7, 0, 0};
  int32_t results[3] = {7, 7, 7};
  memset(table, 7, sizeof table);
  answers("plain rows", zorambi_convert(wide, 12, 3, 2, 5, table, 4096, results), ZORAMBI_ACCEPTED, 0);
  test("plain rows, results", results[0] == 8 && results[1] == 5 && results[2] == 10);
  test("plain rows, table", memcmp(table, plain, sizeof plain) == 0 && all_zero(table + 40, 4056));
  answers("a wide root that is not outer", zorambi_convert(wide, 12, 3, 1, 5, table, 4096, results), ZORAMBI_ROOT, -1);
  test("a wide root that is not outer, memory", all_zero(table, 4096) && all_zero(results, 3));
  answers("no wide row", zorambi_convert(NULL, 0, 0, 0, 0, table, 4096, results), ZORAMBI_ROOT, -1);
  answers("wide rows counted", zorambi_convert(NULL, 0, 3, 2, 5, table, 4096, results), ZORAMBI_TABLE_TOO_SHORT, -1);
  answers("no table for plain rows", zorambi_convert(wide, 12, 3, 2, 5, NULL, 0, results), ZORAMBI_TABLE_TOO_SHORT, 0);
}

/* ---- All small schemata. */

static void next_small(void) {
  static const int32_t first[8] = {0}, last[] = {3, 0, 2, 1, 7, 0, 0, 1}, other[] = {2, 1, 0, 0}, second[] = {0, 0, 0, 0, 1, 0, 0, 0};
  int32_t next[16];
  memset(next, 7, sizeof next);
  uint64_t packed = zorambi_next_small(first, 8, 2, next, 16);
  answers("a next table", packed, ZORAMBI_ACCEPTED, 0);
  test("a next table, given", zorambi_nodes(packed) == 1 && memcmp(next, second, sizeof second) == 0 && all_zero(next + 8, 8));
  memset(next, 7, sizeof next);
  packed = zorambi_next_small(last, 8, 2, next, 16);
  answers("the last table", packed, ZORAMBI_ACCEPTED, 0);
  test("the last table, memory", zorambi_nodes(packed) == 0 && all_zero(next, 16));
  memset(next, 7, sizeof next);
  answers("another symbol", zorambi_next_small(other, 4, 1, next, 16), ZORAMBI_NOT_LISTED, -1);
  test("another symbol, memory", all_zero(next, 16));
  answers("four rows", zorambi_next_small(next, 16, 4, table, 4096), ZORAMBI_NOT_LISTED, -1);
  answers("no small table", zorambi_next_small(NULL, 0, 0, NULL, 0), ZORAMBI_NOT_LISTED, -1);
  answers("small rows counted", zorambi_next_small(NULL, 0, 1, next, 16), ZORAMBI_TABLE_TOO_SHORT, -1);
  answers("no table for the next", zorambi_next_small(first, 8, 2, NULL, 0), ZORAMBI_TABLE_TOO_SHORT, -1);
}

/* ---- Older records, tidied. */

/* False twice, as schema row 0 and proof row 1, and once more as proof row 2: rule 5 on any of them. Tidied, row 0 is the only one. */
static void tidy(void) {
  static const int32_t rows[] = {1, 0, 0, 0, 1, 0, 0, 0}, nodes_in[] = {-1, 5, 0, -1, -1, -1, 0, 0, 1}, members_in[] = {0};
  int32_t results[3] = {7, 7, 7};
  memset(table, 7, sizeof table);
  memset(nodes, 7, sizeof nodes);
  memset(members, 7, sizeof members);
  answers("tidied", zorambi_tidy(rows, 4, 1, rows, 8, 2, 0, 3, nodes_in, 9, 1, members_in, 1, 1, table, 4096, nodes, 9216, members, 8192, results),
          ZORAMBI_ACCEPTED, 0);
  test("tidied, results", results[0] == 0 && results[1] == 1 && results[2] == 1);
  test("tidied, rows", all_zero(table, 4096));
  test("tidied, nodes", memcmp(nodes, nodes_in, sizeof nodes_in) == 0 && all_zero(nodes + 9, 9207) && all_zero(members, 8192));
  answers("tidied, checked", zorambi_check(rows, 4, 1, table, 4096, 0, 0, 3, nodes, 9216, 1, members, 8192, 1), ZORAMBI_ACCEPTED, 0);
  answers("no node to tidy", zorambi_tidy(rows, 4, 1, rows, 8, 2, 0, 3, NULL, 0, 0, NULL, 0, 0, table, 4096, nodes, 9216, members, 8192, results),
          ZORAMBI_PARENT, -1);
  test("no node to tidy, memory", all_zero(nodes, 9216) && all_zero(results, 3));
  answers("nothing to tidy", zorambi_tidy(NULL, 0, 0, NULL, 0, 0, 0, 0, NULL, 0, 0, NULL, 0, 0, table, 4096, nodes, 9216, members, 8192, results),
          ZORAMBI_ROOT, -1);
  answers("nothing to tidy counted",
          zorambi_tidy(NULL, 0, 1, NULL, 0, 1, 0, 0, NULL, 0, 1, NULL, 0, 1, table, 4096, nodes, 9216, members, 8192, results),
          ZORAMBI_TABLE_TOO_SHORT, -1);
  answers("no tables for tidying", zorambi_tidy(NULL, 0, 1, NULL, 0, 1, 0, 0, NULL, 0, 1, NULL, 0, 1, NULL, 0, NULL, 0, NULL, 0, results),
          ZORAMBI_TABLE_TOO_SHORT, 0);
}

/* ---- One record for either fault. */

/* False at 3 and later, twice: the first by rule 5 at once, the second with a proof row that it does not use. */
static void join(void) {
  static const int32_t no[] = {1, 0, 0, 0}, more[] = {0, 0, 0, 0}, nodes_in[] = {-1, 5, 0, -1, -1, -1, 0, 0, 1}, members_in[] = {0};
  static const int32_t joined[] = {1, 0, 0, 0, 1, 0, 0, 0, 5, 0, 1, 0}, members_out[] = {2, 0, 1};
  static const int32_t nodes_out[] = {-1, 1, 2, -1, -1, -1, 0, 0, 1, 0, 5, 0, -1, -1, -1, 0, 1, 1, 0, 5, 1, -1, -1, -1, 0, 2, 1};
  static int32_t rows[4096];
  int32_t results[6] = {7, 7, 7, 7, 7, 7};
  memset(table, 7, sizeof table);
  memset(rows, 7, sizeof rows);
  memset(nodes, 7, sizeof nodes);
  memset(members, 7, sizeof members);
#define NO(least) no, 4, 1, NULL, 0, 0, 0, least, nodes_in, 9, 1, members_in, 1, 1
#define NO_MORE(least) no, 4, 1, more, 4, 1, 0, least, nodes_in, 9, 1, members_in, 1, 1
#define NO_NODE no, 4, 1, NULL, 0, 0, 0, 3, NULL, 0, 0, NULL, 0, 0
#define NOTHING NULL, 0, 0, NULL, 0, 0, 0, 0, NULL, 0, 0, NULL, 0, 0
#define COUNTED NULL, 0, 1, NULL, 0, 1, 0, 0, NULL, 0, 1, NULL, 0, 1
#define LENT table, 4096, rows, 4096, nodes, 9216, members, 8192, results
#define ALL_ZERO (all_zero(table, 4096) && all_zero(rows, 4096) && all_zero(nodes, 9216) && all_zero(members, 8192) && all_zero(results, 6))
  answers("joined", zorambi_join(NO(3), NO_MORE(3), LENT), ZORAMBI_ACCEPTED, 0);
  test("joined, results", results[0] == 2 && results[1] == 3 && results[2] == 3 && results[3] == 1 && results[4] == 3 && results[5] == 3);
  test("joined, schema", memcmp(table, joined, sizeof joined) == 0 && all_zero(table + 12, 4084));
  test("joined, proof rows", all_zero(rows, 4096));
  test("joined, nodes", memcmp(nodes, nodes_out, sizeof nodes_out) == 0 && all_zero(nodes + 27, 9189));
  test("joined, members", memcmp(members, members_out, sizeof members_out) == 0 && all_zero(members + 3, 8189));
  answers("joined, checked", zorambi_check(table, 4096, 3, rows, 4096, 1, 2, 3, nodes, 9216, 3, members, 8192, 3), ZORAMBI_ACCEPTED, 0);
  answers("other least values", zorambi_join(NO(3), NO_MORE(4), LENT), ZORAMBI_LEASTS, -1);
  test("other least values, memory", ALL_ZERO);
  answers("no node to join", zorambi_join(NO(3), NO_NODE, LENT), ZORAMBI_PARENT, -1);
  test("no node to join, memory", ALL_ZERO);
  answers("nothing to join", zorambi_join(NOTHING, NO(3), LENT), ZORAMBI_ROOT, -1);
  answers("nothing to join with", zorambi_join(NO(3), NOTHING, LENT), ZORAMBI_ROOT, -1);
  answers("nothing to join counted", zorambi_join(COUNTED, NO_NODE, LENT), ZORAMBI_TABLE_TOO_SHORT, -1);
  answers("nothing to join with counted", zorambi_join(NO(3), COUNTED, LENT), ZORAMBI_TABLE_TOO_SHORT, -1);
  answers("no tables for joining", zorambi_join(NOTHING, NOTHING, NULL, 0, NULL, 0, NULL, 0, NULL, 0, results),
          ZORAMBI_TABLE_TOO_SHORT, 0);
}

/* ---- A tableau that grows. */

/* p_n and not p_n: node 0 has both, node 1 is their clash. */
static const int32_t clash_rows[] = {2, 0, 1, 0, 3, 0, 1, 0, 4, 0, 1, 0};
static const int32_t clash_and[7] = {-1, 0, 2, -1, -1, -1, 0};
static const int32_t clash[7] = {0, 6, 0, 1, -1, -1, 0};
static size_t held[2];
static int32_t shown[1], waiting[1033];

static uint64_t begin_clash(size_t rows) {
  return zorambi_begin(clash_rows, 12, rows, NULL, 0, 0, 2, 0, nodes, 9216, members, 8192, held, shown, waiting);
}
static uint64_t add_clash(const int32_t row[7], const int32_t *set, size_t set_len) {
  return zorambi_add(clash_rows, 12, 3, NULL, 0, 0, 2, 0, nodes, 9216, members, 8192, held, shown, row, set, set_len,
                     waiting);
}
static uint64_t take_back_clash(void) {
  return zorambi_take_back(clash_rows, 12, 3, NULL, 0, 0, 2, 0, nodes, 9216, members, 8192, held, shown, waiting);
}
static uint64_t enquire_clash(const int32_t row[7], const int32_t *set, size_t set_len) {
  return zorambi_enquire(clash_rows, 12, 3, NULL, 0, 0, 2, 0, nodes, 9216, members, 8192, held, shown, row, set, set_len,
                         waiting);
}
static uint64_t commit_clash(void) {
  return zorambi_commit(clash_rows, 12, 3, NULL, 0, 0, 2, 0, nodes, 9216, members, 8192, held, shown, waiting);
}
static void holds(const char *name, size_t node_count, size_t member_count, int32_t closed) {
  test(name, held[0] == node_count && held[1] == member_count && shown[0] == closed);
}

static void grow(void) {
  static const int32_t of_root[] = {2}, of_clash[] = {0, 1}, twice[] = {1, 1};
  memset(nodes, 7, sizeof nodes);
  memset(members, 7, sizeof members);
  memset(waiting, 7, sizeof waiting);
  held[0] = held[1] = 7, shown[0] = 7;
  answers("a row too many to grow from", begin_clash(4), ZORAMBI_TABLE_TOO_SHORT, -1);
  holds("a row too many, nothing held", 0, 0, 0);
  test("a row too many, memory", all_zero(nodes, 9216) && all_zero(members, 8192) && all_zero(waiting, 1033));
  memset(nodes, 7, sizeof nodes);
  memset(waiting, 7, sizeof waiting);
  answers("rows to grow from", begin_clash(3), ZORAMBI_ACCEPTED, 0);
  test("rows to grow from, memory", all_zero(nodes, 9216) && all_zero(members, 8192) && all_zero(waiting, 1033));
  answers("no row to take back", take_back_clash(), ZORAMBI_NO_ROW, -1);
  answers("a first row without its set", add_clash(clash_and, NULL, 0), ZORAMBI_PARENT, 0);
  holds("a first row refused", 0, 0, 0);
  uint64_t packed = add_clash(clash_and, of_root, 1);
  answers("a first row", packed, ZORAMBI_ACCEPTED, 0);
  test("a first row, counts", zorambi_nodes(packed) == 1 && zorambi_links(packed) == 0);
  holds("a first row, held", 1, 1, 0);
  nodes[9] = 5;
  answers("a set out of order", add_clash(clash, twice, 2), ZORAMBI_SET, 1);
  test("a set out of order, memory", nodes[9] == 5);
  packed = add_clash(clash, of_clash, 2);
  answers("a second row", packed, ZORAMBI_ACCEPTED, 0);
  test("a second row, counts", zorambi_nodes(packed) == 2 && zorambi_links(packed) == 0);
  holds("closed", 2, 3, 1);
  answers("closed, and checked", zorambi_check(clash_rows, 12, 3, NULL, 0, 0, 2, 0, nodes, 9216, 2, members, 8192, 3), ZORAMBI_ACCEPTED, 0);
  answers("a child too many", add_clash(clash, of_clash, 2), ZORAMBI_CHILDREN, 2);
  holds("a child too many, still closed", 2, 3, 1);
  members[2] = 2;
  answers("a set altered", take_back_clash(), ZORAMBI_FIELDS, 1);
  holds("a set altered, not closed", 2, 3, 0);
  members[2] = 1;
  answers("taken back", take_back_clash(), ZORAMBI_ACCEPTED, 0);
  holds("taken back, held", 1, 1, 0);
  test("taken back, memory", all_zero(nodes + 9, 9207) && members[0] == 2 && all_zero(members + 1, 8191));

  answers("nothing to grow from", zorambi_begin(NULL, 0, 0, NULL, 0, 0, 0, 0, NULL, 0, NULL, 0, held, shown, waiting), ZORAMBI_ROOT, -1);
  answers("no tables to grow in", zorambi_begin(clash_rows, 12, 3, NULL, 0, 0, 2, 0, NULL, 0, NULL, 0, held, shown, waiting), ZORAMBI_ACCEPTED, 0);
  answers("no room", zorambi_add(clash_rows, 12, 3, NULL, 0, 0, 2, 0, NULL, 0, NULL, 0, held, shown, clash_and, of_root, 1, waiting),
          ZORAMBI_ROOM, -1);
  answers("no rows and no tables", zorambi_take_back(NULL, 0, 0, NULL, 0, 0, 0, 0, NULL, 0, NULL, 0, held, shown, waiting),
          ZORAMBI_ROOT, -1);
  held[0] = 1;
  answers("rows held, and no tables",
          zorambi_take_back(clash_rows, 12, 3, NULL, 0, 0, 2, 0, NULL, 0, NULL, 0, held, shown, waiting), ZORAMBI_TABLE_TOO_SHORT, -1);
}

/* Enquiry and commit. */
static void enquire(void) {
  static const int32_t of_root[] = {2}, of_clash[] = {0, 1};
  begin_clash(3);
  answers("nothing waits", commit_clash(), ZORAMBI_WAITING, -1);
  nodes[5] = 5;
  uint64_t packed = enquire_clash(clash_and, of_root, 1);
  answers("an enquiry", packed, ZORAMBI_ACCEPTED, 0);
  test("an enquiry, counts", zorambi_nodes(packed) == 1 && zorambi_links(packed) == 0);
  holds("an enquiry, held", 0, 0, 0);
  static const int32_t waits[] = {1, 1, -1, 0, 2, -1, -1, -1, 0, 2};
  test("an enquiry, waiting", memcmp(waiting, waits, sizeof waits) == 0 && all_zero(waiting + 10, 1023));
  test("an enquiry, memory", nodes[5] == 5 && nodes[0] == 0 && all_zero(members, 8192));
  answers("an enquiry that says no", enquire_clash(clash_and, NULL, 0), ZORAMBI_PARENT, 0);
  test("an enquiry that says no, waiting", all_zero(waiting, 1033));
  answers("nothing waits after it", commit_clash(), ZORAMBI_WAITING, -1);
  enquire_clash(clash_and, of_root, 1);
  waiting[1] = 1025;
  answers("a length out of range", commit_clash(), ZORAMBI_WAITING, -1);
  waiting[1] = 1, waiting[3] = 9;
  answers("a waiting row altered", commit_clash(), ZORAMBI_FIELDS, 0);
  waiting[3] = 0;
  answers("a commit", commit_clash(), ZORAMBI_ACCEPTED, 0);
  holds("a commit, held", 1, 1, 0);
  test("a commit, memory", nodes[0] == -1 && nodes[2] == 2 && nodes[8] == 1 && members[0] == 2 && all_zero(waiting, 1033));
  answers("an enquiry that closes", enquire_clash(clash, of_clash, 2), ZORAMBI_ACCEPTED, 0);
  holds("an enquiry that closes, held", 1, 1, 1);
  answers("taken back while a row waits", take_back_clash(), ZORAMBI_ACCEPTED, 0);
  test("taken back while a row waits, waiting", all_zero(waiting, 1033));
  add_clash(clash_and, of_root, 1);
  enquire_clash(clash, of_clash, 2);
  answers("added while a row waits", add_clash(clash, of_clash, 2), ZORAMBI_ACCEPTED, 0);
  test("added while a row waits, waiting", all_zero(waiting, 1033));
  holds("added while a row waits, held", 2, 3, 1);
  answers("nothing waits, and closed", commit_clash(), ZORAMBI_WAITING, -1);
  holds("nothing waits, still closed", 2, 3, 1);
  answers("an enquiry about a child too many", enquire_clash(clash, of_clash, 2), ZORAMBI_CHILDREN, 2);
  holds("an enquiry about a child too many, still closed", 2, 3, 1);
  answers("no tables, and nothing waits", zorambi_commit(NULL, 0, 0, NULL, 0, 0, 0, 0, NULL, 0, NULL, 0, held, shown, waiting),
          ZORAMBI_TABLE_TOO_SHORT, -1);
  answers("an enquiry without tables",
          zorambi_enquire(NULL, 0, 0, NULL, 0, 0, 0, 0, NULL, 0, NULL, 0, held, shown, clash, NULL, 0, waiting), ZORAMBI_TABLE_TOO_SHORT, -1);
}

int main(void) {
  check(zorambi_check);
  which = ", older";
  check(zorambi_check_older);
  which = "";
  repeated();
  check_model();
  read_schema();
  read_proof();
  read_model();
  writing();
  again();
  lines();
  /* a failing width */
  find_model();
  /* connectives as designers write them */
  convert();
  /* all small schemata */
  next_small();
  /* older records, tidied */
  tidy();
  /* one record for either fault */
  join();
  /* a tableau that grows */
  grow();
  enquire();
  printf("%d passed, %d failed\n", passed, failed);
  return failed > 0;
}
