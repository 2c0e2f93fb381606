/* Zorambi: the proved check of schema tableaux, present and older, the model check, of tables and of texts with the line that a
 * refusal points to, the readers and writers of these texts, and what makes models, schemata and records, from C and C++.
 *
 * A slice is a pointer and the count of its numbers or bytes. With a count of 0 it is empty whatever the pointer is, NULL too,
 * as an empty vector gives it. The counts of rows, nodes and members are those that refusals 2 and 5 speak of: a table may be
 * longer than its count. Whatever stands in the tables and texts, and whatever the counts, the answer is a verdict or a numbered
 * refusal; nothing is read or written outside the slices and the arrays, whose lengths are declared, and only what is not
 * const is written. No two slices or arrays of a call may overlap if one of them is written. */
#ifndef ZORAMBI_H
#define ZORAMBI_H

#include <stddef.h>
#include <stdint.h>

/* How much stack a call takes at most, in bytes: any call, which is one that reads and checks two texts (the three with _texts);
 * zorambi_join; those that grow a tableau and zorambi_find_model; all others, as the check. A thread that calls needs so much besides
 * what is its own. The programs check_proof, check_older and check_model run in a stack of ZORAMBI_STACK_PROGRAM, with arguments and an
 * environment of some KiB in it. */
#define ZORAMBI_STACK 196608
#define ZORAMBI_STACK_JOIN 176128
#define ZORAMBI_STACK_GROW 143360
#define ZORAMBI_STACK_CHECK 94208
#define ZORAMBI_STACK_PROGRAM 360448

#ifdef __cplusplus
extern "C" {
#endif

/* The check: a formula row is 4 numbers (kind a b c), a node 9 (up rule on with other to by, then its set's start among the
 * members and its length), a member 1. to is a link's target, any node before it. by is what a link lowers n by, or a split's
 * K, its first child having n <= K and its second n >= K + 1; a split's by 0 stands for the least n that its node knows of. If
 * the answer is ZORAMBI_ACCEPTED, the schema is false at every natural n from its least value up, under every assignment. A
 * proof row whose four columns are those of an earlier schema or proof row is ZORAMBI_REPEATED; schema rows may repeat. */
uint64_t zorambi_check(const int32_t *schema, size_t schema_len, size_t schema_rows,
                       const int32_t *proof, size_t proof_len, size_t proof_rows,
                       int32_t root, int32_t least,
                       const int32_t *nodes, size_t nodes_len, size_t node_rows,
                       const int32_t *members, size_t members_len, size_t member_count);

/* The check of older records: the same without ZORAMBI_REPEATED, so that proof rows may repeat too. Its acceptance says the same
 * of the schema, and where the check above answers anything else than ZORAMBI_REPEATED, both answer alike. */
uint64_t zorambi_check_older(const int32_t *schema, size_t schema_len, size_t schema_rows,
                             const int32_t *proof, size_t proof_len, size_t proof_rows,
                             int32_t root, int32_t least,
                             const int32_t *nodes, size_t nodes_len, size_t node_rows,
                             const int32_t *members, size_t members_len, size_t member_count);

/* The model check: a pair is 2 numbers (symbol index). If the answer is ZORAMBI_ACCEPTED, the schema is true at n where
 * exactly the listed pairs are true. */
uint64_t zorambi_check_model(const int32_t *schema, size_t schema_len, size_t schema_rows,
                             int32_t root, int32_t least, int32_t n,
                             const int32_t *pairs, size_t pairs_len, size_t pair_rows);

/* Reading a text into lent tables, which need their full sizes: 4096 numbers for formula rows, 9216 for nodes, 8192 for members,
 * 8192 for pairs. The results of a success are root, least and the number of rows; the numbers of rows, nodes and members; or
 * n and the number of pairs. The tables are 0 past the last row and member. After a refusal tables and results are all 0, and
 * the place is the line, counted from 1, or 0 for the whole text and for a table. */
uint64_t zorambi_read_schema(const uint8_t *text, size_t text_len, int32_t *table, size_t table_len, int32_t results[3]);
uint64_t zorambi_read_proof(const uint8_t *text, size_t text_len, int32_t *table, size_t table_len,
                            int32_t *nodes, size_t nodes_len, int32_t *members, size_t members_len, int32_t results[3]);
uint64_t zorambi_read_model(const uint8_t *text, size_t text_len, int32_t *pairs, size_t pairs_len, int32_t results[2]);

/* Writing a text into the lent output: zorambi_bytes says how long it is. The output is 0 past the text, and all 0 after a
 * refusal, whose place is -1. */
uint64_t zorambi_write_schema(const int32_t *table, size_t table_len, size_t rows, int32_t root, int32_t least,
                              uint8_t *out, size_t out_len);
uint64_t zorambi_write_proof(const int32_t *table, size_t table_len, size_t rows,
                             const int32_t *nodes, size_t nodes_len, size_t node_rows,
                             const int32_t *members, size_t members_len, size_t member_count,
                             uint8_t *out, size_t out_len);
uint64_t zorambi_write_model(int32_t n, const int32_t *pairs, size_t pairs_len, size_t pair_rows,
                             uint8_t *out, size_t out_len);

/* Line k of a text, counted from 1: its start in the text, and its length without its byte 10. Both are 0 if there is no such
 * line; line 0 and an unfinished last line count as none. */
void zorambi_line(const uint8_t *text, size_t text_len, size_t k, size_t span[2]);

/* The checks of texts: a schema text and a proof text, or a model text, are read, the schema's first, and checked. A text refused
 * in reading gives its refusal, whose place is the line, and nothing is checked. zorambi_answer and the others below read the
 * verdict from the number as from any other. Above it stands the line that a refusal points to: the one refused in reading, or
 * that of the row, node or pair at fault. zorambi_fault_line gives it, counted from 1, or 0 if there is none, as after an
 * acceptance or a refusal of the whole; zorambi_fault_second says that it stands in the second text. */
uint64_t zorambi_check_texts(const uint8_t *schema, size_t schema_len, const uint8_t *proof, size_t proof_len);
uint64_t zorambi_check_older_texts(const uint8_t *schema, size_t schema_len, const uint8_t *proof, size_t proof_len);
uint64_t zorambi_check_model_texts(const uint8_t *schema, size_t schema_len, const uint8_t *model, size_t model_len);

/* The number that comes back from these three: the one number of the verdict, which is below 2 to the power of 44, and above it
 * 2 * line, and 1 more in the second text. */
static inline unsigned zorambi_fault_line(uint64_t packed) { return (unsigned)(packed >> 45); }
static inline int zorambi_fault_second(uint64_t packed) { return (int)((packed >> 44) & 1); }

/* ---- A failing width. */

/* A model at n, found: the pairs that are true in it, in a lent table that needs its full size, 8192 numbers. zorambi_nodes is 1
 * where a model is given, which the model check accepts; the results are then n and the number of pairs. It is 0 where no
 * assignment makes the schema true at n; the table and the results are then all 0, as after a refusal. At most 16 pairs may occur
 * in the schema at n. Of these, ascending, the first is the most significant, and false comes before true: the model is the first
 * one in that order. The table is 0 past the last pair. */
uint64_t zorambi_find_model(const int32_t *schema, size_t schema_len, size_t schema_rows,
                            int32_t root, int32_t least, int32_t n,
                            int32_t *pairs, size_t pairs_len, int32_t results[2]);

/* ---- Connectives as designers write them. */

/* A table of wide rows, which may also be of kinds 8 not (a), 9 implies, 10 equivalent and 11
 * exclusive or (a, b), made plain. zorambi_read_schema reads the text of a wide schema too. The lent table of plain rows needs its
 * full size, 4096 numbers. The results of a success are the root, least and the number of plain rows; the table is 0 past these.
 * The plain root is true exactly where the wide root is, at every n and assignment, so that a tableau for the plain schema
 * which is accepted refutes the wide one. After a refusal the table and the results are all 0; 6, 7 and 8 speak of the wide rows.
 * A wide row gives a plain row for itself and one for its negation, in this order; kind 8 gives none; kinds 10 and 11 give three
 * and three, two conjunctions and their or. */
uint64_t zorambi_convert(const int32_t *wide, size_t wide_len, size_t wide_rows, int32_t root, int32_t least,
                         int32_t *plain, size_t plain_len, int32_t results[3]);

/* ---- All small schemata. */

/* The next of all small tables of so many rows, 1 to 3, in ascending order of their numbers: well-formed tables with symbol 0,
 * literal offsets -1 to 1, iterations from 0 with c 0 or 1, and an outer last row, which is the root. The first is all 0.
 * zorambi_nodes is 1 where a next table is given, in the lent table, which needs 4 numbers a row and is 0 past these. It is 0
 * where the given table is the last one; the lent table is then all 0, as after a refusal. A table shorter than its rows, the
 * given or the lent one, is ZORAMBI_TABLE_TOO_SHORT at place -1; then comes ZORAMBI_NOT_LISTED. */
uint64_t zorambi_next_small(const int32_t *table, size_t table_len, size_t rows, int32_t *next, size_t next_len);

/* ---- Older records, tidied. */

/* Each proof row that equals an earlier schema or proof row, its parts under their new numbers, is folded into
 * the earliest one; rows folded away are left out, sets and fields get the new numbers, each set is sorted anew without doubles.
 * The schema stays as it is. The lent tables need their full sizes, 4096, 9216 and 8192 numbers; the results of a success are the
 * numbers of proof rows, nodes and members, and the tables are 0 past these. What the older check accepts, zorambi_check accepts
 * after tidying, with the same counts, and tidying again changes nothing. What it refuses is refused alike; tables and results
 * are then all 0. */
uint64_t zorambi_tidy(const int32_t *schema, size_t schema_len, size_t schema_rows,
                      const int32_t *proof, size_t proof_len, size_t proof_rows,
                      int32_t root, int32_t least,
                      const int32_t *nodes, size_t nodes_len, size_t node_rows,
                      const int32_t *members, size_t members_len, size_t member_count,
                      int32_t *out_proof, size_t out_proof_len, int32_t *out_nodes, size_t out_nodes_len,
                      int32_t *out_members, size_t out_members_len, int32_t results[3]);

/* ---- One record for either fault. */

/* Two records joined: the schema has the first's rows, the second's, then the or of both roots as its root. The tableau
 * starts with rule 1 on that or, then has the first's nodes and the second's; the proof rows, the first's before the second's, are
 * tidied as by zorambi_tidy. The lent tables need their full sizes, 4096, 4096, 9216 and 8192 numbers: if not, that is
 * ZORAMBI_TABLE_TOO_SHORT at place 0, before all else. The results of a success are root, least and the numbers of schema rows,
 * proof rows, nodes and members, and the tables are 0 past these; the counts in the number are 0. zorambi_check accepts the join,
 * with one node more than both have and the sum of their links. What zorambi_check refuses is refused alike, the first before the
 * second, and the number does not tell which it was: ask zorambi_check. Then come least values that differ, then a join over a
 * limit. After a refusal tables and results are all 0. */
uint64_t zorambi_join(const int32_t *first_schema, size_t first_schema_len, size_t first_schema_rows,
                      const int32_t *first_proof, size_t first_proof_len, size_t first_proof_rows,
                      int32_t first_root, int32_t first_least,
                      const int32_t *first_nodes, size_t first_nodes_len, size_t first_node_rows,
                      const int32_t *first_members, size_t first_members_len, size_t first_member_count,
                      const int32_t *second_schema, size_t second_schema_len, size_t second_schema_rows,
                      const int32_t *second_proof, size_t second_proof_len, size_t second_proof_rows,
                      int32_t second_root, int32_t second_least,
                      const int32_t *second_nodes, size_t second_nodes_len, size_t second_node_rows,
                      const int32_t *second_members, size_t second_members_len, size_t second_member_count,
                      int32_t *out_schema, size_t out_schema_len, int32_t *out_proof, size_t out_proof_len,
                      int32_t *out_nodes, size_t out_nodes_len, int32_t *out_members, size_t out_members_len, int32_t results[6]);

/* ---- A tableau that grows. */

/* A tableau built row by row, with formula rows that are given first. It stands in memory that the caller lends to every call and
 * keeps between them: the node table and the member table, as for the check but with any lengths; held, how many nodes and
 * members they hold; shown, 1 for "closed" and 0 otherwise; and waiting, of which the paragraph on enquiries speaks. Formula rows,
 * root and least are given anew with every call. What stands in the memory need not be believed: every call but the first puts the
 * formula rows and all rows held under the check, except that there may be no node and a node may have too few children, and gives
 * its refusal; too many children are ZORAMBI_CHILDREN at the parent.
 *
 * shown is 1 exactly when zorambi_check accepts the rows that the call leaves, also where the call is refused; after an enquiry that
 * says yes, exactly when it would accept them with the row.
 *
 * zorambi_begin takes the formula rows, by themselves, under the check. Whatever it answers and whatever was held or waited, no row
 * is held and none waits after it: both tables, held, shown and waiting are all 0. So these five need no start of their own.
 * The number's counts are 0, and a refusal is one of the check's on formula rows.
 *
 * zorambi_add adds a node row at the end, with its set, which needs no place of its own: it follows the sets held. Before the row
 * is looked at it needs room: ZORAMBI_ROOM (place -1) if 1024 nodes are held, if there would be more than 8192 members, or if
 * the node table is shorter than 9 numbers for each node, or the member table than the members, with the row's own. So tables of
 * 9216 and 8192 numbers always have room. The row then passes the check's refusals, its place the number that it would have:
 * ZORAMBI_SET for its set's order or members, ZORAMBI_PARENT, ZORAMBI_CHILDREN if its parent has all the children that its rule
 * has, then ZORAMBI_DRAWN to ZORAMBI_LOWERED.
 *
 * zorambi_take_back takes the last row back; ZORAMBI_NO_ROW (place -1) if none is held.
 *
 * zorambi_enquire asks about a row. It answers and shows what zorambi_add would, and leaves the tables and held as they are, past
 * the rows held too. A row about which it says yes waits in waiting: 1, its set's length, its seven numbers, its set, and 0 past it;
 * if it says no, nothing waits and waiting is all 0.
 *
 * zorambi_commit adds the row that waits. After the rows held it looks whether a row waits at all, which is so if the first number
 * of waiting is 1 and the length is 0 to 1024; if not, ZORAMBI_WAITING (place -1). The row is then judged as by
 * zorambi_add, so that what something else wrote there gets its refusal.
 *
 * After an accepted zorambi_add, zorambi_take_back or zorambi_commit held is the new number of nodes and members, the tables are
 * 0 past these, the number has the nodes and links held, and nothing waits: waiting is all 0. A refused one leaves the tables, held
 * and waiting as they are, past the rows held too. */
uint64_t zorambi_begin(const int32_t *schema, size_t schema_len, size_t schema_rows,
                       const int32_t *proof, size_t proof_len, size_t proof_rows,
                       int32_t root, int32_t least,
                       int32_t *nodes, size_t nodes_len, int32_t *members, size_t members_len,
                       size_t held[2], int32_t shown[1], int32_t waiting[1033]);
uint64_t zorambi_add(const int32_t *schema, size_t schema_len, size_t schema_rows,
                     const int32_t *proof, size_t proof_len, size_t proof_rows,
                     int32_t root, int32_t least,
                     int32_t *nodes, size_t nodes_len, int32_t *members, size_t members_len,
                     size_t held[2], int32_t shown[1],
                     const int32_t row[7], const int32_t *set, size_t set_len, int32_t waiting[1033]);
uint64_t zorambi_take_back(const int32_t *schema, size_t schema_len, size_t schema_rows,
                           const int32_t *proof, size_t proof_len, size_t proof_rows,
                           int32_t root, int32_t least,
                           int32_t *nodes, size_t nodes_len, int32_t *members, size_t members_len,
                           size_t held[2], int32_t shown[1], int32_t waiting[1033]);
uint64_t zorambi_enquire(const int32_t *schema, size_t schema_len, size_t schema_rows,
                         const int32_t *proof, size_t proof_len, size_t proof_rows,
                         int32_t root, int32_t least,
                         int32_t *nodes, size_t nodes_len, int32_t *members, size_t members_len,
                         size_t held[2], int32_t shown[1],
                         const int32_t row[7], const int32_t *set, size_t set_len, int32_t waiting[1033]);
uint64_t zorambi_commit(const int32_t *schema, size_t schema_len, size_t schema_rows,
                        const int32_t *proof, size_t proof_len, size_t proof_rows,
                        int32_t root, int32_t least,
                        int32_t *nodes, size_t nodes_len, int32_t *members, size_t members_len,
                        size_t held[2], int32_t shown[1], int32_t waiting[1033]);

/* The one number that comes back: ((answer * 8192 + place + 1) * 8192 + nodes) * 8192 + links, and from the three with _texts the
 * line at fault above it. In reading, writing, converting, tidying and joining both counts are 0, but that a text that was written
 * has its bytes in their place. Arrays with a fixed number of numbers are read or written whole, and may not be NULL. */
static inline unsigned zorambi_answer(uint64_t packed) { return (unsigned)((packed >> 39) & 31); }
static inline int zorambi_place(uint64_t packed) { return (int)((packed >> 26) & 8191) - 1; }
static inline unsigned zorambi_nodes(uint64_t packed) { return (unsigned)((packed >> 13) & 8191); }
static inline unsigned zorambi_links(uint64_t packed) { return (unsigned)(packed & 8191); }
static inline unsigned zorambi_bytes(uint64_t packed) { return (unsigned)(packed & 67108863); }

enum zorambi_answer_number {
  ZORAMBI_ACCEPTED = 0,
  ZORAMBI_TEXT_TOO_LONG = 1,    /* a text over 65,536 bytes */
  ZORAMBI_TABLE_TOO_SHORT = 2,  /* a lent table too short; place in a check: -1 */
  ZORAMBI_HEADING = 3,          /* a heading: absent or different */
  ZORAMBI_LINE = 4,             /* a line's form: not a line of the required form and number of values */
  ZORAMBI_TOO_MANY = 5,         /* too many rows or members, nodes or pairs; place in a check: -1 */
  ZORAMBI_ROOT = 6,             /* the root or the least value: no outer schema row, or not 0..9999; place: -1 */
  ZORAMBI_ILL_FORMED = 7,       /* an ill-formed formula; place: the row */
  ZORAMBI_TOO_LARGE = 8,        /* a formula too large or too deep; place: the row */
  ZORAMBI_SET = 9,              /* a set's place, order or members; from here to 17 place: the node */
  ZORAMBI_PARENT = 10,          /* a wrong parent, or node 0's set; also no node (-1) */
  ZORAMBI_DRAWN = 11,           /* a formula that the parent does not give: neither its set nor its rule */
  ZORAMBI_FIELDS = 12,          /* no such rule, or fields that do not fit it: a kind, a symbol or by, as a split's negative by */
  ZORAMBI_TARGET = 13,          /* a link whose to is not the number of a node before it */
  ZORAMBI_BOUND = 14,           /* a bound: of a rule, a split's K, a link's L - by or H - by, or a clash's index */
  ZORAMBI_PARTNER = 15,         /* an unfolding's with or other */
  ZORAMBI_LOWERED = 16,         /* a link's row without its lowered partner */
  ZORAMBI_CHILDREN = 17,        /* the number of children */
  ZORAMBI_PAIR = 18,            /* a pair out of order or range; place: the pair */
  ZORAMBI_WIDTH = 19,           /* n out of range: below least or over 9999; place: -1 */
  ZORAMBI_FALSE = 20,           /* the schema is false there; place: -1 */
  ZORAMBI_NUMBER = 21,          /* a number beyond 5 digits, or sets that do not follow one another to the last member: writing */
  ZORAMBI_OUTPUT = 22,          /* the output: too short, or the text too long: writing */
  /* converting */
  ZORAMBI_PLAIN = 23,           /* plain rows too many, too large or too deep; place: -1 */
  /* growing */
  ZORAMBI_ROOM = 24,            /* no room for the row: 1024 nodes are held, or the row's members or a lent table have none; place: -1 */
  ZORAMBI_NO_ROW = 25,          /* no row to take back; place: -1 */
  /* enquiring */
  ZORAMBI_WAITING = 26,         /* no row waits for a commit; place: -1 */
  /* checking */
  ZORAMBI_REPEATED = 27,        /* a proof row written twice, an earlier schema or proof row again; not in the older check; place: the row */
  /* joining */
  ZORAMBI_LEASTS = 28,          /* the least values differ; place: -1 */
  ZORAMBI_JOINT = 29,           /* the joined record passes a limit; place: -1 */
  /* finding a model */
  ZORAMBI_WIRES = 30,           /* more than 16 pairs that occur at that n; place: -1 */
  /* the next small table */
  ZORAMBI_NOT_LISTED = 31,      /* not 1 to 3 rows, or a table that is not on the list of small ones; place: -1 */
};

/* The library's own functions take an empty slice as they take any: with an address, which is not NULL. So each name above stands
 * for a function below, which hands on its arguments, and for an empty slice an address at which nothing is read or written.
 * A caller without this header sees to that itself. */
static inline const int32_t *zorambi_numbers_of(const int32_t *numbers, size_t count) {
  static const int32_t none = 0;
  return count == 0 ? &none : numbers;
}
static inline const uint8_t *zorambi_text_of(const uint8_t *text, size_t count) {
  static const uint8_t none = 0;
  return count == 0 ? &none : text;
}
static inline int32_t *zorambi_lent_numbers(int32_t *numbers, size_t count) {
  static int32_t none;
  return count == 0 ? &none : numbers;
}
static inline uint8_t *zorambi_lent_bytes(uint8_t *bytes, size_t count) {
  static uint8_t none;
  return count == 0 ? &none : bytes;
}

static inline uint64_t zorambi_c_check(const int32_t *schema, size_t schema_len, size_t schema_rows, const int32_t *proof,
                                       size_t proof_len, size_t proof_rows, int32_t root, int32_t least, const int32_t *nodes,
                                       size_t nodes_len, size_t node_rows, const int32_t *members, size_t members_len,
                                       size_t member_count) {
  return zorambi_check(zorambi_numbers_of(schema, schema_len), schema_len, schema_rows, zorambi_numbers_of(proof, proof_len),
                       proof_len, proof_rows, root, least, zorambi_numbers_of(nodes, nodes_len), nodes_len, node_rows,
                       zorambi_numbers_of(members, members_len), members_len, member_count);
}
static inline uint64_t zorambi_c_check_older(const int32_t *schema, size_t schema_len, size_t schema_rows, const int32_t *proof,
                                             size_t proof_len, size_t proof_rows, int32_t root, int32_t least,
                                             const int32_t *nodes, size_t nodes_len, size_t node_rows, const int32_t *members,
                                             size_t members_len, size_t member_count) {
  return zorambi_check_older(zorambi_numbers_of(schema, schema_len), schema_len, schema_rows,
                             zorambi_numbers_of(proof, proof_len), proof_len, proof_rows, root, least,
                             zorambi_numbers_of(nodes, nodes_len), nodes_len, node_rows,
                             zorambi_numbers_of(members, members_len), members_len, member_count);
}
static inline uint64_t zorambi_c_check_model(const int32_t *schema, size_t schema_len, size_t schema_rows, int32_t root,
                                             int32_t least, int32_t n, const int32_t *pairs, size_t pairs_len,
                                             size_t pair_rows) {
  return zorambi_check_model(zorambi_numbers_of(schema, schema_len), schema_len, schema_rows, root, least, n,
                             zorambi_numbers_of(pairs, pairs_len), pairs_len, pair_rows);
}
static inline uint64_t zorambi_c_read_schema(const uint8_t *text, size_t text_len, int32_t *table, size_t table_len,
                                             int32_t results[3]) {
  return zorambi_read_schema(zorambi_text_of(text, text_len), text_len, zorambi_lent_numbers(table, table_len), table_len,
                             results);
}
static inline uint64_t zorambi_c_read_proof(const uint8_t *text, size_t text_len, int32_t *table, size_t table_len,
                                            int32_t *nodes, size_t nodes_len, int32_t *members, size_t members_len,
                                            int32_t results[3]) {
  return zorambi_read_proof(zorambi_text_of(text, text_len), text_len, zorambi_lent_numbers(table, table_len), table_len,
                            zorambi_lent_numbers(nodes, nodes_len), nodes_len, zorambi_lent_numbers(members, members_len),
                            members_len, results);
}
static inline uint64_t zorambi_c_read_model(const uint8_t *text, size_t text_len, int32_t *pairs, size_t pairs_len,
                                            int32_t results[2]) {
  return zorambi_read_model(zorambi_text_of(text, text_len), text_len, zorambi_lent_numbers(pairs, pairs_len), pairs_len,
                            results);
}
static inline uint64_t zorambi_c_write_schema(const int32_t *table, size_t table_len, size_t rows, int32_t root, int32_t least,
                                              uint8_t *out, size_t out_len) {
  return zorambi_write_schema(zorambi_numbers_of(table, table_len), table_len, rows, root, least,
                              zorambi_lent_bytes(out, out_len), out_len);
}
static inline uint64_t zorambi_c_write_proof(const int32_t *table, size_t table_len, size_t rows, const int32_t *nodes,
                                             size_t nodes_len, size_t node_rows, const int32_t *members, size_t members_len,
                                             size_t member_count, uint8_t *out, size_t out_len) {
  return zorambi_write_proof(zorambi_numbers_of(table, table_len), table_len, rows, zorambi_numbers_of(nodes, nodes_len),
                             nodes_len, node_rows, zorambi_numbers_of(members, members_len), members_len, member_count,
                             zorambi_lent_bytes(out, out_len), out_len);
}
static inline uint64_t zorambi_c_write_model(int32_t n, const int32_t *pairs, size_t pairs_len, size_t pair_rows, uint8_t *out,
                                             size_t out_len) {
  return zorambi_write_model(n, zorambi_numbers_of(pairs, pairs_len), pairs_len, pair_rows, zorambi_lent_bytes(out, out_len),
                             out_len);
}
static inline void zorambi_c_line(const uint8_t *text, size_t text_len, size_t k, size_t span[2]) {
  zorambi_line(zorambi_text_of(text, text_len), text_len, k, span);
}
static inline uint64_t zorambi_c_check_texts(const uint8_t *schema, size_t schema_len, const uint8_t *proof, size_t proof_len) {
  return zorambi_check_texts(zorambi_text_of(schema, schema_len), schema_len, zorambi_text_of(proof, proof_len), proof_len);
}
static inline uint64_t zorambi_c_check_older_texts(const uint8_t *schema, size_t schema_len, const uint8_t *proof,
                                                   size_t proof_len) {
  return zorambi_check_older_texts(zorambi_text_of(schema, schema_len), schema_len, zorambi_text_of(proof, proof_len), proof_len);
}
static inline uint64_t zorambi_c_check_model_texts(const uint8_t *schema, size_t schema_len, const uint8_t *model,
                                                   size_t model_len) {
  return zorambi_check_model_texts(zorambi_text_of(schema, schema_len), schema_len, zorambi_text_of(model, model_len), model_len);
}
/* A failing width. */
static inline uint64_t zorambi_c_find_model(const int32_t *schema, size_t schema_len, size_t schema_rows, int32_t root,
                                            int32_t least, int32_t n, int32_t *pairs, size_t pairs_len, int32_t results[2]) {
  return zorambi_find_model(zorambi_numbers_of(schema, schema_len), schema_len, schema_rows, root, least, n,
                            zorambi_lent_numbers(pairs, pairs_len), pairs_len, results);
}
/* Connectives as designers write them. */
static inline uint64_t zorambi_c_convert(const int32_t *wide, size_t wide_len, size_t wide_rows, int32_t root, int32_t least,
                                         int32_t *plain, size_t plain_len, int32_t results[3]) {
  return zorambi_convert(zorambi_numbers_of(wide, wide_len), wide_len, wide_rows, root, least,
                         zorambi_lent_numbers(plain, plain_len), plain_len, results);
}
/* All small schemata. */
static inline uint64_t zorambi_c_next_small(const int32_t *table, size_t table_len, size_t rows, int32_t *next, size_t next_len) {
  return zorambi_next_small(zorambi_numbers_of(table, table_len), table_len, rows, zorambi_lent_numbers(next, next_len), next_len);
}
/* Older records, tidied. */
static inline uint64_t zorambi_c_tidy(const int32_t *schema, size_t schema_len, size_t schema_rows, const int32_t *proof,
                                      size_t proof_len, size_t proof_rows, int32_t root, int32_t least, const int32_t *nodes,
                                      size_t nodes_len, size_t node_rows, const int32_t *members, size_t members_len,
                                      size_t member_count, int32_t *out_proof, size_t out_proof_len, int32_t *out_nodes,
                                      size_t out_nodes_len, int32_t *out_members, size_t out_members_len,
                                      int32_t results[3]) {
  return zorambi_tidy(zorambi_numbers_of(schema, schema_len), schema_len, schema_rows, zorambi_numbers_of(proof, proof_len),
                      proof_len, proof_rows, root, least, zorambi_numbers_of(nodes, nodes_len), nodes_len, node_rows,
                      zorambi_numbers_of(members, members_len), members_len, member_count,
                      zorambi_lent_numbers(out_proof, out_proof_len), out_proof_len,
                      zorambi_lent_numbers(out_nodes, out_nodes_len), out_nodes_len,
                      zorambi_lent_numbers(out_members, out_members_len), out_members_len, results);
}
/* One record for either fault. */
static inline uint64_t zorambi_c_join(const int32_t *first_schema, size_t first_schema_len, size_t first_schema_rows,
                                      const int32_t *first_proof, size_t first_proof_len, size_t first_proof_rows,
                                      int32_t first_root, int32_t first_least, const int32_t *first_nodes,
                                      size_t first_nodes_len, size_t first_node_rows, const int32_t *first_members,
                                      size_t first_members_len, size_t first_member_count, const int32_t *second_schema,
                                      size_t second_schema_len, size_t second_schema_rows, const int32_t *second_proof,
                                      size_t second_proof_len, size_t second_proof_rows, int32_t second_root,
                                      int32_t second_least, const int32_t *second_nodes, size_t second_nodes_len,
                                      size_t second_node_rows, const int32_t *second_members, size_t second_members_len,
                                      size_t second_member_count, int32_t *out_schema, size_t out_schema_len,
                                      int32_t *out_proof, size_t out_proof_len, int32_t *out_nodes, size_t out_nodes_len,
                                      int32_t *out_members, size_t out_members_len, int32_t results[6]) {
  return zorambi_join(zorambi_numbers_of(first_schema, first_schema_len), first_schema_len, first_schema_rows,
                      zorambi_numbers_of(first_proof, first_proof_len), first_proof_len, first_proof_rows, first_root,
                      first_least, zorambi_numbers_of(first_nodes, first_nodes_len), first_nodes_len, first_node_rows,
                      zorambi_numbers_of(first_members, first_members_len), first_members_len, first_member_count,
                      zorambi_numbers_of(second_schema, second_schema_len), second_schema_len, second_schema_rows,
                      zorambi_numbers_of(second_proof, second_proof_len), second_proof_len, second_proof_rows, second_root,
                      second_least, zorambi_numbers_of(second_nodes, second_nodes_len), second_nodes_len, second_node_rows,
                      zorambi_numbers_of(second_members, second_members_len), second_members_len, second_member_count,
                      zorambi_lent_numbers(out_schema, out_schema_len), out_schema_len,
                      zorambi_lent_numbers(out_proof, out_proof_len), out_proof_len,
                      zorambi_lent_numbers(out_nodes, out_nodes_len), out_nodes_len,
                      zorambi_lent_numbers(out_members, out_members_len), out_members_len, results);
}
/* A tableau that grows. */
static inline uint64_t zorambi_c_begin(const int32_t *schema, size_t schema_len, size_t schema_rows, const int32_t *proof,
                                       size_t proof_len, size_t proof_rows, int32_t root, int32_t least, int32_t *nodes,
                                       size_t nodes_len, int32_t *members, size_t members_len, size_t held[2],
                                       int32_t shown[1], int32_t waiting[1033]) {
  return zorambi_begin(zorambi_numbers_of(schema, schema_len), schema_len, schema_rows, zorambi_numbers_of(proof, proof_len),
                       proof_len, proof_rows, root, least, zorambi_lent_numbers(nodes, nodes_len), nodes_len,
                       zorambi_lent_numbers(members, members_len), members_len, held, shown, waiting);
}
static inline uint64_t zorambi_c_add(const int32_t *schema, size_t schema_len, size_t schema_rows, const int32_t *proof,
                                     size_t proof_len, size_t proof_rows, int32_t root, int32_t least, int32_t *nodes,
                                     size_t nodes_len, int32_t *members, size_t members_len, size_t held[2],
                                     int32_t shown[1], const int32_t row[7], const int32_t *set, size_t set_len,
                                     int32_t waiting[1033]) {
  return zorambi_add(zorambi_numbers_of(schema, schema_len), schema_len, schema_rows, zorambi_numbers_of(proof, proof_len),
                     proof_len, proof_rows, root, least, zorambi_lent_numbers(nodes, nodes_len), nodes_len,
                     zorambi_lent_numbers(members, members_len), members_len, held, shown, row,
                     zorambi_numbers_of(set, set_len), set_len, waiting);
}
static inline uint64_t zorambi_c_take_back(const int32_t *schema, size_t schema_len, size_t schema_rows, const int32_t *proof,
                                           size_t proof_len, size_t proof_rows, int32_t root, int32_t least, int32_t *nodes,
                                           size_t nodes_len, int32_t *members, size_t members_len, size_t held[2],
                                           int32_t shown[1], int32_t waiting[1033]) {
  return zorambi_take_back(zorambi_numbers_of(schema, schema_len), schema_len, schema_rows,
                           zorambi_numbers_of(proof, proof_len), proof_len, proof_rows, root, least,
                           zorambi_lent_numbers(nodes, nodes_len), nodes_len, zorambi_lent_numbers(members, members_len),
                           members_len, held, shown, waiting);
}
static inline uint64_t zorambi_c_enquire(const int32_t *schema, size_t schema_len, size_t schema_rows, const int32_t *proof,
                                         size_t proof_len, size_t proof_rows, int32_t root, int32_t least, int32_t *nodes,
                                         size_t nodes_len, int32_t *members, size_t members_len, size_t held[2],
                                         int32_t shown[1], const int32_t row[7], const int32_t *set, size_t set_len,
                                         int32_t waiting[1033]) {
  return zorambi_enquire(zorambi_numbers_of(schema, schema_len), schema_len, schema_rows, zorambi_numbers_of(proof, proof_len),
                         proof_len, proof_rows, root, least, zorambi_lent_numbers(nodes, nodes_len), nodes_len,
                         zorambi_lent_numbers(members, members_len), members_len, held, shown, row,
                         zorambi_numbers_of(set, set_len), set_len, waiting);
}
static inline uint64_t zorambi_c_commit(const int32_t *schema, size_t schema_len, size_t schema_rows, const int32_t *proof,
                                        size_t proof_len, size_t proof_rows, int32_t root, int32_t least, int32_t *nodes,
                                        size_t nodes_len, int32_t *members, size_t members_len, size_t held[2],
                                        int32_t shown[1], int32_t waiting[1033]) {
  return zorambi_commit(zorambi_numbers_of(schema, schema_len), schema_len, schema_rows,
                        zorambi_numbers_of(proof, proof_len), proof_len, proof_rows, root, least,
                        zorambi_lent_numbers(nodes, nodes_len), nodes_len, zorambi_lent_numbers(members, members_len),
                        members_len, held, shown, waiting);
}

#define zorambi_check zorambi_c_check
#define zorambi_check_older zorambi_c_check_older
#define zorambi_check_model zorambi_c_check_model
#define zorambi_read_schema zorambi_c_read_schema
#define zorambi_read_proof zorambi_c_read_proof
#define zorambi_read_model zorambi_c_read_model
#define zorambi_write_schema zorambi_c_write_schema
#define zorambi_write_proof zorambi_c_write_proof
#define zorambi_write_model zorambi_c_write_model
#define zorambi_line zorambi_c_line
#define zorambi_check_texts zorambi_c_check_texts
#define zorambi_check_older_texts zorambi_c_check_older_texts
#define zorambi_check_model_texts zorambi_c_check_model_texts
/* A failing width. */
#define zorambi_find_model zorambi_c_find_model
/* Connectives as designers write them. */
#define zorambi_convert zorambi_c_convert
/* All small schemata. */
#define zorambi_next_small zorambi_c_next_small
/* Older records, tidied. */
#define zorambi_tidy zorambi_c_tidy
/* One record for either fault. */
#define zorambi_join zorambi_c_join
/* A tableau that grows. */
#define zorambi_begin zorambi_c_begin
#define zorambi_add zorambi_c_add
#define zorambi_take_back zorambi_c_take_back
#define zorambi_enquire zorambi_c_enquire
#define zorambi_commit zorambi_c_commit

#ifdef __cplusplus
}
#endif

#endif
