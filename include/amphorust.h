/* amphorust.h: judges a record by rules, JSON Schema (Draft 2020-12) as sheets of words.
 *
 * A sheet is an array of 32-bit words with its text in bytes: a record or rules. `amphorust_read` makes a
 * record of JSON. `amphorust_check` says whether a sheet is in order. `amphorust_judge` takes a record and
 * rules, and two areas that it writes: the cells and the settling list; it checks both sheets itself.
 * `amphorust_verdict` does only what the verdict needs, and has no list. `amphorust_judge_queue` judges up
 * to 512 records, one after the other. Each answers by one 64-bit number, for every input whatever; what it
 * gives and leaves is proved, for all of them.
 *
 * `./install PREFIX` gives libamphorust.a and libamphorust.so to link with, beside the C library; in a clone they are
 * target/staticlib/libhub.a and target/lib/libamphorust.so (`./amphorust build`). x86-64 only. `examples/host.c` and
 * `examples/book.c` are whole host programs.
 */
#ifndef AMPHORUST_H
#define AMPHORUST_H

#include <stddef.h>
#include <stdint.h>

#ifdef __cplusplus
extern "C" {
#endif

/* In every call each array is a pointer and then its length in elements: words of 4 bytes, answers of 8,
 * or bytes. Any contents and any lengths may be passed; a sheet that is not in order is refused, never
 * followed out of its array.
 *   - An array of length 0 may have a null pointer.
 *   - Arrays of words stand at addresses divisible by 4, and answers at one divisible by 8.
 *   - `cells`, `list` and `answers`, and the areas of reading, overlap no other array. Those that are only
 *     read may overlap.
 *   - Nothing else writes any of them while the call runs.
 *
 * A call keeps no state, allocates nothing, ends on every input, and may run in several threads at once,
 * each with its own areas. Judging recurses over the record's levels and the rules' references: give a
 * thread that makes a call a stack of AMPHORUST_STACK bytes, besides what the thread needs itself. */

#define AMPHORUST_STACK 524288 /* the deepest recursion was measured to need 408 KiB */

/* Reads JSON (RFC 8259, in UTF-8, without a byte order mark) into a record sheet and its text. The value of
 * the text is the record: rows breadth first, names and strings with their escapes decoded, numbers by
 * their value, at the smallest scale. What is read needs no check, and is not refused by one.
 *
 * The sheet's words stand at the start of `words` and the text's bytes at the start of `text`
 * (`amphorust_words_read` and `amphorust_text_read` say how many); what lies behind them stays. A text that
 * is refused, by 20 to 28, writes nothing. Areas of `amphorust_words_for` and `amphorust_text_for` places
 * are enough for a text of so many bytes, and AMPHORUST_WORDS_MAX and AMPHORUST_TEXT_MAX for every text. */
uint64_t amphorust_read(const uint8_t *json, size_t json_length,
                        uint32_t *words, size_t words_length,
                        uint8_t *text, size_t text_length);

#define AMPHORUST_JSON_MAX 65536 /* bytes of a JSON text */
#define AMPHORUST_WORDS_MAX 6148 /* of a record sheet that was read: 6 x 1,024 + 4 */
#define AMPHORUST_TEXT_MAX 65535 /* bytes of a sheet's text */

/* A text of n values has at least 2n - 1 bytes: a value with none in it at least one, and one with m values
 * in it two brackets and m - 1 commas besides theirs. */
static inline size_t amphorust_words_for(size_t json_length)
{
    size_t values = json_length / 2 + json_length % 2;
    return 6 * (values < 1024 ? values : 1024) + 4;
}

/* Names and strings take no more bytes than they are written with, quotes not counted. */
static inline size_t amphorust_text_for(size_t json_length)
{
    return json_length < AMPHORUST_TEXT_MAX ? json_length : AMPHORUST_TEXT_MAX;
}

/* Checks a sheet. The last word says its kind: 1 for a record, 2 for rules. */
uint64_t amphorust_check(const uint32_t *words, size_t words_length,
                         const uint8_t *text, size_t text_length);

/* Judges a record by rules.
 *
 * The areas need rows x schemas places each (`amphorust_room` reads that from the two sheets), at most
 * AMPHORUST_ROOM_MAX; longer ones are fine. What they held before does not matter. */
uint64_t amphorust_judge(const uint32_t *record, size_t record_length,
                         const uint8_t *record_text, size_t record_text_length,
                         const uint32_t *rules, size_t rules_length,
                         const uint8_t *rule_text, size_t rule_text_length,
                         uint8_t *cells, size_t cells_length,
                         uint32_t *list, size_t list_length);

/* Judges a record by rules as far as the verdict needs: a schema judges no clause after its first that
 * fails, and allOf applies no entry after its first that fails; all else is judged as `amphorust_judge`
 * judges it. It answers as that does where its list is long enough: the same verdict, the same refusal and
 * place; the cells need as many places. The count is that of the pairs settled here, which are some of
 * those of `amphorust_judge`, each with the verdict and the marks that it has there. */
uint64_t amphorust_verdict(const uint32_t *record, size_t record_length,
                           const uint8_t *record_text, size_t record_text_length,
                           const uint32_t *rules, size_t rules_length,
                           const uint8_t *rule_text, size_t rule_text_length,
                           uint8_t *cells, size_t cells_length);

#define AMPHORUST_ROOM_MAX 1048576 /* 1,024 rows x 1,024 schemas */

/* Judges a queue of records by one rule sheet, which is checked once.
 *
 * The records' words stand in `words` and their texts in `bytes`; the listing says where, by four words
 * for each record (`amphorust_list_record` writes them): start and length of its words, then start and
 * length of its text. Records may overlap, and one may be listed twice.
 *
 * Answer k is that of record k, as `amphorust_judge` gives it: a record that is refused, be it for the
 * rules or for areas too short, is answered so, and the queue goes on. The areas are left as by those
 * calls one after the other: each judged record writes its own first cells and list words, and those of
 * the last stand there. Answers behind the records' stay as they were. A refused queue (30 to 32) writes
 * nothing at all. */
uint64_t amphorust_judge_queue(const uint32_t *words, size_t words_length,
                               const uint8_t *bytes, size_t bytes_length,
                               const uint32_t *listing, size_t listing_length,
                               const uint32_t *rules, size_t rules_length,
                               const uint8_t *rule_text, size_t rule_text_length,
                               uint8_t *cells, size_t cells_length,
                               uint32_t *list, size_t list_length,
                               uint64_t *answers, size_t answers_length);

#define AMPHORUST_QUEUE_MAX 512 /* records in a queue */

/* Lists a record as number k of the queue; the listing has room for 4 x (k + 1) words. */
static inline void amphorust_list_record(uint32_t *listing, size_t k, uint32_t start, uint32_t length,
                                         uint32_t text_start, uint32_t text_length)
{
    listing[4 * k] = start;
    listing[4 * k + 1] = length;
    listing[4 * k + 2] = text_start;
    listing[4 * k + 3] = text_length;
}

/* ---- The answer
 *
 * The lowest byte is 0 for valid or, of a check and of reading, in order or, of a queue, answered; 1 for
 * invalid; and 10 more than the refusal's number for refused. What stands above it is, for valid and
 * invalid, the number of settled pairs; in order, the number of rows of a record or of schemas of rules; of
 * a queue, the number of records answered; for refused, the place. */

static inline int amphorust_is_in_order(uint64_t answer) { return answer % 256 == 0; }

static inline int amphorust_is_valid(uint64_t answer) { return answer % 256 == 0; }

static inline int amphorust_is_invalid(uint64_t answer) { return answer % 256 == 1; }

static inline int amphorust_is_refused(uint64_t answer) { return answer % 256 > 10; }

/* The settled pairs: how many words of the list judging wrote, and how many cells show a verdict. A refused
 * call settled none. */
static inline size_t amphorust_count(uint64_t answer)
{
    return amphorust_is_refused(answer) ? 0 : (size_t)(answer / 256);
}

/* The rows of the record, or the schemas of the rules, that a check found in order or that reading made; 0
 * if it was refused. */
static inline uint32_t amphorust_size(uint64_t answer)
{
    return amphorust_is_refused(answer) ? 0 : (uint32_t)(answer / 256);
}

/* How many words and how many bytes of the text reading wrote, by its answer and the words; 0 if it was
 * refused. */
static inline size_t amphorust_words_read(uint64_t answer)
{
    return amphorust_is_refused(answer) ? 0 : 6 * (size_t)amphorust_size(answer) + 4;
}

static inline size_t amphorust_text_read(uint64_t answer, const uint32_t *words)
{
    return amphorust_is_refused(answer) ? 0 : words[6 * (size_t)amphorust_size(answer) + 2];
}

/* How many records of a queue were answered; 0 if the queue was refused. */
static inline size_t amphorust_answered(uint64_t answer)
{
    return amphorust_is_refused(answer) ? 0 : (size_t)(answer / 256);
}

/* The refusal's number, 1 to 13, 20 to 28 or 30 to 32; 0 if the call was not refused. */
static inline unsigned amphorust_refusal(uint64_t answer)
{
    return amphorust_is_refused(answer) ? (unsigned)(answer % 256 - 10) : 0;
}

/* Where the refusal was found, see the table; 0 if the call was not refused. */
static inline uint32_t amphorust_place(uint64_t answer)
{
    return amphorust_is_refused(answer) ? (uint32_t)(answer / 256) : 0;
}

/* ---- Refusals
 *
 * They are tested in order over whole sheets, and the first that applies is given: by a check 12, then 1,
 * 2, 3, 13, 4 of a record or 5, 6, 7, 13, 8, 9 of rules; by judging the record's, the rules', 10 and (not
 * for the verdict only) 11, and never 12: there a sheet of another kind is refused 1 or 5; by a queue 30, 31
 * and 32 alone. Reading gives 20, then 21, then of 22 to 26 what starts first in the text, then 27 and 28. A
 * refused call leaves the areas as they were. Rows, schemas, clauses, entries and bytes count from 0; a
 * place in the rules counts the schemas, then the clauses, then the entries. */
static inline const char *amphorust_refusal_text(unsigned refusal)
{
    switch (refusal) {
    /* place 0 */
    case 1: return "the record sheet's trailer is wrong";
    /* the lowest such row; of 3, the lowest whose name an earlier child has */
    case 2: return "a record row breaks the layout";
    case 3: return "two children of an object share a name";
    case 4: return "a record row is deeper than level 32";
    /* place 0 */
    case 5: return "the rule sheet's trailer is wrong";
    /* the lowest such schema, clause or entry; of 7, the lowest entry that an earlier one equals */
    case 6: return "a schema, clause or entry breaks the layout";
    case 7: return "two entries of one required or properties share a name";
    /* the lowest schema on a loop; the lowest that starts a chain of 33 */
    case 8: return "a schema reaches itself on the same row";
    case 9: return "more than 32 schemas reach each other in a chain on the same row";
    /* rows x schemas */
    case 10: return "too few cells";
    case 11: return "too short a list";
    /* place 0 */
    case 12: return "no words, or a last word that is no kind of sheet";
    /* the lowest such row, or the lowest such entry */
    case 13: return "a name or a string is not UTF-8";
    /* place 0 */
    case 20: return "more than 65,536 bytes of JSON";
    /* the first byte at which no JSON text can go on, or the length of one that is cut short */
    case 21: return "not JSON, or not in UTF-8";
    /* the byte at which the value, the name (of 25, the later one) or the escape starts */
    case 22: return "more than 1,024 values";
    case 23: return "a number of more than nine digits, or of more than nine behind the point";
    case 24: return "a value is deeper than level 32";
    case 25: return "two members of an object share a name";
    case 26: return "an escape of a surrogate that is alone";
    /* the words, the bytes that are needed */
    case 27: return "too few words";
    case 28: return "too short a text";
    /* place 0 */
    case 30: return "a listing that four does not divide, or of more than 512 records";
    /* the lowest such record */
    case 31: return "a listed record does not lie in the words or the bytes";
    /* the records given */
    case 32: return "fewer answers than records";
    default: return "not refused";
    }
}

/* ---- What is left in the areas, if the call was not refused
 *
 * A pair is a record row and a schema; its number is row x schemas + schema. The pairs that judging
 * came to are settled, each once, after all those that it applies; the root pair (0, 0) is the last.
 *
 * The list's first `amphorust_count` words are the numbers of the settled pairs, in settling order. All
 * other words stay as they were.
 *
 * The first rows x schemas cells are all written, cell p for pair number p: AMPHORUST_UNSETTLED,
 * AMPHORUST_HELD or AMPHORUST_FAILED; plus AMPHORUST_MARKED if the pair of the row's owner and the same
 * schema was settled and marks (evaluates, in JSON Schema's word) the row. Later cells stay. */

#define AMPHORUST_UNSETTLED 0
#define AMPHORUST_HELD 1
#define AMPHORUST_FAILED 2
#define AMPHORUST_MARKED 4

static inline unsigned amphorust_cell_verdict(uint8_t cell) { return cell % AMPHORUST_MARKED; }

static inline int amphorust_is_marked(uint8_t cell) { return cell >= AMPHORUST_MARKED; }

static inline uint32_t amphorust_pair_row(uint32_t pair, uint32_t schemas) { return pair / schemas; }

static inline uint32_t amphorust_pair_schema(uint32_t pair, uint32_t schemas) { return pair % schemas; }

/* The rows of a record sheet and the schemas of a rule sheet, by their trailers; 0 if the trailer is
 * missing or says a number out of limits, which the call then refuses. */

static inline uint32_t amphorust_rows(const uint32_t *record, size_t record_length)
{
    uint32_t n = record_length < 4 ? 0 : record[record_length - 4];
    return n > 1024 ? 0 : n;
}

static inline uint32_t amphorust_schemas(const uint32_t *rules, size_t rules_length)
{
    uint32_t m = rules_length < 6 ? 0 : rules[rules_length - 6];
    return m > 1024 ? 0 : m;
}

/* How many cells, and how many words of the list, judging these sheets needs. */
static inline size_t amphorust_room(const uint32_t *record, size_t record_length,
                                    const uint32_t *rules, size_t rules_length)
{
    return (size_t)amphorust_rows(record, record_length) * amphorust_schemas(rules, rules_length);
}

/* ---- Record sheet
 *
 * The trailer is the last 4 words:
 *     rows n (1 to 1,024), words back from the trailer's first word to row 0 (6n),
 *     text length in bytes (at most 65,535), kind 1
 * Words before row 0 change nothing. A row is 6 words:
 *     kind, first, count, owner, label start, label length
 *
 *     kind     value                     first, count
 *     0, 1, 2  null, false, true         0, 0
 *     3        number first / 10^count   two's complement, -999,999,999 to 999,999,999; 0 to 9
 *     4        string                    start and length in the text
 *     5, 6     array, object             first child row and child count; 0, 0 if empty
 *
 * Row 0 is the root, with owner 0 and label 0, 0. The children of a row stand together, after it, and
 * name it as owner. The label of an object's child is the start and length of its name in the text; all
 * other labels are 0, 0. Names and strings are UTF-8. The root is level 1, and the deepest level is 32.
 *
 * ---- Rule sheet
 *
 * The trailer is the last 6 words:
 *     schemas m (1 to 1,024), clauses c (at most 4,096), entries e (at most 4,096),
 *     words back from the trailer's first word to schema 0 (2m + 3c + 3e),
 *     text length in bytes (at most 65,535), kind 2
 * From schema 0 on: m schemas of 2 words (first clause, clause count), c clauses of 3 words (code, first,
 * count), e entries of 3 words. Schemas take the clauses in order without gap or rest, and clauses with
 * a list (first entry, entry count) the entries likewise; an empty schema or list still starts where the
 * last ended. In a schema the codes rise, so none stands twice. Schema 0 judges the root. Words before
 * schema 0 change nothing, unused words are 0.
 *
 *     code           clause                                        first, count or entries
 *     1              never holds                                   unused
 *     2              type                                          first: a sum of null 1, boolean 2, integer 4,
 *                                                                  number 8, string 16, array 32, object 64
 *     3              enum                                          entries kind, first, count as in a row, kinds 0 to 4
 *     10, 11         minimum, maximum                              a number as in kind 3
 *     12, 13         exclusiveMinimum, exclusiveMaximum            a number
 *     14             multipleOf                                    a number above 0
 *     20, 21         minLength, maxLength (in characters)          first
 *     22, 23         minItems, maxItems                            first
 *     24, 25         minProperties, maxProperties                  first
 *     26             required                                      entries start, length of a name, 0
 *     30, 31, 32     allOf, anyOf, oneOf                           entries schema, 0, 0
 *     33, 34         not, $ref                                     first: a schema
 *     36             if, then, else                                three entries schema, 0, 0; an empty schema for
 *                                                                  a branch that is absent
 *     37             dependentSchemas                              entries start, length of a name, schema
 *     40             properties                                    entries start, length of a name, schema
 *     42, 44         additionalProperties, items                   first: a schema
 *     43             prefixItems                                   entries schema, 0, 0
 *     45             contains, minContains, maxContains            one entry schema, least, most; 4,294,967,295 for
 *                                                                  no most
 *     60, 61         unevaluatedProperties, unevaluatedItems       first: a schema
 *
 * Lists of 3, 30, 31, 32 and 43 have at least one entry, and no name stands twice in one of 26, 37 or 40. Names
 * and strings of the rules stand in the rule text and are UTF-8. A chain of schemas that reach each other by 30
 * to 37, by any of their entries, has at most 32 and no loop. */

#ifdef __cplusplus
}
#endif

#endif
