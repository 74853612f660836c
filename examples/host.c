/* A host program: judges a box's queue, a record of JSON on each line, by an organiser's rules, and prints a line for
 * each record. Up to 512 records are read, then judged in one call.
 *
 *     ./amphorust bundle examples/passage.schema.json examples/passage.json >target/passage.bundle
 *     host target/passage.bundle <examples/queue.jsonl
 *
 * The rules are the second sheet of a bundle. `examples/build-host` builds and runs all this. */
#include <inttypes.h>
#include <stdio.h>
#include <string.h>

#include "amphorust.h"

#define BUNDLE_MAX 65536
#define BYTES_MAX (1 << 22) /* of all texts of a queue */

/* The rules. */
static uint8_t bundle[BUNDLE_MAX];
static uint32_t rules[BUNDLE_MAX / 4]; /* words stand at addresses divisible by 4 */
static const uint8_t *rule_text;
static size_t rules_length, rule_text_length;

/* The queue: the records' words and texts one after the other, and where each stands. */
static uint32_t words[AMPHORUST_QUEUE_MAX * AMPHORUST_WORDS_MAX];
static uint8_t bytes[BYTES_MAX];
static size_t words_used, bytes_used, listed;
static uint32_t listing[4 * AMPHORUST_QUEUE_MAX];
static uint64_t answers[AMPHORUST_QUEUE_MAX];

/* Of each line what reading answered, and its number in the listing if it was read. */
static uint64_t readings[AMPHORUST_QUEUE_MAX];
static size_t place_of[AMPHORUST_QUEUE_MAX];

/* Enough for every record and rules; what an earlier call left in them does not matter. */
static uint8_t cells[AMPHORUST_ROOM_MAX];
static uint32_t list[AMPHORUST_ROOM_MAX];

/* ---- The rules */

/* A bundle is record words, record text, rule words, rule text, then the byte length of each of the four. */
static int take_rules(const char *path)
{
    uint32_t part[4];
    FILE *file = fopen(path, "rb");
    size_t length = file == NULL ? 0 : fread(bundle, 1, sizeof bundle, file);
    if (file != NULL)
        fclose(file);
    if (length < sizeof part)
        return 0;
    memcpy(part, bundle + length - sizeof part, sizeof part);
    uint64_t total = sizeof part;
    for (int i = 0; i < 4; i++)
        total += part[i];
    if (total != length)
        return 0;
    rules_length = part[2] / 4;
    memcpy(rules, bundle + part[0] + part[1], part[2]);
    rule_text = bundle + part[0] + part[1] + part[2];
    rule_text_length = part[3];
    return 1;
}

static void print_refusal(uint64_t answer)
{
    printf("refused, %s (refusal %u, place %" PRIu32 ")\n", amphorust_refusal_text(amphorust_refusal(answer)),
           amphorust_refusal(answer), amphorust_place(answer));
}

/* Once, when an organiser hands the rules in. */
static int rules_in_order(void)
{
    uint64_t answer = amphorust_check(rules, rules_length, rule_text, rule_text_length);
    printf("the rules: ");
    if (amphorust_is_in_order(answer))
        printf("in order, %" PRIu32 " schemas\n", amphorust_size(answer));
    else
        print_refusal(answer);
    return amphorust_is_in_order(answer);
}

/* ---- The queue */

/* The next line, without its end: its length, or -1 where there is none. Of a line that is too long to be read, one
 * byte more than may be. */
static long take_line(uint8_t *line)
{
    long length = 0;
    int byte = getchar();
    if (byte == EOF)
        return -1;
    for (; byte != EOF && byte != '\n'; byte = getchar())
        if (length <= AMPHORUST_JSON_MAX)
            line[length++] = (uint8_t)byte;
    return length;
}

/* Reads a record of JSON behind those that are read, and lists it. */
static uint64_t read_record(const uint8_t *json, size_t length)
{
    uint64_t answer = amphorust_read(json, length, words + words_used, sizeof words / sizeof words[0] - words_used,
                                     bytes + bytes_used, sizeof bytes - bytes_used);
    if (!amphorust_is_refused(answer)) {
        size_t made = amphorust_words_read(answer), text = amphorust_text_read(answer, words + words_used);
        amphorust_list_record(listing, listed++, (uint32_t)words_used, (uint32_t)made, (uint32_t)bytes_used,
                              (uint32_t)text);
        words_used += made;
        bytes_used += text;
    }
    return answer;
}

/* As many lines as a queue takes: how many there were. */
static size_t read_queue(void)
{
    static uint8_t line[AMPHORUST_JSON_MAX + 1];
    size_t lines = 0;
    words_used = bytes_used = listed = 0;
    for (long length; lines < AMPHORUST_QUEUE_MAX && (length = take_line(line)) >= 0; lines++) {
        place_of[lines] = listed;
        readings[lines] = read_record(line, (size_t)length);
    }
    return lines;
}

static uint64_t judge_queue(void)
{
    return amphorust_judge_queue(words, words_used, bytes, bytes_used, listing, 4 * listed, rules, rules_length,
                                 rule_text, rule_text_length, cells, sizeof cells, list,
                                 sizeof list / sizeof list[0], answers, listed);
}

/* ---- What came of it */

/* The pairs of a record that failed. It is judged by itself once more, as the areas are left with the queue's last. */
static void print_failed(const uint32_t *record)
{
    uint64_t answer = amphorust_judge(words + record[0], record[1], bytes + record[2], record[3], rules, rules_length,
                                      rule_text, rule_text_length, cells, sizeof cells, list,
                                      sizeof list / sizeof list[0]);
    uint32_t schemas = amphorust_schemas(rules, rules_length);
    for (size_t i = 0; i < amphorust_count(answer); i++)
        if (amphorust_cell_verdict(cells[list[i]]) == AMPHORUST_FAILED)
            printf("    row %" PRIu32 " by schema %" PRIu32 " failed\n", amphorust_pair_row(list[i], schemas),
                   amphorust_pair_schema(list[i], schemas));
}

static void print_line(size_t line)
{
    if (amphorust_is_refused(readings[line])) {
        print_refusal(readings[line]);
        return;
    }
    uint64_t answer = answers[place_of[line]];
    if (amphorust_is_refused(answer)) {
        print_refusal(answer);
        return;
    }
    printf("%s, %zu pairs settled\n", amphorust_is_valid(answer) ? "valid" : "invalid", amphorust_count(answer));
    if (amphorust_is_invalid(answer))
        print_failed(listing + 4 * place_of[line]);
}

int main(int count, char **arguments)
{
    if (count != 2 || !take_rules(arguments[1])) {
        fprintf(stderr, "usage: host BUNDLE <QUEUE\n");
        return 2;
    }
    if (!rules_in_order())
        return 1;
    size_t before = 0;
    for (size_t lines; (lines = read_queue()) > 0; before += lines) {
        uint64_t answer = judge_queue();
        if (amphorust_is_refused(answer)) {
            print_refusal(answer);
            return 1;
        }
        for (size_t line = 0; line < lines; line++) {
            printf("line %zu: ", before + line + 1);
            print_line(line);
        }
    }
    return 0;
}
