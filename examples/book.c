/* Books a record if it keeps the rules: reads a bundle from standard input, both sheets as `amphorust bundle SCHEMA
 * RECORD` writes them, judges it, and prints what came of it.
 *
 *     ./amphorust bundle examples/passage.schema.json examples/passage.json | book */
#include <inttypes.h>
#include <stdio.h>
#include <string.h>

#include "amphorust.h"

#define BUNDLE_MAX 65536

/* A bundle: record words, record text, rule words, rule text, then the byte length of each of the four. */
static uint8_t bundle[BUNDLE_MAX];
static uint32_t record[BUNDLE_MAX / 4], rules[BUNDLE_MAX / 4]; /* words stand at addresses divisible by 4 */
static uint8_t cells[AMPHORUST_ROOM_MAX];
static uint32_t list[AMPHORUST_ROOM_MAX];

static int print_answer(uint64_t answer)
{
    if (amphorust_is_refused(answer)) {
        printf("refused: %s, at place %" PRIu32 "\n", amphorust_refusal_text(amphorust_refusal(answer)),
               amphorust_place(answer));
        return 2;
    }
    printf("%s\n", amphorust_is_valid(answer) ? "booked" : "not booked: the record does not keep the rules");
    return amphorust_is_valid(answer) ? 0 : 1;
}

int main(void)
{
    size_t length = fread(bundle, 1, sizeof bundle, stdin);
    uint32_t part[4];
    if (length < sizeof part)
        return 2;
    memcpy(part, bundle + length - sizeof part, sizeof part);
    uint64_t total = sizeof part;
    for (int i = 0; i < 4; i++)
        total += part[i];
    if (total != length)
        return 2;

    const uint8_t *record_text = bundle + part[0], *rule_words = record_text + part[1];
    memcpy(record, bundle, part[0]);
    memcpy(rules, rule_words, part[2]);
    return print_answer(amphorust_judge(record, part[0] / 4, record_text, part[1], rules, part[2] / 4,
                                        rule_words + part[2], part[3], cells, AMPHORUST_ROOM_MAX, list,
                                        AMPHORUST_ROOM_MAX));
}
