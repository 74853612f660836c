/* Makes the library's calls for a command that cannot load the library: for one on a machine that is not x86-64, where
 * an emulator runs this. `tools/library.py` writes requests and reads answers, and is the only one to do so.
 *
 * A request is four words (what, how many words, how many bytes, how many records are listed), a listing of four words
 * a record, and then a sheet, its words and its text:
 *     1  rules: they are kept, and the answer is that of amphorust_check
 *     2  a record: the answer is that of amphorust_judge by the rules kept, and for an invalid record the cells follow
 *     3  a record: the answer is that of amphorust_verdict by the rules kept
 *     4  a queue: the answer is that of amphorust_judge_queue by the rules kept, and the records' answers follow
 *     5  JSON texts, one after the other in the text, their lengths in the words: the answers are those of
 *        amphorust_read, and each that is no refusal is followed by the record's words and its text
 * Only a queue has a listing.
 * The end of the input ends it, with 0; anything that is no request, with 1. */
#include "amphorust.h"

/* The C library's, as its headers have them: those for x86-64 are not on every machine. */
extern long read(int file, void *to, size_t count);
extern long write(int file, const void *from, size_t count);

#define WORDS_MAX (AMPHORUST_QUEUE_MAX * AMPHORUST_WORDS_MAX)
#define TEXT_MAX (1 << 21) /* of a queue: tools/queues.py ends one with the text that brings it to 1 MiB */

struct sheet {
    uint32_t words[WORDS_MAX];
    uint8_t text[TEXT_MAX];
    size_t words_length, text_length;
};

static struct sheet rules, record; /* or a queue's records, or JSON texts */
static uint32_t read_words[AMPHORUST_WORDS_MAX];
static uint8_t read_text[AMPHORUST_TEXT_MAX];
static uint32_t listing[4 * AMPHORUST_QUEUE_MAX];
static uint64_t answers[AMPHORUST_QUEUE_MAX];
static uint8_t cells[AMPHORUST_ROOM_MAX];
static uint32_t list[AMPHORUST_ROOM_MAX];

static int take(void *to, size_t count)
{
    for (uint8_t *at = to; count > 0;) {
        long got = read(0, at, count);
        if (got <= 0)
            return 0;
        at += got;
        count -= (size_t)got;
    }
    return 1;
}

static int give(const void *from, size_t count)
{
    for (const uint8_t *at = from; count > 0;) {
        long gone = write(1, at, count);
        if (gone <= 0)
            return 0;
        at += gone;
        count -= (size_t)gone;
    }
    return 1;
}

static int take_sheet(struct sheet *sheet, const uint32_t *request)
{
    if (request[1] > WORDS_MAX || request[2] > TEXT_MAX)
        return 0;
    sheet->words_length = request[1];
    sheet->text_length = request[2];
    return take(sheet->words, 4 * sheet->words_length) && take(sheet->text, sheet->text_length);
}

static int answer_rules(const uint32_t *request)
{
    if (!take_sheet(&rules, request))
        return 0;
    uint64_t answer = amphorust_check(rules.words, rules.words_length, rules.text, rules.text_length);
    return give(&answer, sizeof answer);
}

static int answer_record(const uint32_t *request)
{
    if (!take_sheet(&record, request))
        return 0;
    uint64_t answer = amphorust_judge(record.words, record.words_length, record.text, record.text_length,
                                      rules.words, rules.words_length, rules.text, rules.text_length,
                                      cells, AMPHORUST_ROOM_MAX, list, AMPHORUST_ROOM_MAX);
    size_t room = amphorust_room(record.words, record.words_length, rules.words, rules.words_length);
    return give(&answer, sizeof answer) && (!amphorust_is_invalid(answer) || give(cells, room));
}

static int answer_verdict(const uint32_t *request)
{
    if (!take_sheet(&record, request))
        return 0;
    uint64_t answer = amphorust_verdict(record.words, record.words_length, record.text, record.text_length,
                                        rules.words, rules.words_length, rules.text, rules.text_length,
                                        cells, AMPHORUST_ROOM_MAX);
    return give(&answer, sizeof answer);
}

static int answer_queue(const uint32_t *request)
{
    size_t many = request[3];
    if (many > AMPHORUST_QUEUE_MAX || !take(listing, 4 * many * sizeof listing[0]) || !take_sheet(&record, request))
        return 0;
    uint64_t answer = amphorust_judge_queue(record.words, record.words_length, record.text, record.text_length,
                                            listing, 4 * many, rules.words, rules.words_length, rules.text,
                                            rules.text_length, cells, AMPHORUST_ROOM_MAX, list, AMPHORUST_ROOM_MAX,
                                            answers, many);
    return give(&answer, sizeof answer) && give(answers, amphorust_answered(answer) * sizeof answers[0]);
}

static int answer_text(const uint8_t *json, size_t length)
{
    uint64_t answer = amphorust_read(json, length, read_words, AMPHORUST_WORDS_MAX, read_text, AMPHORUST_TEXT_MAX);
    return give(&answer, sizeof answer) && give(read_words, amphorust_words_read(answer) * sizeof read_words[0])
           && give(read_text, amphorust_text_read(answer, read_words));
}

static int answer_texts(const uint32_t *request)
{
    if (!take_sheet(&record, request))
        return 0;
    size_t at = 0;
    for (size_t i = 0; i < record.words_length; i++) {
        if (record.words[i] > record.text_length - at || !answer_text(record.text + at, record.words[i]))
            return 0;
        at += record.words[i];
    }
    return 1;
}

static int answered(const uint32_t *request)
{
    switch (request[0]) {
    case 1:
        return answer_rules(request);
    case 2:
        return answer_record(request);
    case 3:
        return answer_verdict(request);
    case 4:
        return answer_queue(request);
    case 5:
        return answer_texts(request);
    default:
        return 0;
    }
}

int main(void)
{
    uint32_t request[4];
    while (take(request, sizeof request)) {
        if (!answered(request))
            return 1;
    }
    return 0;
}
