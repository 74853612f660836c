/* Calls the entries for C as tests/c_entry.py says on standard input, and writes on standard output what
 * came of each call.
 *
 *     c_entry          judges, every call on this thread
 *     c_entry check    checks sheets
 *     c_entry verdict  judges for the verdict only
 *     c_entry queue    judges queues
 *     c_entry read     reads JSON
 *     c_entry BYTES    judges, each on a thread whose stack has that many bytes, nothing mapped below it
 *     c_entry verdict BYTES    judges for the verdict only on such threads
 *     c_entry read BYTES       reads JSON on such threads
 *     c_entry past N   calls nothing: reads a byte past array N, which must kill it
 *     c_entry into N   calls nothing: writes array N, which must kill it if the calls only read that
 *
 * A call to judge is six lengths in elements (record, record text, rules, rule text, cells, list), ABSENT
 * for a null pointer and length 0, and then the six arrays. What came of it is the answer, whether it is
 * valid, invalid and refused, the count, the refusal, the place and the room that the header reads from
 * the sheets, 64 bits each, and then the cells and the list; for the verdict only there is no list. A call
 * to check is the first two lengths and arrays. What came of it is the answer, whether it is in order and
 * refused, the size, the refusal and the place. A call to judge a queue is eight (words, bytes, listing, rules, rule text, cells, list,
 * answers). What came of it is the answer, whether it is refused, how many were answered, the refusal
 * and the place, and then the cells, the list and the answers. A call to read is three (JSON, words, text).
 * What came of it is the answer, whether it is in order and refused, the size, the refusal, the place, the
 * words and the bytes that it wrote and those that the header says to be enough, and then the words and the
 * text.
 *
 * Each array ends where its last mapped page does. Arrays that the call only reads can only be read. */
#define _GNU_SOURCE
#include <pthread.h>
#include <stdio.h>
#include <stdlib.h>
#include <string.h>
#include <sys/mman.h>

#include "amphorust.h"

#define ABSENT UINT32_MAX
#define PAGE 4096
#define BELOW (1 << 20) /* unmapped bytes below a stack */
#define UNTOUCHED 0xA5

enum { RECORD, RECORD_TEXT, RULES, RULE_TEXT, CELLS, LIST };
enum { JSON, READ_WORDS, READ_TEXT };
enum { WORDS, BYTES, LISTING, QUEUE_RULES, QUEUE_RULE_TEXT, QUEUE_CELLS, QUEUE_LIST, ANSWERS, PARTS };

/* What a call is given: how many arrays, the first of those that it writes, and their elements' sizes. */
struct shape {
    int given, written;
    size_t element_size[PARTS];
};

static const struct shape checking = {2, 2, {4, 1}};
static const struct shape judging = {6, CELLS, {4, 1, 4, 1, 1, 4}};
static const struct shape judging_verdict = {5, CELLS, {4, 1, 4, 1, 1}};
static const struct shape reading = {3, READ_WORDS, {1, 4, 1}};
static const struct shape judging_queue = {8, QUEUE_CELLS, {4, 1, 4, 4, 1, 1, 4, 8}};

struct part {
    size_t length;    /* in elements */
    uint8_t *pages;   /* what is mapped, and the unmapped page after it */
    size_t mapped;    /* bytes mapped */
    uint8_t *array;   /* null, or at the end of what is mapped */
};

static struct part parts[PARTS];
static struct shape shape;
static uint64_t answer;

static void give_up(const char *why)
{
    fprintf(stderr, "c_entry: %s\n", why);
    exit(2);
}

static uint8_t *map(size_t bytes, int protection)
{
    void *pages = mmap(NULL, bytes, protection, MAP_PRIVATE | MAP_ANONYMOUS, -1, 0);
    if (pages == MAP_FAILED)
        give_up("no memory");
    return pages;
}

static void lend(struct part *part, size_t size, int protection)
{
    size_t bytes = part->length * size;
    part->mapped = (bytes / PAGE + 1) * PAGE;
    part->pages = map(part->mapped + PAGE, PROT_READ | PROT_WRITE);
    memset(part->pages, UNTOUCHED, part->mapped);
    part->array = part->pages + part->mapped - bytes;
    if (bytes > 0 && fread(part->array, bytes, 1, stdin) != 1)
        give_up("a call is cut short");
    mprotect(part->pages, part->mapped, protection);
    mprotect(part->pages + part->mapped, PAGE, PROT_NONE);
}

/* Whether a call was read; none is where the input ends. */
static int read_call(void)
{
    uint32_t lengths[PARTS];
    if (fread(lengths, sizeof lengths[0], shape.given, stdin) != (size_t)shape.given)
        return 0;
    for (int i = 0; i < shape.given; i++) {
        parts[i] = (struct part){0};
        if (lengths[i] == ABSENT)
            continue;
        parts[i].length = lengths[i];
        lend(&parts[i], shape.element_size[i], i < shape.written ? PROT_READ : PROT_READ | PROT_WRITE);
    }
    return 1;
}

static void *check(void *unused)
{
    answer = amphorust_check((const uint32_t *)parts[RECORD].array, parts[RECORD].length,
                             parts[RECORD_TEXT].array, parts[RECORD_TEXT].length);
    return unused;
}

static void *judge(void *unused)
{
    answer = amphorust_judge((const uint32_t *)parts[RECORD].array, parts[RECORD].length,
                             parts[RECORD_TEXT].array, parts[RECORD_TEXT].length,
                             (const uint32_t *)parts[RULES].array, parts[RULES].length,
                             parts[RULE_TEXT].array, parts[RULE_TEXT].length,
                             parts[CELLS].array, parts[CELLS].length,
                             (uint32_t *)parts[LIST].array, parts[LIST].length);
    return unused;
}

static void *judge_verdict(void *unused)
{
    answer = amphorust_verdict((const uint32_t *)parts[RECORD].array, parts[RECORD].length,
                               parts[RECORD_TEXT].array, parts[RECORD_TEXT].length,
                               (const uint32_t *)parts[RULES].array, parts[RULES].length,
                               parts[RULE_TEXT].array, parts[RULE_TEXT].length,
                               parts[CELLS].array, parts[CELLS].length);
    return unused;
}

static void *judge_queue(void *unused)
{
    answer = amphorust_judge_queue((const uint32_t *)parts[WORDS].array, parts[WORDS].length,
                                   parts[BYTES].array, parts[BYTES].length,
                                   (const uint32_t *)parts[LISTING].array, parts[LISTING].length,
                                   (const uint32_t *)parts[QUEUE_RULES].array, parts[QUEUE_RULES].length,
                                   parts[QUEUE_RULE_TEXT].array, parts[QUEUE_RULE_TEXT].length,
                                   parts[QUEUE_CELLS].array, parts[QUEUE_CELLS].length,
                                   (uint32_t *)parts[QUEUE_LIST].array, parts[QUEUE_LIST].length,
                                   (uint64_t *)parts[ANSWERS].array, parts[ANSWERS].length);
    return unused;
}

static void *read_json(void *unused)
{
    answer = amphorust_read(parts[JSON].array, parts[JSON].length,
                            (uint32_t *)parts[READ_WORDS].array, parts[READ_WORDS].length,
                            parts[READ_TEXT].array, parts[READ_TEXT].length);
    return unused;
}

static void on_thread(void *(*how)(void *), size_t stack)
{
    uint8_t *region = map(BELOW + stack, PROT_READ | PROT_WRITE);
    pthread_attr_t attributes;
    pthread_t thread;
    mprotect(region, BELOW, PROT_NONE);
    if (pthread_attr_init(&attributes) != 0 || pthread_attr_setstack(&attributes, region + BELOW, stack) != 0
        || pthread_create(&thread, &attributes, how, NULL) != 0 || pthread_join(thread, NULL) != 0)
        give_up("no thread");
    munmap(region, BELOW + stack);
}

static void write_checked(void)
{
    const uint64_t told[] = {
        answer, amphorust_is_in_order(answer), amphorust_is_refused(answer), amphorust_size(answer),
        amphorust_refusal(answer), amphorust_place(answer)};
    fwrite(told, sizeof told, 1, stdout);
}

static void write_answered(void)
{
    const uint64_t told[] = {
        answer, amphorust_is_refused(answer), amphorust_answered(answer), amphorust_refusal(answer),
        amphorust_place(answer)};
    fwrite(told, sizeof told, 1, stdout);
}

static void write_read(void)
{
    const uint64_t told[] = {
        answer, amphorust_is_in_order(answer), amphorust_is_refused(answer), amphorust_size(answer),
        amphorust_refusal(answer), amphorust_place(answer), amphorust_words_read(answer),
        amphorust_text_read(answer, (const uint32_t *)parts[READ_WORDS].array),
        amphorust_words_for(parts[JSON].length), amphorust_text_for(parts[JSON].length)};
    fwrite(told, sizeof told, 1, stdout);
}

static void write_judged(void)
{
    const uint64_t told[] = {
        answer, amphorust_is_valid(answer), amphorust_is_invalid(answer), amphorust_is_refused(answer),
        amphorust_count(answer), amphorust_refusal(answer), amphorust_place(answer),
        amphorust_room((const uint32_t *)parts[RECORD].array, parts[RECORD].length,
                       (const uint32_t *)parts[RULES].array, parts[RULES].length)};
    fwrite(told, sizeof told, 1, stdout);
}

static void write_areas(void)
{
    for (int i = shape.written; i < shape.given; i++)
        fwrite(parts[i].array, shape.element_size[i], parts[i].length, stdout);
    fflush(stdout);
}

static void look_before(const struct part *part)
{
    for (const uint8_t *byte = part->pages; byte < part->array; byte++)
        if (*byte != UNTOUCHED)
            give_up("bytes before an array were written");
}

static void trespass(const char *how, const struct part *part)
{
    volatile uint8_t *end = part->pages + part->mapped;
    if (strcmp(how, "past") == 0)
        (void)*end;
    else
        end[-1] = 0;
}

/* What a word on the command line asks for: what a call is given, how it is made and what is told of it. */
struct way {
    const char *word;
    const struct shape *shape;
    void *(*call)(void *);
    void (*tell)(void);
};

static const struct way ways[] = {
    {"check", &checking, check, write_checked},
    {"queue", &judging_queue, judge_queue, write_answered},
    {"verdict", &judging_verdict, judge_verdict, write_judged},
    {"read", &reading, read_json, write_read},
};
static const struct way judges = {"", &judging, judge, write_judged};

static const struct way *asked_for(const char *word)
{
    for (size_t i = 0; i < sizeof ways / sizeof ways[0]; i++)
        if (strcmp(word, ways[i].word) == 0)
            return &ways[i];
    return &judges;
}

int main(int count, char **arguments)
{
    const struct way *way = count > 1 ? asked_for(arguments[1]) : &judges;
    shape = *way->shape;
    if (way != &judges) {
        count--;
        arguments++;
    }
    while (read_call()) {
        if (count > 2)
            trespass(arguments[1], &parts[strtoul(arguments[2], NULL, 10)]);
        else if (count > 1)
            on_thread(way->call, strtoul(arguments[1], NULL, 10));
        else
            way->call(NULL);
        for (int i = 0; i < shape.given; i++)
            look_before(&parts[i]);
        way->tell();
        write_areas();
        for (int i = 0; i < shape.given; i++)
            if (parts[i].pages != NULL)
                munmap(parts[i].pages, parts[i].mapped + PAGE);
    }
    return 0;
}
