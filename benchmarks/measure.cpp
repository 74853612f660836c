/* Times cases, each judged through the C entry, its sheets checked and, where it has JSON, judged by rapidjson's schema
 * validator:
 *
 *     measure CASE...
 *     measure queue CASE
 *     measure read FILE...
 *
 * A case is a file CASE.bundle, the sheets as the bench program reads them, perhaps CASE.json, the record as JSON, which
 * is read beforehand and then stands for the bundle's record, and perhaps CASE.schema for rapidjson, which is compiled
 * beforehand. Prints a line for each case: rows, schemas, the answer's number, nanoseconds of a call, of the two sheets'
 * checks alone and of the verdict only; bytes of the JSON, nanoseconds of reading it and of reading and judging it, or
 * '- - -'; rapidjson's verdict, 0 for valid and 1 for invalid, and nanoseconds of validating what was parsed beforehand
 * and of parsing and validating at once, without a document in between, or '- - -' if it was not asked.
 *
 * With 'queue' the case's record stands 512 times in one slice of words and one of bytes. Prints one line: the queue's
 * answer, the last record's, and nanoseconds of a record in one call, in 512 calls to judge and by rapidjson, by one
 * validator that is reset for each record, or '-'; then of a record that is first read, in one queue, and by rapidjson
 * that parses and validates, or '-'.
 *
 * With 'read' prints a line for each file: its bytes, reading's answer and nanoseconds. */
#include <cstdint>
#include <cstdio>
#include <cstdlib>
#include <cstring>
#include <ctime>
#include <fstream>
#include <iterator>
#include <memory>
#include <string>
#include <vector>

#include "amphorust.h"

#if __has_include(<rapidjson/schema.h>)
#include <rapidjson/document.h>
#include <rapidjson/memorystream.h>
#include <rapidjson/schema.h>
#define HAS_RAPIDJSON 1
#endif

/* The smallest time counts. The rounds of a case are spread over passes through all of them, and both validators take
 * turns in each, since a shared machine is slow for a while and then is not. */
const int PASSES = 5, ROUNDS = 10;
const double ROUND = 2e6;   /* nanoseconds that the calls of a round fill */
const double LONG = 5e8;    /* nanoseconds after which a validator has had its rounds of a case */

static double now()
{
    timespec t;
    clock_gettime(CLOCK_MONOTONIC, &t);
    return t.tv_sec * 1e9 + t.tv_nsec;
}

struct Timer {
    double best = 0, spent = 0;
    long calls = 1;

    template <class Call> void round(Call call)
    {
        if (spent > LONG)
            return;
        double start = now();
        for (long i = 0; i < calls; i++)
            call();
        double took = now() - start;
        if (best == 0 || took / calls < best)
            best = took / calls;
        spent += took;
        if (took < ROUND)
            calls *= 2;
    }
};

static std::string read_file(const std::string &path)
{
    std::ifstream file(path, std::ios::binary);
    return {std::istreambuf_iterator<char>(file), {}};
}

struct Sheet {
    std::vector<uint32_t> words;
    std::vector<uint8_t> text;
};

struct Reading {
    std::string json;
    std::vector<uint32_t> words;
    std::vector<uint8_t> text;
    uint64_t answer = 0;

    explicit Reading(std::string from) : json(std::move(from)), words(amphorust_words_for(json.size())),
                                         text(amphorust_text_for(json.size())) {}

    void read()
    {
        answer = amphorust_read(reinterpret_cast<const uint8_t *>(json.data()), json.size(), words.data(), words.size(),
                                text.data(), text.size());
    }
};

struct Judging {
    Sheet record, rules;
    std::vector<uint8_t> cells;
    std::vector<uint32_t> list;
    uint64_t answer = 0, only = 0, checked = 0;

    /* reading is null, or its JSON stands for the bundle's record. */
    Judging(const std::string &bundle, Reading *reading)
    {
        uint32_t sizes[4];
        if (bundle.size() < sizeof sizes) {
            fprintf(stderr, "not a bundle\n");
            exit(2);
        }
        memcpy(sizes, bundle.data() + bundle.size() - sizeof sizes, sizeof sizes);
        const char *at = bundle.data();
        at = take(record, at, sizes[0], sizes[1]);
        take(rules, at, sizes[2], sizes[3]);
        if (reading) {
            reading->read();
            record.words.assign(reading->words.begin(), reading->words.begin() + amphorust_words_read(reading->answer));
            record.text.assign(reading->text.begin(),
                               reading->text.begin() + amphorust_text_read(reading->answer, reading->words.data()));
        }
        size_t room = amphorust_room(record.words.data(), record.words.size(), rules.words.data(), rules.words.size());
        cells.resize(room);
        list.resize(room);
    }

    static const char *take(Sheet &sheet, const char *at, size_t words, size_t text)
    {
        sheet.words.resize(words / 4);
        memcpy(sheet.words.data(), at, words);
        sheet.text.assign(at + words, at + words + text);
        return at + words + text;
    }

    void judge()
    {
        answer = amphorust_judge(record.words.data(), record.words.size(), record.text.data(), record.text.size(),
                                 rules.words.data(), rules.words.size(), rules.text.data(), rules.text.size(),
                                 cells.data(), cells.size(), list.data(), list.size());
    }

    void judge_read(Reading &reading)
    {
        reading.read();
        answer = amphorust_judge(reading.words.data(), amphorust_words_read(reading.answer), reading.text.data(),
                                 amphorust_text_read(reading.answer, reading.words.data()),
                                 rules.words.data(), rules.words.size(), rules.text.data(), rules.text.size(),
                                 cells.data(), cells.size(), list.data(), list.size());
    }

    void verdict()
    {
        only = amphorust_verdict(record.words.data(), record.words.size(), record.text.data(), record.text.size(),
                                 rules.words.data(), rules.words.size(), rules.text.data(), rules.text.size(),
                                 cells.data(), cells.size());
    }

    void check()
    {
        checked += amphorust_check(record.words.data(), record.words.size(), record.text.data(), record.text.size());
        checked += amphorust_check(rules.words.data(), rules.words.size(), rules.text.data(), rules.text.size());
    }
};

#ifdef HAS_RAPIDJSON
struct Validation {
    rapidjson::Document schema_json, record;
    std::unique_ptr<rapidjson::SchemaDocument> schema;
    bool valid = false;

    Validation(const std::string &schema_text, const std::string &record_text)
    {
        schema_json.Parse(schema_text.c_str());
        record.Parse(record_text.c_str());
        if (schema_json.HasParseError() || record.HasParseError()) {
            fprintf(stderr, "rapidjson cannot read a case\n");
            exit(2);
        }
        schema.reset(new rapidjson::SchemaDocument(schema_json));
    }

    void validate()
    {
        rapidjson::SchemaValidator validator(*schema);
        valid = record.Accept(validator);
    }

    void parse_and_validate(const std::string &json)
    {
        rapidjson::SchemaValidator validator(*schema);
        valid = parsed(json, validator);
    }

    /* The reader's events go to the validator, and to no document. */
    static bool parsed(const std::string &json, rapidjson::SchemaValidator &validator)
    {
        rapidjson::MemoryStream stream(json.data(), json.size());
        rapidjson::Reader reader;
        return !reader.Parse(stream, validator).IsError() && validator.IsValid();
    }

    void parse_and_validate_all(const std::string &json, size_t records)
    {
        rapidjson::SchemaValidator validator(*schema);
        valid = true;
        for (size_t k = 0; k < records; k++) {
            validator.Reset();
            valid = parsed(json, validator) && valid;
        }
    }

    /* Records that were parsed beforehand, by one validator. */
    void validate_all(const std::vector<std::unique_ptr<rapidjson::Document>> &records)
    {
        rapidjson::SchemaValidator validator(*schema);
        valid = true;
        for (const auto &one : records) {
            validator.Reset();
            valid = one->Accept(validator) && valid;
        }
    }
};
#else
struct Validation {
    bool valid = false;
    Validation(const std::string &, const std::string &) {}
    void validate() {}
    void parse_and_validate(const std::string &) {}
};
#endif

struct Case {
    std::unique_ptr<Reading> reading;
    Judging judging;
    std::unique_ptr<Validation> validation;
    Timer ours, checks, verdicts, reads, both, theirs, theirs_both;

    explicit Case(const std::string &path) : reading(reading_of(path)), judging(read_file(path + ".bundle"), reading.get())
    {
#ifdef HAS_RAPIDJSON
        std::string schema = read_file(path + ".schema");
        if (!schema.empty())
            validation.reset(new Validation(schema, reading->json));
#endif
    }

    static std::unique_ptr<Reading> reading_of(const std::string &path)
    {
        std::string json = read_file(path + ".json");
        return std::unique_ptr<Reading>(json.empty() ? nullptr : new Reading(json));
    }

    void round()
    {
        ours.round([this] { judging.judge(); });
        checks.round([this] { judging.check(); });
        verdicts.round([this] { judging.verdict(); });
        if (reading) {
            reads.round([this] { reading->read(); });
            both.round([this] { judging.judge_read(*reading); });
        }
        if (validation) {
            theirs.round([this] { validation->validate(); });
            theirs_both.round([this] { validation->parse_and_validate(reading->json); });
        }
    }

    void print() const
    {
        const std::vector<uint32_t> &record = judging.record.words, &rules = judging.rules.words;
        printf("%u %u %llu %.1f %.1f %.1f", amphorust_rows(record.data(), record.size()),
               amphorust_schemas(rules.data(), rules.size()), (unsigned long long)judging.answer, ours.best, checks.best,
               verdicts.best);
        if (reading)
            printf(" %zu %.1f %.1f", reading->json.size(), reads.best, both.best);
        else
            printf(" - - -");
        if (validation)
            printf(" %d %.1f %.1f\n", validation->valid ? 0 : 1, theirs.best, theirs_both.best);
        else
            printf(" - - -\n");
    }
};

/* One record, listed as often as a queue may have it, each time in another place. */
struct Queue {
    Reading reading;
    Judging one;
    std::vector<uint32_t> words, listing;
    std::vector<uint8_t> bytes;
    std::vector<uint64_t> answers = std::vector<uint64_t>(AMPHORUST_QUEUE_MAX);
    uint64_t answer = 0;
    Timer whole, single, both, theirs, theirs_both;

    explicit Queue(const std::string &path) : reading(read_file(path + ".json")), one(read_file(path + ".bundle"), &reading),
                                              listing(4 * AMPHORUST_QUEUE_MAX)
    {
        const Sheet &record = one.record;
        for (size_t k = 0; k < AMPHORUST_QUEUE_MAX; k++) {
            amphorust_list_record(listing.data(), k, words.size(), record.words.size(), bytes.size(), record.text.size());
            words.insert(words.end(), record.words.begin(), record.words.end());
            bytes.insert(bytes.end(), record.text.begin(), record.text.end());
        }
    }

    void judge_whole()
    {
        answer = amphorust_judge_queue(words.data(), words.size(), bytes.data(), bytes.size(), listing.data(), listing.size(),
                                       one.rules.words.data(), one.rules.words.size(), one.rules.text.data(), one.rules.text.size(),
                                       one.cells.data(), one.cells.size(), one.list.data(), one.list.size(),
                                       answers.data(), answers.size());
    }

    /* Each record is read behind the last, and then all are judged. */
    void read_and_judge()
    {
        size_t words_used = 0, bytes_used = 0;
        for (size_t k = 0; k < AMPHORUST_QUEUE_MAX; k++) {
            uint64_t made = amphorust_read(reinterpret_cast<const uint8_t *>(reading.json.data()), reading.json.size(),
                                           &words[words_used], words.size() - words_used, bytes.data() + bytes_used,
                                           bytes.size() - bytes_used);
            size_t length = amphorust_words_read(made), text = amphorust_text_read(made, &words[words_used]);
            amphorust_list_record(listing.data(), k, words_used, length, bytes_used, text);
            words_used += length;
            bytes_used += text;
        }
        judge_whole();
    }

    void judge_each()
    {
        for (size_t k = 0; k < AMPHORUST_QUEUE_MAX; k++) {
            const uint32_t *four = &listing[4 * k];
            one.answer = amphorust_judge(&words[four[0]], four[1], bytes.data() + four[2], four[3],
                                         one.rules.words.data(), one.rules.words.size(), one.rules.text.data(), one.rules.text.size(),
                                         one.cells.data(), one.cells.size(), one.list.data(), one.list.size());
        }
    }

    void print(bool asked) const
    {
        const double records = AMPHORUST_QUEUE_MAX;
        printf("%llu %llu %.1f %.1f", (unsigned long long)answer, (unsigned long long)answers.back(), whole.best / records,
               single.best / records);
        print_if(asked, theirs.best / records);
        printf(" %.1f", both.best / records);
        print_if(asked, theirs_both.best / records);
        printf("\n");
    }

    static void print_if(bool asked, double time)
    {
        if (asked)
            printf(" %.1f", time);
        else
            printf(" -");
    }
};

static int measure_queue(const std::string &path)
{
    Queue queue(path);
    bool asked = false;
#ifdef HAS_RAPIDJSON
    Validation validation(read_file(path + ".schema"), queue.reading.json);
    std::vector<std::unique_ptr<rapidjson::Document>> records;
    for (size_t k = 0; k < AMPHORUST_QUEUE_MAX; k++) {
        records.emplace_back(new rapidjson::Document);
        records.back()->Parse(queue.reading.json.c_str());
    }
    asked = true;
#endif
    for (int round = 0; round < PASSES * ROUNDS; round++) {
        queue.whole.round([&] { queue.judge_whole(); });
        queue.single.round([&] { queue.judge_each(); });
        queue.both.round([&] { queue.read_and_judge(); });
#ifdef HAS_RAPIDJSON
        queue.theirs.round([&] { validation.validate_all(records); });
        queue.theirs_both.round([&] { validation.parse_and_validate_all(queue.reading.json, AMPHORUST_QUEUE_MAX); });
#endif
    }
    queue.print(asked);
    return 0;
}

static int measure_reading(int count, char **paths)
{
    for (int i = 0; i < count; i++) {
        Reading reading(read_file(paths[i]));
        Timer timer;
        for (int round = 0; round < PASSES * ROUNDS; round++)
            timer.round([&] { reading.read(); });
        printf("%zu %llu %.1f\n", reading.json.size(), (unsigned long long)reading.answer, timer.best);
    }
    return 0;
}

int main(int count, char **paths)
{
    if (count == 3 && strcmp(paths[1], "queue") == 0)
        return measure_queue(paths[2]);
    if (count > 1 && strcmp(paths[1], "read") == 0)
        return measure_reading(count - 2, paths + 2);
    std::vector<std::unique_ptr<Case>> cases;
    for (int i = 1; i < count; i++)
        cases.emplace_back(new Case(paths[i]));
    for (int pass = 0; pass < PASSES; pass++)
        for (auto &one : cases)
            for (int round = 0; round < ROUNDS; round++)
                one->round();
    for (auto &one : cases)
        one->print();
    return 0;
}
