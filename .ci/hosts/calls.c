/* Tries the library from C.
 * Usage: calls rows FOLDER..       each example, with buffers of several lengths
 *        calls queries FOLDER..    what is asked without a report, of each example: Script, limits, least weight, witness
 *        calls arrays              satisfactions, plans, runs and audits by what lies in arrays, and arrays that are refused
 *        calls curve FOLDER        the rows of signatures and keys in this folder, and changed ones
 *        calls words               words that can't be read, and NULL with the length 0
 *        calls names               the version, and the names of refusals, rules and members
 *        calls reasons             of calls that aren't refused by one, which leave it as it was
 *        calls demands             calls that break a demand of the header, which a debug build stops
 *        calls threads FOLDER..    eight threads at once, with stacks of 512 KiB, with the same answers
 *        calls random COUNT SEED FOLDER..    calls over random inputs, made of the examples
 * Ends with 1 where an answer is another one than it has to be. Buffers have exactly the length that is told, on the heap, so
 * that AddressSanitizer and valgrind see what is touched beyond. */
#include <malloc.h>
#include <msat.h>
#include <pthread.h>
#include <signal.h>
#include <stdio.h>
#include <stdlib.h>
#include <string.h>
#include <sys/wait.h>
#include <unistd.h>

struct bytes {
    uint8_t *at;
    size_t length;
};

struct example {
    const char *folder;
    struct bytes words; /* each with its NUL */
    size_t count;
    struct bytes source;
    struct bytes report;
    uint32_t status;
    bool is_psbt; /* one of msat-psbt, or of msat-descriptor */
    bool is_descriptor; /* one of msat-descriptor */
};

static const char *chars(struct bytes text) {
    return (const char *)text.at;
}

static void fail(const char *what, const char *where) {
    fprintf(stderr, "calls: %s: %s\n", where, what);
    exit(1);
}

static void *room(size_t length) {
    void *at = malloc(length ? length : 1);
    if (!at)
        fail("no memory", "malloc");
    return at;
}

/* A file's bytes. One that isn't there is empty, and then is_there is false. */
static struct bytes read_file(const char *folder, const char *name, bool *is_there) {
    char path[4096];
    snprintf(path, sizeof path, "%s/%s", folder, name);
    FILE *file = fopen(path, "rb");
    struct bytes found = {room(4 << 20), 0};
    if (is_there)
        *is_there = file != NULL;
    if (file) {
        found.length = fread(found.at, 1, 4 << 20, file);
        fclose(file);
    }
    found.at = realloc(found.at, found.length ? found.length : 1);
    return found;
}

static void add_word(struct example *example, const uint8_t *word, size_t length) {
    struct bytes *words = &example->words;
    words->at = realloc(words->at, words->length + length + 1);
    memcpy(words->at + words->length, word, length);
    words->at[words->length + length] = 0;
    words->length += length + 1;
    example->count++;
}

static size_t without_line_feed(struct bytes file) {
    return file.length && file.at[file.length - 1] == '\n' ? file.length - 1 : file.length;
}

static struct example read_example(const char *folder) {
    struct example example = {.folder = folder};
    struct bytes words = read_file(folder, "words", NULL);
    size_t end = without_line_feed(words);
    for (size_t from = 0, to; from < end; from = to + 1) {
        for (to = from; to < end && words.at[to] != ' ' && words.at[to] != '\n'; to++)
            ;
        add_word(&example, words.at + from, to - from);
    }
    bool is_there;
    struct bytes text = read_file(folder, "text", &is_there);
    if (is_there)
        add_word(&example, text.at, without_line_feed(text));
    static const char *const names[] = {"assets.json", "run.json", "plan.json"};
    for (size_t i = 0; i < 3; i++) {
        struct bytes source = read_file(folder, names[i], &is_there);
        if (is_there)
            example.source = source;
        else
            free(source.at);
    }
    struct bytes psbt = read_file(folder, "source", &example.is_psbt);
    if (example.is_psbt)
        example.source = psbt;
    else
        free(psbt.at);
    free(read_file(folder, "descriptor", &example.is_descriptor).at);
    example.report = read_file(folder, "report", NULL);
    example.report.at = realloc(example.report.at, example.report.length + 1);
    example.report.at[example.report.length] = 0; /* so that numbers in it end */
    struct bytes status = read_file(folder, "status", &is_there);
    for (size_t i = 0; i < status.length && status.at[i] >= '0' && status.at[i] <= '9'; i++)
        example.status = example.status * 10 + (status.at[i] - '0');
    free(words.at), free(text.at), free(status.at);
    return example;
}

/* The answer of these words over a source, by the call of the example's program. */
static uint32_t ask(const struct example *example, struct bytes words, struct bytes source, char *report, size_t length, size_t *needed) {
    if (example->is_descriptor)
        return msat_descriptor_answer(example->count, chars(words), words.length, source.at, source.length, report, length, needed);
    if (example->is_psbt)
        return msat_psbt_answer(example->count, chars(words), words.length, source.at, source.length, report, length, needed);
    return msat_answer(example->count, chars(words), words.length, source.at, source.length, report, length, needed);
}

/* The example's answer in a buffer of this length: what it holds, and nothing else. */
static void try_room(const struct example *example, size_t length) {
    char *report = room(length);
    memset(report, 0xa5, length);
    size_t needed = 12345;
    uint32_t status = ask(example, example->words, example->source, length ? report : NULL, length, &needed);
    if (status != example->status)
        fail("another status", example->folder);
    if (needed != example->report.length)
        fail("another length", example->folder);
    size_t written = needed < length ? needed : length;
    if (memcmp(report, example->report.at, written) != 0)
        fail("another report", example->folder);
    for (size_t i = written; i < length; i++)
        if (report[i] != (char)0xa5)
            fail("a byte behind the report was written", example->folder);
    free(report);
}

static void try_example(const struct example *example) {
    size_t whole = example->report.length;
    try_room(example, 0);
    try_room(example, 1);
    if (whole > 0)
        try_room(example, whole - 1);
    try_room(example, whole);
    try_room(example, whole + 100);
}

/* ---- what is asked without a report */

static bool has_word(const struct example *example, const char *word) {
    size_t length = strlen(word) + 1;
    for (size_t at = 0; at + length <= example->words.length; at++)
        if ((at == 0 || example->words.at[at - 1] == 0) && memcmp(example->words.at + at, word, length) == 0)
            return true;
    return false;
}

/* The last word, without its NUL, in a buffer of its own. */
static struct bytes last_word(const struct example *example) {
    size_t end = example->words.length, from = end ? end - 1 : 0;
    while (from > 0 && example->words.at[from - 1] != 0)
        from--;
    struct bytes word = {room(end - from), end ? end - 1 - from : 0};
    memcpy(word.at, example->words.at + from, word.length);
    word.at = realloc(word.at, word.length ? word.length : 1);
    return word;
}

/* What stands behind a name in the report, up to the end of its line, from a place on, or NULL. */
static const char *line_of(const struct example *example, const char *name, size_t *from) {
    const char *report = (const char *)example->report.at;
    size_t length = strlen(name), end = example->report.length;
    for (size_t at = *from; at + length < end; at++)
        if ((at == 0 || report[at - 1] == '\n') && memcmp(report + at, name, length) == 0 && report[at + length] == ' ') {
            *from = at + length;
            return report + at + length + 1;
        }
    return NULL;
}

static unsigned digit(char c) {
    return c <= '9' ? (unsigned)(c - '0') : (unsigned)(c - 'a') + 10;
}

/* The bytes of a line of digits behind those in a buffer. `-` is no bytes. */
static size_t add_digits(struct bytes *to, const char *line) {
    size_t before = to->length;
    for (; *line != '\n' && *line != '-'; line += 2)
        to->at[to->length++] = (uint8_t)(digit(line[0]) << 4 | digit(line[1]));
    return to->length - before;
}

static uint64_t number_in(const char *line, const char *name) {
    const char *at = strstr(line, name);
    if (!at)
        fail("no such number", name);
    return strtoull(at + strlen(name) + 1, NULL, 10);
}

static void try_script(const struct example *example, struct bytes text, struct bytes wanted, size_t length) {
    uint8_t *script = room(length);
    memset(script, 0xa5, length);
    size_t needed = 12345, written = wanted.length < length ? wanted.length : length;
    struct msat_reason reason = {7, 7, 7, 7};
    if (msat_script(has_word(example, "--consensus"), chars(text), text.length, length ? script : NULL, length, &needed, &reason) != 0 ||
        needed != wanted.length || reason.kind != 7)
        fail("another Script", example->folder);
    if (memcmp(script, wanted.at, written) != 0)
        fail("another Script", example->folder);
    for (size_t i = written; i < length; i++)
        if (script[i] != 0xa5)
            fail("a byte behind the Script was written", example->folder);
    free(script);
}

static void try_witness(const struct example *example, struct bytes text, struct bytes wanted, const size_t *lengths, size_t count,
                        size_t length, size_t most) {
    uint8_t *bytes = room(length);
    size_t *found = room(most * sizeof *found), needed = 12345, items = 12345;
    memset(bytes, 0xa5, length), memset(found, 0xa5, most * sizeof *found);
    struct msat_reason reason = {7, 7, 7, 7};
    uint32_t code = msat_witness(has_word(example, "--malleable"), has_word(example, "--consensus"), chars(text), text.length,
                                 example->source.at, example->source.length, length ? bytes : NULL, length, &needed,
                                 most ? found : NULL, most, &items, &reason);
    size_t written = wanted.length < length ? wanted.length : length, told = count < most ? count : most;
    if (code != MSAT_DONE || needed != wanted.length || items != count || reason.kind != 7)
        fail("another witness", example->folder);
    if (memcmp(bytes, wanted.at, written) != 0 || memcmp(found, lengths, told * sizeof *found) != 0)
        fail("other items", example->folder);
    for (size_t i = written; i < length; i++)
        if (bytes[i] != 0xa5)
            fail("a byte behind the items was written", example->folder);
    for (size_t i = told; i < most; i++)
        if (found[i] != SIZE_MAX / 255 * 0xa5)
            fail("a length behind the others was written", example->folder);
    free(bytes), free(found);
}

/* The items of an example's report, with the Script as the last one, and what they weigh without it. */
static void try_satisfaction(const struct example *example, struct bytes text, struct bytes script) {
    struct bytes wanted = {room(example->report.length), 0};
    size_t lengths[1024], count = 0, from = 0;
    for (const char *line; count < 1000 && (line = line_of(example, "item", &from));)
        lengths[count++] = add_digits(&wanted, line);
    memcpy(wanted.at + wanted.length, script.at, script.length);
    wanted.length += lengths[count++] = script.length;
    try_witness(example, text, wanted, lengths, count, 0, 0);
    try_witness(example, text, wanted, lengths, count, 1, 1);
    try_witness(example, text, wanted, lengths, count, wanted.length - 1, count - 1);
    try_witness(example, text, wanted, lengths, count, wanted.length, count);
    try_witness(example, text, wanted, lengths, count, wanted.length + 100, count + 100);
    uint64_t weight = 12345;
    struct msat_reason reason = {7, 7, 7, 7};
    size_t start = 0;
    uint64_t replayed = number_in(line_of(example, "replay", &start), "weight");
    if (msat_least_weight(has_word(example, "--consensus"), chars(text), text.length, example->source.at, example->source.length, &weight,
                          &reason) != 0 ||
        weight > replayed || (has_word(example, "--malleable") && weight != replayed))
        fail("another weight", example->folder);
    free(wanted.at);
}

static void try_facts(const struct example *example, struct bytes text) {
    struct msat_facts facts;
    memset(&facts, 0, sizeof facts);
    facts.size = 12345;
    struct msat_reason reason = {7, 7, 7, 7};
    uint32_t code = msat_check(has_word(example, "--consensus"), chars(text), text.length, &facts, &reason);
    if (code != example->status)
        fail("another code", example->folder);
    if (code == MSAT_TEXT_REFUSED) {
        if (reason.kind < MSAT_TOO_LONG || reason.kind > MSAT_REPEATED_KEY || facts.size != 12345)
            fail("another refusal", example->folder);
        return;
    }
    size_t from = 0;
    const char *limits = line_of(example, "limits", &from);
    if (facts.size != number_in(limits, "size") || facts.ops != number_in(limits, "ops") || facts.items != number_in(limits, "items") ||
        facts.weight != number_in(limits, "weight") || facts.base != 0 || facts.height == 0 || facts.height > 1000)
        fail("other limits", example->folder);
    if (has_word(example, "--consensus") && facts.height != number_in(limits, "height"))
        fail("another height", example->folder);
}

/* A text of a report, up to the end of its line. */
static size_t length_of(const char *line) {
    size_t length = 0;
    while (line[length] != '\n')
        length++;
    return length;
}

/* That a buffer of this length holds the beginning of a text, and nothing else. */
static void expect_text(const struct example *example, const char *found, size_t length, const char *line, size_t needed) {
    size_t whole = line ? length_of(line) : 0, written = whole < length ? whole : length;
    if (line && (needed != whole || memcmp(found, line, written) != 0))
        fail("another text", example->folder);
    for (size_t i = written; i < length; i++)
        if (found[i] != (char)0xa5)
            fail("a byte behind the text was written", example->folder);
}

static void try_policy(const struct example *example, struct bytes text) {
    size_t from = 0, after = 0;
    const char *line = line_of(example, "policy", &from), *number = line_of(example, "keys", &after);
    const size_t rooms[] = {0, 1, line ? length_of(line) - 1 : 5, line ? length_of(line) : 6, 2000};
    for (size_t i = 0; i < 5; i++) {
        char *found = room(rooms[i]);
        memset(found, 0xa5, rooms[i]);
        size_t needed = 12345;
        uint64_t keys = 12345;
        struct msat_reason reason = {7, 7, 7, 7};
        uint32_t code = msat_policy(chars(text), text.length, rooms[i] ? found : NULL, rooms[i], &needed, &keys, &reason);
        if (code != example->status || (code == MSAT_DONE) != (reason.kind == 7))
            fail("another code", example->folder);
        if (number ? keys != (*number == 'n' ? MSAT_NEVER : strtoull(number, NULL, 10)) : keys != 12345)
            fail("another number of keys", example->folder);
        expect_text(example, found, rooms[i], line, needed);
        free(found);
    }
}

/* The words behind `decode` are a Script and keys, in digits. */
static void try_decode(const struct example *example) {
    struct bytes script = {room(example->words.length), 0}, keys = {room(example->words.length), 0};
    size_t at = strlen("decode") + 1;
    for (bool first = true; at < example->words.length; first = false)
        for (struct bytes *to = first ? &script : &keys; ; at += 2) {
            const uint8_t *digits = example->words.at + at;
            if (*digits == 0) {
                at++;
                break;
            }
            to->at[to->length++] = (uint8_t)(digit((char)digits[0]) << 4 | digit((char)digits[1]));
        }
    script.at = realloc(script.at, script.length ? script.length : 1), keys.at = realloc(keys.at, keys.length ? keys.length : 1);
    size_t from = 0;
    const char *line = line_of(example, "text", &from);
    const size_t rooms[] = {0, 1, line ? length_of(line) - 1 : 5, line ? length_of(line) : 6, 2000};
    for (size_t i = 0; i < 5; i++) {
        char *found = room(rooms[i]);
        memset(found, 0xa5, rooms[i]);
        size_t needed = 12345;
        uint32_t code = msat_decode(script.at, script.length, keys.length ? keys.at : NULL, keys.length, rooms[i] ? found : NULL, rooms[i], &needed);
        if (code != example->status || (code != MSAT_DONE && needed != 12345))
            fail("another code", example->folder);
        expect_text(example, found, rooms[i], line, needed);
        free(found);
    }
    size_t needed = 12345;
    const uint8_t broken[66] = {2};
    if (msat_decode(script.at, script.length, broken, 32, NULL, 0, &needed) != MSAT_USAGE || needed != 12345 ||
        msat_decode(script.at, script.length, broken, 66, NULL, 0, &needed) != MSAT_USAGE || needed != 12345)
        fail("keys that are none are taken", example->folder);
    free(script.at), free(keys.at);
}

/* The bytes that a word of a row spells, `-` for none, and where the next word begins. */
static struct bytes spelled(const char **at) {
    size_t length = strcspn(*at, " \n");
    struct bytes found = {room(length / 2), 0};
    if (**at != '-')
        for (; found.length < length / 2; found.length++)
            found.at[found.length] = (uint8_t)(digit((*at)[2 * found.length]) << 4 | digit((*at)[2 * found.length + 1]));
    *at += length + 1;
    return found;
}

static uint32_t judged(struct bytes key, struct bytes hash, struct bytes sig) {
    return msat_signature(key.at, key.length, hash.at, hash.length, sig.at, sig.length);
}

/* A name, a key, a hash, a signature and its judgement. Where a good one is damaged by a bit, it is bad, but for its type. */
static void try_signature(const char *row) {
    const char *at = row + strcspn(row, " ") + 1;
    struct bytes key = spelled(&at), hash = spelled(&at), sig = spelled(&at);
    uint32_t wanted = strncmp(at, "good", 4) == 0 ? MSAT_GOOD : strncmp(at, "high", 4) == 0 ? MSAT_HIGH : MSAT_BAD;
    if (judged(key, hash, sig) != wanted)
        fail("another judgement", row);
    struct bytes parts[] = {key, hash, sig};
    for (size_t part = 0; wanted == MSAT_GOOD && part < 3; part++)
        for (size_t byte = 0; byte < parts[part].length; byte += 5) {
            bool is_type = part == 2 && byte == sig.length - 1;
            parts[part].at[byte] ^= 4;
            if ((judged(key, hash, sig) == MSAT_GOOD) != is_type)
                fail("a damaged signature is good, or another type is bad", row);
            parts[part].at[byte] ^= 4;
        }
    free(key.at), free(hash.at), free(sig.at);
}

/* A key and its point, or `-`, with buffers of several lengths. */
static void try_point(const char *row) {
    const char *at = row;
    struct bytes key = spelled(&at), wanted = spelled(&at);
    static const size_t rooms[] = {0, 1, 64, 65, 66};
    for (size_t i = 0; i < 5; i++) {
        uint8_t *point = room(rooms[i]);
        memset(point, 0xa5, rooms[i]);
        size_t needed = 12345, written = wanted.length < rooms[i] ? wanted.length : rooms[i];
        uint32_t code = msat_point(key.at, key.length, rooms[i] ? point : NULL, rooms[i], &needed);
        if (code != (wanted.length ? MSAT_DONE : MSAT_NO_POINT) || needed != (wanted.length ? 65 : 12345))
            fail("another code, or another length", row);
        if (memcmp(point, wanted.at, written) != 0)
            fail("another point", row);
        for (size_t behind = written; behind < rooms[i]; behind++)
            if (point[behind] != 0xa5)
                fail("a byte behind the point was written", row);
        free(point);
    }
    free(key.at), free(wanted.at);
}

static void try_rows(const char *folder, const char *name, void (*try_row)(const char *row)) {
    struct bytes rows = read_file(folder, name, NULL);
    rows.at = realloc(rows.at, rows.length + 1), rows.at[rows.length] = 0;
    if (rows.length == 0)
        fail("no rows", name);
    for (const char *row = chars(rows); *row; row = strchr(row, '\n') + 1)
        try_row(row);
    free(rows.at);
}

static void try_curve(const char *folder) {
    try_rows(folder, "signature.rows", try_signature);
    try_rows(folder, "point.rows", try_point);
    size_t needed = 12345;
    if (msat_signature(NULL, 0, NULL, 0, NULL, 0) != MSAT_BAD || msat_point(NULL, 0, NULL, 0, &needed) != MSAT_NO_POINT || needed != 12345)
        fail("no bytes are a signature or a key", "NULL");
}

static void try_queries(const struct example *example) {
    struct bytes text = last_word(example);
    size_t from = 0;
    if (has_word(example, "policy"))
        try_policy(example, text);
    if (has_word(example, "decode"))
        try_decode(example);
    const char *line = line_of(example, "script", &from);
    if (has_word(example, "check"))
        try_facts(example, text);
    if (line) {
        struct bytes script = {room(example->report.length), 0};
        add_digits(&script, line);
        for (size_t length = script.length - 1; length <= script.length + 1; length++)
            try_script(example, text, script, length);
        try_script(example, text, script, 0);
        try_script(example, text, script, 1);
        if (has_word(example, "satisfy"))
            try_satisfaction(example, text, script);
        free(script.at);
    }
    free(text.at);
}

/* ---- what is held in arrays */

static uint8_t *copied(const void *from, size_t length) {
    uint8_t *at = room(length);
    if (length)
        memcpy(at, from, length);
    return at;
}

struct arrays {
    const char *text;
    uint32_t locktime;
    struct bytes keys, signatures, preimages;
    const size_t *lengths;
    size_t count;
};

/* A call with arrays of exactly their length, and with buffers of these. */
static uint32_t satisfy(const struct arrays *held, struct bytes *items, size_t *lengths, size_t most, size_t *count, size_t *needed,
                        struct msat_reason *reason) {
    uint8_t *keys = copied(held->keys.at, held->keys.length), *signatures = copied(held->signatures.at, held->signatures.length);
    uint8_t *preimages = copied(held->preimages.at, held->preimages.length), *bytes = room(items->length);
    size_t *told = (size_t *)copied(held->lengths, held->count * sizeof *told), *found = room(most * sizeof *found);
    char *text = (char *)copied(held->text, strlen(held->text));
    memset(bytes, 0xa5, items->length), memset(found, 0xa5, most * sizeof *found);
    uint32_t code = msat_satisfy(false, false, text, strlen(held->text), 2, 0xfffffffe, held->locktime, held->keys.length ? keys : NULL,
                                 held->keys.length, held->signatures.length ? signatures : NULL, held->signatures.length,
                                 held->count ? told : NULL, held->count, held->preimages.length ? preimages : NULL,
                                 held->preimages.length, bytes, items->length, needed, found, most, count, reason);
    for (size_t at = code == MSAT_DONE ? *needed : 0; at < items->length; at++)
        if (bytes[at] != 0xa5)
            fail("a byte behind the others was written", held->text);
    for (size_t at = code == MSAT_DONE ? *count : 0; at < most; at++)
        if (found[at] != SIZE_MAX / 255 * 0xa5)
            fail("a length behind the others was written", held->text);
    if (items->length)
        memcpy(items->at, bytes, items->length);
    memcpy(lengths, found, most * sizeof *found);
    free(keys), free(signatures), free(preimages), free(bytes), free(told), free(found), free(text);
    return code;
}

static void expect_refused(struct arrays held, uint32_t kind, uint32_t rule, uint32_t place) {
    struct bytes none = {(uint8_t[1]){0}, 0};
    size_t lengths[1], count = 77, needed = 77;
    struct msat_reason reason = {7, 7, 7, 7};
    uint32_t code = satisfy(&held, &none, lengths, 0, &count, &needed, &reason);
    if (code != MSAT_FILE_REFUSED || reason.kind != kind || reason.rule != rule || reason.place != place || reason.number != 0)
        fail("another refusal of arrays", msat_fault_name(kind));
    if (count != 77 || needed != 77)
        fail("something was written", msat_fault_name(kind));
}

static void try_arrays(void) {
    uint8_t keys[257 * 33], signatures[257 * 73], preimages[257 * 32 + 1], bytes[400];
    size_t lengths[257], found[4], count = 77, needed = 77;
    memset(keys, 2, sizeof keys), memset(signatures, 0xaa, sizeof signatures), memset(preimages, 0, sizeof preimages);
    keys[33] = 3;
    for (size_t i = 0; i < 257; i++)
        lengths[i] = 73;
    /* two of two keys, a hash of 32 zeros, and a lock */
    char text[512] = "and_v(v:multi(2,", digits[67] = "";
    for (size_t i = 0; i < 66; i++)
        digits[i] = i == 1 ? '3' : i % 2 ? '2' : '0';
    for (size_t i = 0; i < 66; i++)
        text[16 + i] = i % 2 ? '2' : '0';
    strcpy(text + 82, ","), strcpy(text + 83, digits);
    strcat(text, "),and_v(v:after(9),sha256(66687aadf862bd776c8fc18b8e9f8e20089714856ee233b3902a591d0d5f2925)))");
    lengths[0] = 70, lengths[1] = 71, lengths[2] = 72;
    struct arrays held = {text, 9, {keys, 66}, {signatures, 141}, {preimages, 32}, lengths, 2};
    struct bytes items = {bytes, sizeof bytes};
    struct msat_reason reason = {7, 7, 7, 7};
    if (satisfy(&held, &items, found, 4, &count, &needed, &reason) != MSAT_DONE || reason.kind != 7)
        fail("no satisfaction", "arrays");
    static const size_t wanted[] = {32, 0, 70, 71};
    if (count != 5 || memcmp(found, wanted, sizeof wanted) != 0 || needed < 32 + 141 || memcmp(bytes + 32, signatures, 141) != 0)
        fail("another satisfaction", "arrays");
    held.locktime = 8;
    if (satisfy(&held, &items, found, 4, &count, &needed, &reason) != MSAT_NO_SATISFACTION || reason.kind != 7)
        fail("a satisfaction too early", "arrays");
    held.locktime = 9;
    struct arrays other = held;
    other.keys.length = 65;
    expect_refused(other, MSAT_SHAPE, MSAT_MEMBER_SIGNATURES, 0);
    other = held, other.count = 1;
    expect_refused(other, MSAT_SHAPE, MSAT_MEMBER_SIGNATURES, 0);
    other = held, other.signatures.length = 140;
    expect_refused(other, MSAT_SHAPE, MSAT_MEMBER_SIGNATURES, 0);
    other = held, other.signatures.length = 142;
    expect_refused(other, MSAT_SHAPE, MSAT_MEMBER_SIGNATURES, 0);
    const size_t over[] = {142, SIZE_MAX};
    other = held, other.lengths = over;
    expect_refused(other, MSAT_SHAPE, MSAT_MEMBER_SIGNATURES, 0);
    other = held, other.preimages.length = 33;
    expect_refused(other, MSAT_SHAPE, MSAT_MEMBER_PREIMAGES, 0);
    other = held, other.preimages.length = 257 * 32;
    expect_refused(other, MSAT_TOO_MANY, MSAT_MEMBER_PREIMAGES, 0);
    lengths[0] = lengths[1] = lengths[2] = 73;
    other = held, other.count = 257, other.keys.length = sizeof keys, other.signatures.length = sizeof signatures;
    expect_refused(other, MSAT_TOO_MANY, MSAT_MEMBER_SIGNATURES, 0);
    other = held, other.count = 4, other.keys.length = 4 * 33, other.signatures.length = 4 * 73;
    expect_refused(other, MSAT_FILE_REPEATED_KEY, 0, 2);
    lengths[1] = 74, lengths[0] = 67;
    other = held;
    expect_refused(other, MSAT_SIG_LENGTH, 0, 1);
    keys[33] = 4;
    expect_refused(other, MSAT_KEY_FORM, 0, 1);
    other.text = "pk(1)";
    reason.kind = 7;
    if (satisfy(&other, &items, found, 4, &count, &needed, &reason) != MSAT_TEXT_REFUSED || reason.kind != MSAT_SYNTAX)
        fail("another refusal", "a text with arrays");
    other.text = "\xff";
    reason.kind = 7;
    if (satisfy(&other, &items, found, 4, &count, &needed, &reason) != MSAT_UNREADABLE || reason.kind != 7)
        fail("a text was read", "a text with arrays");
}

/* A key of 33 equal bytes but the first, and `pk(..)` of it. */
static struct bytes key_of(char digit) {
    struct bytes key = {room(33), 33};
    memset(key.at, (digit - '0') * 17, 33);
    key.at[0] = 2;
    return key;
}

static struct bytes text_of_key(char digit) {
    struct bytes text = {room(70), 70};
    memset(text.at, digit, 70);
    memcpy(text.at, "pk(02", 5);
    text.at[69] = ')';
    return text;
}

static void try_plans(void) {
    struct bytes key = key_of('1'), text = text_of_key('1'), asked = {room(33), 33};
    size_t *length = (size_t *)copied(&(size_t){72}, sizeof *length), needed = 77;
    uint64_t weight = 77;
    struct msat_reason reason = {7, 7, 7, 7};
    for (size_t most = 0; most <= 33; most++) {
        uint8_t *short_one = room(most);
        if (msat_plan(chars(text), text.length, 2, 0, 0, key.at, 33, length, 1, NULL, 0, short_one, most, &needed, &weight, &reason) != MSAT_DONE ||
            needed != 33 || weight != 73 || memcmp(short_one, key.at, most) != 0 || reason.kind != 7)
            fail("another plan", "plans");
        free(short_one);
    }
    needed = 77, weight = 77;
    if (msat_plan(chars(text), text.length, 2, 0, 0, NULL, 0, NULL, 0, NULL, 0, asked.at, 33, &needed, &weight, &reason) != MSAT_NO_SATISFACTION ||
        needed != 77 || weight != 77 || reason.kind != 7)
        fail("a plan without a key", "plans");
    static const struct {
        size_t keys, length, preimages;
        uint32_t kind, rule;
    } refused[] = {{32, 72, 0, MSAT_SHAPE, MSAT_MEMBER_KEYS},
                   {33, 74, 0, MSAT_LENGTH, 0},
                   {33, 0, 0, MSAT_LENGTH, 0},
                   {33, 72, 31, MSAT_SHAPE, MSAT_MEMBER_PREIMAGES},
                   {33, 72, 257 * 32, MSAT_TOO_MANY, MSAT_MEMBER_PREIMAGES}};
    for (size_t i = 0; i < sizeof refused / sizeof *refused; i++) {
        uint8_t *preimages = calloc(1, refused[i].preimages + 1);
        *length = refused[i].length, reason.kind = 7;
        if (msat_plan(chars(text), text.length, 2, 0, 0, key.at, refused[i].keys, length, 1, preimages, refused[i].preimages, asked.at, 33, &needed,
                      &weight, &reason) != MSAT_FILE_REFUSED ||
            reason.kind != refused[i].kind || reason.rule != refused[i].rule || needed != 77 || weight != 77)
            fail("another refusal of a plan", msat_fault_name(refused[i].kind));
        free(preimages);
    }
    free(key.at), free(text.at), free(asked.at), free(length);
}

static void try_runs(void) {
    struct bytes key = key_of('1'), text = text_of_key('1'), script = {room(35), 35}, sig = {(uint8_t *)copied("\x30\x44", 2), 2};
    size_t *size = (size_t *)copied(&(size_t){2}, sizeof *size), needed = 77, count = 77;
    script.at[0] = 33, script.at[34] = 0xac;
    memcpy(script.at + 1, key.at, 33);
    struct msat_reason reason = {7, 7, 7, 7};
    for (size_t most = 0; most <= 35; most++) {
        struct msat_outcome outcome = {77, 77, 77, 77};
        uint8_t *found = room(most);
        size_t *lengths = room(most % 3 * sizeof *lengths);
        if (msat_run(2, 0, 0, script.at, 35, sig.at, 2, size, 1, key.at, 33, sig.at, 2, size, 1, found, most, &needed, lengths, most % 3, &count, &outcome,
                     &reason) != MSAT_DONE ||
            needed != 35 || count != 2 || outcome.ops != 1 || outcome.peak != 2 || outcome.fault != 0 || reason.kind != 7)
            fail("another run", "runs");
        if (memcmp(found, key.at, most < 33 ? most : 33) != 0 || (most > 33 && found[33] != 0x30) || (most % 3 > 0 && lengths[0] != 33))
            fail("other checks", "runs");
        free(found), free(lengths);
    }
    for (size_t most = 0; most <= 3; most++) {
        struct msat_outcome outcome = {77, 77, 77, 77};
        struct msat_step *steps = room(most * sizeof *steps);
        memset(steps, 0, most * sizeof *steps);
        bool canonical = false;
        if (msat_audit(chars(text), text.length, 2, 0, 0, script.at, 35, sig.at, 2, size, 1, key.at, 33, sig.at, 2, size, 1, steps, most, &count, &canonical,
                       &outcome, &reason) != MSAT_DONE ||
            count != 2 || !canonical || outcome.ops != 1 || outcome.peak != 2 || outcome.fault != 0 || reason.kind != 7)
            fail("another audit", "runs");
        for (size_t i = 0; i < most; i++)
            if (steps[i].place != 0 || steps[i].sat != (i < 2) || steps[i].extra)
                fail("other steps", "runs");
        free(steps);
    }
    struct msat_outcome outcome = {77, 77, 77, 77};
    bool canonical = true;
    if (msat_run(2, 0, 0, script.at, 35, sig.at, 2, size, 1, NULL, 0, NULL, 0, NULL, 0, NULL, 0, &needed, NULL, 0, &count, &outcome, &reason) !=
            MSAT_SCRIPT_REFUSED ||
        needed != 0 || count != 0 || outcome.fault != MSAT_RUN_NULL_FAIL || outcome.place != 1 || outcome.ops != 0)
        fail("another fault", "runs");
    if (msat_audit(chars(text), text.length, 2, 0, 0, script.at, 34, sig.at, 2, size, 1, NULL, 0, NULL, 0, NULL, 0, NULL, 0, &count, &canonical, &outcome,
                   &reason) != MSAT_NOT_ACCEPTED ||
        count != 0 || canonical || outcome.fault != MSAT_RUN_WRONG_SCRIPT || outcome.place != 0)
        fail("another fault", "audits");
    outcome.fault = 77, count = 77, needed = 77;
    if (msat_run(2, 0, 0, script.at, 35, sig.at, 1, size, 1, NULL, 0, NULL, 0, NULL, 0, NULL, 0, &needed, NULL, 0, &count, &outcome, &reason) !=
            MSAT_FILE_REFUSED ||
        reason.kind != MSAT_SHAPE || reason.rule != MSAT_MEMBER_WITNESS || needed != 77 || count != 77 || outcome.fault != 77)
        fail("another refusal", "runs");
    if (msat_audit("1\xff", 2, 2, 0, 0, script.at, 34, NULL, 0, NULL, 0, NULL, 0, NULL, 0, NULL, 0, NULL, 0, &count, &canonical, &outcome, &reason) !=
            MSAT_UNREADABLE ||
        count != 77 || outcome.fault != 77)
        fail("a text was read", "audits");
    free(key.at), free(text.at), free(script.at), free(sig.at), free(size);
}

static void try_names(void) {
    if (msat_version() != MSAT_VERSION_NUMBER)
        fail("the library has another version than the header", "msat_version");
    if (strcmp(msat_fault_name(MSAT_TOO_LONG), "TooLong") != 0 || strcmp(msat_fault_name(MSAT_REPEATED_KEY), "RepeatedKey") != 0 ||
        strcmp(msat_fault_name(MSAT_FILE_TOO_LONG), "TooLong") != 0 || strcmp(msat_fault_name(MSAT_FILE_REPEATED_KEY), "RepeatedKey") != 0 ||
        strcmp(msat_fault_name(MSAT_NOT_JSON), "NotJson") != 0 || msat_fault_name(0) || strcmp(msat_fault_name(MSAT_LENGTH), "Length") != 0 ||
        msat_fault_name(MSAT_LENGTH + 1))
        fail("another name", "msat_fault_name");
    if (strcmp(msat_rule_name(MSAT_RULE_OLDER_RANGE), "OlderRange") != 0 || strcmp(msat_rule_name(MSAT_RULE_WRAP_N), "WrapN") != 0 ||
        strcmp(msat_rule_name(MSAT_RULE_AND_OR_E), "AndOrE") != 0 || strcmp(msat_rule_name(MSAT_RULE_THRESH_S), "ThreshS") != 0 ||
        msat_rule_name(MSAT_RULE_THRESH_S + 1) || msat_rule_name(UINT32_MAX))
        fail("another name", "msat_rule_name");
    if (strcmp(msat_member_name(MSAT_MEMBER_FILE), "file") != 0 || strcmp(msat_member_name(MSAT_MEMBER_FORMAT), "format") != 0 ||
        strcmp(msat_member_name(MSAT_MEMBER_KEYS), "keys") != 0 || msat_member_name(MSAT_MEMBER_KEYS + 1))
        fail("another name", "msat_member_name");
    if (strcmp(msat_run_fault_name(MSAT_RUN_SCRIPT_SIZE), "ScriptSize") != 0 || msat_run_fault_name(0) ||
        strcmp(msat_run_fault_name(MSAT_RUN_EVAL_FALSE), "EvalFalse") != 0 || msat_run_fault_name(MSAT_RUN_WRONG_SCRIPT + 1) ||
        strcmp(msat_run_fault_name(MSAT_RUN_WRONG_SCRIPT), "WrongScript") != 0)
        fail("another name", "msat_run_fault_name");
}

static void expect_unreadable(size_t count, const char *words, size_t length) {
    char report[16];
    size_t needed = 77;
    memset(report, 0xa5, sizeof report);
    char *held = room(length);
    memcpy(held, words, length);
    if (msat_answer(count, length ? held : NULL, length, NULL, 0, report, sizeof report, &needed) != MSAT_UNREADABLE)
        fail("words were read", words);
    if (needed != 77)
        fail("the length was written", words);
    for (size_t i = 0; i < sizeof report; i++)
        if (report[i] != (char)0xa5)
            fail("the buffer was written", words);
    free(held);
}

static void try_words(void) {
    expect_unreadable(1, "", 0);
    expect_unreadable(0, "\0", 1);
    expect_unreadable(1, "run", 3);
    expect_unreadable(1, "run\0\0", 5);
    expect_unreadable(2, "run\0", 4);
    expect_unreadable(2, "script\0\xff\0", 9);
    expect_unreadable(2, "script\0\xc3\0", 9);
    expect_unreadable(2, "script\0\xed\xa0\x80\0", 11);
    expect_unreadable((size_t)-1, "run\0", 4);
    struct msat_reason reason = {7, 7, 7, 7};
    struct msat_facts facts = {0};
    uint64_t weight = 77;
    size_t length = 77, count = 77;
    const char broken[] = {'1', (char)0xff};
    if (msat_script(false, broken, 2, NULL, 0, &length, &reason) != MSAT_UNREADABLE ||
        msat_check(false, broken, 2, &facts, &reason) != MSAT_UNREADABLE ||
        msat_least_weight(false, broken, 2, NULL, 0, &weight, &reason) != MSAT_UNREADABLE ||
        msat_witness(false, false, broken, 2, NULL, 0, NULL, 0, &length, NULL, 0, &count, &reason) != MSAT_UNREADABLE)
        fail("a text was read", "queries");
    if (reason.kind != 7 || weight != 77 || length != 77 || count != 77)
        fail("something was written", "queries");
    if (msat_script(false, NULL, 0, NULL, 0, &length, &reason) != MSAT_TEXT_REFUSED || reason.kind != MSAT_SYNTAX || reason.place != 0)
        fail("another refusal", "no text");
    if (msat_least_weight(false, broken, 1, NULL, 0, &weight, &reason) != MSAT_FILE_REFUSED || reason.kind != MSAT_NOT_JSON)
        fail("another refusal", "no file");
    size_t needed = 0;
    char report[14];
    if (msat_answer(0, NULL, 0, NULL, 0, report, sizeof report, &needed) != MSAT_USAGE || needed != 14 ||
        memcmp(report, "refused usage\n", 14) != 0)
        fail("another answer", "no words");
}

/* ---- a reason is written where a call is refused by it, and nowhere else */

static void try_reasons(void) {
    static const char text[] = "older(9)", sane[] = "pk(020101010101010101010101010101010101010101010101010101010101010101)";
    static const uint8_t script[] = {0x51, 0x51};
    const struct msat_reason before = {91, 92, 93, 94};
    uint8_t bytes[128] = {0};
    char policy[128] = {0};
    size_t numbers[8] = {0};
    uint64_t weight = 0;
    bool is_canonical = false;
    struct msat_facts facts = {0};
    struct msat_outcome outcome = {0};
    struct msat_step step = {0};
    for (int which = 0; which < 10; which++) {
        struct msat_reason reason = before;
        uint32_t code = 0, wanted = MSAT_DONE;
        switch (which) {
        case 0: code = msat_script(false, text, 8, bytes, 128, numbers, &reason); break;
        case 1: code = msat_check(false, sane, sizeof sane - 1, &facts, &reason); break;
        case 2: code = msat_policy(sane, sizeof sane - 1, policy, 128, numbers, &weight, &reason); break;
        case 3: code = msat_least_weight(false, text, 8, "{}", 2, &weight, &reason), wanted = MSAT_NO_SATISFACTION; break;
        case 4:
            code = msat_witness(true, false, text, 8, "{}", 2, bytes, 128, numbers, numbers + 1, 4, numbers + 5, &reason);
            wanted = MSAT_NO_SATISFACTION;
            break;
        case 5:
            code = msat_satisfy(true, false, text, 8, 2, 9, 0, NULL, 0, NULL, 0, NULL, 0, NULL, 0, bytes, 128, numbers, numbers + 1, 4, numbers + 5, &reason);
            break;
        case 6:
            code = msat_plan(sane, sizeof sane - 1, 2, 0, 0, NULL, 0, NULL, 0, NULL, 0, bytes, 128, numbers, &weight, &reason);
            wanted = MSAT_NO_SATISFACTION;
            break;
        case 7:
            code = msat_run(2, 0, 0, script, 2, NULL, 0, NULL, 0, NULL, 0, NULL, 0, NULL, 0, bytes, 128, numbers, numbers + 1, 4, numbers + 5, &outcome, &reason);
            wanted = MSAT_SCRIPT_REFUSED;
            break;
        case 8:
            code = msat_audit(text, 8, 2, 0, 0, script, 2, NULL, 0, NULL, 0, NULL, 0, NULL, 0, NULL, 0, &step, 1, numbers, &is_canonical, &outcome, &reason);
            wanted = MSAT_NOT_ACCEPTED;
            break;
        case 9: code = msat_check(false, "\xff", 1, &facts, &reason), wanted = MSAT_UNREADABLE; break;
        }
        char name[20];
        snprintf(name, sizeof name, "reason %d", which);
        if (code != wanted)
            fail("another code", name);
        if (reason.kind != before.kind || reason.rule != before.rule || reason.place != before.place || reason.number != before.number)
            fail("a reason is written where there is none", name);
    }
}

/* ---- demands */

static void break_demand(int which) {
    char bytes[64] = "1";
    uint8_t *raw = (uint8_t *)bytes;
    size_t numbers[8] = {0};
    uint64_t weight = 0;
    struct msat_facts facts = {0};
    struct msat_outcome outcome = {0};
    struct msat_step step = {0};
    struct msat_reason reason = {0};
    bool is_canonical = false;
    switch (which) {
    case 0: msat_answer(1, NULL, 1, NULL, 0, bytes, 1, numbers); break;
    case 1: msat_answer(0, bytes, 2, NULL, 0, bytes + 1, 1, numbers); break;
    case 2: msat_answer(0, NULL, 0, NULL, 0, bytes, 8, NULL); break;
    case 3: msat_answer(0, NULL, 0, numbers, 1, bytes, 8, numbers); break;
    case 4: msat_script(false, bytes, 1, raw, 1, numbers, &reason); break;
    case 5: msat_script(false, bytes, 1, raw + 1, 1, numbers, NULL); break;
    case 6: msat_check(false, (char *)&facts, 1, &facts, &reason); break;
    case 7: msat_check(false, bytes, 1, (struct msat_facts *)&reason, &reason); break;
    case 8: msat_least_weight(false, bytes, 1, NULL, 1, &weight, &reason); break;
    case 9: msat_least_weight(false, bytes, 1, NULL, 0, &reason.number, &reason); break;
    case 10: msat_witness(false, false, bytes, 1, NULL, 0, raw + 1, 8, numbers, numbers, 4, numbers + 4, &reason); break;
    case 11: msat_witness(false, false, bytes, 1, NULL, 0, raw + 1, 8, numbers, numbers + 1, 4, numbers, &reason); break;
    case 12: msat_witness(false, false, bytes, 1, NULL, 0, raw, 8, numbers, numbers + 1, 4, numbers + 5, &reason); break;
    case 13: msat_plan(bytes, 1, 2, 0, 0, NULL, 0, NULL, 0, NULL, 0, raw, 1, numbers, &weight, &reason); break;
    case 14: msat_run(2, 0, 0, raw, 1, NULL, 0, NULL, 0, NULL, 0, NULL, 0, NULL, 0, raw + 1, 8, numbers, numbers, 4, numbers + 4, &outcome, &reason); break;
    case 15: msat_audit(bytes, 1, 2, 0, 0, NULL, 0, NULL, 0, NULL, 0, NULL, 0, NULL, 0, NULL, 0, &step, 1, numbers, &step.sat, &outcome, &reason); break;
    /* lengths that no object has */
    case 16: msat_answer(1, bytes, (size_t)-1, NULL, 0, bytes + 8, 8, numbers); break;
    case 17: msat_answer(1, bytes, 2, bytes, (size_t)-1, bytes + 8, 8, numbers); break;
    case 18: msat_answer(1, bytes, 2, NULL, 0, bytes + 8, (size_t)-1, numbers); break;
    case 19: msat_psbt_answer(1, bytes, (size_t)-1, NULL, 0, bytes + 8, 8, numbers); break;
    case 20: msat_psbt_answer(1, bytes, 2, bytes, (size_t)-1, bytes + 8, 8, numbers); break;
    case 21: msat_psbt_answer(1, bytes, 2, NULL, 0, bytes + 8, (size_t)-1, numbers); break;
    case 22: msat_script(false, bytes, (size_t)-1, raw + 8, 8, numbers, &reason); break;
    case 23: msat_script(false, bytes, 1, raw + 8, (size_t)-1, numbers, &reason); break;
    case 24: msat_check(false, bytes, (size_t)-1, &facts, &reason); break;
    case 25: msat_least_weight(false, bytes, (size_t)-1, NULL, 0, &weight, &reason); break;
    case 26: msat_least_weight(false, bytes, 1, bytes, (size_t)-1, &weight, &reason); break;
    case 27: msat_witness(false, false, bytes, (size_t)-1, NULL, 0, raw + 8, 8, numbers, numbers + 1, 4, numbers + 5, &reason); break;
    case 28: msat_witness(false, false, bytes, 1, bytes, (size_t)-1, raw + 8, 8, numbers, numbers + 1, 4, numbers + 5, &reason); break;
    case 29: msat_witness(false, false, bytes, 1, NULL, 0, raw + 8, (size_t)-1, numbers, numbers + 1, 4, numbers + 5, &reason); break;
    case 30: msat_witness(false, false, bytes, 1, NULL, 0, raw + 8, 8, numbers, numbers + 1, (size_t)-1, numbers + 5, &reason); break;
    case 31: msat_witness(false, false, bytes, 1, NULL, 0, raw + 8, 8, numbers, numbers + 1, (size_t)-1 / 8, numbers + 5, &reason); break;
    case 32: msat_satisfy(false, false, bytes, (size_t)-1, 2, 0, 0, raw + 16, 0, raw + 16, 0, numbers + 6, 0, raw + 16, 0, raw + 8, 8, numbers, numbers + 1, 4, numbers + 5, &reason); break;
    case 33: msat_satisfy(false, false, bytes, 1, 2, 0, 0, raw + 16, (size_t)-1, raw + 16, 0, numbers + 6, 0, raw + 16, 0, raw + 8, 8, numbers, numbers + 1, 4, numbers + 5, &reason); break;
    case 34: msat_satisfy(false, false, bytes, 1, 2, 0, 0, raw + 16, 0, raw + 16, (size_t)-1, numbers + 6, 0, raw + 16, 0, raw + 8, 8, numbers, numbers + 1, 4, numbers + 5, &reason); break;
    case 35: msat_satisfy(false, false, bytes, 1, 2, 0, 0, raw + 16, 0, raw + 16, 0, numbers + 6, (size_t)-1, raw + 16, 0, raw + 8, 8, numbers, numbers + 1, 4, numbers + 5, &reason); break;
    case 36: msat_satisfy(false, false, bytes, 1, 2, 0, 0, raw + 16, 0, raw + 16, 0, numbers + 6, 0, raw + 16, (size_t)-1, raw + 8, 8, numbers, numbers + 1, 4, numbers + 5, &reason); break;
    case 37: msat_satisfy(false, false, bytes, 1, 2, 0, 0, raw + 16, 0, raw + 16, 0, numbers + 6, 0, raw + 16, 0, raw + 8, (size_t)-1, numbers, numbers + 1, 4, numbers + 5, &reason); break;
    case 38: msat_satisfy(false, false, bytes, 1, 2, 0, 0, raw + 16, 0, raw + 16, 0, numbers + 6, 0, raw + 16, 0, raw + 8, 8, numbers, numbers + 1, (size_t)-1, numbers + 5, &reason); break;
    case 39: msat_plan(bytes, (size_t)-1, 2, 0, 0, raw + 16, 0, numbers + 6, 0, raw + 16, 0, raw + 8, 8, numbers, &weight, &reason); break;
    case 40: msat_plan(bytes, 1, 2, 0, 0, raw + 16, (size_t)-1, numbers + 6, 0, raw + 16, 0, raw + 8, 8, numbers, &weight, &reason); break;
    case 41: msat_plan(bytes, 1, 2, 0, 0, raw + 16, 0, numbers + 6, (size_t)-1, raw + 16, 0, raw + 8, 8, numbers, &weight, &reason); break;
    case 42: msat_plan(bytes, 1, 2, 0, 0, raw + 16, 0, numbers + 6, 0, raw + 16, (size_t)-1, raw + 8, 8, numbers, &weight, &reason); break;
    case 43: msat_plan(bytes, 1, 2, 0, 0, raw + 16, 0, numbers + 6, 0, raw + 16, 0, raw + 8, (size_t)-1, numbers, &weight, &reason); break;
    case 44: msat_run(2, 0, 0, raw, (size_t)-1, raw + 16, 0, numbers + 6, 0, raw + 16, 0, raw + 16, 0, numbers + 6, 0, raw + 8, 8, numbers, numbers + 1, 4, numbers + 5, &outcome, &reason); break;
    case 45: msat_run(2, 0, 0, raw, 1, raw + 16, (size_t)-1, numbers + 6, 0, raw + 16, 0, raw + 16, 0, numbers + 6, 0, raw + 8, 8, numbers, numbers + 1, 4, numbers + 5, &outcome, &reason); break;
    case 46: msat_run(2, 0, 0, raw, 1, raw + 16, 0, numbers + 6, (size_t)-1, raw + 16, 0, raw + 16, 0, numbers + 6, 0, raw + 8, 8, numbers, numbers + 1, 4, numbers + 5, &outcome, &reason); break;
    case 47: msat_run(2, 0, 0, raw, 1, raw + 16, 0, numbers + 6, 0, raw + 16, (size_t)-1, raw + 16, 0, numbers + 6, 0, raw + 8, 8, numbers, numbers + 1, 4, numbers + 5, &outcome, &reason); break;
    case 48: msat_run(2, 0, 0, raw, 1, raw + 16, 0, numbers + 6, 0, raw + 16, 0, raw + 16, (size_t)-1, numbers + 6, 0, raw + 8, 8, numbers, numbers + 1, 4, numbers + 5, &outcome, &reason); break;
    case 49: msat_run(2, 0, 0, raw, 1, raw + 16, 0, numbers + 6, 0, raw + 16, 0, raw + 16, 0, numbers + 6, (size_t)-1, raw + 8, 8, numbers, numbers + 1, 4, numbers + 5, &outcome, &reason); break;
    case 50: msat_run(2, 0, 0, raw, 1, raw + 16, 0, numbers + 6, 0, raw + 16, 0, raw + 16, 0, numbers + 6, 0, raw + 8, (size_t)-1, numbers, numbers + 1, 4, numbers + 5, &outcome, &reason); break;
    case 51: msat_run(2, 0, 0, raw, 1, raw + 16, 0, numbers + 6, 0, raw + 16, 0, raw + 16, 0, numbers + 6, 0, raw + 8, 8, numbers, numbers + 1, (size_t)-1, numbers + 5, &outcome, &reason); break;
    case 52: msat_audit(bytes, (size_t)-1, 2, 0, 0, raw, 1, raw + 16, 0, numbers + 6, 0, raw + 16, 0, raw + 16, 0, numbers + 6, 0, &step, 1, numbers, &is_canonical, &outcome, &reason); break;
    case 53: msat_audit(bytes, 1, 2, 0, 0, raw, (size_t)-1, raw + 16, 0, numbers + 6, 0, raw + 16, 0, raw + 16, 0, numbers + 6, 0, &step, 1, numbers, &is_canonical, &outcome, &reason); break;
    case 54: msat_audit(bytes, 1, 2, 0, 0, raw, 1, raw + 16, (size_t)-1, numbers + 6, 0, raw + 16, 0, raw + 16, 0, numbers + 6, 0, &step, 1, numbers, &is_canonical, &outcome, &reason); break;
    case 55: msat_audit(bytes, 1, 2, 0, 0, raw, 1, raw + 16, 0, numbers + 6, (size_t)-1, raw + 16, 0, raw + 16, 0, numbers + 6, 0, &step, 1, numbers, &is_canonical, &outcome, &reason); break;
    case 56: msat_audit(bytes, 1, 2, 0, 0, raw, 1, raw + 16, 0, numbers + 6, 0, raw + 16, (size_t)-1, raw + 16, 0, numbers + 6, 0, &step, 1, numbers, &is_canonical, &outcome, &reason); break;
    case 57: msat_audit(bytes, 1, 2, 0, 0, raw, 1, raw + 16, 0, numbers + 6, 0, raw + 16, 0, raw + 16, (size_t)-1, numbers + 6, 0, &step, 1, numbers, &is_canonical, &outcome, &reason); break;
    case 58: msat_audit(bytes, 1, 2, 0, 0, raw, 1, raw + 16, 0, numbers + 6, 0, raw + 16, 0, raw + 16, 0, numbers + 6, (size_t)-1, &step, 1, numbers, &is_canonical, &outcome, &reason); break;
    case 59: msat_audit(bytes, 1, 2, 0, 0, raw, 1, raw + 16, 0, numbers + 6, 0, raw + 16, 0, raw + 16, 0, numbers + 6, 0, &step, (size_t)-1, numbers, &is_canonical, &outcome, &reason); break;
    case 60: msat_policy(bytes, (size_t)-1, bytes + 8, 8, numbers, &weight, &reason); break;
    case 61: msat_policy(bytes, 1, bytes + 8, (size_t)-1, numbers, &weight, &reason); break;
    case 62: msat_decode(raw, (size_t)-1, raw + 16, 0, bytes + 8, 8, numbers); break;
    case 63: msat_decode(raw, 1, raw + 16, (size_t)-1, bytes + 8, 8, numbers); break;
    case 64: msat_decode(raw, 1, raw + 16, 0, bytes + 8, (size_t)-1, numbers); break;
    case 65: msat_signature(raw, (size_t)-1, raw + 16, 0, raw + 16, 0); break;
    case 66: msat_signature(raw, 1, raw + 16, (size_t)-1, raw + 16, 0); break;
    case 67: msat_signature(raw, 1, raw + 16, 0, raw + 16, (size_t)-1); break;
    case 68: msat_signature(NULL, 1, raw + 16, 0, raw + 16, 0); break;
    case 69: msat_point(raw, (size_t)-1, raw + 8, 8, numbers); break;
    case 70: msat_point(raw, 1, raw + 8, (size_t)-1, numbers); break;
    case 71: msat_point(raw, 1, raw + 8, 8, NULL); break;
    case 72: msat_point(raw, 8, raw + 4, 8, numbers); break;
    case 73: msat_descriptor_answer(1, bytes, (size_t)-1, NULL, 0, bytes + 8, 8, numbers); break;
    case 74: msat_descriptor_answer(1, bytes, 2, bytes, (size_t)-1, bytes + 8, 8, numbers); break;
    case 75: msat_descriptor_answer(1, bytes, 2, NULL, 0, bytes + 8, (size_t)-1, numbers); break;
    }
}

enum { DEMANDS = 76 };

static void try_demands(void) {
    for (int which = 0; which < DEMANDS; which++) {
        pid_t child = fork();
        if (child == 0) {
            if (!freopen("/dev/null", "w", stderr))
                _exit(1);
            break_demand(which);
            _exit(0);
        }
        int status;
        char name[20];
        snprintf(name, sizeof name, "demand %d", which);
        if (child < 0 || waitpid(child, &status, 0) != child || !WIFSIGNALED(status) || WTERMSIG(status) != SIGABRT)
            fail("a call that breaks it isn't stopped", name);
    }
}

struct examples {
    struct example *each;
    size_t count;
};

static void *try_all(void *given) {
    const struct examples *all = given;
    for (size_t round = 0; round < 20; round++)
        for (size_t i = 0; i < all->count; i++)
            try_example(&all->each[i]), try_queries(&all->each[i]);
    return NULL;
}

static void try_threads(struct examples all) {
    pthread_t threads[8];
    pthread_attr_t small;
    if (pthread_attr_init(&small) != 0 || pthread_attr_setstacksize(&small, 512 << 10) != 0)
        fail("no stack of 512 KiB", "pthread_attr_setstacksize");
    for (size_t i = 0; i < 8; i++)
        if (pthread_create(&threads[i], &small, try_all, &all) != 0)
            fail("no thread", "pthread_create");
    for (size_t i = 0; i < 8; i++)
        pthread_join(threads[i], NULL);
}

static uint64_t state;

/* xorshift64*: the same numbers from the same seed everywhere. */
static uint64_t random_below(uint64_t limit) {
    state ^= state >> 12, state ^= state << 25, state ^= state >> 27;
    return (state * 2685821657736338717u >> 16) % limit;
}

/* A copy with some bytes changed, left out, or doubled, of exactly its length. */
static struct bytes changed(struct bytes from) {
    struct bytes copy = {room(from.length * 2 + 16), from.length};
    if (from.length)
        memcpy(copy.at, from.at, from.length);
    for (uint64_t times = random_below(4); times > 0; times--) {
        size_t place = copy.length ? random_below(copy.length) : 0;
        switch (random_below(4)) {
        case 0:
            if (copy.length)
                copy.at[place] = (uint8_t)random_below(256);
            break;
        case 1:
            copy.length = place;
            break;
        case 2:
            if (copy.length)
                copy.at[place] ^= 1;
            break;
        default:
            if (copy.length < from.length * 2 + 15) {
                memmove(copy.at + place + 1, copy.at + place, copy.length - place);
                copy.at[place] = "(),:0123af\0"[random_below(11)];
                copy.length++;
            }
        }
    }
    copy.at = realloc(copy.at, copy.length ? copy.length : 1);
    return copy;
}

/* Each query with this text and file, in buffers of any length. */
static void query_random(const char *where, struct bytes text, struct bytes file) {
    bool malleable = random_below(2), consensus = random_below(2);
    size_t length = random_below(3) ? random_below(400) : random_below(4), most = random_below(8), needed = 12345, count = 12345;
    uint8_t *bytes = room(length);
    size_t *lengths = room(most * sizeof *lengths);
    uint64_t weight = 12345;
    struct msat_facts facts = {0};
    struct msat_reason reason = {0};
    memset(bytes, 0xa5, length), memset(lengths, 0xa5, most * sizeof *lengths);
    uint32_t code;
    switch (random_below(6)) {
    case 4:
        code = msat_policy(chars(text), text.length, (char *)bytes, length, &needed, &weight, &reason);
        break;
    case 5:
        code = msat_decode((uint8_t *)text.at, text.length, file.at, file.length / 33 * 33 % 100, (char *)bytes, length, &needed);
        break;
    case 0:
        code = msat_script(consensus, chars(text), text.length, bytes, length, &needed, &reason);
        break;
    case 1:
        code = msat_check(consensus, chars(text), text.length, &facts, &reason);
        break;
    case 2:
        code = msat_least_weight(consensus, chars(text), text.length, file.at, file.length, &weight, &reason);
        break;
    default:
        code = msat_witness(malleable, consensus, chars(text), text.length, file.at, file.length, bytes, length, &needed, lengths, most,
                            &count, &reason);
    }
    if (code > MSAT_NO_SATISFACTION && code != MSAT_UNREADABLE && code != MSAT_NO_READING)
        fail("a code that doesn't come here", where);
    if ((reason.kind != 0) != (code == MSAT_TEXT_REFUSED || code == MSAT_FILE_REFUSED))
        fail("a reason without a refusal, or a refusal without one", where);
    for (size_t at = needed == 12345 ? 0 : needed; at < length; at++)
        if (bytes[at] != 0xa5)
            fail("a byte behind the others was written", where);
    for (size_t at = count == 12345 ? 0 : count; at < most; at++)
        if (lengths[at] != SIZE_MAX / 255 * 0xa5)
            fail("a length behind the others was written", where);
    free(bytes), free(lengths);
}

static void try_random(struct examples all, uint64_t count) {
    size_t before = 0, answered[MSAT_UNREADABLE + 1] = {0};
    for (uint64_t i = 0; i < count; i++) {
        if (i == count / 10)
            before = mallinfo2().uordblks;
        const struct example *example = &all.each[random_below(all.count)];
        struct bytes words = changed(example->words), source = changed(all.each[random_below(2) ? random_below(all.count) : 0].source);
        if (random_below(2)) {
            free(source.at);
            source = changed(example->source);
        }
        size_t length = random_below(3) ? random_below(2000) : random_below(4), needed = 12345;
        char *report = room(length);
        memset(report, 0xa5, length);
        uint32_t status = ask(example, words, source, report, length, &needed);
        if (status == 5 || status == 6 || status == MSAT_NO_MEMORY || status > MSAT_UNREADABLE)
            fail("a status that doesn't come here", example->folder);
        answered[status]++;
        size_t written = status == MSAT_UNREADABLE ? 0 : needed < length ? needed : length;
        if (status == MSAT_UNREADABLE && needed != 12345)
            fail("the length was written", example->folder);
        for (size_t at = written; at < length; at++)
            if (report[at] != (char)0xa5)
                fail("a byte behind the report was written", example->folder);
        if (random_below(4) == 0) {
            struct bytes word = last_word(example), text = changed(word);
            query_random(example->folder, random_below(2) ? word : text, source);
            free(word.at), free(text.at);
        }
        free(report), free(words.at), free(source.at);
    }
    if (mallinfo2().uordblks > before + (1 << 16))
        fail("what is allocated grew", "random");
    printf("calls: random, by status:");
    for (size_t status = 0; status <= MSAT_UNREADABLE; status++)
        if (answered[status])
            printf(" %zu: %zu", status, answered[status]);
    printf("\n");
}

int main(int argc, char **argv) {
    const char *what = argc > 1 ? argv[1] : "";
    bool is_random = strcmp(what, "random") == 0;
    int first = is_random ? 4 : 2;
    if (argc < first)
        fail("see the head of calls.c", "usage");
    if (strcmp(what, "curve") == 0 && argc == 3) {
        try_curve(argv[2]);
        return 0;
    }
    struct examples all = {calloc(argc, sizeof *all.each), 0};
    for (int i = first; i < argc; i++)
        all.each[all.count++] = read_example(argv[i]);
    if (strcmp(what, "words") == 0)
        try_words();
    else if (strcmp(what, "arrays") == 0)
        try_arrays(), try_plans(), try_runs();
    else if (strcmp(what, "names") == 0)
        try_names();
    else if (strcmp(what, "reasons") == 0)
        try_reasons();
    else if (strcmp(what, "demands") == 0)
        try_demands();
    else if (all.count == 0)
        fail("no examples", "usage");
    else if (strcmp(what, "rows") == 0)
        for (size_t i = 0; i < all.count; i++)
            try_example(&all.each[i]);
    else if (strcmp(what, "queries") == 0)
        for (size_t i = 0; i < all.count; i++)
            try_queries(&all.each[i]);
    else if (strcmp(what, "threads") == 0)
        try_threads(all);
    else if (is_random)
        state = strtoull(argv[3], NULL, 10) | 1, try_random(all, strtoull(argv[2], NULL, 10));
    else
        fail("see the head of calls.c", "usage");
    for (size_t i = 0; i < all.count; i++)
        free(all.each[i].words.at), free(all.each[i].source.at), free(all.each[i].report.at);
    free(all.each);
    return 0;
}
