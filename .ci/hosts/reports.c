/* Reads reports of msat-psbt line by line, by include/msat_psbt.h, and spells each line anew of what was read: the same bytes come out.
 * Usage: reports FOLDER..         the reports of these questions, each with its words, its source, its status and its report, as the
 *                                 library gives them; each line is one that the header knows
 *        reports COUNT FOLDER..   the same, and COUNT broken copies of each, in which every line is either what it is spelled or another
 * Ends with 1 where one isn't. Reports lie on the heap in their own length, so that AddressSanitizer and valgrind see what is read beyond. */
#include <ctype.h>
#include <inttypes.h>
#include <msat.h>
#include <msat_psbt.h>
#include <stdio.h>
#include <stdlib.h>

struct bytes {
    uint8_t *at;
    size_t length;
};

static void fail(const char *what, const char *where) {
    fprintf(stderr, "reports: %s: %s\n", where, what);
    exit(1);
}

static struct bytes read_file(const char *folder, const char *name) {
    char path[4096];
    struct bytes found = {malloc(8 << 20), 0};
    snprintf(path, sizeof path, "%s/%s", folder, name);
    FILE *file = fopen(path, "rb");
    if (!file || !found.at)
        fail("no such file", path);
    found.length = fread(found.at, 1, 8 << 20, file);
    fclose(file);
    uint8_t *fitting = realloc(found.at, found.length ? found.length : 1);
    found.at = fitting ? fitting : found.at;
    return found;
}

/* ---- a line, spelled anew of its fields alone */

static char spelled[1 << 20];
static size_t spelled_len;

static void put(const char *text, size_t length) {
    if (length > sizeof spelled - spelled_len)
        fail("a line is too long", "spelled");
    memcpy(spelled + spelled_len, text, length);
    spelled_len += length;
}

static void word(const char *text) {
    put(text, strlen(text));
}

static void number(const char *before, uint64_t value) {
    char digits[32];
    word(before);
    put(digits, (size_t)snprintf(digits, sizeof digits, "%" PRIu64, value));
}

/* Of their bytes, so that msat_psbt_bytes is tried too. */
static void digits(const char *before, struct msat_psbt_text given) {
    size_t count = msat_psbt_bytes(given, NULL, 0);
    uint8_t *bytes = malloc(count ? count : 1);
    if (!bytes || msat_psbt_bytes(given, bytes, count) != count)
        fail("other bytes", "msat_psbt_bytes");
    word(before);
    if (count == 0)
        word("-");
    for (size_t i = 0; i < count; i++) {
        char two[3];
        snprintf(two, sizeof two, "%02x", bytes[i]);
        word(two);
    }
    free(bytes);
}

static void text(const char *before, struct msat_psbt_text given) {
    word(before);
    put(given.at, given.length);
}

static void money(const char *before, const struct msat_psbt_line *line) {
    word(before);
    if (line->known == MSAT_PSBT_UNKNOWN || line->known == MSAT_PSBT_NEGATIVE) {
        word(line->known == MSAT_PSBT_UNKNOWN ? "unknown" : "negative");
        return;
    }
    if (line->is_large && line->amount == UINT64_MAX)
        put(line->digits.at, line->digits.length);
    else
        number("", line->amount);
    word(line->known == MSAT_PSBT_PROVED ? " proved" : " claimed");
}

static void spell(const struct msat_psbt_line *line) {
    spelled_len = 0;
    switch (line->kind) {
    case MSAT_PSBT_LINE_PSBT:
        number("psbt inputs ", line->inputs), number(" outputs ", line->outputs), number(" version ", line->version);
        number(" locktime ", line->locktime), digits(" txid ", line->id);
        break;
    case MSAT_PSBT_LINE_OUTPUT: number("output ", line->number), number(" ", line->amount), digits(" ", line->digits); break;
    case MSAT_PSBT_LINE_FEE: money("fee ", line); break;
    case MSAT_PSBT_LINE_INPUT:
        number("input ", line->number), text(" ", line->text);
        if (line->state != 0 && strncmp(line->text.at, msat_psbt_state_name(line->state), strlen(msat_psbt_state_name(line->state))) != 0)
            fail("another state", "input");
        break;
    case MSAT_PSBT_LINE_OUTPOINT: digits("outpoint ", line->id), number(" ", line->number), number(" sequence ", line->sequence); break;
    case MSAT_PSBT_LINE_AMOUNT: money("amount ", line); break;
    case MSAT_PSBT_LINE_UNCHECKED: word("unchecked"); break;
    case MSAT_PSBT_LINE_SIGNATURE:
        digits("signature ", line->key), number(" ", line->type);
        if (line->text.length > 0)
            text(" ", line->text);
        break;
    case MSAT_PSBT_LINE_FINAL_ID: digits("final txid ", line->id); break;
    case MSAT_PSBT_LINE_KIND: text("kind ", line->text); break;
    case MSAT_PSBT_LINE_TEXT: text("text ", line->text); break;
    case MSAT_PSBT_LINE_POLICY: text("policy ", line->text); break;
    case MSAT_PSBT_LINE_WEIGHT: number("weight ", line->amount); break;
    case MSAT_PSBT_LINE_ASK: digits("ask ", line->key); break;
    case MSAT_PSBT_LINE_MOST: number("weight at most ", line->amount); break;
    case MSAT_PSBT_LINE_NO_PLAN: word("no plan"); break;
    case MSAT_PSBT_LINE_SIGN: number(line->type == 1 ? "sign " : "sign-other ", line->type), digits(" ", line->hash); break;
    case MSAT_PSBT_LINE_CHECK:
        digits("check ", line->key), digits(" ", line->digits), digits(" ", line->hash);
        if (line->text.length > 0)
            text(" ", line->text);
        break;
    case MSAT_PSBT_LINE_NOT_FINAL: number("not final ", line->number); break;
    case MSAT_PSBT_LINE_REFUSED:
        if (line->of_line == 0)
            word("refused psbt ");
        else
            number("refused line ", line->of_line), word(" ");
        if (line->fault != 0)
            word(msat_psbt_fault_name(line->fault));
        else
            text("", line->text);
        if (line->has_place)
            number(" at ", line->number);
        break;
    case MSAT_PSBT_LINE_USAGE: word("refused usage"); break;
    default: text("", line->text);
    }
    word("\n");
}

/* Whether these are the words of a verdict. */
static bool is_verdict(struct msat_psbt_text words) {
    struct msat_psbt_text rest = words;
    if (msat_psbt_word(&rest, "open "))
        return msat_psbt_named(rest, msat_psbt_state_name) != 0;
    return msat_psbt_word(&rest, "unknown ") || msat_psbt_word(&rest, "invalid ") || (msat_psbt_word(&rest, "valid") && rest.length == 0);
}

/* How many lines of a report the header doesn't know. */
static size_t read_report(struct bytes report, const char *where) {
    struct msat_psbt_reader reader = {(const char *)report.at, report.length, MSAT_PSBT_NO_INPUT};
    struct msat_psbt_line line;
    const char *at = reader.at;
    size_t unknown = 0;
    while (msat_psbt_next(&reader, &line)) {
        spell(&line);
        if (spelled_len != (size_t)(reader.at - at) || memcmp(spelled, at, spelled_len) != 0) {
            fprintf(stderr, "%.*s", (int)spelled_len, spelled);
            fail("a line is another one when it is spelled anew", where);
        }
        at = reader.at;
        unknown += line.kind == MSAT_PSBT_LINE_OTHER || (line.kind == MSAT_PSBT_LINE_INPUT && line.state == 0 && !is_verdict(line.text)) ||
                   (line.kind == MSAT_PSBT_LINE_REFUSED && line.fault == 0);
    }
    if (reader.length != 0 && memchr(reader.at, '\n', reader.length))
        fail("a whole line is left", where);
    return unknown + (reader.length != 0);
}

static uint64_t state = 1;

static size_t random_below(size_t limit) {
    state ^= state >> 12, state ^= state << 25, state ^= state >> 27;
    return (size_t)(state * 2685821657736338717u >> 16) % limit;
}

/* A copy with some bytes changed, doubled, or cut off, of exactly its length. */
static struct bytes broken(struct bytes from) {
    static const char likely[] = "0123456789af -\nusgwtpkx";
    struct bytes copy = {malloc(from.length ? from.length : 1), from.length};
    if (!copy.at)
        fail("no memory", "broken");
    memcpy(copy.at, from.at, from.length);
    for (size_t times = 1 + random_below(4); times > 0 && copy.length > 0; times--) {
        size_t place = random_below(copy.length);
        switch (random_below(4)) {
        case 0: copy.at[place] = (uint8_t)random_below(256); break;
        case 1: copy.at[place] = (uint8_t)likely[random_below(sizeof likely - 1)]; break;
        case 2: memmove(copy.at + place, copy.at + place + 1, copy.length - place - 1), copy.length--; break;
        default: memmove(copy.at + place, copy.at + random_below(place + 1), copy.length - place); break;
        }
    }
    uint8_t *fitting = realloc(copy.at, copy.length ? copy.length : 1);
    copy.at = fitting ? fitting : copy.at;
    return copy;
}

/* Each question is asked of the library first. */
static void try_folder(const char *folder, size_t count) {
    struct bytes words = read_file(folder, "words"), source = read_file(folder, "source"), report = read_file(folder, "report");
    size_t how_many = 0, length = 0, needed = 0;
    for (size_t i = 0; i < words.length; i++)
        if (isspace(words.at[i])) {
            if (length > 0 && words.at[length - 1] != 0)
                words.at[length++] = 0, how_many++;
        } else
            words.at[length++] = words.at[i];
    char *given = malloc(report.length ? report.length : 1);
    if (!given)
        fail("no memory", folder);
    memset(given, 0, report.length);
    msat_psbt_answer(how_many, (const char *)words.at, length, source.at, source.length, given, report.length, &needed);
    if (needed != report.length || memcmp(given, report.at, needed) != 0)
        fail("another report", folder);
    bool writes = (length >= 9 && memcmp(words.at, "finalize", 9) == 0) || (length >= 8 && memcmp(words.at, "combine", 8) == 0);
    bool is_psbt = writes && !(report.length > 8 && memcmp(report.at, "refused ", 8) == 0);
    bool is_transaction = length >= 8 && memcmp(words.at, "extract", 8) == 0 && report.length > 0 && isdigit(report.at[0]);
    if (read_report(report, folder) != 0 && !is_psbt && !is_transaction)
        fail("a line isn't known", folder);
    for (size_t i = 0; i < count; i++) {
        struct bytes copy = broken(report);
        read_report(copy, folder);
        free(copy.at);
    }
    free(words.at), free(source.at), free(report.at), free(given);
}

int main(int argc, char **argv) {
    int first = argc > 1 && isdigit((unsigned char)argv[1][0]) ? 2 : 1;
    if (argc <= first)
        fail("no questions", "usage");
    for (int i = first; i < argc; i++)
        try_folder(argv[i], first == 2 ? strtoull(argv[1], NULL, 10) : 0);
    return 0;
}
