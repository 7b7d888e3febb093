/* Puts one input of libFuzzer to msat_descriptor_answer and to the program msat-descriptor, in this process. The input is a letter for the command and
 * the network, a byte for the branch, one for how many indices, four for the first index, and the descriptor, of which a NUL is the end.
 *
 * It stops, as a crash, where
 * - the program has another answer than msat_descriptor_answer, or writes anything to standard error, or reads another file;
 * - a byte behind the room for the report is written;
 * - the status isn't the one that the report has, or is 5, 6, 7 or 11: no write or allocation fails here;
 * - one command refuses the descriptor, and the other one doesn't, or at another place;
 * - what `check` prints of the descriptor, with its checksum, isn't checked and derived from with the same report;
 * - what is derived at several indices isn't what is derived at each of them;
 * - msat_script of a `text` isn't the `script` beside it, or msat_check says that it isn't sane.
 * libFuzzer itself stops where a call takes over a second, or crashes. The file that FUZZ_COUNTS names has in the end a line for each
 * command and status: how many inputs had it, and how many of these were tried by further calls.
 */
#define ANSWER msat_descriptor_answer
#include "run.h"
#include <stdint.h>

static char program[] = "msat-descriptor";
static const char *const commands[] = {"check", "derive", "others"};
enum { CHECK, DERIVE, OTHERS, COMMANDS };
enum { MOST_INDICES = 4 };
static unsigned long answers[COMMANDS][STATUSES], tried[COMMANDS][STATUSES];
static struct bytes first, again, other, whole, descriptor, summed, told;
static char branch[8], count[8], index_word[16];
static const char *network;
static unsigned long start;
static int indices;

static int ask(int which, char *text, unsigned long from, int many, struct bytes *to) {
    char *words[9] = {program, (char *)commands[which]};
    int length = 2;
    if (which == DERIVE) {
        if (network) words[length++] = (char *)network;
        words[length++] = "--branch", words[length++] = branch;
    }
    words[length++] = text;
    if (which == DERIVE) {
        sprintf(index_word, "%lu", from), sprintf(count, "%d", many);
        words[length++] = index_word, words[length++] = count;
    }
    words[length] = NULL;
    int status = call(words, (size_t)length, "", 0, to);
    compare_with_program(words, (size_t)length, "", 0, status, to);
    return status;
}

static int is_same(const struct bytes *x, const struct bytes *y) {
    return x->length == y->length && (!x->length || !memcmp(x->at, y->at, x->length));
}

/* The status that a report of this command has, where it says it. */
static void expect(int which, int status, const struct bytes *report) {
    int refused = begins(report->at, "refused descriptor ") || begins(report->at, "refused branch ");
    if (begins(report->at, "refused usage")) {
        if (status != 1) fail("words without a form have another status");
    } else if (refused) {
        if (status != 2) fail("a refusal has another status");
    } else if (which == CHECK) {
        if (status != (strstr(report->at, "\nunfit ") ? 4 : 0)) fail("the status isn't that of the judgement");
    } else if (status != 0) {
        fail("a status that the command hasn't");
    }
}

/* Each text has the Script beside it, and is sane. */
static void try_texts(const struct bytes *report) {
    static uint8_t script[20000];
    for (const char *at = report->at; (at = strstr(at, "\nscript ")); at++) {
        const char *digits = at + 8, *end = strchr(digits, '\n'), *text = end + 6, *last = strchr(text, '\n');
        size_t needed = 0, length = (size_t)(end - digits) / 2;
        struct msat_reason reason = {0};
        struct msat_facts facts = {0};
        if (strncmp(end, "\ntext ", 6)) fail("a Script without a text");
        if (msat_script(0, text, (size_t)(last - text), script, sizeof script, &needed, &reason) != 0 || needed != length) fail("a text has another Script");
        for (size_t i = 0; i < length; i++) {
            unsigned byte = 0;
            if (sscanf(digits + 2 * i, "%2x", &byte) != 1 || byte != script[i]) fail("a text has another Script");
        }
        if (msat_check(0, text, (size_t)(last - text), &facts, &reason) != 0) fail("a text isn't sane");
    }
}

/* What `check` prints of the descriptor gives the same. */
static void try_summed(void) {
    if (!line(&first, "descriptor", &summed)) fail("no descriptor is printed");
    if (ask(CHECK, summed.at, 0, 0, &again) == 1 || !is_same(&first, &again)) fail("with its checksum it is another one");
    if (ask(DERIVE, summed.at, start, indices, &again) != ask(DERIVE, descriptor.at, start, indices, &other) || !is_same(&again, &other))
        fail("with its checksum another one is derived from");
}

/* Several indices give what each of them gives. */
static void try_each(void) {
    whole.length = 0;
    for (int i = 0; i < indices; i++) {
        if (ask(DERIVE, descriptor.at, start + (unsigned long)i, 1, &told) != 0) fail("an index is refused by itself");
        add(&whole, told.at, told.length);
    }
    add(&whole, "", 1), whole.length--;
    if (!is_same(&first, &whole)) fail("several indices give something else than each of them");
}

static void write_counts(void) {
    const char *path = getenv("FUZZ_COUNTS");
    FILE *to = path ? fopen(path, "w") : NULL;
    if (!to) return;
    for (int i = 0; i < COMMANDS; i++)
        for (int status = 0; status < STATUSES; status++)
            if (answers[i][status]) fprintf(to, "%s\t%d\t%lu\t%lu\n", commands[i], status, answers[i][status], tried[i][status]);
    fclose(to);
}

int LLVMFuzzerTestOneInput(const uint8_t *data, size_t size) {
    static int is_first = 1;
    if (is_first) is_first = 0, atexit(write_counts);
    if (size < 7) return 0;
    const char *letters = "cdtr", *letter = data[0] ? strchr(letters, data[0]) : NULL;
    int which = !letter ? OTHERS : letter == letters ? CHECK : DERIVE;
    network = !letter || *letter == 'd' || *letter == 'c' ? NULL : *letter == 't' ? "--testnet" : "--regtest";
    sprintf(branch, "%u", data[1] % 17u);
    indices = 1 + data[2] % MOST_INDICES;
    start = ((unsigned long)data[3] << 24 | data[4] << 16 | data[5] << 8 | data[6]) >> 1;
    descriptor.length = 0;
    for (size_t i = 7; i < size && data[i]; i++) add(&descriptor, data + i, 1);
    add(&descriptor, "", 1);
    int status = ask(which, descriptor.at, start, indices, &first);
    if (status == 11) return 0; /* it isn't UTF-8 */
    expect(which, status, &first);
    answers[which][status]++;
    if (which == OTHERS) return 0;
    int by_other = ask(CHECK + DERIVE - which, descriptor.at, start, indices, &again);
    int is_refused = begins(first.at, "refused descriptor ") && !begins(first.at, "refused descriptor No");
    if (is_refused && (by_other != 2 || !is_same(&first, &again))) fail("one command refuses the descriptor, and the other one doesn't");
    if (which == CHECK && status != 2) try_summed(), tried[which][status]++;
    if (which == DERIVE && status == 0) try_texts(&first), try_each(), tried[which][status]++;
    return 0;
}
