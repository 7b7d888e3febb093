/* Puts one input of libFuzzer to msat_answer and to the program msat, in this process. The input is the words with a tab between them, a line
 * feed, and the bytes of standard input.
 *
 * It stops, as a crash, where
 * - the program has another answer than msat_answer, or writes anything to standard error, or reads another file;
 * - a byte behind the room for the report is written;
 * - the status isn't the one that the report's first line has, or is 5, 6 or 7: no read, write or allocation fails here;
 * - `check TEXT` prints a text whose `check` has another report, or `decode` one whose Script is another: a text is read back as
 *   it was printed, but where it is one of those at the limit of depth, whose printed form is too deep;
 * - `script TEXT` prints a Script that `decode` reads as a text with another Script;
 * - `satisfy` prints a witness whose Script isn't the one that it prints, or that `run` refuses with the signatures and the locks of the
 *   same file, or whose counts in that run aren't those that it prints, or, without `--consensus`, whose `audit` has another row than
 *   canonical ones.
 * libFuzzer itself stops where a call takes over a second, or crashes. The file that FUZZ_COUNTS names has in the end a line for each
 * command and status: how many inputs had it, and how many of these were tried by a second call.
 */
#define ANSWER msat_answer
#include "run.h"
#include <stdint.h>

static void add_text(struct bytes *to, const char *text) { add(to, text, strlen(text)); }

/* The status that a report with this first line has. */
static int status_of(const struct bytes *it) {
    if (it->length == 0) return 11;
    if (it->at[it->length - 1] != '\n' && !strchr(it->at, '\n')) return -1;
    if (!strcmp(it->at, "refused usage\n")) return 1;
    if (begins(it->at, "refused text ")) return 2;
    if (begins(it->at, "refused file ")) return 3;
    if (!strcmp(it->at, "no satisfaction\n")) return 4;
    if (begins(it->at, "refused script ")) return 8;
    /* A trace ends with what its run came to. */
    if (begins(it->at, "step ") || begins(it->at, "stop ")) {
        const char *last = it->at + it->length - 1;
        while (last > it->at && last[-1] != '\n') last--;
        return begins(last, "refused script ") ? 8 : 0;
    }
    if (begins(it->at, "not accepted ")) return 9;
    if (!strcmp(it->at, "no reading\n")) return 10;
    return begins(it->at, "refused") ? -1 : 0;
}

static char program[] = "msat";
static struct bytes first, second, text, script, witness, file, counts;

/* `check` or `script` of a text that was printed, with the option that stood there if one did. Returns 0 where it is too deep to be read. */
static int again(const char *command, const char *option, const char *printed) {
    char *words[] = {program, (char *)command, (char *)(option ? option : printed), option ? (char *)printed : NULL, NULL};
    int status = call(words, option ? 4 : 3, "", 0, &second);
    if (status == 2 && begins(second.at, "refused text TooDeep at ")) return 0;
    if (status != 0) fail("what was printed is refused");
    return 1;
}

static void lower(char *digits) {
    for (; *digits; digits++)
        if (*digits >= 'A' && *digits <= 'F') *digits += 'a' - 'A';
}

static int of_check(const char *option) {
    if (!line(&first, "text", &text)) fail("check prints no text");
    if (!again("check", option, text.at)) return 0;
    if (first.length != second.length || memcmp(first.at, second.at, first.length)) fail("what was printed is another tree");
    return 1;
}

static int has_script(const char *digits) {
    if (strlen(digits) + 1 != second.length || memcmp(digits, second.at, second.length - 1)) fail("what was read back has another Script");
    return 1;
}

static int of_decode(const char *digits) {
    script.length = 0;
    add(&script, digits, strlen(digits) + 1);
    lower(script.at);
    if (!line(&first, "text", &text)) fail("decode prints no text");
    return again("script", NULL, text.at) && has_script(script.at);
}

static int of_script(const char *option) {
    script.length = 0;
    add(&script, first.at, first.length - 1);
    add(&script, "", 1);
    char *words[] = {program, (char *)"decode", script.at, NULL};
    int status = call(words, 3, "", 0, &second);
    if (status == 10) return 0;
    if (status != 0 || !line(&second, "text", &text)) fail("a Script that was printed isn't read");
    return again("script", option, text.at) && has_script(script.at);
}

/* A compact size in hexadecimal digits, as BIP 144 writes it, of at most two bytes. */
static size_t size_at(const char **digits) {
    unsigned value = 0, high = 0;
    if (sscanf(*digits, "%2x", &value) != 1) fail("a witness is cut");
    *digits += 2;
    if (value < 0xfd) return value;
    if (value != 0xfd || sscanf(*digits, "%2x%2x", &value, &high) != 2) fail("a size of a witness is too large");
    *digits += 4;
    return value + 256 * high;
}

/* The file, with the Script and the stack of the witness as its last members. */
static void run_file(const char *input, size_t length) {
    const char *end = input + length;
    while (end > input && end[-1] != '}') end--;
    if (end == input) fail("an asset file has no end");
    const char *before = --end;
    while (before > input && strchr(" \t\r\n", before[-1])) before--;
    file.length = 0;
    add(&file, input, (size_t)(end - input));
    if (before[-1] != '{') add_text(&file, ",");
    add_text(&file, "\"script\":\"");
    add_text(&file, script.at);
    add_text(&file, "\",\"witness\":[");
    const char *at = witness.at;
    size_t items = size_at(&at);
    for (size_t i = 0; i < items; i++) {
        size_t bytes = size_at(&at);
        if (strlen(at) < 2 * bytes) fail("a witness is cut");
        if (i + 1 == items) {
            if (strcmp(at, script.at)) fail("the last item of a witness isn't the Script");
        } else {
            add_text(&file, i ? ",\"" : "\"");
            add(&file, at, 2 * bytes);
            add_text(&file, "\"");
        }
        at += 2 * bytes;
    }
    if (*at) fail("a witness has more bytes than its sizes say");
    add_text(&file, "]}");
}

/* The audit of the run file for a text that was satisfied. */
static void audited(const char *of, unsigned long ops, unsigned long peak) {
    char *words[] = {program, (char *)"audit", (char *)of, NULL};
    if (call(words, 3, file.at, file.length, &second) != 0) fail("a witness has no audit");
    unsigned long audit_ops, audit_peak;
    if (sscanf(second.at, "accepted ops %lu peak %lu", &audit_ops, &audit_peak) != 2) fail("an audit has no counts");
    if (ops != audit_ops || peak != audit_peak) fail("an audit has other counts than the replay");
    if (!line(&second, "canonical", &counts) || strcmp(counts.at, "yes")) fail("a satisfaction isn't canonical");
}

static int of_satisfy(int count, char **words_of, const char *input, size_t length) {
    if (!line(&first, "script", &script) || !line(&first, "witness", &witness) || !line(&first, "replay", &counts))
        fail("satisfy prints no witness");
    run_file(input, length);
    char *words[] = {program, (char *)"run", NULL};
    if (call(words, 2, file.at, file.length, &second) != 0) fail("a witness isn't accepted");
    unsigned long ops, items, weight, peak, run_ops, run_peak;
    if (sscanf(counts.at, "ops %lu items %lu weight %lu peak %lu", &ops, &items, &weight, &peak) != 4) fail("a replay has no counts");
    if (sscanf(second.at, "accepted ops %lu peak %lu", &run_ops, &run_peak) != 2) fail("a run has no counts");
    if (ops != run_ops || peak != run_peak) fail("a replay has other counts than the run");
    int by_consensus = count > 3 && (!strcmp(words_of[2], "--consensus") || (count > 4 && !strcmp(words_of[3], "--consensus")));
    if (!by_consensus) audited(words_of[count - 1], ops, peak);
    return 1;
}

static const char *const commands[] = {"script", "check", "satisfy", "run", "gen", "policy", "plan", "decode", "audit", "trace", "asm", "tree", "others"};
enum { COMMANDS = sizeof commands / sizeof *commands };
static unsigned long answers[COMMANDS][STATUSES], tried[COMMANDS][STATUSES];

static void write_counts(void) {
    const char *path = getenv("FUZZ_COUNTS");
    FILE *to = path ? fopen(path, "w") : NULL;
    if (!to) return;
    for (int i = 0; i < COMMANDS; i++)
        for (int status = 0; status < STATUSES; status++)
            if (answers[i][status]) fprintf(to, "%s\t%d\t%lu\t%lu\n", commands[i], status, answers[i][status], tried[i][status]);
    fclose(to);
}

int LLVMFuzzerTestOneInput(const uint8_t *data, size_t size) {
    static char *copy;
    static size_t room;
    static int is_first = 1;
    if (is_first) is_first = 0, atexit(write_counts);
    if (size + 1 > room) {
        room = 2 * size + 64;
        copy = realloc(copy, room);
        if (!copy) fail("no memory");
    }
    if (size) memcpy(copy, data, size);
    copy[size] = 0;
    char *words[MOST_WORDS + 2] = {program};
    int count = 1;
    char *at = copy, *end = memchr(copy, '\n', size);
    if (!end) end = copy + size;
    while (at < end && count <= MOST_WORDS) {
        words[count++] = at;
        while (at < end && *at != '\t') at++;
        *at++ = 0;
    }
    *end = 0;
    const char *input = end < copy + size ? end + 1 : end;
    size_t length = (size_t)(copy + size - input);

    int status = call(words, count, input, length, &first);
    compare_with_program(words, count, input, length, status, &first);
    if (status != status_of(&first)) fail("the status isn't that of the report");
    int which = 0;
    while (which < COMMANDS - 1 && (count < 2 || strcmp(words[1], commands[which]))) which++;
    answers[which][status]++;
    if (status) return 0;
    const char *option = count == 4 && which < 2 ? words[2] : NULL;
    int more = 0;
    if (which == 0) more = of_script(option);
    if (which == 1) more = of_check(option);
    if (which == 2) more = of_satisfy(count, words, input, length);
    if (which == 7) more = of_decode(words[2]);
    tried[which][0] += (unsigned long)more;
    return 0;
}
