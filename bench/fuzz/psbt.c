/* Puts one input of libFuzzer to msat_psbt_answer and to the program msat-psbt, in this process. The input is a letter for the command, a capital
 * one where `--unverified` stands behind it, and the bytes of standard input, a PSBT as bytes or as base64, or for `combine` lines of base64.
 *
 * It stops, as a crash, where
 * - the program has another answer than msat_psbt_answer, or writes anything to standard error, or reads another file;
 * - a byte behind the room for the report is written;
 * - the status isn't the one that the report has, or is 5, 6, 7 or 11: no read, write or allocation fails here;
 * - one command refuses the PSBT, and another one doesn't, or at another place;
 * - `finalize` writes a PSBT that is refused, has another transaction, has an input that is Ready, or changes when it is finalized again; or
 *   another one than it was given, where no input is Ready;
 * - the statuses of `finalize`, `inspect`, `extract` and `verify`, or what `verify` says is open, don't fit what `inspect` says of the states;
 * - an input has another state without the option than with it, and isn't Unsatisfied without it and Ready with it;
 * - what `finalize` has made final without the option isn't valid by `verify`;
 * - `extract` of a PSBT that `finalize` has made final gives no transaction;
 * - `combine` of a PSBT with itself gives another one, or of what it wrote with what that was of.
 * libFuzzer itself stops where a call takes over a second, or crashes. The file that FUZZ_COUNTS names has in the end a line for each
 * command and status: how many inputs had it, and how many of these were tried by further calls.
 */
#define ANSWER msat_psbt_answer
#include "run.h"
#include <stdint.h>

static char program[] = "msat-psbt";
static char option[] = "--unverified";
static const char *const commands[] = {"finalize", "inspect", "extract", "hashes", "verify", "combine", "others"};
enum { FINALIZE, INSPECT, EXTRACT, HASHES, VERIFY, COMBINE, OTHERS, COMMANDS };
/* Whether the option stands behind the commands that have it. */
static int is_unverified;
static unsigned long answers[COMMANDS][STATUSES], tried[COMMANDS][STATUSES];
static struct bytes first, inspected, again, psbt, id, other_id, lines, verified, unverified;

static int ask(int which, const struct bytes *of, struct bytes *to) {
    int has_option = is_unverified && (which == FINALIZE || which == INSPECT || which == HASHES);
    char *words[] = {program, (char *)commands[which], has_option ? option : NULL, NULL};
    return call(words, 2 + has_option, of->at, of->length, to);
}

static int is_same(const struct bytes *x, const struct bytes *y) {
    return x->length == y->length && (!x->length || !memcmp(x->at, y->at, x->length));
}

/* How many inputs of an inspection have a state that begins so. */
static int inputs_in(const struct bytes *report, const char *state) {
    int found = 0;
    for (const char *at = report->at; at && *at; at = strchr(at, '\n'), at = at ? at + 1 : at) {
        int end = 0;
        if (sscanf(at, "input %*u %n", &end) == 0 && end > 0 && begins(at + end, state)) found++;
    }
    return found;
}

/* The status that a report of this command has, where it says it: that of a PSBT that was written is told by its states. */
static void expect(int which, int status, const struct bytes *report) {
    if (begins(report->at, "refused psbt ") || (which == COMBINE && begins(report->at, "refused line "))) {
        if (status != 3) fail("a refusal has another status");
    } else if (which == OTHERS) {
        if (status != 1 || strcmp(report->at, "refused usage\n")) fail("words without a form are answered");
    } else if (which == EXTRACT && begins(report->at, "not final ")) {
        if (status != 4) fail("no transaction, and another status");
    } else if ((which == HASHES || which == EXTRACT || which == COMBINE) ? status != 0 : status != 0 && status != 4) {
        fail("a status that the command hasn't");
    }
}

static void finalized(int settled, int ready) {
    if (settled != (inputs_in(&inspected, "") == inputs_in(&inspected, "Final") + ready)) fail("the status isn't that of the states");
    if (ask(FINALIZE, &first, &again) != (settled ? 0 : 4) || !is_same(&first, &again)) fail("finalizing again changes something");
    if (!ready && psbt.length >= 5 && !memcmp(psbt.at, "psbt\xff", 5) && !is_same(&first, &psbt)) fail("no input is Ready, and something changes");
    line(&inspected, "psbt", &id);
    int all = inputs_in(&inspected, ""), final = inputs_in(&inspected, "Final");
    if (ask(INSPECT, &first, &again) != (settled ? 0 : 4)) fail("what was written is inspected with another status");
    if (!line(&again, "psbt", &other_id) || strcmp(id.at, other_id.at)) fail("what was written has another transaction");
    if (inputs_in(&again, "Ready") || inputs_in(&again, "") != all || inputs_in(&again, "Final") != final + ready) fail("what was written has other states");
    if (ask(EXTRACT, &first, &again) != (settled && all ? 0 : 4)) fail("what was made final isn't extracted, or what isn't is");
    if (!is_unverified && !final && (ask(VERIFY, &first, &again), inputs_in(&again, "valid") != ready)) fail("what was made final isn't valid");
}

/* Adds a PSBT as a line of base64 (RFC 4648): its bytes, or the letters that it came as. */
static void add_line(const struct bytes *it, struct bytes *to) {
    static const char letters[] = "ABCDEFGHIJKLMNOPQRSTUVWXYZabcdefghijklmnopqrstuvwxyz0123456789+/";
    const unsigned char *from = (const unsigned char *)it->at;
    if (it->length < 5 || memcmp(from, "psbt\xff", 5)) {
        for (size_t i = 0; i < it->length; i++)
            if (!strchr(" \t\r\n", from[i])) add(to, from + i, 1);
    } else {
        for (size_t i = 0; i < it->length; i += 3) {
            size_t left = it->length - i;
            unsigned long three = (unsigned long)from[i] << 16 | (left > 1 ? from[i + 1] << 8 : 0) | (left > 2 ? from[i + 2] : 0);
            char four[4] = {letters[three >> 18], letters[three >> 12 & 63], left > 1 ? letters[three >> 6 & 63] : '=', left > 2 ? letters[three & 63] : '='};
            add(to, four, 4);
        }
    }
    add(to, "\n", 1);
}

/* What was combined changes by none of its parts, nor by itself. */
static void combined(void) {
    lines.length = 0;
    add(&lines, first.at, first.length);
    add(&lines, psbt.at, psbt.length);
    if (ask(COMBINE, &first, &again) != 0 || !is_same(&first, &again)) fail("what was combined, combined alone, is another one");
    if (ask(COMBINE, &lines, &again) != 0 || !is_same(&first, &again)) fail("what was combined, combined with its parts again, is another one");
    tried[COMBINE][0]++;
}

/* Each input has the same state in both forms, or is Ready with the option and Unsatisfied without it. */
static void compare_forms(void) {
    int was = is_unverified;
    is_unverified = 0;
    ask(INSPECT, &psbt, &verified);
    is_unverified = 1;
    ask(INSPECT, &psbt, &unverified);
    is_unverified = was;
    const char *one = verified.at, *other = unverified.at;
    while ((one = strstr(one, "\ninput ")) && (other = strstr(other, "\ninput "))) {
        char state[2][64] = {"", ""};
        sscanf(++one, "input %*u %63[^\n]", state[0]);
        sscanf(++other, "input %*u %63[^\n]", state[1]);
        if (strcmp(state[0], state[1]) && (strcmp(state[0], "Unsatisfied") || strcmp(state[1], "Ready"))) fail("the forms have other states");
    }
}

static void try_all(int which, int status) {
    int by_inspect = ask(INSPECT, &psbt, &inspected);
    if ((by_inspect == 3) != (status == 3)) fail("one command refuses the PSBT, and another one doesn't");
    if (status == 3) {
        if (!is_same(&first, &inspected)) fail("the PSBT is refused for another reason");
        return;
    }
    compare_forms();
    int ready = inputs_in(&inspected, "Ready"), final = inputs_in(&inspected, "Final"), all = inputs_in(&inspected, "");
    if ((by_inspect == 0) != (ready + final == all)) fail("an inspection has another status than its states");
    lines.length = 0;
    add_line(&psbt, &lines);
    size_t one = lines.length;
    add_line(&psbt, &lines);
    if (ask(COMBINE, &lines, &again) != 0 || again.length != one || memcmp(again.at, lines.at, one)) fail("combined with itself it is another one");
    if (which == FINALIZE) finalized(status == 0, ready);
    if (which == EXTRACT && (status == 0) != (all && final == all)) fail("a transaction, or none, against the states");
    if (which == HASHES && (inputs_in(&first, "") != all || inputs_in(&first, "Ready") != ready)) fail("the hashes have other states");
    if (which == VERIFY && (inputs_in(&first, "") != all || inputs_in(&first, "open ") != all - final)) fail("verify has other states");
    if (which == VERIFY && (status == 0) != (inputs_in(&first, "valid") == all)) fail("verify has another status than its verdicts");
    tried[which][status]++;
}

static void write_counts(void) {
    const char *path = getenv("FUZZ_COUNTS");
    FILE *to = path ? fopen(path, "w") : NULL;
    if (!to) return;
    for (int i = 0; i < COMMANDS; i++)
        for (int status = 0; status < STATUSES; status++)
            if (answers[i][status]) fprintf(to, "%s\t%d\t%lu\t%lu\n", commands[i], status, answers[i][status], tried[i][status]);
    fclose(to);
}

int LLVMFuzzerTestOneInput(const uint8_t *data, size_t size) {
    static int is_first = 1;
    if (is_first) is_first = 0, atexit(write_counts);
    const char *letters = "fiehvcFIEHVC";
    const char *letter = size && data[0] ? strchr(letters, data[0]) : NULL;
    int which = letter ? (int)(letter - letters) % OTHERS : OTHERS;
    is_unverified = letter && letter - letters >= OTHERS;
    psbt.length = 0;
    if (size) add(&psbt, data + 1, size - 1);
    else add(&psbt, "", 0);
    int status = ask(which, &psbt, &first);
    int has_option = is_unverified && (which == FINALIZE || which == INSPECT || which == HASHES);
    char *words[] = {program, (char *)commands[which], has_option ? option : NULL, NULL};
    compare_with_program(words, 2 + has_option, psbt.at, psbt.length, status, &first);
    expect(which, status, &first);
    answers[which][status]++;
    if (which == COMBINE && status == 0) combined();
    if (which < COMBINE) try_all(which, status);
    return 0;
}
