/* What the harnesses share: a question, put to the library's call in this process, and once more to the program, whose `main` is linked as
 * `program_main` where it is there. The program's standard input, output and error are those of the question; a read of another file, anything
 * that is written to standard error, or another answer than the library's stops the harness. The one that includes this file defines ANSWER,
 * the library's call.
 */
#include "../../include/msat.h"
#include <stdio.h>
#include <stdlib.h>
#include <string.h>
#include <unistd.h>

enum { MOST_WORDS = 300, STATUSES = 16 };

extern int program_main(int count, char **words) __attribute__((weak));
extern ssize_t __real_read(int file, void *to, size_t count);
extern ssize_t __real_write(int file, const void *from, size_t count);

struct bytes {
    char *at;
    size_t length, room;
};

static int is_running;
static char **words_now;
static size_t word_count;
static const char *source;
static size_t source_left;
static struct bytes *report;

static void fail(const char *why) {
    is_running = 0;
    fprintf(stderr, "harness: %s\n", why);
    abort();
}

static void make_room(struct bytes *it, size_t room) {
    if (room <= it->room) return;
    it->room = 2 * room;
    it->at = realloc(it->at, it->room);
    if (!it->at) fail("no memory");
}

static void add(struct bytes *to, const void *from, size_t count) {
    make_room(to, to->length + count);
    if (count) memcpy(to->at + to->length, from, count);
    to->length += count;
}

/* The kit's own functions for the words keep those of the process. */
size_t rattle_arg_count(void) { return word_count; }

ssize_t rattle_arg(size_t number, char *to, size_t room) {
    if (number >= word_count) return -1;
    size_t length = strlen(words_now[number]);
    if (length > room) return -2;
    memcpy(to, words_now[number], length);
    return (ssize_t)length;
}

ssize_t __wrap_read(int file, void *to, size_t count) {
    if (!is_running) return __real_read(file, to, count);
    if (file != 0) fail("another file is read");
    size_t taken = count < source_left ? count : source_left;
    memcpy(to, source, taken);
    source += taken;
    source_left -= taken;
    return (ssize_t)taken;
}

ssize_t __wrap_write(int file, const void *from, size_t count) {
    if (!is_running) return __real_write(file, from, count);
    if (file != 1) fail("something is written to standard error");
    add(report, from, count);
    return (ssize_t)count;
}

/* The code of the library's call, and its whole report with a NUL behind it. The words have the program's name before them. */
static int call(char **words, int count, const char *input, size_t length, struct bytes *to) {
    static struct bytes joined;
    static const size_t untold = (size_t)-1;
    joined.length = 0;
    make_room(&joined, 1);
    for (int i = 1; i < count; i++) add(&joined, words[i], strlen(words[i]) + 1);
    make_room(to, 4096);
    for (;;) {
        size_t needed = untold, room = to->room - 1;
        to->at[room] = '#';
        int code = (int)ANSWER((size_t)count - 1, joined.at, joined.length, input, length, to->at, room, &needed);
        if (code < 0 || code >= STATUSES) fail("a code that no call has");
        if (to->at[room] != '#') fail("a byte behind the room for the report is written");
        if ((needed == untold) != (code == MSAT_NO_MEMORY || code == MSAT_UNREADABLE)) fail("a length is told, or none, against the code");
        to->length = needed == untold ? 0 : needed;
        if (to->length <= room) {
            to->at[to->length] = 0;
            return code;
        }
        make_room(to, to->length + 1);
    }
}

/* The same of a program, which has to have this answer. */
static void compare_with_program(char **words, int count, const char *input, size_t length, int code, const struct bytes *of_library) {
    static struct bytes written;
    if (!program_main) return;
    words_now = words;
    word_count = (size_t)count;
    source = input;
    source_left = length;
    report = &written;
    written.length = 0;
    is_running = 1;
    int status = program_main(count, words);
    is_running = 0;
    if (status != code) fail("the program has another status than the library's code");
    if (written.length != of_library->length || memcmp(written.at, of_library->at, written.length)) fail("the program writes another report");
}

static int begins(const char *text, const char *with) { return !strncmp(text, with, strlen(with)); }

/* The rest of the line of a report that begins with a name, ended by NUL, or nothing. */
static char *line(const struct bytes *it, const char *name, struct bytes *to) {
    size_t length = strlen(name);
    for (const char *at = it->at; at && *at; at = strchr(at, '\n'), at = at ? at + 1 : at) {
        if (strncmp(at, name, length) || at[length] != ' ') continue;
        const char *end = strchr(at, '\n');
        if (!end) fail("a line has no end");
        to->length = 0;
        add(to, at + length + 1, (size_t)(end - at) - length - 1);
        add(to, "", 1);
        return to->at;
    }
    return NULL;
}
