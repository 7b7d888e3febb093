/* Measures what a call takes at most, of the stack and of the heap, over texts and files that ask for the most: long ones, deep ones,
 * and files of as many small values as they may have; over PSBTs; and over descriptors. Prints both, of the heap for each PSBT apart, and
 * ends with 1 where one is over what the header tells.
 * Usage: heap MOST-STACK MOST-HEAP [MOST-HEAP-OF-THIS PSBT]..    in bytes, and files of PSBTs
 * Built with -Wl,--wrap=malloc,--wrap=realloc,--wrap=free, and over the archive. */
#include <malloc.h>
#include <msat.h>
#include <pthread.h>
#include <stdio.h>
#include <stdlib.h>
#include <string.h>
#include <sys/mman.h>

enum { STACK = 1 << 20, ROOM = 1 << 21, PSBT_ROOM = 1 << 26, MOST_OF_DESCRIPTOR = 8 << 20 };

static size_t held, most;
void *__real_malloc(size_t size);
void *__real_realloc(void *at, size_t size);
void __real_free(void *at);

static void count(size_t before, void *at) {
    held += at ? malloc_usable_size(at) : 0;
    held -= before;
    most = held > most ? held : most;
}

void *__wrap_malloc(size_t size) {
    void *at = __real_malloc(size);
    count(0, at);
    return at;
}

void *__wrap_realloc(void *old, size_t size) {
    size_t before = old ? malloc_usable_size(old) : 0;
    void *at = __real_realloc(old, size);
    count(at ? before : 0, at);
    return at;
}

void __wrap_free(void *at) {
    held -= at ? malloc_usable_size(at) : 0;
    __real_free(at);
}

static char text[ROOM], file[ROOM], report[ROOM], words[ROOM];
static uint8_t bytes[ROOM];
static size_t lengths[20000];

/* Writes `times` pieces behind what stands there. */
static char *repeat(char *at, const char *piece, size_t times) {
    for (; times > 0; times--)
        at = stpcpy(at, piece);
    return at;
}

static void answer(const char *command, const char *option) {
    char *at = stpcpy(words, command) + 1;
    size_t count = 2, needed = 0;
    if (option)
        at = stpcpy(at, option) + 1, count++;
    at = stpcpy(at, text) + 1;
    msat_answer(count, words, (size_t)(at - words), file, strlen(file), report, sizeof report, &needed);
}

/* Each call with the text and the file. */
static void ask_all(void) {
    static const char *const commands[] = {"script", "check", "satisfy", "policy", "plan", "audit", "decode"};
    for (size_t i = 0; i < sizeof commands / sizeof commands[0]; i++)
        answer(commands[i], NULL);
    answer("satisfy", "--malleable");
    answer("satisfy", "--consensus");
    size_t needed = 0, count = 0, length = strlen(text);
    uint64_t weight = 0;
    struct msat_facts facts = {0};
    struct msat_reason reason = {0};
    for (int consensus = 0; consensus < 2; consensus++) {
        if (msat_script(consensus, text, length, bytes, sizeof bytes, &needed, &reason) == MSAT_DONE) {
            size_t size = needed, told = 0;
            char *at = stpcpy(words, "decode") + 1;
            for (size_t i = 0; i < size; i++)
                at += sprintf(at, "%02x", bytes[i]);
            msat_answer(2, words, (size_t)(at + 1 - words), NULL, 0, report, sizeof report, &told);
        }
        msat_check(consensus, text, length, &facts, &reason);
        msat_policy(text, length, report, sizeof report, &needed, &weight, &reason);
        msat_least_weight(consensus, text, length, file, strlen(file), &weight, &reason);
        for (int malleable = 0; malleable < 2; malleable++)
            msat_witness(malleable, consensus, text, length, file, strlen(file), bytes, sizeof bytes, &needed, lengths, 20000, &count, &reason);
    }
    size_t told = 0;
    msat_answer(1, "run", 4, file, strlen(file), report, sizeof report, &told);
}

/* What may be held at most, in arrays, and a stack of as many items, each of as many bytes, as a run takes. */
enum { HELD = 256, KEY_SIZE = 33, SIGNATURE = 73, PREIMAGE = 32, ITEMS = 2000, ITEM = 520 };
static uint8_t keys[HELD * KEY_SIZE], signatures[HELD * SIGNATURE], preimages[HELD * PREIMAGE], items[ITEMS * ITEM], script[ROOM], asked[sizeof keys];
static size_t signature_lengths[HELD], item_lengths[ITEMS];
static struct msat_step steps[ROOM / sizeof(struct msat_step)];

static void fill_arrays(void) {
    for (int i = 0; i < HELD; i++) {
        keys[i * KEY_SIZE] = 2, keys[i * KEY_SIZE + KEY_SIZE - 1] = (uint8_t)i;
        memset(signatures + i * SIGNATURE, 0xaa, SIGNATURE), signature_lengths[i] = SIGNATURE;
        preimages[i * PREIMAGE + PREIMAGE - 1] = (uint8_t)i;
    }
    for (int i = 0; i < ITEMS; i++)
        item_lengths[i] = ITEM;
}

/* A run of a script on these items, and the audit of it for the text. */
static void run_and_audit(size_t script_len, const uint8_t *given, const size_t *given_lengths, size_t given_count) {
    struct msat_outcome outcome = {0};
    struct msat_reason reason = {0};
    size_t needed = 0, count = 0, given_len = 0;
    bool canonical = false;
    for (size_t i = 0; i < given_count; i++)
        given_len += given_lengths[i];
    msat_run(2, 0xfffffffe, 0, script, script_len, given, given_len, given_lengths, given_count, keys, sizeof keys, signatures, sizeof signatures,
             signature_lengths, HELD, (uint8_t *)report, sizeof report, &needed, lengths, 20000, &count, &outcome, &reason);
    msat_audit(text, strlen(text), 2, 0xfffffffe, 0, script, script_len, given, given_len, given_lengths, given_count, keys, sizeof keys,
               signatures, sizeof signatures, signature_lengths, HELD, steps, sizeof steps / sizeof steps[0], &count, &canonical, &outcome,
               &reason);
}

/* Each call with the text and the arrays. */
static void ask_arrays(void) {
    size_t needed = 0, count = 0, script_len = 0, length = strlen(text);
    uint64_t weight = 0;
    struct msat_reason reason = {0};
    msat_plan(text, length, 2, 0xfffffffe, 0, keys, sizeof keys, signature_lengths, HELD, preimages, sizeof preimages, asked, sizeof asked,
              &needed, &weight, &reason);
    for (int consensus = 0; consensus < 2; consensus++)
        for (int malleable = 0; malleable < 2; malleable++) {
            if (msat_script(consensus, text, length, script, sizeof script, &script_len, &reason) != MSAT_DONE)
                continue;
            if (msat_satisfy(malleable, consensus, text, length, 2, 0xfffffffe, 0, keys, sizeof keys, signatures, sizeof signatures,
                             signature_lengths, HELD, preimages, sizeof preimages, bytes, sizeof bytes, &needed, lengths, 20000, &count,
                             &reason) == MSAT_DONE) {
                size_t given_lengths[128], given_count = count - 1;
                if (given_count <= 128) {
                    memcpy(given_lengths, lengths, given_count * sizeof *lengths);
                    run_and_audit(script_len, bytes, given_lengths, given_count);
                }
            }
            run_and_audit(script_len, items, item_lengths, ITEMS);
        }
    size_t told = 0;
    msat_decode(script, script_len, keys, sizeof keys, report, sizeof report, &told);
}

static const char KEY[] = "020101010101010101010101010101010101010101010101010101010101010101";

static void write_file(int which) {
    char *at = file;
    *at = 0;
    switch (which) {
    case 0: at = stpcpy(at, "{}"); break;
    case 1: /* as many values as there is room for */
        at = stpcpy(at, "{\"a\":[0");
        at = repeat(at, ",0", (1048576 - 10) / 2);
        stpcpy(at, "]}");
        break;
    case 2: /* as many empty lists */
        at = stpcpy(at, "{\"a\":[[]");
        at = repeat(at, ",[]", (1048576 - 12) / 3);
        stpcpy(at, "]}");
        break;
    case 3: /* as many members */
        at = stpcpy(at, "{\"\":0");
        for (int i = 0; at - file < 1048500; i++)
            at += sprintf(at, ",\"%x\":0", i);
        stpcpy(at, "}");
        break;
    case 4: /* as deep as may be */
        at = repeat(at, "[", 127);
        at = repeat(at, "]", 127);
        break;
    case 5: /* many members in small objects */
        at = stpcpy(at, "{\"a\":[0");
        at = repeat(at, ",{\"\":0}", (1048576 - 10) / 7);
        stpcpy(at, "]}");
        break;
    case 6: /* the most of what may be held */
        at = stpcpy(at, "{\"format\":2,\"signatures\":[");
        for (int i = 0; i < 256; i++) {
            at += sprintf(at, "%s{\"key\":\"02%064x\",\"sig\":\"", i ? "," : "", i);
            at = repeat(at, "aa", 73);
            at = stpcpy(at, "\"}");
        }
        at = stpcpy(at, "],\"preimages\":[");
        for (int i = 0; i < 256; i++)
            at += sprintf(at, "%s\"%064x\"", i ? "," : "", i);
        stpcpy(at, "]}");
        break;
    }
}

static void write_text(int which) {
    char *at = text;
    *at = 0;
    switch (which) {
    case 0: stpcpy(at, "1"); break;
    case 1: /* the longest */
        memset(at, '0', 65536), at[65536] = 0;
        break;
    case 2: /* the deepest runs of letters */
        at = repeat(at, "n", 250);
        stpcpy(stpcpy(stpcpy(at, ":pk("), KEY), ")");
        break;
    case 3: /* the deepest fragments, satisfied and not */
        at = repeat(at, "or_i(0,", 100);
        at = stpcpy(stpcpy(stpcpy(at, "pk("), KEY), ")");
        repeat(at, ")", 100);
        break;
    case 4:
        at = repeat(at, "and_v(v:1,", 120);
        at = stpcpy(stpcpy(stpcpy(at, "pk("), KEY), ")");
        repeat(at, ")", 120);
        break;
    case 5:
        at = repeat(at, "andor(0,1,", 254);
        at = stpcpy(at, "1");
        repeat(at, ")", 254);
        break;
    case 6: /* as many keys as the limits allow */
        at = stpcpy(at, "thresh(1,pk(");
        at += sprintf(at, "02%064x)", 1);
        for (int i = 2; i < 90; i++)
            at += sprintf(at, ",s:pk(02%064x)", i);
        stpcpy(at, ")");
        break;
    case 7: /* by consensus more */
        at = stpcpy(at, "thresh(50,pkh(");
        at += sprintf(at, "02%064x)", 1);
        for (int i = 2; i < 60; i++)
            at += sprintf(at, ",a:pkh(02%064x)", i);
        stpcpy(at, ")");
        break;
    case 8: /* many nodes */
        at = stpcpy(at, "or_i(");
        at = repeat(at, "or_i(0,", 252);
        at = stpcpy(at, "0");
        at = repeat(at, ")", 252);
        stpcpy(at, ",1)");
        break;
    case 9: /* a wide threshold of what weighs nothing */
        at = stpcpy(at, "thresh(1,0");
        at = repeat(at, ",a:0", 16000);
        stpcpy(at, ")");
        break;
    case 10: /* sane ones of many keys */
        at = stpcpy(at, "thresh(40,pk(");
        at += sprintf(at, "02%064x)", 1);
        for (int i = 2; i < 61; i++)
            at += sprintf(at, ",s:pk(02%064x)", i);
        stpcpy(at, ")");
        break;
    case 11:
        at = stpcpy(at, "multi(10");
        for (int i = 1; i < 21; i++)
            at += sprintf(at, ",02%064x", i);
        stpcpy(at, ")");
        break;
    }
}

/* Each command with a PSBT. */
static void ask_psbt(const char *name) {
    static const struct {
        const char *words;
        size_t count, length;
    } commands[] = {{"finalize", 1, 9}, {"inspect", 1, 8}, {"extract", 1, 8}, {"hashes", 1, 7}, {"verify", 1, 7}, {"combine", 1, 8},
                    {"finalize\0--unverified", 2, 22}, {"inspect\0--unverified", 2, 21}, {"hashes\0--unverified", 2, 20}};
    static char source[(1 << 24) + 1], answer[PSBT_ROOM];
    FILE *given = fopen(name, "rb");
    if (!given)
        exit(2);
    size_t length = fread(source, 1, sizeof source, given);
    fclose(given);
    for (size_t i = 0; i < sizeof commands / sizeof commands[0]; i++) {
        size_t needed = 0;
        uint32_t code = msat_psbt_answer(commands[i].count, commands[i].words, commands[i].length, source, length, answer, sizeof answer, &needed);
        if (code == MSAT_NO_MEMORY)
            exit(2);
        if (getenv("HEAP_SHOWS"))
            printf("heap: %s%s %s of %zu bytes answers %u\n", commands[i].words, commands[i].count == 2 ? " --unverified" : "", name, length, code);
    }
}

/* Descriptors that take the most: of 65,536 bytes with one key and with as many as fit, of a long path, of 16 branches, deep, and refused at their
 * ends; each is checked, and derived from at several indices of branch 0. */
static char *put_keys(char *at, const char *key, int count) {
    for (int i = 0; i < count; i++)
        at += sprintf(at, ",%s/%d/*", key, i);
    return at;
}

static void write_descriptor(int which, char *at) {
    static const char key[] = "xpub661MyMwAqRbcFW31YEwpkMuc5THy2PSt5bDMsktWQcFF8syAmRUapSCGu8ED9W6oDMSgv6Zz8idoc4a6mr8BDzTJY47LJhkJ8UB7WEGuduB";
    switch (which) {
    case 0: at = stpcpy(put_keys(stpcpy(at, "wsh(multi(1"), key, 20), "))"); break;
    case 1: at = stpcpy(put_keys(stpcpy(at, "sh(wsh(sortedmulti(1"), key, 15), ")))"); break;
    case 2:
        at += sprintf(at, "wpkh(%s", key);
        at = stpcpy(repeat(at, "/2147483647", 254), "/*)");
        break;
    case 3: sprintf(at, "wpkh(%s/<0;1;2;3;4;5;6;7;8;9;10;11;12;13;14;15>/*)", key); break;
    case 4:
        at = repeat(stpcpy(at, "wsh("), "or_i(0,", 250);
        at += sprintf(at, "pk(%s/*)", key);
        repeat(at, ")", 251);
        break;
    case 5:
        at = stpcpy(at, "wsh(thresh(1,0");
        at = repeat(at, ",a:0", 16000);
        stpcpy(at, "))");
        break;
    case 6: put_keys(stpcpy(at, "wsh(multi(1"), key, 550); break;
    case 7:
        at += sprintf(at, "wsh(thresh(1,pk(%s/*)", key);
        for (int i = 0; i < 95; i++)
            at += sprintf(at, ",s:pk(%s/%d/*)", key, i);
        stpcpy(at, "))");
        break;
    }
}

static void *ask_descriptors(void *given) {
    static char answer[PSBT_ROOM];
    (void)given;
    for (int which = 0; which < 8; which++)
        for (int derives = 0; derives < 2; derives++) {
            char *at = stpcpy(words, derives ? "derive" : "check") + 1;
            write_descriptor(which, at);
            at += strlen(at) + 1;
            if (derives)
                at = stpcpy(at, "0") + 1, at = stpcpy(at, "9") + 1;
            size_t needed = 0;
            uint32_t code = msat_descriptor_answer(derives ? 4 : 2, words, (size_t)(at - words), NULL, 0, answer, sizeof answer, &needed);
            if (code == MSAT_NO_MEMORY)
                exit(2);
            if (getenv("HEAP_SHOWS"))
                printf("heap: descriptor %d, %s, answers %u with %zu bytes\n", which, words, code, needed);
        }
    return NULL;
}

static bool is_over;

/* Each PSBT, behind the most of the heap that it may take. */
static void *ask_psbts(void *given) {
    for (char **word = given; *word; word += 2) {
        size_t before = most = held;
        ask_psbt(word[1]);
        printf("heap: with %s at most %zu bytes of heap\n", word[1], most - before);
        is_over = is_over || most - before > strtoull(word[0], NULL, 10);
    }
    return NULL;
}

static void *ask(void *given) {
    (void)given;
    for (int i = 0; i < 12; i++)
        for (int j = 0; j < 7; j++) {
            write_text(i), write_file(j);
            ask_all();
            if (j == 0)
                ask_arrays();
        }
    return NULL;
}

/* How much of a stack was touched by a thread that does this, from its lower end. */
static size_t stack_of(void *(*work)(void *), void *given) {
    static uint8_t *stack;
    if (!stack)
        stack = mmap(NULL, STACK, PROT_READ | PROT_WRITE, MAP_PRIVATE | MAP_ANONYMOUS | MAP_STACK, -1, 0);
    if (stack == MAP_FAILED)
        exit(2);
    memset(stack, 0xa5, STACK);
    pthread_attr_t attributes;
    pthread_t thread;
    pthread_attr_init(&attributes);
    if (pthread_attr_setstack(&attributes, stack, STACK) != 0 || pthread_create(&thread, &attributes, work, given) != 0)
        exit(2);
    pthread_join(thread, NULL);
    size_t untouched = 0;
    while (untouched < STACK && stack[untouched] == 0xa5)
        untouched++;
    return STACK - untouched;
}

int main(int argc, char **argv) {
    if (argc < 3 || argc % 2 == 0)
        return 2;
    fill_arrays();
    size_t stack = stack_of(ask, NULL), heap = most;
    printf("heap: a call takes at most %zu bytes of stack and %zu of heap\n", stack, heap);
    size_t psbt_stack = stack_of(ask_psbts, argv + 3);
    printf("heap: with a PSBT at most %zu bytes of stack\n", psbt_stack);
    size_t before = most = held, descriptor_stack = stack_of(ask_descriptors, NULL), descriptor_heap = most - before;
    printf("heap: with a descriptor at most %zu bytes of stack and %zu of heap\n", descriptor_stack, descriptor_heap);
    size_t most_stack = strtoull(argv[1], NULL, 10);
    return is_over || stack > most_stack || psbt_stack > most_stack || descriptor_stack > most_stack || descriptor_heap > MOST_OF_DESCRIPTOR || heap > strtoull(argv[2], NULL, 10);
}
