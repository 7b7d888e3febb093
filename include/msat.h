/* msat: a Miniscript satisfier for P2WSH outputs, as a library.
 * SPDX-License-Identifier: MIT
 *
 * Each function is proved to give what msat's definitions say of its arguments, as long as C keeps to what this file demands
 * of it. Nothing checks that; with MSAT_ASSERT defined before this file is read, each call
 * asserts what can be seen from here, unless NDEBUG is.
 * It is C11, and C++11 or newer. The library is for 64-bit Linux, x86-64-v2 (SSE4.2 and POPCNT, as processors have since 2009).
 *
 * What C owes in every call:
 *   - A pointer and the length after it name that many bytes, or that many numbers, all of them readable, and writable where the
 *     pointer isn't const. NULL may stand with the length 0, and nowhere else.
 *   - A single value that is lent, as `size_t *` or `struct msat_reason *`, is never NULL.
 *   - All that is lent was written before the call, also what the call may write over: buffers, numbers, and structures whole, as
 *     by `= {0}` or memset. A bool is 0 or 1, also in a structure that the call may write over.
 *   - Numbers are aligned as their type.
 *   - What one call writes overlaps nothing else that the call is given, and no other thread touches it meanwhile. What a call
 *     only reads may be read by others at the same time.
 *   - malloc, realloc and free come from one allocator, and align blocks as the C standard says.
 *   - No call is made from a signal handler, nor in the child of a fork of a process that has several threads, before exec.
 *   - The stack of calls has 512 KiB left; a thread has 8 MiB by glibc, 2 MiB by Rust and 1 MiB by a JVM, where nothing else is told.
 *     At most 187 KiB were measured, over the longest and the deepest texts and files, and the tests fail above 256 KiB.
 *
 * No state is kept between calls, so threads may call at once. Nothing is printed, no file is opened, and nothing that is
 * allocated is left. Bytes behind those that a call writes stay as they were, and so does what an answer doesn't speak of.
 * Most memory is taken for files: one of 1,048,576 bytes, the longest that is read, takes up to 133 MiB of heap where it is full of small
 * values; longer ones are refused at once. A line of questions takes as much, and all their answers are held besides. Texts, arrays and a
 * file with all that may be held take up to 6 MiB. Of the PSBTs of 16,777,216 bytes whose heap was measured, one of many inputs whose
 * scripts want 99 keys each took the most: 232 MiB, by `inspect`. Of the stack those of the tests took at most 158 KiB. Of the descriptors of the
 * tests `check` and `derive` took at most 7 MiB of heap.
 *
 * A satisfaction is canonical where BIP 379's table makes it by rows that it doesn't mark as non-canonical, with what is held:
 * its signatures, for a hash the first of its preimages that has it, for a key hash the condition's own key, and 32 zero
 * bytes where a hash is dissatisfied. That nobody can change it means exactly: every other stack that the interpreter accepts in
 * the same transaction passes the check of a signature that this one's run doesn't, be it one that is held and left out; or has a
 * preimage of a hash of the condition other than the first one held for it; or another key with the HASH160 of a `pk_h` key.
 *
 * Texts are UTF-8 and need no NUL behind them. Within 1.x no function, constant or structure named here changes its meaning, its
 * number or its layout; new ones may come, and later kinds and codes with them.
 */
#ifndef MSAT_H
#define MSAT_H

#include <stdbool.h>
#include <stddef.h>
#include <stdint.h>

/* The version of this file. */
#define MSAT_VERSION_MAJOR 1
#define MSAT_VERSION_MINOR 0
#define MSAT_VERSION_PATCH 0
/* As one number, as msat_version tells that of the library that is loaded. */
#define MSAT_VERSION_NUMBER (MSAT_VERSION_MAJOR * 1000000 + MSAT_VERSION_MINOR * 1000 + MSAT_VERSION_PATCH)

#ifdef __cplusplus
extern "C" {
#endif

/* The version of the library that is loaded: 1000000 for 1.0.0, and 1002003 for 1.2.3. */
uint32_t msat_version(void);

/* The codes that calls answer. All but the last are exit statuses of the program msat. */
enum {
    MSAT_DONE = 0,            /* what was asked for was given */
    MSAT_USAGE = 1,           /* the words are those of no command */
    MSAT_TEXT_REFUSED = 2,    /* the text is refused, and why is told */
    MSAT_FILE_REFUSED = 3,    /* the asset file, plan file or run file is refused, and why is told */
    MSAT_NO_SATISFACTION = 4, /* there is no canonical satisfaction, or no plan */
    MSAT_NO_MEMORY = 7,       /* memory was wanting: nothing was written */
    MSAT_SCRIPT_REFUSED = 8,  /* the interpreter refused the script of a run file */
    MSAT_NOT_ACCEPTED = 9,    /* the stack of a run file doesn't satisfy the text, or its script isn't the text's */
    MSAT_NO_READING = 10,     /* no miniscript that is valid by policy, with the keys named, has the Script to be decoded */
    MSAT_UNREADABLE = 11,     /* the words aren't so many, or a word or a text isn't UTF-8: nothing was written */
    MSAT_NO_POINT = 12        /* of msat_point alone: the bytes are no key, or the key is no point of the curve */
};

/* Answers the words of a command line, as `msat` does where its standard input holds `source`: `script TEXT`, `asm TEXT`,
 * `tree TEXT`, `check TEXT`, `satisfy TEXT`, `run`, `policy TEXT`, `plan TEXT`, `audit TEXT`, `trace`, `trace TEXT`, `decode HEX KEY..`
 * and the others that docs/FORMATS.md lists.
 *
 * words    `count` words, each of UTF-8 without a NUL, with a NUL after each, and nothing behind the last NUL: for
 *          `script 1` the nine bytes "script\0" "1\0", a count of 2 and a length of 9.
 * source   the asset file, the run file or the plan file, for the commands that read one
 * report   room for the report. Its beginning is written as far as there is room.
 * needed   how many bytes the whole report has. Where that is over `report_len`, call again with so much room.
 *
 * For the one word `lines` the source is questions, one a line, and the report their answers, one a line. Its code is MSAT_DONE, whatever
 * the answers are, or MSAT_NO_MEMORY where there is none for their report; an answer that wanted memory has the status 7 in its line.
 *
 * MSAT_NO_MEMORY and MSAT_UNREADABLE leave `report` and `*needed` as they were, every other code comes with a report.
 */
uint32_t msat_answer(size_t count, const char *words, size_t words_len, const void *source, size_t source_len, char *report,
                     size_t report_len, size_t *needed);

/* Answers the words of a command line, as `msat-psbt` does where its standard input holds `source`: one word of `finalize`,
 * `inspect`, `extract`, `hashes`, `verify` and `combine`, or `--unverified` behind `finalize`, `inspect` or `hashes`; any others, and `lines` too, are MSAT_USAGE. The source is a PSBT (BIP 174, BIP 370),
 * its bytes or their base64, of at most 16,777,216 bytes, and for `combine` several, each on a line in base64; the rest is as in msat_answer, and the report of `finalize` has whatever bytes a PSBT has. MSAT_PSBT_REFUSED comes where the source is none, with why.
 * Of any other source `finalize` answers MSAT_DONE where all inputs are final then, and else MSAT_PSBT_OPEN; `inspect` MSAT_DONE where all
 * are Final or Ready, and else MSAT_PSBT_OPEN; `extract` MSAT_DONE with the transaction, and MSAT_PSBT_OPEN where an input isn't Final or
 * there are no inputs; `hashes` always MSAT_DONE. `combine` answers MSAT_DONE with one PSBT, in base64. */
enum {
    MSAT_PSBT_REFUSED = 3, /* the source is no PSBT that is read, or none is combined of it, and why is told */
    MSAT_PSBT_OPEN = 4     /* of `finalize`, `inspect` and `extract`, as above; what the first two were asked for was given all the same */
};
uint32_t msat_psbt_answer(size_t count, const char *words, size_t words_len, const void *source, size_t source_len, char *report,
                          size_t report_len, size_t *needed);

/* Answers the words of a command line, as `msat-descriptor` does where its standard input holds `source`: `check D`, or
 * `derive [--testnet or --regtest] [--branch B] D INDEX [COUNT]`, of an output descriptor D (BIPs 380, 382, 383, 389), or `update D COUNT` of D and
 * a PSBT (BIP 174, BIP 370), which is `source`, as its bytes or as base64; any others are MSAT_USAGE. `update` alone reads the source. The rest is as in
 * msat_answer. MSAT_DESCRIPTOR_REFUSED comes where D is none that is read, or where it doesn't give what is asked for, with why. Of any other D
 * `check` answers MSAT_DONE, or MSAT_DESCRIPTOR_UNFIT where its condition isn't sane at branch 0 and index 0, and says in both what D is; `derive`
 * always MSAT_DONE, with the outputs of COUNT indices from INDEX on. */
enum {
    MSAT_DESCRIPTOR_REFUSED = 2,      /* the descriptor is refused, or what it has at a branch and an index, and why is told */
    MSAT_DESCRIPTOR_PSBT_REFUSED = 3, /* of `update` alone: the source holds no PSBT, or one with a pair that bars what D says, and why is told */
    MSAT_DESCRIPTOR_UNFIT = 4,        /* of `check` alone, as above */
    MSAT_DESCRIPTOR_NO_INPUT = 4      /* of `update` alone: the PSBT was written, and no input of it is of D */
};
uint32_t msat_descriptor_answer(size_t count, const char *words, size_t words_len, const void *source, size_t source_len,
                                char *report, size_t report_len, size_t *needed);

/* Why a text, a file, or arrays in its place are refused, as plain numbers. What isn't named at its kind is 0. It is written by the
 * codes MSAT_TEXT_REFUSED and MSAT_FILE_REFUSED alone; after any other code it is as it was before the call. */
struct msat_reason {
    uint32_t kind;   /* one of the kinds below */
    uint32_t rule;   /* the requirement that is false, one of MSAT_RULE_..; of a file its member, one of MSAT_MEMBER_.. */
    uint32_t place;  /* the byte of the text, or the element of the file's list, from 0 */
    uint64_t number; /* what the size, the opcodes or the items come to */
};
enum {
    /* of a text */
    MSAT_TOO_LONG = 1,
    MSAT_SYNTAX,   /* place */
    MSAT_TOO_DEEP, /* place */
    /* of a text's tree, in the order in which they are tested */
    MSAT_RULE, /* rule, place */
    MSAT_TOP_NOT_B,
    MSAT_SIZE,      /* number */
    MSAT_OPS,       /* number */
    MSAT_ITEMS,     /* number */
    MSAT_MALLEABLE, /* rule, place */
    MSAT_NO_SIGNATURE,
    MSAT_MIXED_LOCKS,  /* place */
    MSAT_REPEATED_KEY, /* place */
    /* of an asset file, or of arrays in its place or in that of a plan file or a run file */
    MSAT_FILE_TOO_LONG,
    MSAT_NOT_JSON,
    MSAT_SHAPE,             /* rule: the member */
    MSAT_NUMBER,            /* rule: the member */
    MSAT_HEX,               /* rule: the member; place */
    MSAT_KEY_FORM,          /* place, in the signatures or the keys of a plan */
    MSAT_SIG_LENGTH,        /* place, in the signatures */
    MSAT_PREIMAGE_LENGTH,   /* place, in the preimages */
    MSAT_TOO_MANY,          /* rule: the member */
    MSAT_FILE_REPEATED_KEY, /* place, in the signatures or the keys of a plan */
    MSAT_LENGTH             /* place, in the keys of a plan */
};
/* The requirements of BIP 379's tables of types, as `rule` numbers them; docs/FORMATS.md (msat(5)) says what each asks for. */
enum {
    /* of MSAT_RULE */
    MSAT_RULE_OLDER_RANGE = 0,
    MSAT_RULE_AFTER_RANGE,
    MSAT_RULE_AND_OR_X,
    MSAT_RULE_AND_OR_YZ,
    MSAT_RULE_AND_VX,
    MSAT_RULE_AND_VY,
    MSAT_RULE_AND_BX,
    MSAT_RULE_AND_BY,
    MSAT_RULE_OR_BX,
    MSAT_RULE_OR_BZ,
    MSAT_RULE_OR_CX,
    MSAT_RULE_OR_CZ,
    MSAT_RULE_OR_DX,
    MSAT_RULE_OR_DZ,
    MSAT_RULE_OR_IXZ,
    MSAT_RULE_THRESH_RANGE,
    MSAT_RULE_THRESH_FIRST,
    MSAT_RULE_THRESH_OTHER,
    MSAT_RULE_MULTI_RANGE,
    MSAT_RULE_WRAP_A,
    MSAT_RULE_WRAP_S,
    MSAT_RULE_WRAP_C,
    MSAT_RULE_WRAP_D,
    MSAT_RULE_WRAP_V,
    MSAT_RULE_WRAP_J,
    MSAT_RULE_WRAP_N,
    /* of MSAT_MALLEABLE */
    MSAT_RULE_AND_OR_E,
    MSAT_RULE_AND_OR_S,
    MSAT_RULE_OR_BE,
    MSAT_RULE_OR_BS,
    MSAT_RULE_OR_CE,
    MSAT_RULE_OR_CS,
    MSAT_RULE_OR_DE,
    MSAT_RULE_OR_DS,
    MSAT_RULE_OR_IS,
    MSAT_RULE_THRESH_E,
    MSAT_RULE_THRESH_S
};
/* The members of files, as `rule` numbers them: the whole file is 0. */
enum {
    MSAT_MEMBER_FILE = 0,
    MSAT_MEMBER_VERSION,
    MSAT_MEMBER_SEQUENCE,
    MSAT_MEMBER_LOCKTIME,
    MSAT_MEMBER_SIGNATURES,
    MSAT_MEMBER_PREIMAGES,
    MSAT_MEMBER_SCRIPT,
    MSAT_MEMBER_WITNESS,
    MSAT_MEMBER_FORMAT,
    MSAT_MEMBER_KEYS
};

/* What is known of a sane text. */
struct msat_facts {
    uint64_t size, ops, items, weight; /* its limits: the greatest numbers over all canonical satisfactions */
    uint64_t height;                   /* the most elements that both stacks hold together while a canonical one is run */
    uint32_t base;                     /* 0 is B, 1 is V, 2 is K, 3 is W */
    bool z, o, n, d, u, s, f, e;       /* the properties of both types */
};

/* What a run comes to: its counts where it is accepted, or its fault and place where it is refused; the others are 0. */
struct msat_outcome {
    uint32_t ops;   /* the opcodes above hex 60, with the keys of executed multisignatures */
    uint32_t peak;  /* the most elements that both stacks held together */
    uint32_t fault; /* one of the faults below, or 0 where the run is accepted */
    uint32_t place; /* the instruction that met it, from 0; the number of instructions for a fault of the end */
};
/* docs/FORMATS.md (msat(5)) says what each fault is. */
enum {
    MSAT_RUN_SCRIPT_SIZE = 1,
    MSAT_RUN_ELEMENT_SIZE,
    MSAT_RUN_TRUNCATED,
    MSAT_RUN_NON_MINIMAL_PUSH,
    MSAT_RUN_UNSUPPORTED,
    MSAT_RUN_OP_COUNT,
    MSAT_RUN_STACK_UNDERFLOW,
    MSAT_RUN_ALT_UNDERFLOW,
    MSAT_RUN_UNBALANCED,
    MSAT_RUN_MINIMAL_IF,
    MSAT_RUN_VERIFY,
    MSAT_RUN_NUMBER_FORM,
    MSAT_RUN_NEGATIVE_LOCK,
    MSAT_RUN_UNMET_LOCK,
    MSAT_RUN_KEY_FORM,
    MSAT_RUN_NULL_FAIL,
    MSAT_RUN_NULL_DUMMY,
    MSAT_RUN_KEY_COUNT,
    MSAT_RUN_SIG_COUNT,
    MSAT_RUN_STACK_SIZE,
    MSAT_RUN_CLEAN_STACK,
    MSAT_RUN_EVAL_FALSE,
    MSAT_RUN_WRONG_SCRIPT /* of msat_audit alone, before any run: the script isn't that of the text */
};

/* How a node of a text takes part in a satisfaction. */
struct msat_step {
    uint32_t place; /* the byte of the text where the node's name or letter stands, from 0 */
    bool sat;       /* it is satisfied, and else dissatisfied */
    bool extra;     /* by a row of BIP 379's table that isn't canonical */
};

/* The functions below give numbers and bytes, without a report. msat_run and msat_decode tell themselves what they answer. All others are
 * asked by a text, which `consensus` holds to the limits of consensus, and not to those of policy, and each of them answers
 *
 *   MSAT_DONE              what was asked for was given;
 *   MSAT_TEXT_REFUSED      and `*reason` says why: a text that isn't valid for msat_script, msat_least_weight, and msat_witness and
 *                          msat_satisfy with `malleable`, and msat_audit; one that isn't sane for msat_check, msat_policy, msat_plan, and
 *                          those two without it;
 *   MSAT_FILE_REFUSED      and `*reason` says why, where there is a file, or arrays in its place;
 *   MSAT_NO_SATISFACTION   where there is one, and no canonical satisfaction with what it holds, or no plan;
 *   MSAT_NOT_ACCEPTED      of msat_audit alone: the stack isn't accepted;
 *   MSAT_UNREADABLE        exactly where the text isn't UTF-8;
 *   MSAT_NO_MEMORY         in place of any other code but MSAT_UNREADABLE.
 */

/* The Script of a valid text: its beginning is written to `script`, and `*needed` is its whole length. */
uint32_t msat_script(bool consensus, const char *text, size_t text_len, uint8_t *script, size_t script_len, size_t *needed,
                     struct msat_reason *reason);

/* Whether a text is sane, and what is known of it then. */
uint32_t msat_check(bool consensus, const char *text, size_t text_len, struct msat_facts *facts, struct msat_reason *reason);

/* The least weight of a canonical satisfaction of a valid text by an asset file, in bytes: for each item 1 and its length, the
 * Script aside. */
uint32_t msat_least_weight(bool consensus, const char *text, size_t text_len, const void *file, size_t file_len,
                           uint64_t *weight, struct msat_reason *reason);

/* The items of the witness of a satisfaction by an asset file, bottom first, the Script as the last one. It is the strict
 * satisfaction of a sane text, which nobody can change, or with `malleable` the lightest canonical one of a valid text.
 *
 * bytes    room for the items, one after the other. The beginning is written as far as there is room.
 * needed   how many bytes all items have
 * lengths  room for the length of each item. The first ones are written as far as there is room: `lengths_len` is how many
 *          fit, not how many bytes that is.
 * count    how many items there are
 *
 * Where there was too little room in either, call again. Room enough for a sane text, with `malleable` too: `items + 1` lengths and
 * `weight + size` bytes, with the limits of msat_facts by the same `consensus`. Of a text that is valid and not sane, which
 * `malleable` takes, msat_check tells no limits: by those of policy there are at most 100 items of at most 73 bytes and a Script of at
 * most 3600, so that 101 lengths and 10900 bytes are enough; by consensus alone no number is told.
 */
uint32_t msat_witness(bool malleable, bool consensus, const char *text, size_t text_len, const void *file, size_t file_len,
                      uint8_t *bytes, size_t bytes_len, size_t *needed, size_t *lengths, size_t lengths_len, size_t *count,
                      struct msat_reason *reason);

/* The same without an asset file: what is held lies in arrays.
 *
 * version, sequence, locktime   the version of the spending transaction, the sequence number of the input, and the transaction's
 *                               locktime, as a signature commits to them
 * keys                          compressed keys of 33 bytes, one after the other: the key of each signature
 * signatures                    the signatures as they stand in a witness, one after the other, of 1 to 73 bytes
 * signature_lengths             how many bytes each has. A key may stand with several; the shortest is taken.
 * preimages                     preimages of 32 bytes, one after the other
 *
 * Arrays are refused for what an asset file of format 2 is, with MSAT_FILE_REFUSED and the first of these that applies, at its first
 * place: MSAT_SHAPE of MSAT_MEMBER_SIGNATURES where there aren't 33 bytes of keys for each length, or the lengths don't add up to
 * `signatures_len`; MSAT_SHAPE of MSAT_MEMBER_PREIMAGES where these aren't 32 bytes each; MSAT_TOO_MANY of MSAT_MEMBER_SIGNATURES, and then
 * of MSAT_MEMBER_PREIMAGES, over 256 of them; MSAT_KEY_FORM; MSAT_SIG_LENGTH; MSAT_FILE_REPEATED_KEY, where a signature stands twice with
 * its key.
 */
uint32_t msat_satisfy(bool malleable, bool consensus, const char *text, size_t text_len, uint32_t version, uint32_t sequence,
                      uint32_t locktime, const uint8_t *keys, size_t keys_len, const uint8_t *signatures, size_t signatures_len,
                      const size_t *signature_lengths, size_t signature_count, const uint8_t *preimages, size_t preimages_len,
                      uint8_t *bytes, size_t bytes_len, size_t *needed, size_t *lengths, size_t lengths_len, size_t *count,
                      struct msat_reason *reason);

/* What a text demands that is sane by the limits of policy: the beginning of its printed policy is written to `policy`, and `*needed`
 * is its whole length; `*keys` is the least number of keys that have to sign where every hash lock and timelock is met, or
 * MSAT_NEVER where no signatures are enough. */
uint32_t msat_policy(const char *text, size_t text_len, char *policy, size_t policy_len, size_t *needed, uint64_t *keys,
                     struct msat_reason *reason);
#define MSAT_NEVER UINT64_MAX

/* Which keys to ask for a signature for a text that is sane by the limits of policy, and what its satisfaction weighs at most then,
 * before anyone signs.
 *
 * version, sequence, locktime   as in msat_satisfy, and so are the preimages
 * keys                          compressed keys of 33 bytes, one after the other: those that can sign
 * signature_lengths             how many bytes the signature of each is estimated to have at most, with the byte of its hash type:
 *                               1 to 73
 * asked                         room for the keys to ask, of 33 bytes each, one after the other, in the order of the nodes and, in
 *                               a `multi`, of its positions. The beginning is written as far as there is room.
 * needed                        how many bytes these have. `keys_len` bytes are room enough.
 * weight                        in bytes: for each item 1 and its length, the Script aside, where the signatures of these keys have
 *                               the estimated lengths
 *
 * With the same three numbers and preimages signatures of the keys to ask are enough, of whatever lengths and whoever else signs; where
 * none of them is longer than estimated msat_satisfy gives a satisfaction of at most this weight, and without one of them those of the
 * others make none. MSAT_NO_SATISFACTION comes where the signatures of all keys aren't enough. Arrays are refused for what a plan file is,
 * with MSAT_FILE_REFUSED and the first of these that applies, at its first place: MSAT_SHAPE of MSAT_MEMBER_KEYS where there aren't 33 bytes
 * of keys for each length; MSAT_SHAPE of MSAT_MEMBER_PREIMAGES where these aren't 32 bytes each; MSAT_TOO_MANY of MSAT_MEMBER_KEYS, and then
 * of MSAT_MEMBER_PREIMAGES, over 256 of them; MSAT_KEY_FORM; MSAT_LENGTH; MSAT_FILE_REPEATED_KEY, where a key stands twice.
 */
uint32_t msat_plan(const char *text, size_t text_len, uint32_t version, uint32_t sequence, uint32_t locktime, const uint8_t *keys,
                   size_t keys_len, const size_t *signature_lengths, size_t signature_count, const uint8_t *preimages,
                   size_t preimages_len, uint8_t *asked, size_t asked_len, size_t *needed, uint64_t *weight,
                   struct msat_reason *reason);

/* The run of a script on a stack, by the interpreter.
 *
 * version, sequence, locktime   as in msat_satisfy
 * script                        the script
 * items                         the items of the stack, bottom first, one after the other, without the script
 * item_lengths                  how many bytes each has
 * keys, signatures              the signatures that are good, one after the other, and the key of each, of 33 bytes. No signature is
 *                               computed: one is good exactly where it stands here with its key, and isn't empty.
 * signature_lengths             how many bytes each has
 * bytes, needed                 room for the pairs that an accepted run found good, in order, each key before its signature, one
 *                               after the other, as far as there is room, and how many bytes all have
 * lengths, count                room for their lengths, as far as there is room, and how many these are, two for each pair. A run finds
 *                               at most 201 pairs good.
 * outcome                       what the run comes to
 *
 * The answer is MSAT_DONE where the run is accepted; MSAT_SCRIPT_REFUSED where it is refused, and then `*needed` and `*count` are 0;
 * MSAT_FILE_REFUSED where the arrays are, and `*reason` says why: by MSAT_SHAPE of MSAT_MEMBER_SIGNATURES where there aren't 33 bytes of
 * keys for each length, or the lengths don't add up to `signatures_len`; by MSAT_SHAPE of MSAT_MEMBER_WITNESS where those of the items
 * don't add up; by MSAT_TOO_MANY of MSAT_MEMBER_SIGNATURES over 256 of these; or by that of MSAT_MEMBER_WITNESS over 2000 items; or
 * MSAT_NO_MEMORY in place of any of these.
 */
uint32_t msat_run(uint32_t version, uint32_t sequence, uint32_t locktime, const uint8_t *script, size_t script_len, const uint8_t *items,
                  size_t items_len, const size_t *item_lengths, size_t item_count, const uint8_t *keys, size_t keys_len,
                  const uint8_t *signatures, size_t signatures_len, const size_t *signature_lengths, size_t signature_count,
                  uint8_t *bytes, size_t bytes_len, size_t *needed, size_t *lengths, size_t lengths_len, size_t *count,
                  struct msat_outcome *outcome, struct msat_reason *reason);

/* Whether a stack is accepted for a text that is valid by the limits of policy, and by which rows of BIP 379's table it satisfies the
 * text. The script has to be that of the text; it and the arrays are as in msat_run, and refused as there.
 *
 * steps       room for the steps of a stack that is accepted, children before their node, left to right. The first ones are written
 *             as far as there is room: `steps_len` is how many fit, not how many bytes that is.
 * count       how many steps there are
 * canonical   whether the stack is accepted and no step is by another row than a canonical one. It doesn't say that nobody can change
 *             the stack.
 * outcome     what the run of the stack comes to, or MSAT_RUN_WRONG_SCRIPT
 *
 * Where the stack isn't accepted, the answer is MSAT_NOT_ACCEPTED, `*count` is 0 and `*canonical` false.
 */
uint32_t msat_audit(const char *text, size_t text_len, uint32_t version, uint32_t sequence, uint32_t locktime, const uint8_t *script,
                    size_t script_len, const uint8_t *items, size_t items_len, const size_t *item_lengths, size_t item_count,
                    const uint8_t *keys, size_t keys_len, const uint8_t *signatures, size_t signatures_len,
                    const size_t *signature_lengths, size_t signature_count, struct msat_step *steps, size_t steps_len, size_t *count,
                    bool *canonical, struct msat_outcome *outcome, struct msat_reason *reason);

/* The text, valid by the limits of policy, that a Script is read back as: its beginning is written to `text`, and `*needed` is its
 * whole length. `keys` are compressed keys of 33 bytes, one after the other: those that the Script's hashes of keys may be of.
 * The answer is MSAT_DONE; MSAT_NO_READING where no such text has this Script; MSAT_USAGE where what lies in `keys` isn't whole compressed
 * keys, of which there may be none; or MSAT_NO_MEMORY.
 * After all but MSAT_DONE nothing was written. */
uint32_t msat_decode(const uint8_t *script, size_t script_len, const uint8_t *keys, size_t keys_len, char *text, size_t text_len,
                     size_t *needed);

/* Signatures and keys of secp256k1 (SEC 1, SEC 2), of bytes of any lengths. Neither call takes memory. msat_psbt_answer
 * judges signatures so, but where `--unverified` stands behind its word. */

/* What a signature is by a key and for a hash. */
enum {
    MSAT_BAD = 0,  /* none of the two below */
    MSAT_GOOD = 1, /* the key has signed the hash, in strict DER (BIP 66), with an s of at most half of the order (BIP 146) */
    MSAT_HIGH = 2  /* so it is, but that s is over half: consensus takes it, and nodes don't relay it */
};

/* Judges a signature by ECDSA.
 *
 * key      33 bytes: 02 or 03, and x. By any others a signature is MSAT_BAD.
 * hash     32 bytes, which the key has to have signed. For any other number of bytes a signature is MSAT_BAD.
 * sig      a signature as it stands in a witness or a PSBT, with the byte of its hash type behind, which has to be there and isn't looked at
 */
uint32_t msat_signature(const uint8_t *key, size_t key_len, const uint8_t *hash, size_t hash_len, const uint8_t *sig, size_t sig_len);

/* The point of a key, 04, x and y: its beginning is written to `point`, and `*needed` is 65. The answer is MSAT_DONE; or MSAT_NO_POINT where
 * the key isn't 33 bytes of which the first is 02 or 03, or where no point of the curve has the x that follows. Then nothing was
 * written. */
uint32_t msat_point(const uint8_t *key, size_t key_len, uint8_t *point, size_t point_len, size_t *needed);

#ifdef __cplusplus
}
#endif

/* The names that reports print, or NULL where a number has none. */

/* of a refusal's kind, as "Syntax" */
static inline const char *msat_fault_name(uint32_t kind) {
    static const char *const names[] = {
        "TooLong", "Syntax", "TooDeep", "Rule", "TopNotB", "Size", "Ops", "Items", "Malleable", "NoSignature", "MixedLocks",
        "RepeatedKey", "TooLong", "NotJson", "Shape", "Number", "Hex", "KeyForm", "SigLength", "PreimageLength", "TooMany",
        "RepeatedKey", "Length"};
    return kind >= 1 && kind - 1 < sizeof names / sizeof names[0] ? names[kind - 1] : NULL;
}

/* of a rule, as "OlderRange" */
static inline const char *msat_rule_name(uint32_t rule) {
    static const char *const names[] = {
        "OlderRange", "AfterRange", "AndOrX", "AndOrYZ", "AndVX", "AndVY", "AndBX", "AndBY", "OrBX", "OrBZ", "OrCX", "OrCZ",
        "OrDX", "OrDZ", "OrIXZ", "ThreshRange", "ThreshFirst", "ThreshOther", "MultiRange", "WrapA", "WrapS", "WrapC",
        "WrapD", "WrapV", "WrapJ", "WrapN", "AndOrE", "AndOrS", "OrBE", "OrBS", "OrCE", "OrCS", "OrDE", "OrDS", "OrIS",
        "ThreshE", "ThreshS"};
    return rule < sizeof names / sizeof names[0] ? names[rule] : NULL;
}

/* of a file's member, as "signatures"; the whole is "file" */
static inline const char *msat_member_name(uint32_t member) {
    static const char *const names[] = {
        "file", "version", "sequence", "locktime", "signatures", "preimages", "script", "witness", "format", "keys"};
    return member < sizeof names / sizeof names[0] ? names[member] : NULL;
}

/* of the fault of a run, as "CleanStack", or "WrongScript" */
static inline const char *msat_run_fault_name(uint32_t fault) {
    static const char *const names[] = {
        "ScriptSize", "ElementSize", "Truncated", "NonMinimalPush", "Unsupported", "OpCount", "StackUnderflow", "AltUnderflow",
        "Unbalanced", "MinimalIf", "Verify", "NumberForm", "NegativeLock", "UnmetLock", "KeyForm", "NullFail", "NullDummy",
        "KeyCount", "SigCount", "StackSize", "CleanStack", "EvalFalse", "WrongScript"};
    return fault >= 1 && fault - 1 < sizeof names / sizeof names[0] ? names[fault - 1] : NULL;
}

#if defined MSAT_ASSERT && !defined NDEBUG
#include <assert.h>
static inline uintptr_t msat_address(const void *at) {
#ifdef __cplusplus
    return reinterpret_cast<uintptr_t>(at);
#else
    return (uintptr_t)at;
#endif
}

/* So many things of this size are there, unless there are none; they are no more than half of what a pointer can name, as with any
 * object, and don't go around the end of memory. */
#define MSAT_ARE_THERE(at, count, size) \
    (((at) != NULL || (count) == 0) && (count) <= SIZE_MAX / 2 / (size) && msat_address(at) <= UINTPTR_MAX - (count) * (size))
/* A buffer is there. */
#define MSAT_IS_BUFFER(at, len) MSAT_ARE_THERE(at, len, 1)
/* An array is there, and aligned. */
#define MSAT_ARE_LENGTHS(at, count) (MSAT_ARE_THERE(at, count, sizeof *(at)) && msat_address(at) % sizeof *(at) == 0)
/* A value is there, and aligned as values of its size may have to be. */
#define MSAT_IS_VALUE(at) ((at) != NULL && msat_address(at) % (sizeof *(at) < 8 ? sizeof *(at) : 8) == 0)
/* Two ranges of bytes have none in common. */
#define MSAT_ARE_APART(a, a_len, b, b_len) \
    ((a_len) == 0 || (b_len) == 0 || msat_address(a) + (a_len) <= msat_address(b) || msat_address(b) + (b_len) <= msat_address(a))
/* What a call writes at `at` overlaps neither the text nor the file. */
#define MSAT_IS_APART(at, len, text, text_len, file, file_len) \
    (MSAT_ARE_APART(at, len, text, text_len) && MSAT_ARE_APART(at, len, file, file_len))
/* What msat_satisfy writes at `at` overlaps nothing that it reads. */
#define MSAT_IS_OUT(at, len) \
    (MSAT_IS_APART(at, len, text, text_len, keys, keys_len) && MSAT_IS_APART(at, len, signatures, signatures_len, preimages, preimages_len) && \
     MSAT_ARE_APART(at, len, signature_lengths, given))

static inline uint32_t msat_answer_asserted(size_t count, const char *words, size_t words_len, const void *source,
                                            size_t source_len, char *report, size_t report_len, size_t *needed) {
    assert(MSAT_IS_BUFFER(words, words_len) && MSAT_IS_BUFFER(source, source_len) && MSAT_IS_BUFFER(report, report_len));
    assert(MSAT_IS_VALUE(needed));
    assert(MSAT_IS_APART(report, report_len, words, words_len, source, source_len));
    assert(MSAT_IS_APART(needed, sizeof *needed, words, words_len, source, source_len));
    assert(MSAT_ARE_APART(report, report_len, needed, sizeof *needed));
    return msat_answer(count, words, words_len, source, source_len, report, report_len, needed);
}

static inline uint32_t msat_psbt_answer_asserted(size_t count, const char *words, size_t words_len, const void *source,
                                                 size_t source_len, char *report, size_t report_len, size_t *needed) {
    assert(MSAT_IS_BUFFER(words, words_len) && MSAT_IS_BUFFER(source, source_len) && MSAT_IS_BUFFER(report, report_len));
    assert(MSAT_IS_VALUE(needed));
    assert(MSAT_IS_APART(report, report_len, words, words_len, source, source_len));
    assert(MSAT_IS_APART(needed, sizeof *needed, words, words_len, source, source_len));
    assert(MSAT_ARE_APART(report, report_len, needed, sizeof *needed));
    return msat_psbt_answer(count, words, words_len, source, source_len, report, report_len, needed);
}

static inline uint32_t msat_descriptor_answer_asserted(size_t count, const char *words, size_t words_len, const void *source,
                                                       size_t source_len, char *report, size_t report_len, size_t *needed) {
    assert(MSAT_IS_BUFFER(words, words_len) && MSAT_IS_BUFFER(source, source_len) && MSAT_IS_BUFFER(report, report_len));
    assert(MSAT_IS_VALUE(needed));
    assert(MSAT_IS_APART(report, report_len, words, words_len, source, source_len));
    assert(MSAT_IS_APART(needed, sizeof *needed, words, words_len, source, source_len));
    assert(MSAT_ARE_APART(report, report_len, needed, sizeof *needed));
    return msat_descriptor_answer(count, words, words_len, source, source_len, report, report_len, needed);
}

static inline uint32_t msat_script_asserted(bool consensus, const char *text, size_t text_len, uint8_t *script,
                                            size_t script_len, size_t *needed, struct msat_reason *reason) {
    assert(MSAT_IS_BUFFER(text, text_len) && MSAT_IS_BUFFER(script, script_len));
    assert(MSAT_IS_VALUE(needed) && MSAT_IS_VALUE(reason));
    assert(MSAT_IS_APART(script, script_len, text, text_len, needed, sizeof *needed));
    assert(MSAT_IS_APART(reason, sizeof *reason, text, text_len, needed, sizeof *needed));
    assert(MSAT_IS_APART(reason, sizeof *reason, script, script_len, NULL, 0));
    assert(MSAT_ARE_APART(needed, sizeof *needed, text, text_len));
    return msat_script(consensus, text, text_len, script, script_len, needed, reason);
}

static inline uint32_t msat_check_asserted(bool consensus, const char *text, size_t text_len, struct msat_facts *facts,
                                           struct msat_reason *reason) {
    assert(MSAT_IS_BUFFER(text, text_len));
    assert(MSAT_IS_VALUE(facts) && MSAT_IS_VALUE(reason));
    assert(MSAT_IS_APART(facts, sizeof *facts, text, text_len, reason, sizeof *reason));
    assert(MSAT_ARE_APART(reason, sizeof *reason, text, text_len));
    return msat_check(consensus, text, text_len, facts, reason);
}

static inline uint32_t msat_least_weight_asserted(bool consensus, const char *text, size_t text_len, const void *file,
                                                  size_t file_len, uint64_t *weight, struct msat_reason *reason) {
    assert(MSAT_IS_BUFFER(text, text_len) && MSAT_IS_BUFFER(file, file_len));
    assert(MSAT_IS_VALUE(weight) && MSAT_IS_VALUE(reason));
    assert(MSAT_IS_APART(weight, sizeof *weight, text, text_len, file, file_len));
    assert(MSAT_IS_APART(reason, sizeof *reason, text, text_len, file, file_len));
    assert(MSAT_ARE_APART(weight, sizeof *weight, reason, sizeof *reason));
    return msat_least_weight(consensus, text, text_len, file, file_len, weight, reason);
}

static inline uint32_t msat_witness_asserted(bool malleable, bool consensus, const char *text, size_t text_len,
                                             const void *file, size_t file_len, uint8_t *bytes, size_t bytes_len,
                                             size_t *needed, size_t *lengths, size_t lengths_len, size_t *count,
                                             struct msat_reason *reason) {
    size_t told = lengths_len * sizeof *lengths;
    assert(MSAT_IS_BUFFER(text, text_len) && MSAT_IS_BUFFER(file, file_len));
    assert(MSAT_IS_BUFFER(bytes, bytes_len) && MSAT_ARE_LENGTHS(lengths, lengths_len));
    assert(MSAT_IS_VALUE(needed) && MSAT_IS_VALUE(count) && MSAT_IS_VALUE(reason));
    assert(MSAT_IS_APART(bytes, bytes_len, text, text_len, file, file_len));
    assert(MSAT_IS_APART(bytes, bytes_len, lengths, told, reason, sizeof *reason));
    assert(MSAT_IS_APART(bytes, bytes_len, needed, sizeof *needed, count, sizeof *count));
    assert(MSAT_IS_APART(lengths, told, text, text_len, file, file_len));
    assert(MSAT_IS_APART(lengths, told, needed, sizeof *needed, count, sizeof *count));
    assert(MSAT_IS_APART(needed, sizeof *needed, text, text_len, file, file_len));
    assert(MSAT_IS_APART(count, sizeof *count, text, text_len, file, file_len));
    assert(MSAT_ARE_APART(needed, sizeof *needed, count, sizeof *count));
    assert(MSAT_IS_APART(reason, sizeof *reason, text, text_len, file, file_len));
    assert(MSAT_IS_APART(reason, sizeof *reason, needed, sizeof *needed, count, sizeof *count));
    assert(MSAT_ARE_APART(reason, sizeof *reason, lengths, told));
    return msat_witness(malleable, consensus, text, text_len, file, file_len, bytes, bytes_len, needed, lengths, lengths_len, count,
                        reason);
}

static inline uint32_t msat_satisfy_asserted(bool malleable, bool consensus, const char *text, size_t text_len, uint32_t version,
                                             uint32_t sequence, uint32_t locktime, const uint8_t *keys, size_t keys_len,
                                             const uint8_t *signatures, size_t signatures_len, const size_t *signature_lengths,
                                             size_t signature_count, const uint8_t *preimages, size_t preimages_len, uint8_t *bytes,
                                             size_t bytes_len, size_t *needed, size_t *lengths, size_t lengths_len, size_t *count,
                                             struct msat_reason *reason) {
    size_t told = lengths_len * sizeof *lengths, given = signature_count * sizeof *signature_lengths;
    assert(MSAT_IS_BUFFER(text, text_len) && MSAT_IS_BUFFER(keys, keys_len) && MSAT_IS_BUFFER(signatures, signatures_len));
    assert(MSAT_ARE_LENGTHS(signature_lengths, signature_count) && MSAT_IS_BUFFER(preimages, preimages_len));
    assert(MSAT_IS_BUFFER(bytes, bytes_len) && MSAT_ARE_LENGTHS(lengths, lengths_len));
    assert(MSAT_IS_VALUE(needed) && MSAT_IS_VALUE(count) && MSAT_IS_VALUE(reason));
    assert(MSAT_IS_OUT(bytes, bytes_len) && MSAT_IS_OUT(lengths, told) && MSAT_IS_OUT(needed, sizeof *needed));
    assert(MSAT_IS_OUT(count, sizeof *count) && MSAT_IS_OUT(reason, sizeof *reason));
    assert(MSAT_IS_APART(bytes, bytes_len, lengths, told, reason, sizeof *reason));
    assert(MSAT_IS_APART(bytes, bytes_len, needed, sizeof *needed, count, sizeof *count));
    assert(MSAT_IS_APART(lengths, told, needed, sizeof *needed, count, sizeof *count));
    assert(MSAT_IS_APART(reason, sizeof *reason, needed, sizeof *needed, count, sizeof *count));
    assert(MSAT_ARE_APART(needed, sizeof *needed, count, sizeof *count) && MSAT_ARE_APART(reason, sizeof *reason, lengths, told));
    return msat_satisfy(malleable, consensus, text, text_len, version, sequence, locktime, keys, keys_len, signatures, signatures_len,
                        signature_lengths, signature_count, preimages, preimages_len, bytes, bytes_len, needed, lengths, lengths_len,
                        count, reason);
}

static inline uint32_t msat_plan_asserted(const char *text, size_t text_len, uint32_t version, uint32_t sequence, uint32_t locktime,
                                          const uint8_t *keys, size_t keys_len, const size_t *signature_lengths,
                                          size_t signature_count, const uint8_t *preimages, size_t preimages_len, uint8_t *asked,
                                          size_t asked_len, size_t *needed, uint64_t *weight, struct msat_reason *reason) {
    size_t given = signature_count * sizeof *signature_lengths;
    const uint8_t *signatures = NULL;
    size_t signatures_len = 0;
    assert(MSAT_IS_BUFFER(text, text_len) && MSAT_IS_BUFFER(keys, keys_len) && MSAT_ARE_LENGTHS(signature_lengths, signature_count));
    assert(MSAT_IS_BUFFER(preimages, preimages_len) && MSAT_IS_BUFFER(asked, asked_len));
    assert(MSAT_IS_VALUE(needed) && MSAT_IS_VALUE(weight) && MSAT_IS_VALUE(reason));
    assert(MSAT_IS_OUT(asked, asked_len) && MSAT_IS_OUT(needed, sizeof *needed) && MSAT_IS_OUT(weight, sizeof *weight));
    assert(MSAT_IS_OUT(reason, sizeof *reason));
    assert(MSAT_IS_APART(asked, asked_len, needed, sizeof *needed, weight, sizeof *weight));
    assert(MSAT_IS_APART(reason, sizeof *reason, needed, sizeof *needed, weight, sizeof *weight));
    assert(MSAT_ARE_APART(asked, asked_len, reason, sizeof *reason) && MSAT_ARE_APART(needed, sizeof *needed, weight, sizeof *weight));
    return msat_plan(text, text_len, version, sequence, locktime, keys, keys_len, signature_lengths, signature_count, preimages,
                     preimages_len, asked, asked_len, needed, weight, reason);
}

/* What msat_run and msat_audit write at `at` overlaps nothing that they read. */
#define MSAT_IS_RUN_OUT(at, len) \
    (MSAT_IS_APART(at, len, script, script_len, items, items_len) && MSAT_IS_APART(at, len, keys, keys_len, signatures, signatures_len) && \
     MSAT_IS_APART(at, len, item_lengths, item_count * sizeof *item_lengths, signature_lengths, signature_count * sizeof *signature_lengths))

static inline uint32_t msat_run_asserted(uint32_t version, uint32_t sequence, uint32_t locktime, const uint8_t *script,
                                         size_t script_len, const uint8_t *items, size_t items_len, const size_t *item_lengths,
                                         size_t item_count, const uint8_t *keys, size_t keys_len, const uint8_t *signatures,
                                         size_t signatures_len, const size_t *signature_lengths, size_t signature_count,
                                         uint8_t *bytes, size_t bytes_len, size_t *needed, size_t *lengths, size_t lengths_len,
                                         size_t *count, struct msat_outcome *outcome, struct msat_reason *reason) {
    size_t told = lengths_len * sizeof *lengths;
    assert(MSAT_IS_BUFFER(script, script_len) && MSAT_IS_BUFFER(items, items_len) && MSAT_ARE_LENGTHS(item_lengths, item_count));
    assert(MSAT_IS_BUFFER(keys, keys_len) && MSAT_IS_BUFFER(signatures, signatures_len));
    assert(MSAT_ARE_LENGTHS(signature_lengths, signature_count));
    assert(MSAT_IS_BUFFER(bytes, bytes_len) && MSAT_ARE_LENGTHS(lengths, lengths_len));
    assert(MSAT_IS_VALUE(needed) && MSAT_IS_VALUE(count) && MSAT_IS_VALUE(reason));
    assert(outcome != NULL && msat_address(outcome) % sizeof outcome->ops == 0);
    assert(MSAT_IS_RUN_OUT(bytes, bytes_len) && MSAT_IS_RUN_OUT(lengths, told) && MSAT_IS_RUN_OUT(needed, sizeof *needed));
    assert(MSAT_IS_RUN_OUT(count, sizeof *count) && MSAT_IS_RUN_OUT(outcome, sizeof *outcome) && MSAT_IS_RUN_OUT(reason, sizeof *reason));
    assert(MSAT_IS_APART(bytes, bytes_len, lengths, told, reason, sizeof *reason));
    assert(MSAT_IS_APART(bytes, bytes_len, needed, sizeof *needed, count, sizeof *count));
    assert(MSAT_IS_APART(lengths, told, needed, sizeof *needed, count, sizeof *count));
    assert(MSAT_IS_APART(reason, sizeof *reason, needed, sizeof *needed, count, sizeof *count));
    assert(MSAT_IS_APART(outcome, sizeof *outcome, needed, sizeof *needed, count, sizeof *count));
    assert(MSAT_IS_APART(outcome, sizeof *outcome, bytes, bytes_len, lengths, told));
    assert(MSAT_ARE_APART(needed, sizeof *needed, count, sizeof *count) && MSAT_ARE_APART(reason, sizeof *reason, lengths, told));
    assert(MSAT_ARE_APART(outcome, sizeof *outcome, reason, sizeof *reason));
    return msat_run(version, sequence, locktime, script, script_len, items, items_len, item_lengths, item_count, keys, keys_len,
                    signatures, signatures_len, signature_lengths, signature_count, bytes, bytes_len, needed, lengths, lengths_len,
                    count, outcome, reason);
}

static inline uint32_t msat_audit_asserted(const char *text, size_t text_len, uint32_t version, uint32_t sequence, uint32_t locktime,
                                           const uint8_t *script, size_t script_len, const uint8_t *items, size_t items_len,
                                           const size_t *item_lengths, size_t item_count, const uint8_t *keys, size_t keys_len,
                                           const uint8_t *signatures, size_t signatures_len, const size_t *signature_lengths,
                                           size_t signature_count, struct msat_step *steps, size_t steps_len, size_t *count,
                                           bool *canonical, struct msat_outcome *outcome, struct msat_reason *reason) {
    size_t told = steps_len * sizeof *steps;
    assert(MSAT_IS_BUFFER(text, text_len) && MSAT_IS_BUFFER(script, script_len) && MSAT_IS_BUFFER(items, items_len));
    assert(MSAT_ARE_LENGTHS(item_lengths, item_count) && MSAT_IS_BUFFER(keys, keys_len) && MSAT_IS_BUFFER(signatures, signatures_len));
    assert(MSAT_ARE_LENGTHS(signature_lengths, signature_count));
    assert(MSAT_ARE_THERE(steps, steps_len, sizeof *steps) && msat_address(steps) % sizeof steps->place == 0 && canonical != NULL);
    assert(outcome != NULL && msat_address(outcome) % sizeof outcome->ops == 0);
    assert(MSAT_IS_VALUE(count) && MSAT_IS_VALUE(reason));
    assert(MSAT_IS_RUN_OUT(steps, told) && MSAT_IS_RUN_OUT(count, sizeof *count) && MSAT_IS_RUN_OUT(canonical, sizeof *canonical));
    assert(MSAT_IS_RUN_OUT(outcome, sizeof *outcome) && MSAT_IS_RUN_OUT(reason, sizeof *reason));
    assert(MSAT_IS_APART(text, text_len, steps, told, count, sizeof *count));
    assert(MSAT_IS_APART(text, text_len, outcome, sizeof *outcome, reason, sizeof *reason));
    assert(MSAT_IS_APART(canonical, sizeof *canonical, text, text_len, steps, told));
    assert(MSAT_IS_APART(canonical, sizeof *canonical, count, sizeof *count, reason, sizeof *reason));
    assert(MSAT_IS_APART(outcome, sizeof *outcome, steps, told, count, sizeof *count));
    assert(MSAT_IS_APART(outcome, sizeof *outcome, canonical, sizeof *canonical, reason, sizeof *reason));
    assert(MSAT_IS_APART(steps, told, count, sizeof *count, reason, sizeof *reason));
    assert(MSAT_ARE_APART(count, sizeof *count, reason, sizeof *reason));
    return msat_audit(text, text_len, version, sequence, locktime, script, script_len, items, items_len, item_lengths, item_count, keys,
                      keys_len, signatures, signatures_len, signature_lengths, signature_count, steps, steps_len, count, canonical,
                      outcome, reason);
}

static inline uint32_t msat_policy_asserted(const char *text, size_t text_len, char *policy, size_t policy_len, size_t *needed,
                                            uint64_t *keys, struct msat_reason *reason) {
    assert(MSAT_IS_BUFFER(text, text_len) && MSAT_IS_BUFFER(policy, policy_len));
    assert(MSAT_IS_VALUE(needed) && MSAT_IS_VALUE(keys) && MSAT_IS_VALUE(reason));
    assert(MSAT_IS_APART(policy, policy_len, text, text_len, needed, sizeof *needed));
    assert(MSAT_IS_APART(policy, policy_len, keys, sizeof *keys, reason, sizeof *reason));
    assert(MSAT_IS_APART(needed, sizeof *needed, text, text_len, keys, sizeof *keys));
    assert(MSAT_IS_APART(reason, sizeof *reason, text, text_len, keys, sizeof *keys));
    assert(MSAT_ARE_APART(keys, sizeof *keys, text, text_len) && MSAT_ARE_APART(reason, sizeof *reason, needed, sizeof *needed));
    return msat_policy(text, text_len, policy, policy_len, needed, keys, reason);
}

static inline uint32_t msat_decode_asserted(const uint8_t *script, size_t script_len, const uint8_t *keys, size_t keys_len, char *text,
                                            size_t text_len, size_t *needed) {
    assert(MSAT_IS_BUFFER(script, script_len) && MSAT_IS_BUFFER(keys, keys_len) && MSAT_IS_BUFFER(text, text_len));
    assert(MSAT_IS_VALUE(needed));
    assert(MSAT_IS_APART(text, text_len, script, script_len, keys, keys_len));
    assert(MSAT_IS_APART(needed, sizeof *needed, script, script_len, keys, keys_len));
    assert(MSAT_ARE_APART(text, text_len, needed, sizeof *needed));
    return msat_decode(script, script_len, keys, keys_len, text, text_len, needed);
}

static inline uint32_t msat_signature_asserted(const uint8_t *key, size_t key_len, const uint8_t *hash, size_t hash_len,
                                               const uint8_t *sig, size_t sig_len) {
    assert(MSAT_IS_BUFFER(key, key_len) && MSAT_IS_BUFFER(hash, hash_len) && MSAT_IS_BUFFER(sig, sig_len));
    return msat_signature(key, key_len, hash, hash_len, sig, sig_len);
}

static inline uint32_t msat_point_asserted(const uint8_t *key, size_t key_len, uint8_t *point, size_t point_len, size_t *needed) {
    assert(MSAT_IS_BUFFER(key, key_len) && MSAT_IS_BUFFER(point, point_len) && MSAT_IS_VALUE(needed));
    assert(MSAT_ARE_APART(point, point_len, key, key_len));
    assert(MSAT_IS_APART(needed, sizeof *needed, key, key_len, point, point_len));
    return msat_point(key, key_len, point, point_len, needed);
}

/* Calls go through the assertions. Where a name is to be taken by itself, as a member `->msat_check(..)`, it is put into parentheses
 * or MSAT_ASSERT is left out. */
#define msat_answer(...) msat_answer_asserted(__VA_ARGS__)
#define msat_psbt_answer(...) msat_psbt_answer_asserted(__VA_ARGS__)
#define msat_descriptor_answer(...) msat_descriptor_answer_asserted(__VA_ARGS__)
#define msat_script(...) msat_script_asserted(__VA_ARGS__)
#define msat_check(...) msat_check_asserted(__VA_ARGS__)
#define msat_least_weight(...) msat_least_weight_asserted(__VA_ARGS__)
#define msat_witness(...) msat_witness_asserted(__VA_ARGS__)
#define msat_satisfy(...) msat_satisfy_asserted(__VA_ARGS__)
#define msat_plan(...) msat_plan_asserted(__VA_ARGS__)
#define msat_run(...) msat_run_asserted(__VA_ARGS__)
#define msat_audit(...) msat_audit_asserted(__VA_ARGS__)
#define msat_policy(...) msat_policy_asserted(__VA_ARGS__)
#define msat_decode(...) msat_decode_asserted(__VA_ARGS__)
#define msat_signature(...) msat_signature_asserted(__VA_ARGS__)
#define msat_point(...) msat_point_asserted(__VA_ARGS__)
#endif

#endif
