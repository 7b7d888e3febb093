/* msat: what msat_psbt_answer reports for `inspect`, `hashes` and `verify`, and why it refuses, read line by line.
 * SPDX-License-Identifier: MIT
 *
 *     struct msat_psbt_reader reader = {report, needed, MSAT_PSBT_NO_INPUT}; // a report that was had whole
 *     struct msat_psbt_line line;
 *     while (msat_psbt_next(&reader, &line))
 *         if (line.kind == MSAT_PSBT_LINE_INPUT && line.state == MSAT_PSBT_STATE_READY)
 *             ..
 *
 * No memory is taken, nothing is kept, no byte outside the report is read, and pieces of a line are pointers into it. Any bytes may be
 * read: a line that hasn't the words, numbers and digits of one of these, in their one spelling, comes as MSAT_PSBT_LINE_OTHER. How many
 * digits an id, a key or a hash has, what stands behind the name of a state, and which refusals have a place isn't looked at. This is C,
 * tested on every report of examples/psbt and on broken ones, and nothing of it is proved. Within 1.x what is named here stays; new
 * kinds, states and faults may come. docs/FORMATS.md (msat(5)) says what each line means.
 */
#ifndef MSAT_PSBT_H
#define MSAT_PSBT_H

#include <stdbool.h>
#include <stddef.h>
#include <stdint.h>
#include <string.h>

/* A piece of a report, without a NUL behind it. Digits are bytes in lower case, and ids of transactions stand in reverse order, as
 * users know them; an empty string is one of length 0. */
struct msat_psbt_text {
    const char *at;
    size_t length;
};

/* The kinds of lines, and what is told of each. All else of the line is 0 or empty. */
enum {
    MSAT_PSBT_LINE_OTHER = 0, /* text: the whole line */
    MSAT_PSBT_LINE_PSBT,      /* inputs, outputs, version, locktime, id: the transaction, as it is with empty scriptSigs */
    MSAT_PSBT_LINE_OUTPUT,    /* number, amount, digits: an output and its script */
    MSAT_PSBT_LINE_FEE,       /* known; amount, is_large and digits, its decimal digits, where it is claimed or proved */
    MSAT_PSBT_LINE_INPUT,     /* number, state; text: the words of the state, with the reason of Unfit; of `verify` those of the verdict */
    MSAT_PSBT_LINE_OUTPOINT,  /* id, number: the index, sequence */
    MSAT_PSBT_LINE_AMOUNT,    /* known; amount, and digits, its decimal digits, where it is claimed or proved */
    MSAT_PSBT_LINE_UNCHECKED,
    MSAT_PSBT_LINE_SIGNATURE, /* key, type; text: how it is judged, `good`, `high` or `bad`, empty where that isn't told */
    MSAT_PSBT_LINE_TEXT,      /* text: the miniscript */
    MSAT_PSBT_LINE_POLICY,    /* text: what it demands */
    MSAT_PSBT_LINE_WEIGHT,    /* amount: what the satisfaction weighs */
    MSAT_PSBT_LINE_ASK,       /* key: whose signature is to be asked */
    MSAT_PSBT_LINE_MOST,      /* amount: what the satisfaction weighs at most then */
    MSAT_PSBT_LINE_NO_PLAN,
    MSAT_PSBT_LINE_SIGN,      /* of `hashes`. type, hash: what a signature of the asked type signs, empty where that is none */
    MSAT_PSBT_LINE_CHECK,     /* of `hashes`. key, digits: the signature, hash: what it has to sign, empty where its type is none; text: as above */
    MSAT_PSBT_LINE_NOT_FINAL, /* of `extract`. number: the first input that isn't final */
    MSAT_PSBT_LINE_REFUSED,   /* fault; text: its name; has_place, number: the byte of the PSBT; of `combine` of_line, where it has one */
    MSAT_PSBT_LINE_USAGE,
    MSAT_PSBT_LINE_KIND,      /* text: the kind of the spent output, `p2wsh`, `p2wpkh`, `p2sh-p2wsh`, `p2sh-p2wpkh` or `other`. New kinds may come */
    MSAT_PSBT_LINE_FINAL_ID   /* id: the transaction's with its final scriptSigs */
};

/* How far an amount or a fee is known. */
enum {
    MSAT_PSBT_UNKNOWN = 0,
    MSAT_PSBT_CLAIMED,
    MSAT_PSBT_PROVED,
    MSAT_PSBT_NEGATIVE /* of a fee alone: the outputs are more than the inputs */
};

/* The state of an input; 0 is one that this file doesn't know. */
enum {
    MSAT_PSBT_STATE_FINAL = 1,
    MSAT_PSBT_STATE_NO_UTXO,
    MSAT_PSBT_STATE_WRONG_UTXO,
    MSAT_PSBT_STATE_OTHER_OUTPUT,
    MSAT_PSBT_STATE_NO_SCRIPT,
    MSAT_PSBT_STATE_WRONG_SCRIPT,
    MSAT_PSBT_STATE_NO_READING,
    MSAT_PSBT_STATE_UNFIT,
    MSAT_PSBT_STATE_WRONG_SIGHASH,
    MSAT_PSBT_STATE_TOO_MANY,
    MSAT_PSBT_STATE_UNSATISFIED,
    MSAT_PSBT_STATE_READY
};

/* Why a PSBT is refused; 0 is a reason that this file doesn't know. */
enum {
    MSAT_PSBT_FAULT_TOO_LONG = 1,
    MSAT_PSBT_FAULT_NOT_BASE64,
    MSAT_PSBT_FAULT_MAGIC,
    MSAT_PSBT_FAULT_TRUNCATED,
    MSAT_PSBT_FAULT_SIZE,
    MSAT_PSBT_FAULT_REPEATED_KEY,
    MSAT_PSBT_FAULT_KEY_FORM,
    MSAT_PSBT_FAULT_VALUE_FORM,
    MSAT_PSBT_FAULT_VERSION,
    MSAT_PSBT_FAULT_NO_TRANSACTION,
    MSAT_PSBT_FAULT_TRAILING,
    MSAT_PSBT_FAULT_EXCLUDED,
    MSAT_PSBT_FAULT_REPEATED_OUTPOINT,
    MSAT_PSBT_FAULT_LOCK_TIME,
    MSAT_PSBT_FAULT_NO_PSBT,
    MSAT_PSBT_FAULT_OTHER_VERSION,
    MSAT_PSBT_FAULT_OTHER_TRANSACTION
};

#define MSAT_PSBT_NO_INPUT UINT64_MAX

/* A line. */
struct msat_psbt_line {
    uint32_t kind, state, known, fault;
    uint64_t input;            /* the number of the input whose line this is, or MSAT_PSBT_NO_INPUT */
    uint64_t number;           /* of an input or output from 0, an index, or the place of a refusal */
    uint64_t inputs, outputs;  /* how many there are */
    uint64_t amount;           /* in satoshis; or a weight */
    uint32_t version, locktime, sequence, type;
    bool is_large;             /* a fee is over UINT64_MAX, and `amount` is that */
    bool has_place;
    struct msat_psbt_text id, key, digits, hash, text;
    uint64_t of_line;          /* of a refusal of `combine`: which line is refused, from 1; 0 where none is */
};

#ifdef __cplusplus
#define MSAT_PSBT_AS(type, value) static_cast<type>(value)
#else
#define MSAT_PSBT_AS(type, value) ((type)(value))
#endif

/* What is still to be read, and the input that was read last: at first the whole report, and MSAT_PSBT_NO_INPUT. */
struct msat_psbt_reader {
    const char *at;
    size_t length;
    uint64_t input;
};

/* The rest begins with this word, which is taken off it then. */
static inline bool msat_psbt_word(struct msat_psbt_text *rest, const char *word) {
    size_t length = strlen(word);
    if (rest->length < length || memcmp(rest->at, word, length) != 0)
        return false;
    rest->at += length, rest->length -= length;
    return true;
}

/* The rest begins with a number in its shortest spelling. It is taken off the rest; where it is over `most`, it is that. */
static inline bool msat_psbt_number(struct msat_psbt_text *rest, uint64_t most, uint64_t *number, bool *is_over) {
    uint64_t value = 0;
    size_t length = 0;
    *is_over = false;
    for (; length < rest->length && rest->at[length] >= '0' && rest->at[length] <= '9'; length++) {
        uint64_t digit = MSAT_PSBT_AS(uint64_t, rest->at[length] - '0');
        *is_over = *is_over || value > (most - digit) / 10;
        value = *is_over ? most : value * 10 + digit;
    }
    if (length == 0 || (length > 1 && rest->at[0] == '0'))
        return false;
    rest->at += length, rest->length -= length;
    *number = value;
    return true;
}

/* The same, of a number that is at most `most`. */
static inline bool msat_psbt_below(struct msat_psbt_text *rest, uint64_t most, uint64_t *number) {
    bool is_over;
    return msat_psbt_number(rest, most, number, &is_over) && !is_over;
}

static inline bool msat_psbt_small(struct msat_psbt_text *rest, uint32_t *number) {
    uint64_t value;
    if (!msat_psbt_below(rest, UINT32_MAX, &value))
        return false;
    *number = MSAT_PSBT_AS(uint32_t, value);
    return true;
}

/* The rest begins with digits of bytes, two each, or with `-` for none, up to a space or its end. They are taken off it. */
static inline bool msat_psbt_digits(struct msat_psbt_text *rest, struct msat_psbt_text *digits) {
    size_t length = 0;
    while (length < rest->length && ((rest->at[length] >= '0' && rest->at[length] <= '9') || (rest->at[length] >= 'a' && rest->at[length] <= 'f')))
        length++;
    digits->at = rest->at, digits->length = length;
    if (length == 0 && !msat_psbt_word(rest, "-"))
        return false;
    rest->at += length, rest->length -= length;
    return length % 2 == 0 && (rest->length == 0 || rest->at[0] == ' ');
}

/* The names of states from 1 on, as reports print them, or NULL where there is none. */
static inline const char *msat_psbt_state_name(uint32_t state) {
    static const char *const names[] = {
        "Final", "NoUtxo", "WrongUtxo", "OtherOutput", "NoScript", "WrongScript", "NoReading", "Unfit", "WrongSighash", "TooMany",
        "Unsatisfied", "Ready"};
    return state >= 1 && state - 1 < sizeof names / sizeof names[0] ? names[state - 1] : NULL;
}

/* The names of refusals from 1 on, or NULL where there is none. */
static inline const char *msat_psbt_fault_name(uint32_t fault) {
    static const char *const names[] = {
        "TooLong", "NotBase64", "Magic", "Truncated", "Size", "RepeatedKey", "KeyForm", "ValueForm", "Version", "NoTransaction",
        "Trailing", "Excluded", "RepeatedOutpoint", "LockTime", "NoPsbt", "OtherVersion", "OtherTransaction"};
    return fault >= 1 && fault - 1 < sizeof names / sizeof names[0] ? names[fault - 1] : NULL;
}

/* The number of the name that a text begins with, up to a space or its end; 0 where it is none. */
static inline uint32_t msat_psbt_named(struct msat_psbt_text text, const char *(*name_of)(uint32_t)) {
    for (uint32_t number = 1; name_of(number) != NULL; number++) {
        struct msat_psbt_text rest = text;
        if (msat_psbt_word(&rest, name_of(number)) && (rest.length == 0 || rest.at[0] == ' '))
            return number;
    }
    return 0;
}

/* An amount or a fee that is known, and how. */
static inline bool msat_psbt_money(struct msat_psbt_text *rest, struct msat_psbt_line *line) {
    const char *start = rest->at;
    if (msat_psbt_word(rest, "unknown"))
        return true;
    if (!msat_psbt_number(rest, UINT64_MAX, &line->amount, &line->is_large))
        return false;
    line->digits.at = start, line->digits.length = MSAT_PSBT_AS(size_t, rest->at - start);
    if (msat_psbt_word(rest, " proved"))
        line->known = MSAT_PSBT_PROVED;
    else if (msat_psbt_word(rest, " claimed"))
        line->known = MSAT_PSBT_CLAIMED;
    return line->known != MSAT_PSBT_UNKNOWN;
}

/* What stands behind the first word of a line of this kind: whether it is in form, but for what is left of it. */
static inline bool msat_psbt_read_line(uint32_t kind, struct msat_psbt_text *rest, struct msat_psbt_line *line) {
    struct msat_psbt_text *to = &line->text;
    switch (kind) {
    case MSAT_PSBT_LINE_PSBT:
        return msat_psbt_below(rest, UINT64_MAX, &line->inputs) && msat_psbt_word(rest, " outputs ") &&
               msat_psbt_below(rest, UINT64_MAX, &line->outputs) && msat_psbt_word(rest, " version ") &&
               msat_psbt_small(rest, &line->version) && msat_psbt_word(rest, " locktime ") && msat_psbt_small(rest, &line->locktime) &&
               msat_psbt_word(rest, " txid ") && msat_psbt_digits(rest, &line->id);
    case MSAT_PSBT_LINE_OUTPUT:
        return msat_psbt_below(rest, UINT64_MAX, &line->number) && msat_psbt_word(rest, " ") &&
               msat_psbt_below(rest, UINT64_MAX, &line->amount) && msat_psbt_word(rest, " ") && msat_psbt_digits(rest, &line->digits);
    case MSAT_PSBT_LINE_FEE:
        if (!msat_psbt_word(rest, "negative"))
            return msat_psbt_money(rest, line);
        line->known = MSAT_PSBT_NEGATIVE;
        return true;
    case MSAT_PSBT_LINE_AMOUNT: return msat_psbt_money(rest, line) && !line->is_large;
    case MSAT_PSBT_LINE_INPUT:
        if (!msat_psbt_below(rest, UINT64_MAX, &line->number) || !msat_psbt_word(rest, " ") || rest->length == 0)
            return false;
        line->state = msat_psbt_named(*rest, msat_psbt_state_name);
        break;
    case MSAT_PSBT_LINE_OUTPOINT:
        return msat_psbt_digits(rest, &line->id) && msat_psbt_word(rest, " ") && msat_psbt_below(rest, UINT32_MAX, &line->number) &&
               msat_psbt_word(rest, " sequence ") && msat_psbt_small(rest, &line->sequence);
    case MSAT_PSBT_LINE_SIGNATURE:
        if (!msat_psbt_digits(rest, &line->key) || !msat_psbt_word(rest, " ") || !msat_psbt_small(rest, &line->type))
            return false;
        if (!msat_psbt_word(rest, " "))
            return true;
        break;
    case MSAT_PSBT_LINE_FINAL_ID: return msat_psbt_digits(rest, &line->id);
    case MSAT_PSBT_LINE_WEIGHT:
    case MSAT_PSBT_LINE_MOST: return msat_psbt_below(rest, UINT64_MAX, &line->amount);
    case MSAT_PSBT_LINE_ASK: return msat_psbt_digits(rest, &line->key);
    case MSAT_PSBT_LINE_SIGN: return msat_psbt_small(rest, &line->type) && msat_psbt_word(rest, " ") && msat_psbt_digits(rest, &line->hash);
    case MSAT_PSBT_LINE_CHECK:
        if (!msat_psbt_digits(rest, &line->key) || !msat_psbt_word(rest, " ") || !msat_psbt_digits(rest, &line->digits) ||
            !msat_psbt_word(rest, " ") || !msat_psbt_digits(rest, &line->hash))
            return false;
        if (!msat_psbt_word(rest, " "))
            return true;
        break;
    case MSAT_PSBT_LINE_NOT_FINAL: return msat_psbt_below(rest, UINT64_MAX, &line->number);
    case MSAT_PSBT_LINE_REFUSED:
        if (msat_psbt_word(rest, "line ")) {
            if (!msat_psbt_below(rest, UINT64_MAX, &line->of_line) || line->of_line == 0 || !msat_psbt_word(rest, " "))
                return false;
        } else if (!msat_psbt_word(rest, "psbt "))
            return false;
        to->at = rest->at;
        while (rest->length > 0 && rest->at[0] != ' ')
            rest->at++, rest->length--;
        to->length = MSAT_PSBT_AS(size_t, rest->at - to->at);
        line->fault = msat_psbt_named(*to, msat_psbt_fault_name);
        line->has_place = msat_psbt_word(rest, " at ");
        return to->length > 0 && (!line->has_place || msat_psbt_below(rest, UINT64_MAX, &line->number));
    case MSAT_PSBT_LINE_UNCHECKED:
    case MSAT_PSBT_LINE_NO_PLAN:
    case MSAT_PSBT_LINE_USAGE: return true;
    default: break;
    }
    /* a state, a verdict, a word, a kind, a miniscript or a policy, up to the end */
    *to = *rest;
    rest->at += rest->length, rest->length = 0;
    return to->length > 0;
}

/* Reads the next line of a report, or answers false where no whole line is left. */
static inline bool msat_psbt_next(struct msat_psbt_reader *reader, struct msat_psbt_line *line) {
    static const struct {
        uint32_t kind;
        const char *start;
    } kinds[] = {
        {MSAT_PSBT_LINE_PSBT, "psbt inputs "}, {MSAT_PSBT_LINE_OUTPUT, "output "}, {MSAT_PSBT_LINE_FEE, "fee "},
        {MSAT_PSBT_LINE_INPUT, "input "}, {MSAT_PSBT_LINE_OUTPOINT, "outpoint "}, {MSAT_PSBT_LINE_AMOUNT, "amount "},
        {MSAT_PSBT_LINE_UNCHECKED, "unchecked"}, {MSAT_PSBT_LINE_KIND, "kind "}, {MSAT_PSBT_LINE_SIGNATURE, "signature "}, {MSAT_PSBT_LINE_TEXT, "text "},
        {MSAT_PSBT_LINE_POLICY, "policy "}, {MSAT_PSBT_LINE_MOST, "weight at most "}, {MSAT_PSBT_LINE_WEIGHT, "weight "},
        {MSAT_PSBT_LINE_ASK, "ask "}, {MSAT_PSBT_LINE_NO_PLAN, "no plan"}, {MSAT_PSBT_LINE_SIGN, "sign "},
        {MSAT_PSBT_LINE_SIGN, "sign-other "}, {MSAT_PSBT_LINE_CHECK, "check "}, {MSAT_PSBT_LINE_NOT_FINAL, "not final "},
        {MSAT_PSBT_LINE_FINAL_ID, "final txid "}, {MSAT_PSBT_LINE_USAGE, "refused usage"}, {MSAT_PSBT_LINE_REFUSED, "refused "}};
    struct msat_psbt_text whole, rest;
    const void *end = reader->length == 0 ? NULL : memchr(reader->at, '\n', reader->length);
    if (end == NULL)
        return false;
    whole.at = reader->at;
    whole.length = MSAT_PSBT_AS(size_t, MSAT_PSBT_AS(const char *, end) - whole.at);
    reader->at += whole.length + 1, reader->length -= whole.length + 1;
    for (size_t i = 0; i < sizeof kinds / sizeof kinds[0]; i++) {
        memset(line, 0, sizeof *line);
        rest = whole;
        if (!msat_psbt_word(&rest, kinds[i].start) || !msat_psbt_read_line(kinds[i].kind, &rest, line) || rest.length != 0)
            continue;
        /* each type has one spelling: `sign 1`, and `sign-other` with any other */
        if (kinds[i].kind == MSAT_PSBT_LINE_SIGN && (line->type == 1) != (kinds[i].start[4] == ' '))
            continue;
        line->kind = kinds[i].kind;
        reader->input = line->kind == MSAT_PSBT_LINE_INPUT ? line->number : reader->input;
        line->input = reader->input;
        return true;
    }
    memset(line, 0, sizeof *line);
    line->input = reader->input;
    line->text = whole;
    return true;
}

/* Writes the bytes of digits, as far as there is room, and answers how many they are. */
static inline size_t msat_psbt_bytes(struct msat_psbt_text digits, uint8_t *bytes, size_t bytes_len) {
    for (size_t i = 0; i < digits.length / 2 && i < bytes_len; i++) {
        unsigned value = 0;
        for (size_t j = 0; j < 2; j++) {
            char digit = digits.at[2 * i + j];
            value = value * 16 + MSAT_PSBT_AS(unsigned, digit <= '9' ? digit - '0' : digit - 'a' + 10);
        }
        bytes[i] = MSAT_PSBT_AS(uint8_t, value);
    }
    return digits.length / 2;
}

#endif
