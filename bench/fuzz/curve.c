/* Puts one input of libFuzzer to msat_signature and to msat_point, and to libsecp256k1 (Debian's libsecp256k1-1) beside them. The input is a byte with
 * the length of the key, one with that of the hash, and then the key, the hash and the signature with its type behind, each as far as there are bytes.
 *
 * It stops, as a crash, where
 * - the judgement isn't what strict DER (BIP 66), a hash of 32 bytes, a compressed key and libsecp256k1 say together: a signature that isn't one of the
 *   key is bad, one that is by its s in the upper half is high, and any other is good;
 * - the point isn't the one that libsecp256k1 reads, or is one where that reads none;
 * - a byte behind the room for the point is written.
 * libFuzzer itself stops where a call takes over a second, or crashes. The file that FUZZ_COUNTS names has in the end a line for each word: how many
 * inputs had it, and how many of these were tried by a second call, that of the point: all of them.
 */
#include "../../include/msat.h"
#include <stdint.h>
#include <stdio.h>
#include <stdlib.h>
#include <string.h>

/* Of secp256k1.h, so that the library alone is needed. */
typedef struct secp256k1_context_struct secp256k1_context;
typedef struct { unsigned char data[64]; } point_of_library, signature_of_library;
extern secp256k1_context *secp256k1_context_create(unsigned int flags);
extern int secp256k1_ec_pubkey_parse(const secp256k1_context *, point_of_library *, const unsigned char *, size_t);
extern int secp256k1_ec_pubkey_serialize(const secp256k1_context *, unsigned char *, size_t *, const point_of_library *, unsigned int);
extern int secp256k1_ecdsa_signature_parse_compact(const secp256k1_context *, signature_of_library *, const unsigned char *);
extern int secp256k1_ecdsa_signature_normalize(const secp256k1_context *, signature_of_library *, const signature_of_library *);
extern int secp256k1_ecdsa_verify(const secp256k1_context *, const signature_of_library *, const unsigned char *, const point_of_library *);
enum { VERIFY = 0x101, UNCOMPRESSED = 2 };

static const char *const words[] = {"bad", "good", "high"};
enum { WORDS = sizeof words / sizeof *words };
static unsigned long answers[WORDS];
static secp256k1_context *context;

static void fail(const char *why) {
    fprintf(stderr, "harness: %s\n", why);
    abort();
}

struct span {
    const uint8_t *at;
    size_t length;
};

/* Takes what stands in front, as far as there is so much. */
static struct span take(struct span *from, size_t length) {
    struct span taken = {from->at, length < from->length ? length : from->length};
    from->at += taken.length;
    from->length -= taken.length;
    return taken;
}

/* Takes a number of DER in its shortest form, without a sign, and writes its 32 bytes. Returns 0 where none stands there, and 2 where it is over 32 bytes. */
static int take_number(struct span *from, unsigned char *to) {
    struct span head = take(from, 2);
    if (head.length < 2 || head.at[0] != 2 || head.at[1] == 0 || head.at[1] > from->length) return 0;
    struct span number = take(from, head.at[1]);
    if (number.at[0] & 0x80 || (number.length > 1 && number.at[0] == 0 && !(number.at[1] & 0x80))) return 0;
    if (number.at[0] == 0) take(&number, 1);
    if (number.length > 32) return 2;
    memset(to, 0, 32);
    if (number.length) memcpy(to + 32 - number.length, number.at, number.length);
    return 1;
}

/* R and S of a signature in strict DER with a byte behind. Returns 0 where it isn't one, or a number is over 32 bytes. */
static int numbers_of(struct span sig, unsigned char *compact) {
    if (sig.length < 9 || sig.length > 73) return 0;
    struct span rest = {sig.at, sig.length - 1}, head = take(&rest, 2);
    if (head.at[0] != 0x30 || head.at[1] != rest.length) return 0;
    int r = take_number(&rest, compact);
    int s = r ? take_number(&rest, compact + 32) : 0;
    return r == 1 && s == 1 && rest.length == 0;
}

static int is_key(struct span key, point_of_library *point) {
    return key.length == 33 && (key.at[0] == 2 || key.at[0] == 3) && secp256k1_ec_pubkey_parse(context, point, key.at, key.length);
}

static uint32_t expected(int has_point, const point_of_library *point, struct span hash, struct span sig) {
    unsigned char compact[64];
    signature_of_library made, low;
    if (!numbers_of(sig, compact) || hash.length != 32 || !has_point) return MSAT_BAD;
    if (!secp256k1_ecdsa_signature_parse_compact(context, &made, compact)) return MSAT_BAD;
    int is_high = secp256k1_ecdsa_signature_normalize(context, &low, &made);
    if (!secp256k1_ecdsa_verify(context, &low, hash.at, point)) return MSAT_BAD;
    return is_high ? MSAT_HIGH : MSAT_GOOD;
}

static void compare_points(struct span key, int has_point, const point_of_library *point) {
    uint8_t room[66] = {0}, other[65];
    size_t needed = 0, length = sizeof other;
    room[65] = 0xa5;
    uint32_t told = msat_point(key.at, key.length, room, 65, &needed);
    if (room[65] != 0xa5) fail("a byte behind the room is written");
    if (!has_point) {
        if (told != MSAT_NO_POINT || needed != 0) fail("a key without a point has one");
        return;
    }
    secp256k1_ec_pubkey_serialize(context, other, &length, point, UNCOMPRESSED);
    if (told != MSAT_DONE || needed != 65 || memcmp(room, other, 65)) fail("a key has another point");
}

static void write_counts(void) {
    const char *path = getenv("FUZZ_COUNTS");
    FILE *to = path ? fopen(path, "w") : NULL;
    if (!to) return;
    for (int i = 0; i < WORDS; i++)
        if (answers[i]) fprintf(to, "%s\t%d\t%lu\t%lu\n", words[i], i, answers[i], answers[i]);
    fclose(to);
}

int LLVMFuzzerTestOneInput(const uint8_t *data, size_t size) {
    if (!context) {
        context = secp256k1_context_create(VERIFY);
        atexit(write_counts);
    }
    struct span rest = {data, size}, lengths = take(&rest, 2);
    struct span key = take(&rest, lengths.length > 0 ? lengths.at[0] : 0), hash = take(&rest, lengths.length > 1 ? lengths.at[1] : 0);
    point_of_library point;
    int has_point = is_key(key, &point);
    uint32_t word = msat_signature(key.at, key.length, hash.at, hash.length, rest.at, rest.length);
    if (word != expected(has_point, &point, hash, rest)) fail("a signature is judged otherwise");
    compare_points(key, has_point, &point);
    answers[word]++;
    return 0;
}
