// The words of signatures by libsecp256k1, to be measured beside the proved call. A line `KEY HASH SIG` of standard input, in hex digits, gives
// the word of its judgement; DER is read by that library, less strictly. Usage: curve_libsecp256k1 TIMES.
#include <secp256k1.h>
#include <stdio.h>
#include <stdlib.h>
#include <string.h>

static size_t bytes_of(const char *digits, unsigned char *bytes) {
    size_t count = 0;
    for (; digits[0] && digits[1]; digits += 2, count++) {
        unsigned byte;
        if (sscanf(digits, "%2x", &byte) != 1) break;
        bytes[count] = (unsigned char)byte;
    }
    return count;
}

static const char *judge(const secp256k1_context *context, const unsigned char *key, size_t key_len, const unsigned char *hash,
                         const unsigned char *sig, size_t sig_len) {
    secp256k1_pubkey point;
    secp256k1_ecdsa_signature numbers;
    if (!secp256k1_ec_pubkey_parse(context, &point, key, key_len)) return "bad";
    if (sig_len == 0 || !secp256k1_ecdsa_signature_parse_der(context, &numbers, sig, sig_len - 1)) return "bad";
    int high = secp256k1_ecdsa_signature_normalize(context, &numbers, &numbers);
    if (!secp256k1_ecdsa_verify(context, &numbers, hash, &point)) return "bad";
    return high ? "high" : "good";
}

int main(int count, char **words) {
    int times = count > 1 ? atoi(words[1]) : 1;
    secp256k1_context *context = secp256k1_context_create(SECP256K1_CONTEXT_VERIFY);
    char key_digits[200], hash_digits[200], sig_digits[200];
    while (scanf("%199s %199s %199s", key_digits, hash_digits, sig_digits) == 3) {
        unsigned char key[100], hash[100], sig[100];
        size_t key_len = bytes_of(key_digits, key), sig_len = bytes_of(sig_digits, sig);
        const char *word = "bad";
        bytes_of(hash_digits, hash);
        for (int i = 0; i < times; i++) word = judge(context, key, key_len, hash, sig, sig_len);
        puts(word);
    }
    secp256k1_context_destroy(context);
    return 0;
}
