/*
 * The other author's fast C, reference/fast.c, for callers outside that file. That file is taken as it is: only its main has another name
 * here, since the program that this is linked into has its own.
 */
#define main fast_main
#include "../reference/fast.c"
#undef main

size_t fast_key_size(void) { return sizeof(sss_key); }

/* 0, or 1 where the key does not fit. */
int fast_load(sss_key *key, const uint8_t *bytes, size_t length) { return sss_load(key, bytes, (int)length); }

void fast_seal(const sss_key *key, const uint8_t *nonce, size_t nonce_length, const uint8_t *masks, const uint8_t *input, uint8_t *output,
               size_t length, uint8_t *tag)
{
    sss_seal(key, nonce, (int)nonce_length, masks, input, output, length, tag);
}

/* 0, or 10 where the tag is not the one due. */
int fast_open(const sss_key *key, const uint8_t *nonce, size_t nonce_length, const uint8_t *masks, const uint8_t *input, uint8_t *output,
              size_t length, const uint8_t *tag)
{
    return sss_open(key, nonce, (int)nonce_length, masks, input, output, length, tag);
}

/* The core clock in GHz, as that file's own benchmark estimates it: by a chain of dependent multiplications. */
double fast_core_ghz(void) { return core_ghz(); }
