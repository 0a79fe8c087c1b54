/*
 * Four wall thicknesses are sealed, sent, and opened again; then one byte is altered on the way.
 *
 * From the top of the repository, once `rt lib` in crates/capi has made the library, this builds and runs it:
 *
 *   mkdir -p target && cc -std=c99 -Wall -Wextra -Werror -Iinclude examples/c/seal.c crates/capi/out/libcapi.a -o target/seal && target/seal
 */
#include <stdio.h>
#include <string.h>

#include "futsamboly.h"

#define WORDS 4
#define BYTES (2 * WORDS)

static void print(const char *what, const uint8_t *bytes, size_t length)
{
    size_t i;
    printf("%-14s", what);
    for (i = 0; i < length; i++) printf(" %02x", bytes[i]);
    printf("\n");
}

int main(void)
{
    static const uint8_t key[8] = { 'F', 'u', 't', 's', 'a', 'm', 'b', 'o' };

    /* Hundredths of a millimetre, the low byte of each word first. */
    static const uint8_t readings[BYTES] = { 0xac, 0x03, 0xb0, 0x03, 0xd1, 0x03, 0x52, 0x04 };

    /* FF FF: the word is sealed. 00 00: it stays open, and is covered by the tag all the same. */
    static const uint8_t masks[BYTES] = { 0xff, 0xff, 0xff, 0xff, 0x00, 0x00, 0xff, 0xff };

    /* One issuer for each run of the tool; it counts the messages, so that no nonce comes twice. */
    futsamboly_issuer issuer = FUTSAMBOLY_ISSUER(1207);

    futsamboly_nonce nonce;
    uint8_t wire[BYTES], tag[16], opened[BYTES];
    uint32_t answer;

    answer = futsamboly_seal(key, sizeof key, &issuer, masks, sizeof masks, readings, sizeof readings,
                             wire, sizeof wire, tag, sizeof tag, &nonce);
    if (answer != FUTSAMBOLY_OK) {
        printf("not sealed: refusal %u\n", (unsigned)answer);
        return 1;
    }
    print("readings", readings, sizeof readings);
    print("wire", wire, sizeof wire);
    print("tag", tag, sizeof tag);
    print("nonce", nonce.bytes, sizeof nonce.bytes);

    /* The other end has the key and the masks, and gets the nonce, the wire words and the tag. */
    answer = futsamboly_open(key, sizeof key, nonce.bytes, sizeof nonce.bytes, masks, sizeof masks, wire, sizeof wire,
                             opened, sizeof opened, tag, sizeof tag);
    print("opened", opened, sizeof opened);
    if (answer != FUTSAMBOLY_OK || memcmp(opened, readings, sizeof readings) != 0) {
        printf("not opened as it was: answer %u\n", (unsigned)answer);
        return 1;
    }

    /* One byte is another on the way: the tag is not the one due, and no reading is handed out. */
    wire[2] ^= 0x01;
    answer = futsamboly_open(key, sizeof key, nonce.bytes, sizeof nonce.bytes, masks, sizeof masks, wire, sizeof wire,
                             opened, sizeof opened, tag, sizeof tag);
    print("altered wire", wire, sizeof wire);
    printf("%-14s %u\n", "refused", (unsigned)answer);
    print("then", opened, sizeof opened);
    return answer == FUTSAMBOLY_TAG_DIFFERS ? 0 : 1;
}
