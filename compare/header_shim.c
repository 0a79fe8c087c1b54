/*
 * The functions of include/futsamboly.h, called as that header says, for callers that are not C; and what a C compiler makes of the
 * header's structs and numbers. ffi.rs has the other side of it.
 */
#include "futsamboly.h"

/* Each wrapper below has just the type that the header gives the function which it calls: any other is a compile-time error. */
#define AS_THE_HEADER(name) extern __typeof__(futsamboly_##name) header_##name
AS_THE_HEADER(fill_table);
AS_THE_HEADER(seal);
AS_THE_HEADER(seal_with_table);
AS_THE_HEADER(open);
AS_THE_HEADER(open_with_table);
AS_THE_HEADER(list);
AS_THE_HEADER(receiver_new);
AS_THE_HEADER(receiver_begin);
AS_THE_HEADER(receiver_word);
AS_THE_HEADER(receiver_break);
AS_THE_HEADER(receiver_finish);

uint32_t header_fill_table(const uint8_t *key, size_t key_length, futsamboly_table *table)
{
    return futsamboly_fill_table(key, key_length, table);
}

uint32_t header_seal(const uint8_t *key, size_t key_length, futsamboly_issuer *issuer, const uint8_t *masks, size_t masks_length,
                     const uint8_t *input, size_t input_length, uint8_t *output, size_t output_length, uint8_t *tag, size_t tag_length,
                     futsamboly_nonce *nonce)
{
    return futsamboly_seal(key, key_length, issuer, masks, masks_length, input, input_length, output, output_length, tag, tag_length, nonce);
}

uint32_t header_seal_with_table(const futsamboly_table *table, futsamboly_issuer *issuer, const uint8_t *masks, size_t masks_length,
                                const uint8_t *input, size_t input_length, uint8_t *output, size_t output_length, uint8_t *tag,
                                size_t tag_length, futsamboly_nonce *nonce)
{
    return futsamboly_seal_with_table(table, issuer, masks, masks_length, input, input_length, output, output_length, tag, tag_length, nonce);
}

uint32_t header_open(const uint8_t *key, size_t key_length, const uint8_t *nonce, size_t nonce_length, const uint8_t *masks,
                     size_t masks_length, const uint8_t *input, size_t input_length, uint8_t *output, size_t output_length,
                     const uint8_t *tag, size_t tag_length)
{
    return futsamboly_open(key, key_length, nonce, nonce_length, masks, masks_length, input, input_length, output, output_length, tag, tag_length);
}

uint32_t header_open_with_table(const futsamboly_table *table, const uint8_t *nonce, size_t nonce_length, const uint8_t *masks,
                                size_t masks_length, const uint8_t *input, size_t input_length, uint8_t *output, size_t output_length,
                                const uint8_t *tag, size_t tag_length)
{
    return futsamboly_open_with_table(table, nonce, nonce_length, masks, masks_length, input, input_length, output, output_length, tag, tag_length);
}

uint32_t header_list(const uint8_t *input, size_t input_length, uint8_t *text, size_t text_length, size_t *length)
{
    return futsamboly_list(input, input_length, text, text_length, length);
}

uint32_t header_receiver_new(futsamboly_receiver *receiver, const uint8_t *key, size_t key_length)
{
    return futsamboly_receiver_new(receiver, key, key_length);
}

uint32_t header_receiver_begin(futsamboly_receiver *receiver, const uint8_t *nonce, size_t nonce_length)
{
    return futsamboly_receiver_begin(receiver, nonce, nonce_length);
}

uint32_t header_receiver_word(futsamboly_receiver *receiver, uint16_t mask, uint16_t wire, futsamboly_answer *answer)
{
    return futsamboly_receiver_word(receiver, mask, wire, answer);
}

uint32_t header_receiver_break(futsamboly_receiver *receiver) { return futsamboly_receiver_break(receiver); }

uint32_t header_receiver_finish(futsamboly_receiver *receiver, const uint8_t *tag, size_t tag_length, uint8_t *verdict)
{
    return futsamboly_receiver_finish(receiver, tag, tag_length, verdict);
}

/* Sizes, and places of fields, in the order in which ffi.rs has them. */
const size_t header_layout[] = {
    sizeof(futsamboly_issuer),   offsetof(futsamboly_issuer, next),
    sizeof(futsamboly_nonce),
    sizeof(futsamboly_table),
    sizeof(futsamboly_receiver), offsetof(futsamboly_receiver, check),     offsetof(futsamboly_receiver, key),
                                 offsetof(futsamboly_receiver, key_length), offsetof(futsamboly_receiver, state),
    sizeof(futsamboly_answer),   offsetof(futsamboly_answer, handed_out),  offsetof(futsamboly_answer, row),
};
const size_t header_layout_length = sizeof header_layout / sizeof header_layout[0];

/* The header's numbers, in the order in which ffi.rs has them. */
const uint32_t header_numbers[] = {
    FUTSAMBOLY_OK,     FUTSAMBOLY_KEY,   FUTSAMBOLY_TABLE,  FUTSAMBOLY_NONCE,      FUTSAMBOLY_EXHAUSTED,
    FUTSAMBOLY_INPUT,  FUTSAMBOLY_MASKS, FUTSAMBOLY_OUTPUT, FUTSAMBOLY_TAG_LENGTH, FUTSAMBOLY_TAG_DIFFERS,
    FUTSAMBOLY_AGREES, FUTSAMBOLY_DIFFERS, FUTSAMBOLY_BROKEN,
};
const size_t header_numbers_length = sizeof header_numbers / sizeof header_numbers[0];

/* An issuer as the header starts it. */
const futsamboly_issuer header_issuer = FUTSAMBOLY_ISSUER(0x01020304u);
