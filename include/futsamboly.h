/*
 * futsamboly.h: seals and opens the readings of a pipe-inspection tool with SSS, from C.
 *
 * The functions are those of the static library libcapi.a (x86-64), which is written and proved in Rattle: for every call that keeps the
 * four rules below, what a call answers and what it leaves in each buffer is proved to be what is said here.
 *
 * EVERY FUNCTION answers 0, or the number of a refusal (below). A refusal is no accident that has to be caught: lengths that do
 * not fit are refused, whatever they are. What a refusal leaves is said with each function.
 *
 * FOUR RULES that C cannot check for you:
 *   1. A pointer is not NULL, even where the length that follows it is 0, and one to a struct or to a size_t is aligned as its type is: so
 *      do not cast a pointer into a pool of bytes to a struct's.
 *   2. So many bytes can be read (and written, where the pointer is not const) as the length says.
 *   3. What is written does not overlap anything else that is passed to the same call.
 *   4. Until the call returns, nobody else, no thread, interrupt or DMA, writes what is passed or reads what the call writes.
 * Nothing is kept between calls but what lies in the memory that you lend, nothing is allocated, and no pointer is remembered.
 * Calls that write different memory may run at the same time, with one key or table between them.
 *
 * Words have 16 bits. In byte buffers the low byte of a word comes first.
 */
#ifndef FUTSAMBOLY_H
#define FUTSAMBOLY_H

#include <stddef.h>
#include <stdint.h>

#ifdef __cplusplus
extern "C" {
#endif

/* Refusals. The product has others, 5 and 11 to 14, which no function here answers. */
#define FUTSAMBOLY_OK 0u
#define FUTSAMBOLY_KEY 1u         /* the key has no bytes or more than 16 */
#define FUTSAMBOLY_TABLE 2u       /* the table does not keep the law: the 256 bytes i ^ (words[i] >> 8) are not all different */
#define FUTSAMBOLY_NONCE 3u       /* the nonce has an odd number of bytes, or more than 32 */
#define FUTSAMBOLY_EXHAUSTED 4u   /* all 65,536 message numbers of the run are issued */
#define FUTSAMBOLY_INPUT 6u       /* the input has an odd number of bytes, or more than 131,072 */
#define FUTSAMBOLY_MASKS 7u       /* there are not as many bytes of masks as of input */
#define FUTSAMBOLY_OUTPUT 8u      /* the output is shorter than the input, or the text does not fit */
#define FUTSAMBOLY_TAG_LENGTH 9u  /* the tag, or the buffer for it, has not 16 bytes */
#define FUTSAMBOLY_TAG_DIFFERS 10u /* the tag is not the one due */

/* ------------------------------------------------------------------ sealing */

/*
 * Where the nonces of one run come from: a message number that is issued twice under one key gives two messages away. Keep one for each run number,
 * start it with FUTSAMBOLY_ISSUER(run), and leave it to the calls that seal, which count `next` up. Where the count has to outlast a loss of
 * power, store `next` before anything of the message leaves the tool.
 */
typedef struct {
    uint32_t run;  /* the run number, yours to choose: a new one for each run of all tools that share a key */
    uint32_t next; /* the message number that is issued next, 0 to 65,535; above that all are issued */
} futsamboly_issuer;

/* To initialise one with, not to assign. */
#define FUTSAMBOLY_ISSUER(run) { (run), 0 }

/* The nonce that a message was sealed with: the run number, then the message number, low bytes first. The other end needs it to open. */
typedef struct {
    uint8_t bytes[6];
} futsamboly_nonce;

/*
 * Seals a message: `input` is the plaintext, `masks` says bit by bit what is sealed (0xFF 0xFF for a sealed word, 0x00 0x00 for an open one).
 * The wire words go to the front of `output`, the tag to `tag`, the nonce that was drawn to `nonce`.
 *
 * Refuses, looked for in this order:
 *   1, 4        nothing is changed, and no message number is used;
 *   6, 7, 8, 9  output and tag are as found; the message number is used up, and `nonce` says which it was.
 * Beyond input_length the output stays as found.
 */
uint32_t futsamboly_seal(const uint8_t *key, size_t key_length,
                         futsamboly_issuer *issuer,
                         const uint8_t *masks, size_t masks_length,
                         const uint8_t *input, size_t input_length,
                         uint8_t *output, size_t output_length,
                         uint8_t *tag, size_t tag_length,
                         futsamboly_nonce *nonce);

/*
 * Opens a message: `input` are the wire words. While the call runs, `output` holds plaintext that is not confirmed; when it returns, only where the
 * tag is the one due does the plaintext stand at the front of `output`.
 *
 * Refuses, looked for in this order:
 *   1, 3, 6, 7, 8, 9  nothing is changed;
 *   10                the tag is not the one due: the output is zero over input_length bytes.
 * Beyond input_length the output stays as found.
 */
uint32_t futsamboly_open(const uint8_t *key, size_t key_length,
                         const uint8_t *nonce, size_t nonce_length,
                         const uint8_t *masks, size_t masks_length,
                         const uint8_t *input, size_t input_length,
                         uint8_t *output, size_t output_length,
                         const uint8_t *tag, size_t tag_length);

/* ------------------------------------------- many messages under one key */

/*
 * The table of a key: fill it once, or burn it into memory (words in the machine's own byte order), and each message saves the filling. It is as
 * secret as the key. The calls below refuse a table that does not keep the law of the cipher; but the law is no check that a table is a key's: memory of
 * zeros and erased flash (all FF) keep it, and with those anyone can open what is sealed. So look at what futsamboly_fill_table answers.
 */
typedef struct {
    uint16_t words[256];
} futsamboly_table;

/* Fills the table of a key. Refuses 1: the table is as found. */
uint32_t futsamboly_fill_table(const uint8_t *key, size_t key_length, futsamboly_table *table);

/* As futsamboly_seal and futsamboly_open, by a table. Where those refuse 1, these refuse 2. */
uint32_t futsamboly_seal_with_table(const futsamboly_table *table,
                                    futsamboly_issuer *issuer,
                                    const uint8_t *masks, size_t masks_length,
                                    const uint8_t *input, size_t input_length,
                                    uint8_t *output, size_t output_length,
                                    uint8_t *tag, size_t tag_length,
                                    futsamboly_nonce *nonce);

uint32_t futsamboly_open_with_table(const futsamboly_table *table,
                                    const uint8_t *nonce, size_t nonce_length,
                                    const uint8_t *masks, size_t masks_length,
                                    const uint8_t *input, size_t input_length,
                                    uint8_t *output, size_t output_length,
                                    const uint8_t *tag, size_t tag_length);

/* ------------------------------------------------------- listing a tape */

/*
 * Lists an input, a byte N, N key bytes and a tape: what a new receiver makes of each command, a line each, as text. The text goes to the
 * front of `text`, with no zero behind it, and its length to `length`; the rest of `text` stays as found. What cannot be listed is
 * refused by the text itself, in its last line.
 *
 * Refuses 8, where the text does not fit: then all of `text` is zero, and `length` is as found. 12 bytes of room for each byte of input, and 24
 * more, always do.
 */
uint32_t futsamboly_list(const uint8_t *input, size_t input_length,
                         uint8_t *text, size_t text_length,
                         size_t *length);

/* --------------------------------------------- a receiver, word by word */

/*
 * A receiver, in memory that you lend. It takes the words of a message as they come, and hands each reading out or withholds it:
 *   whole   a message was begun, and no loss was told: readings are handed out, and the tag's verdict is AGREES or DIFFERS;
 *   lost    it is new, was told of a loss, or has ended a message: every word is withheld. Its row is how many sealed words came in a row since;
 *   caught  the seventeenth has come: readings are handed out again, but the tag's verdict is BROKEN.
 * Readings are handed out before any tag: none is confirmed until the verdict is AGREES.
 *
 * Set it up with futsamboly_receiver_new; the fields are then the calls' own. It holds the key, as secret as ever, and no table, so it is small; each
 * word works its four entries of the table out anew. The calls below refuse 1 where key_length is 0 or more than 16, as that of no receiver that was
 * set up; then nothing is changed.
 */
typedef struct {
    uint16_t cipher[17];
    uint16_t check[17];
    uint8_t key[16];    /* behind the key zeros */
    uint8_t key_length;
    uint8_t state;      /* 0 to 16: lost, with that row; 17: caught; 18: whole; any other counts as 0 */
} futsamboly_receiver;

/* What a receiver says to a word: its reading, or that it is withheld, and with which row. */
typedef struct {
    uint16_t reading;   /* the plaintext word; 0 where it is withheld */
    uint8_t handed_out; /* 1: reading is the reading; 0: it is withheld, do not use it */
    uint8_t row;        /* where it is withheld: how many sealed words came in a row; at 17 the next word is handed out. Else 0 */
} futsamboly_answer;

/* What a receiver says to a tag. */
#define FUTSAMBOLY_AGREES 1u  /* no loss since the begin, and the tag is the one drawn */
#define FUTSAMBOLY_DIFFERS 2u /* no loss since the begin, and the tag is another */
#define FUTSAMBOLY_BROKEN 3u  /* a loss was told, or no message was begun: there is nothing to compare */

/* A new receiver: lost, with row 0, its registers zero. Refuses 1: the receiver is as found. */
uint32_t futsamboly_receiver_new(futsamboly_receiver *receiver, const uint8_t *key, size_t key_length);

/* A message begins: the receiver is whole. Refuses 1, 3; then nothing is changed. */
uint32_t futsamboly_receiver_begin(futsamboly_receiver *receiver, const uint8_t *nonce, size_t nonce_length);

/*
 * A word came. A mask's bit that is 1 says that the wire word's bit is sealed. Both registers take the word, whatever the state. Only a word under the
 * mask 0xFFFF adds to the row; any other sets it to 0, and is withheld too while the receiver is lost. Refuses 1; then nothing is changed.
 */
uint32_t futsamboly_receiver_word(futsamboly_receiver *receiver, uint16_t mask, uint16_t wire, futsamboly_answer *answer);

/* Words were lost: the receiver withholds until it has taken seventeen sealed words in a row. Refuses 1; then nothing is changed. */
uint32_t futsamboly_receiver_break(futsamboly_receiver *receiver);

/* A tag came. The receiver is then lost, with row 0, its registers zero. Refuses 1, 9; then nothing is changed. */
uint32_t futsamboly_receiver_finish(futsamboly_receiver *receiver, const uint8_t *tag, size_t tag_length, uint8_t *verdict);

#ifdef __cplusplus
}
#endif

#endif
