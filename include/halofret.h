/*
 * Halofret: written signs in Formal SignWriting, as ASCII (FSW) and as Unicode (SWU).
 *
 * The overflow policy. Nothing is cut short and no short result is handed out as a whole one.
 * A call that lacks room is refused as 6, and its place is the room needed.
 * A refused call changes no lent byte: out, list, spare, sign, styling and centre stay as they
 * were; in answer all numbers but the refusal and its place are 0.
 *
 * Every call takes any bytes and any numbers, and ends. answer[0] is the refusal number, 0 for
 * done; answer[1] is its place, but not in halofret_fetch, which tells none.
 *
 * Of several refusals the one named first at the function is given. swu is the character set of
 * the text passed in: false for FSW, true for SWU. A size list has two bytes, width then height,
 * for each code from 1.
 *
 * A query is passed with its edition. second is false for the first edition, which is in FSW; then
 * query_swu says nothing. It is true for the second, which joins alternatives of an item by o and
 * may seek null in the prefix; then query_swu is the query's own character set, whatever that of
 * the sign or the dictionary.
 *
 * Memory. Lent buffers must not overlap. A pointer that goes with a length or a room of 0 may be
 * null; sign, styling, centre and answer must not be. No call keeps a pointer, takes memory or has
 * a state: calls on different memory may run at the same time, and any number may read the same
 * text, size list or dictionary. halofret_sort needs 160 KB of stack below its caller,
 * halofret_narrow_sorted 32 KB, halofret_search and halofret_narrow 24 KB, halofret_write_styling
 * 13 KB, every other function 6 KB; the first call of a process takes 3 KB more where it has
 * memset or memcpy bound.
 *
 * Time grows with the length of what is lent, in halofret_fetch with that of both dictionaries,
 * whichever line is asked for; in halofret_sort also with n times the logarithm of n.
 */
#ifndef HALOFRET_H
#define HALOFRET_H

#include <stdbool.h>
#include <stddef.h>
#include <stdint.h>

#define HALOFRET_VERSION "0.6.0"

#ifdef __cplusplus
extern "C" {
#endif

/* The refusal numbers. The place is 0 where none is named. */
enum {
    HALOFRET_DONE = 0,
    HALOFRET_TEXT_WRONG = 1,          /* the text is wrong. Place: the offset of the first wrong
                                         byte, or of the first byte of the coordinate number
                                         that it is in; in SWU, of the four bytes that hold it;
                                         in a query and in a styling always of the byte. The
                                         place is 0 where the numbers of a styling are wrong */
    HALOFRET_TEXT_SHORT = 2,          /* the text stops early. Place: its length */
    HALOFRET_PREFIX_LONG = 3,         /* over 32 prefix symbols or prefix items */
    HALOFRET_SIGNBOX_LONG = 4,        /* over 64 signbox symbols, or 32 signbox items of a query */
    HALOFRET_RANGE_REVERSED = 5,      /* a range ends below its start. Place: the first such R */
    HALOFRET_ROOM_SHORT = 6,          /* out, list or spare is too short. Place: the room needed */
    HALOFRET_SIZES_LENGTH = 7,        /* the size list has not 125,184 bytes */
    HALOFRET_SYMBOL_UNSIZED = 8,      /* a signbox symbol has no size. Place: the first, from 1 */
    HALOFRET_NO_SYMBOLS = 9,          /* a sign without symbols has no box */
    HALOFRET_NUMBER_OUTSIDE = 10,     /* a number to be written leaves 250 to 749 */
    HALOFRET_LIST_WRONG = 11,         /* n is over the list, or its first n entries do not rise
                                         in 1 to the line count. In halofret_sort and in
                                         halofret_narrow_sorted, where their order is free: n is
                                         over the list, or one of its first n entries is not in 1
                                         to the line count or stands twice */
    HALOFRET_DICTIONARY_UNENDED = 12, /* a dictionary is neither empty nor ended by byte 10 */
    HALOFRET_LINE_WRONG = 13,         /* a line is no sign. Place: the first such line, from 1; in
                                         halofret_sort and in halofret_narrow_sorted the line of
                                         the first such entry of the list */
    HALOFRET_TOO_MANY = 14,           /* over 65,535 lines */
    HALOFRET_CODE_WRONG = 15,         /* the symbol code is over 62,592 */
    HALOFRET_ENTRY_ABSENT = 16,       /* no such entry */
    HALOFRET_ZOOM_OUTSIDE = 17,       /* a zoom of a styling leaves 0.01 to 99.99, or is spelled
                                         with over two decimals */
    HALOFRET_COLOUR_LONG = 18,        /* a colour name of a styling has over 24 letters */
    HALOFRET_STYLES_LONG = 19,        /* a styling has over 64 symbol styles */
    HALOFRET_ALTERNATIVES_LONG = 22   /* an item of a query has over 8 alternatives */
};

/* Sizes: in bytes those of texts and of the size list, else in numbers. */
enum {
    HALOFRET_KEY_LENGTH = 6,
    HALOFRET_CHARACTER_LENGTH = 4,
    HALOFRET_LONGEST_FSW = 1033,
    HALOFRET_LONGEST_SWU = 912,
    HALOFRET_LONGEST_STYLING = 3547, /* as halofret_write_styling writes it */
    HALOFRET_SIZES = 125184,
    HALOFRET_MOST_CODE = 62592,
    HALOFRET_MOST_PREFIX = 32,
    HALOFRET_MOST_SYMBOLS = 64,
    HALOFRET_MOST_ITEMS = 32,
    HALOFRET_MOST_ALTERNATIVES = 8,
    HALOFRET_MOST_LINES = 65535,
    HALOFRET_MOST_COLOUR = 24,
    HALOFRET_MOST_ZOOM = 9999,
    HALOFRET_MOST_STYLES = 64,
    HALOFRET_SIGN = 325,
    HALOFRET_COLOUR = 25,
    HALOFRET_STYLE = 53,
    HALOFRET_STYLING = 3472
};

/* The lengths of the answers. */
enum {
    HALOFRET_CODE_ANSWER = 3,
    HALOFRET_WRITTEN_ANSWER = 3,
    HALOFRET_READ_ANSWER = 2,
    HALOFRET_BOXES_ANSWER = 19,
    HALOFRET_QUERY_ANSWER = 2,
    HALOFRET_VERDICT_ANSWER = 36,
    HALOFRET_SEARCH_ANSWER = 4,
    HALOFRET_NARROW_ANSWER = 4,
    HALOFRET_SORT_ANSWER = 2,
    HALOFRET_FETCH_ANSWER = 4
};

/* The code of a symbol key: answer[2]. Refusals 1, 2. */
void halofret_key_to_code(const uint8_t *key, size_t key_len,
                          uint64_t answer[HALOFRET_CODE_ANSWER]);

/* The code of a symbol character in UTF-8: answer[2]. Refusals 1, 2. */
void halofret_char_to_code(const uint8_t *chr, size_t chr_len,
                           uint64_t answer[HALOFRET_CODE_ANSWER]);

/* Writes the key of a code at the start of out, its length in answer[2]. Refusals 15, 6. */
void halofret_code_to_key(uint64_t code, uint8_t *out, size_t room,
                          uint64_t answer[HALOFRET_WRITTEN_ANSWER]);

/* Writes the character of a code at the start of out, its length in answer[2]. Refusals 15, 6. */
void halofret_code_to_char(uint64_t code, uint8_t *out, size_t room,
                           uint64_t answer[HALOFRET_WRITTEN_ANSWER]);

/* Reads a sign. Writes to sign: marker (1 B, 2 L, 3 M, 4 R), maximum x, maximum y, prefix count,
 * symbol count, then 32 prefix codes, 64 symbol codes, 64 x and 64 y, then 32 prefix offsets and 64
 * symbol offsets, zeros in unused places. An offset is that of the byte of text where the symbol's
 * key, in SWU its character, begins. A sign and its transcription agree in the first 229 numbers.
 * Refusals 1, 2, 3, 4. */
void halofret_read(bool swu, const uint8_t *text, size_t len, uint16_t sign[HALOFRET_SIGN],
                   uint64_t answer[HALOFRET_READ_ANSWER]);

/* Writes the sign in the other character set at the start of out, its length in answer[2].
 * Refusals 1, 2, 3, 4, 6. */
void halofret_transcribe(bool swu, const uint8_t *text, size_t len, uint8_t *out, size_t room,
                         uint64_t answer[HALOFRET_WRITTEN_ANSWER]);

/* Reads a sign and the styling that must follow it. A styling is a dash, then each at most once
 * and in this order: C; P and two digits; G_colour_; D_colour_ or D_colour,colour_; Z and a zoom.
 * Then a second dash may come, with any number of D01_colour_ or D01_colour,colour_ and after these
 * any number of Z01,zoom, where 01 stands for any two digits. A colour is letters, or 3 or 6 hex
 * digits; a zoom is digits, or digits, a point and digits. In SWU too a styling is ASCII. No other
 * function but halofret_transcribe_styled takes a styling after a sign: the dash is 1 there, and 13
 * in a line of a dictionary.
 * Writes to sign what halofret_read writes, and to styling:
 *   [0] 1 for C; [1] 1 + padding; [2] zoom in hundredths; [3] how many colours D has; [4] how many
 *       symbol styles there are; each 0 for none
 *   [5..29] the colour of G, [30..54] the first of D, [55..79] its second
 *   [80 + 53 * i ..] symbol style i, from 0: kind (1 for D, 2 for Z), its two digits as a number,
 *       zoom in hundredths, first colour, second colour
 * A colour has 25 numbers: its length, 0 for none, then its bytes as spelled. Unused places hold
 * zeros. Refusals 1, 2, 17, 18, 19, 3, 4. */
void halofret_read_styled(bool swu, const uint8_t *text, size_t len, uint16_t sign[HALOFRET_SIGN],
                          uint16_t styling[HALOFRET_STYLING],
                          uint64_t answer[HALOFRET_READ_ANSWER]);

/* Writes the sign in the other character set and after it the bytes of its styling as they are, at
 * the start of out, the length of both in answer[2]. Refusals 1, 2, 17, 18, 19, 3, 4, 6. */
void halofret_transcribe_styled(bool swu, const uint8_t *text, size_t len, uint8_t *out,
                                size_t room, uint64_t answer[HALOFRET_WRITTEN_ANSWER]);

/* Writes the shortest text of a styling, its dash first, at the start of out, its length in
 * answer[2]. Reading it after a sign gives the same styling. styling may hold any numbers: those
 * that no text reads as are refused as 1 at 0. Refusals 1, 6. */
void halofret_write_styling(const uint16_t styling[HALOFRET_STYLING], uint8_t *out, size_t room,
                            uint64_t answer[HALOFRET_WRITTEN_ANSWER]);

/* The boxes of a sign: answer[2..16] has for head, head with trunk, and all: present, left, top,
 * right, bottom. answer[17] and [18] are twice the centre, x then y; centre is the centre itself.
 * x is the middle of the head box, y that of the box of head with trunk; each that of the box of
 * all where its own is not present. Refusals 1, 2, 3, 4, 7, 9, 8. */
void halofret_boxes(bool swu, const uint8_t *text, size_t len, const uint8_t *sizes,
                    size_t sizes_len, float centre[2], uint64_t answer[HALOFRET_BOXES_ANSWER]);

/* Writes the sign with all coordinates and the stated maximum moved, in its own character set, at
 * the start of out, its length in answer[2]. Refusals 1, 2, 3, 4, 10, 6. */
void halofret_shift(bool swu, const uint8_t *text, size_t len, int32_t dx, int32_t dy,
                    uint8_t *out, size_t room, uint64_t answer[HALOFRET_WRITTEN_ANSWER]);

/* Writes the sign with its centre, rounded down, moved to 500 by 500 and its maximum computed, in
 * its own character set, at the start of out, its length in answer[2]. Centring that text again
 * with the same sizes and room gives it again.
 * Refusals 1, 2, 3, 4, 7, 9, 8, 10, 6. */
void halofret_centred(bool swu, const uint8_t *text, size_t len, const uint8_t *sizes,
                      size_t sizes_len, uint8_t *out, size_t room,
                      uint64_t answer[HALOFRET_WRITTEN_ANSWER]);

/* Says whether a query can be read. Refusals 1, 2, 3, 4, 22, 5. */
void halofret_read_query(bool second, bool query_swu, const uint8_t *query, size_t query_len,
                         uint64_t answer[HALOFRET_QUERY_ANSWER]);

/* Whether the sign meets the query: answer[2] is 1 if so, and answer[4..35] then has for each
 * signbox item its first fitting symbol, from 1; otherwise answer[3] is the first condition unmet,
 * 0 for the prefix. Refusals of the query 1, 2, 3, 4, 22, 5, then of the sign 1, 2, 3, 4. */
void halofret_verdict(bool swu, bool second, bool query_swu, const uint8_t *query,
                      size_t query_len, const uint8_t *text, size_t len,
                      uint64_t answer[HALOFRET_VERDICT_ANSWER]);

/* Searches a dictionary: writes the numbers of the lines that meet the query at the start of list,
 * rising, nothing changed beyond. Q finds every line: 1 to the line count. answer[2] is the line
 * count, answer[3] how many entries were written. Room and the place of 6 count entries: what is
 * found must fit, not the whole dictionary. Every line is read, whatever the query.
 * Refusals 1, 2, 3, 4, 22, 5 of the query, then 12, 14, 13 for the first bad line, 6. */
void halofret_search(bool swu, const uint8_t *dict, size_t dict_len, uint16_t *list, size_t room,
                     bool second, bool query_swu, const uint8_t *query, size_t query_len,
                     uint64_t answer[HALOFRET_SEARCH_ANSWER]);

/* Narrows the first n entries of list to those that meet the query: they come first, rising, then
 * zeros to n, nothing changed beyond. n is how many a search wrote, or how many the last accepted
 * narrowing kept. answer[2] is how many were kept, answer[3] how many dropped.
 * Refusals 1, 2, 3, 4, 22, 5 of the query, then 12, 14, 11, 13 for the first bad line listed. */
void halofret_narrow(bool swu, const uint8_t *dict, size_t dict_len, uint16_t *list, size_t room,
                     size_t n, bool second, bool query_swu, const uint8_t *query, size_t query_len,
                     uint64_t answer[HALOFRET_NARROW_ANSWER]);

/* Sorts the first n entries of list by the prefixes of their signs, nothing changed beyond. Two
 * prefixes are compared symbol code by symbol code, from the first on; null has code 0. A prefix
 * comes before those that go on after it, signs without prefix come last, and entries of equal
 * prefixes stay in the order they stood. The entries may stand in any order, each once. spare is a
 * second list, which need not be the length of the first: its first n places hold zeros
 * afterwards, nothing changed beyond. Room, spare_room and the place of 6 count entries. Only the
 * lines listed are read.
 * Refusals 12, 14, 11, 13 for the first bad line in the list's order, 6 at n for spare. */
void halofret_sort(bool swu, const uint8_t *dict, size_t dict_len, uint16_t *list, size_t room,
                   size_t n, uint16_t *spare, size_t spare_room,
                   uint64_t answer[HALOFRET_SORT_ANSWER]);

/* Narrows as halofret_narrow does, but takes the first n entries in any order, each once, and
 * keeps them in it: those that meet the query come first, in the order they stood, then zeros to
 * n, nothing changed beyond. halofret_narrow refuses a list that halofret_sort has put in another
 * order as 11. answer[2] is how many were kept, answer[3] how many dropped.
 * Refusals 1, 2, 3, 4, 22, 5 of the query, then 12, 14, 11, 13 for the first bad line in the
 * list's order. */
void halofret_narrow_sorted(bool swu, const uint8_t *dict, size_t dict_len, uint16_t *list,
                            size_t room, size_t n, bool second, bool query_swu,
                            const uint8_t *query, size_t query_len,
                            uint64_t answer[HALOFRET_NARROW_ANSWER]);

/* Finds a line by a number that runs on from the first dictionary into the second. answer[1] is 0
 * for the first or 1 for the second, answer[2] the line's start there, answer[3] its length without
 * byte 10. There is no place here: it is always 0. Writes nothing else. Refusals 12, 14, 16. */
void halofret_fetch(const uint8_t *first, size_t first_len, const uint8_t *second,
                    size_t second_len, size_t number, uint64_t answer[HALOFRET_FETCH_ANSWER]);

#ifdef __cplusplus
}
#endif

#endif
