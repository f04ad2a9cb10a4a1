/* Zulmyren: texts in which every byte remembers where it came from. docs/RULES.md has the exact rules.
 *
 * BUILD AND LINK
 *   examples/redact.c is a whole program. From the root of the source it is built with these three lines:
 *     (cd crates/zulmyren_c && rt lib)
 *     mkdir -p target
 *     gcc -std=c99 -Iinclude -o target/redact_example examples/redact.c crates/zulmyren_c/out/libzulmyren_c.a
 *   With a release, take -Idist/include and dist/lib/libzulmyren.a. Beside these, only a C library is needed, for
 *   memcpy and memset.
 *
 * TWO WAYS TO CALL
 *   Most calls are here twice. First come the calls as the library has them, on plain pointers and numbers
 *   (zulmyren_replace), with what each of them does. After them come inline functions on structs
 *   (zulmyren_note_replace), which pass the parts on. Prefer these: a plain call takes up to 31 pointers and numbers,
 *   and no compiler sees where two of one type are exchanged.
 *
 * WORDS
 *   text        bytes in UTF-8, the usual encoding: a character (a letter, a digit, a sign) has one to four bytes.
 *               "Well-formed" means that the bytes are valid UTF-8. A byte of value 0 is a character and ends nothing.
 *   note        five things that belong together:
 *                 original         the transcript: the text as it was first written down
 *                 normalized       the cleaned text: the text as it is now
 *                 starts, ends     one number each for every byte of the cleaned text. starts[i]..ends[i] is the
 *                                  alignment of byte i: the bytes of the transcript that it came from
 *                 original_shift   how many bytes of a longer transcript come before this one; 0 if none do
 *   code point  the number of a character in Unicode: 0 to 0x10FFFF, without 0xD800 to 0xDFFF. 0x78 is the letter x.
 *   literal     the bytes that are searched for.
 *   filler      content: the bytes that take the place of what is blanked.
 *   scratch     buffers that a call works in. What they hold after it is no part of the result.
 *   start..end  a range: the bytes from start up to end, the one at end not included. start == end is an empty range.
 *   _len        how many elements the pointer before it points to.
 *   len         in an answer: how many elements the result has. Of a text or a match list these are bytes; of a list
 *               of pieces, pieces.
 *   "Rust:"     names the function of the Rust crate tokenizers 0.23.2 that a call follows.
 *
 * WHAT THE NUMBERS COUNT
 *   Positions, ranges, alignments and shifts count bytes, and so do the lengths of texts. The first byte is at 0.
 *   Three answers count characters: zulmyren_letter_count, zulmyren_char_offsets with zulmyren_char_offsets_all, and
 *   zulmyren_get_splits where it is asked to. Of what is passed to a call, an edit's initial_offset and the removals of
 *   a script count characters; zulmyren_map takes one code point for each character, zulmyren_filter one flag.
 *   In C all of these are plain numbers: the compiler cannot tell them apart.
 *
 * WHAT THE CALLER HAS TO SEE TO (no call can check it, and where it does not hold anything may happen)
 *   - A pointer is valid for as many elements as its _len says. Where that is 0 it may be anything, NULL too.
 *   - A pointer to uint16_t or uint32_t is aligned as C asks for that type.
 *   - A buffer that the call writes (its pointer is not const) does not overlap any other buffer of the same call.
 *     Buffers that are only read may overlap: a fresh note's original and normalized can be one pointer.
 *   - While a call runs, nobody else writes what was passed to it, and nobody else reads what it writes.
 *   - The thread has enough stack (below).
 *   Nothing is asked of the contents: every call has an answer for any bytes and any numbers.
 *
 * WHAT A CALL ANSWERS
 *   zulmyren_well_formed answers true or false. Every other call answers 0 where it accepts. Where it refuses, it
 *   answers one of these numbers; all other numbers of the answer are then 0, or false. zulmyren_refusal_word has the
 *   words.
 *      1  torn           a text, a literal, a filler, or a string to append or prepend is not well-formed
 *      2  overlong       a text has more than 65,535 bytes, or original_shift + original_len is more than 65,535; or
 *                        there are more than 65,535 pairs
 *      3  uneven         starts_len, ends_len and normalized_len are not all equal; or a list of ranges has not as
 *                        many ends as starts; or the sizes of the words of pairs do not fit the words
 *      4  stray          the alignments are not those of a note. All of this has to hold: starts[i] <= ends[i] <=
 *                        original_len; no start or end is inside a character of the transcript; all bytes of one
 *                        character of the cleaned text have the same alignment; starts[i] <= starts[i + 1] and
 *                        ends[i] <= ends[i + 1]
 *      5  off place      either end of a range is greater than the text's length or inside a character; for a letter
 *                        count and for a cleaned range to edit, also start > end
 *      6  bad script     an edit script has an unknown command, a cut one, a number that is no code point, or a
 *                        removal of 0; or zulmyren_map is passed a number that is no code point
 *      7  nothing left   an edit is to replace a character, and its range has none any more
 *      8  broken list    a match list (below) does not cover the cleaned text
 *      9  no room        a buffer is too small for the result, or the resulting text has more than 65,535 bytes; or
 *                        scratch is too small
 *     10  nothing there  a range or a pair has no answer; each call says when
 *     11  miscounted     code points or flags are not one for each character of the cleaned text
 *   A comment names the refusals of its call in the order in which they are checked. That is always 2, 3, 1, 4, 6, 8,
 *   11, 5, 10, 7, 9, and the first one that applies is given. Literals, fillers, scripts and lists may be of any
 *   length, and so may strings to append or prepend.
 *
 * WHAT A CALL WRITES
 *   Nothing where it refuses. Where it accepts, it writes its result to the front of each buffer. What comes after the
 *   result stays as it was. Scratch is the exception: where the call accepts, all of it may have changed. Only
 *   zulmyren_replace_by_edits takes scratch.
 *
 * TIME, STACK AND THREADS
 *   No call allocates anything, or keeps anything from one call to the next. Calls may run on any threads at once, as
 *   long as none of them writes a buffer that another one was passed.
 *   The time is at most proportional to what is passed and written, with four exceptions. Finding a literal
 *   (zulmyren_find_matches, and every zulmyren_redact...) can at worst take the length of the text times that of the
 *   literal. In zulmyren_convert_all each range can at worst go over the whole note again. zulmyren_redact_all checks
 *   and searches the whole note again for each pair; and for each pair it clears some 1,000,000 bytes of its stack,
 *   however short the note is. zulmyren_replace_by_edits writes the whole text and its alignments again for each
 *   matched place.
 *   Stack: zulmyren_redact_all takes some 1,600,000 bytes and zulmyren_char_offsets_all some 70,000, whatever they are
 *   passed. Every other call takes a few thousand at most. In zulmyren_lowercase 1,536 of these are a table that the
 *   call makes. Some systems give a thread less than zulmyren_redact_all takes. Give such a thread a stack of 2 MiB or
 *   more.
 */
#ifndef ZULMYREN_H
#define ZULMYREN_H

#include <stdbool.h>
#include <stddef.h>
#include <stdint.h>

#define ZULMYREN_VERSION_MAJOR 0
#define ZULMYREN_VERSION_MINOR 12
#define ZULMYREN_VERSION_PATCH 0
#define ZULMYREN_VERSION "0.12.0"

#ifdef __cplusplus
extern "C" {
#endif

/* The most bytes of a text, of a shift and a transcript together, and the most pairs. A buffer with so many elements
 * has room for any text, for any column of alignments, and for the counts of any pairs. Scratch with twice as many is
 * always large enough. */
enum { ZULMYREN_LIMIT = 65535 };

/* The refusals, by their words. */
enum {
    ZULMYREN_ACCEPTED = 0,
    ZULMYREN_TORN = 1,
    ZULMYREN_OVERLONG = 2,
    ZULMYREN_UNEVEN = 3,
    ZULMYREN_STRAY = 4,
    ZULMYREN_OFF_PLACE = 5,
    ZULMYREN_BAD_SCRIPT = 6,
    ZULMYREN_NOTHING_LEFT = 7,
    ZULMYREN_BROKEN_LIST = 8,
    ZULMYREN_NO_ROOM = 9,
    ZULMYREN_NOTHING_THERE = 10,
    ZULMYREN_MISCOUNTED = 11
};

/* The word of a refusal: "accepted" for 0, "unknown" for a number that no call answers. */
static inline const char *zulmyren_refusal_word(uint32_t refusal)
{
    switch (refusal) {
    case ZULMYREN_ACCEPTED: return "accepted";
    case ZULMYREN_TORN: return "torn";
    case ZULMYREN_OVERLONG: return "overlong";
    case ZULMYREN_UNEVEN: return "uneven";
    case ZULMYREN_STRAY: return "stray";
    case ZULMYREN_OFF_PLACE: return "off place";
    case ZULMYREN_BAD_SCRIPT: return "bad script";
    case ZULMYREN_NOTHING_LEFT: return "nothing left";
    case ZULMYREN_BROKEN_LIST: return "broken list";
    case ZULMYREN_NO_ROOM: return "no room";
    case ZULMYREN_NOTHING_THERE: return "nothing there";
    case ZULMYREN_MISCOUNTED: return "miscounted";
    default: return "unknown";
    }
}

/* ==== ANSWERS ==== */

/* What a call wrote: len elements in each of its buffers; or a refusal and 0. */
typedef struct {
    uint32_t refusal;
    size_t len;
} zulmyren_written;

/* How many letters there are; or a refusal and 0. */
typedef struct {
    uint32_t refusal;
    uint32_t count;
} zulmyren_count;

/* Two numbers; or a refusal and 0, 0. */
typedef struct {
    uint32_t refusal;
    uint32_t start;
    uint32_t end;
} zulmyren_offsets;

/* Which bytes of the two texts a slice has, and its shift; or a refusal and 0s. */
typedef struct {
    uint32_t refusal;
    uint32_t original_start;
    uint32_t original_end;
    uint32_t normalized_start;
    uint32_t normalized_end;
    uint32_t original_shift;
} zulmyren_sliced;

/* How many bytes are published, and how many matches of the literal gave way to the filler; or a refusal and 0s. */
typedef struct {
    uint32_t refusal;
    size_t len;
    size_t matches;
} zulmyren_redaction;

/* How many bytes are published; how many literals had no match; how many literals have a match in what is published;
 * and how many fillers have a match in the note as it was passed; or a refusal and 0s. */
typedef struct {
    uint32_t refusal;
    size_t len;
    size_t not_found;
    size_t left;
    size_t fillers_found;
} zulmyren_redactions;

/* Yes or no; or a refusal and false. */
typedef struct {
    uint32_t refusal;
    bool alike;
} zulmyren_comparison;

/* How many bytes the cleaned text had before, and how many it has now; or a refusal and 0s. */
typedef struct {
    uint32_t refusal;
    size_t before_len;
    size_t len;
} zulmyren_cleared;

/* How many pieces there are, and how many alignments they have together; or a refusal and 0s. */
typedef struct {
    uint32_t refusal;
    size_t len;
    size_t alignments_len;
} zulmyren_cut;

/* ==== TEXTS ==== */

/* Whether a text is well-formed (the Unicode Standard, Table 3-7). The text may be of any length: no limit applies. */
bool zulmyren_well_formed(const uint8_t *text, size_t text_len);

/* How many letters the bytes start..end of a text are: one for each character, however many bytes it has. An empty
 * range has none. Refusals: 2, 1, 5 (either end is greater than text_len or inside a character, or start > end). */
zulmyren_count zulmyren_letter_count(const uint8_t *text, size_t text_len, uint32_t start, uint32_t end);

/* Which characters two bytes of a text belong to, counted from 0 (Rust: BytesToCharOffsetConverter::convert). start
 * and end are positions in bytes, in any order; the answer's start and end are characters. Where end is not in the
 * text: if end == text_len, the answer's end is the last character plus 1; if end > text_len, it is the answer's start
 * plus 2.
 * Refusals: 2, 1, 10 (start >= text_len). */
zulmyren_offsets zulmyren_char_offsets(const uint8_t *text, size_t text_len, uint32_t start, uint32_t end);

/* The same for a list of pairs starts[i], ends[i], in one pass over the text where the list is in order. For each pair
 * i, numbers[i] becomes 0 and char_starts[i], char_ends[i] the answer; or, where starts[i] >= text_len, they become
 * 10, 0 and 0. Refusals: 2, 3 (starts_len differs from ends_len), 1, 9.
 * Room, needed and enough: starts_len elements in each of the three. */
uint32_t zulmyren_char_offsets_all(
    const uint8_t *text, size_t text_len,
    const uint32_t *starts, size_t starts_len, const uint32_t *ends, size_t ends_len,
    uint8_t *numbers, size_t numbers_len,
    uint32_t *char_starts, size_t char_starts_len, uint32_t *char_ends, size_t char_ends_len);

/* ==== NOTES ==== */

/* Whether these five things are a note. Every call that takes a note checks the same. Refusals: 2, 3, 1, 4. */
uint32_t zulmyren_check_note(
    const uint8_t *original, size_t original_len, const uint8_t *normalized, size_t normalized_len,
    const uint16_t *starts, size_t starts_len, const uint16_t *ends, size_t ends_len, uint32_t original_shift);

/* The note of a fresh text (Rust: NormalizedString::from). Its original and its normalized are both the text, and its
 * shift is 0. The call writes its starts and ends: for each byte the range of the character that the byte belongs to.
 * Refusals: 2, 1, 9.
 * Room, needed and enough: text_len elements in each of the two. */
uint32_t zulmyren_from_text(
    const uint8_t *text, size_t text_len, uint16_t *starts, size_t starts_len, uint16_t *ends, size_t ends_len);

/* ==== RANGES OF A NOTE: of_original says which text start..end is a range of; true the transcript, false the cleaned
 * text ==== */

/* A range of one text as a range of the other (Rust: convert_offsets). An empty range is answered as it is, even past
 * the text.
 * - From the cleaned text to the transcript: starts[start]..ends[end - 1].
 * - From the transcript to the cleaned text: let k be the number of alignments with ends[i] <= end; ends never go
 *   back, so these are the first k. The answer ends at k. It begins at the least i below k with starts[i] >= start and
 *   starts[i] != ends[i], and at k where there is none.
 * Refusals: 2, 3, 1, 4, 10 (start > end; a range of the cleaned text with end > normalized_len; one of the transcript
 * with k == 0; but never an empty range). */
zulmyren_offsets zulmyren_convert_offsets(
    const uint8_t *original, size_t original_len, const uint8_t *normalized, size_t normalized_len,
    const uint16_t *starts, size_t starts_len, const uint16_t *ends, size_t ends_len, uint32_t original_shift,
    bool of_original, uint32_t start, uint32_t end);

/* zulmyren_convert_offsets for a list of ranges from[i]..to[i], all of the same text; the note is checked once. For
 * each range i, numbers[i] becomes 0 and out_starts[i], out_ends[i] the answer; or, where the range alone would be
 * refused, they become 10, 0 and 0. Refusals: 2, 3 (also where from_len differs from to_len), 1, 4, 9.
 * Room, needed and enough: from_len elements in each of the three. */
uint32_t zulmyren_convert_all(
    const uint8_t *original, size_t original_len, const uint8_t *normalized, size_t normalized_len,
    const uint16_t *starts, size_t starts_len, const uint16_t *ends, size_t ends_len, uint32_t original_shift,
    bool of_original, const uint32_t *from, size_t from_len, const uint32_t *to, size_t to_len,
    uint8_t *numbers, size_t numbers_len,
    uint32_t *out_starts, size_t out_starts_len, uint32_t *out_ends, size_t out_ends_len);

/* Where in the cleaned text a range of either text can be read (Rust: get_range); and where in the transcript
 * (get_range_original). A range of the other text is converted first. Refusals: 2, 3, 1, 4, 10 (converting says 10;
 * or, in the text that is read, either end is greater than its length or inside a character, or start > end. This is so
 * for empty ranges too). */
zulmyren_offsets zulmyren_get_range(
    const uint8_t *original, size_t original_len, const uint8_t *normalized, size_t normalized_len,
    const uint16_t *starts, size_t starts_len, const uint16_t *ends, size_t ends_len, uint32_t original_shift,
    bool of_original, uint32_t start, uint32_t end);
zulmyren_offsets zulmyren_get_range_original(
    const uint8_t *original, size_t original_len, const uint8_t *normalized, size_t normalized_len,
    const uint16_t *starts, size_t starts_len, const uint16_t *ends, size_t ends_len, uint32_t original_shift,
    bool of_original, uint32_t start, uint32_t end);

/* Whether start..end of one of two texts can be handed out as a text of its own; nothing is converted.
 * Refusals: 2 and 1 (of either text), 10 (either end is greater than the length of the text that of_original names, or
 * inside a character; or start > end). */
uint32_t zulmyren_part_verdict(
    const uint8_t *original, size_t original_len, const uint8_t *normalized, size_t normalized_len,
    bool of_original, uint32_t start, uint32_t end);

/* ==== SLICES ==== */

/* Cuts a note out of a note (Rust: slice). start..end is a range of the transcript or of the cleaned text, as
 * of_original says; in the other text it is what zulmyren_convert_offsets answers. The slice is a note of these parts:
 * - Its transcript is original_start..original_end of original. Its cleaned text is normalized_start..normalized_end of
 *   normalized. The call writes no text: these bytes are in the note.
 * - Its alignments are those of its cleaned bytes, each number less original_start. They become the first
 *   normalized_end - normalized_start elements of out_starts and out_ends.
 * - Its shift is the note's plus original_start.
 * An empty range gives an empty slice, at the same number in both texts. This number may be greater than a text's
 * length, and there is no byte to take. So the shift of an empty slice can be more than 65,535; every call that is
 * passed this slice as a note refuses it with 2. A slice can have bytes of the transcript and none of the cleaned text.
 * Refusals: 2, 3, 1, 4, 5 (either end is greater than the length of the text that of_original names, or inside a
 * character of it), 10 (start > end; zulmyren_convert_offsets says 10; an empty range of the transcript with start >
 * normalized_len), 9.
 * Room, always enough: normalized_len elements in each of the two. */
zulmyren_sliced zulmyren_slice(
    const uint8_t *original, size_t original_len, const uint8_t *normalized, size_t normalized_len,
    const uint16_t *starts, size_t starts_len, const uint16_t *ends, size_t ends_len, uint32_t original_shift,
    bool of_original, uint32_t start, uint32_t end,
    uint16_t *out_starts, size_t out_starts_len, uint16_t *out_ends, size_t out_ends_len);

/* ==== MATCHES. A match list is bytes, five for each place: 11 (unmatched) or 12 (matched); then the place's start and
 * its end in the cleaned text, two bytes each, the lower byte first. zulmyren_read_place reads a place.
 * A list covers a text when all of this holds. The first place starts at 0, each next one where the one before it ends,
 * and the last one ends at the text's length. No place has start > end or an end inside a character. No byte but 11 or
 * 12 begins a place, and no bytes are left over. Empty places are fine. A list without places covers the empty text
 * only. ==== */

enum { ZULMYREN_PLACE_LEN = 5, ZULMYREN_UNMATCHED = 11, ZULMYREN_MATCHED = 12 };

/* A place of a match list: kind is ZULMYREN_UNMATCHED or ZULMYREN_MATCHED. */
typedef struct {
    uint8_t kind;
    uint16_t start;
    uint16_t end;
} zulmyren_place;

/* The place with this index, counted from 0. The list has more than index places: len / ZULMYREN_PLACE_LEN of them. */
static inline zulmyren_place zulmyren_read_place(const uint8_t *list, size_t index)
{
    const uint8_t *bytes = list + index * ZULMYREN_PLACE_LEN;
    zulmyren_place place;
    place.kind = bytes[0];
    place.start = (uint16_t)(bytes[1] | bytes[2] << 8);
    place.end = (uint16_t)(bytes[3] | bytes[4] << 8);
    return place;
}

/* Writes a place at this index, for a list of one's own. The list has room for index + 1 places. */
static inline void zulmyren_write_place(uint8_t *list, size_t index, zulmyren_place place)
{
    uint8_t *bytes = list + index * ZULMYREN_PLACE_LEN;
    bytes[0] = place.kind;
    bytes[1] = (uint8_t)(place.start & 255);
    bytes[2] = (uint8_t)(place.start >> 8);
    bytes[3] = (uint8_t)(place.end & 255);
    bytes[4] = (uint8_t)(place.end >> 8);
}

/* Finds a literal in a text (Rust: find_matches of &str) and writes a match list that covers the text, len bytes, to
 * out. The matches are its matched places. They are found from the left, and each search goes on at the end of the
 * match before. An empty literal matches nothing. Refusals: 2 (the text), 1 (text or literal), 9.
 * Room, always enough: 5 * (2 * (text_len / literal_len) + 1) bytes where literal_len > 0, and 5 where it is 0. In
 * less room, if the list fits, the text is searched twice. */
zulmyren_written zulmyren_find_matches(
    const uint8_t *text, size_t text_len, const uint8_t *literal, size_t literal_len, uint8_t *out, size_t out_len);

/* A note in which the filler, content, takes the place of what every matched place had (Rust: replace). The first len
 * elements of out, out_starts and out_ends become the published note: its text and its alignments. Bytes of unmatched
 * places keep their alignments. Every byte of the filler gets that of the byte just before the end of its place, which
 * is starts[end - 1]..ends[end - 1]; and 0..0 where that end is 0. The result's transcript and shift are the note's
 * own.
 * Refusals: 2, 3, 1 (either text or the filler), 4, 8, 9 (any of the three buffers is too small, or len would be over
 * 65,535).
 * Room, always enough: normalized_len elements in each of the three where the filler is no longer than the shortest
 * matched place or nothing is matched, and else 65,535. */
zulmyren_written zulmyren_replace(
    const uint8_t *original, size_t original_len, const uint8_t *normalized, size_t normalized_len,
    const uint16_t *starts, size_t starts_len, const uint16_t *ends, size_t ends_len, uint32_t original_shift,
    const uint8_t *list, size_t list_len, const uint8_t *content, size_t content_len,
    uint8_t *out, size_t out_len,
    uint16_t *out_starts, size_t out_starts_len, uint16_t *out_ends, size_t out_ends_len);

/* The same by a second road, for whoever wants to check the first: FOR WORK, CALL zulmyren_replace. The matched places
 * are edited one by one, the last of the list first. Each is edited as a range of the cleaned text (Rust:
 * transform_range): all its characters are passed over, and each character of the filler is added. Where the scratch is
 * large enough, the answer is that of zulmyren_replace, and so is what out, out_starts and out_ends hold afterwards
 * (proved: ExportedRoad).
 * THIS IS SLOW where many places are matched, even empty ones: the time grows with their number times the length of the
 * texts.
 * SCRATCH is two sets of three buffers: first with its two columns, and second with its two columns. An edit reads one
 * set and writes the other. Between edits the text may have more than 65,535 bytes. Where the call accepts, all six
 * hold anything afterwards. Where it refuses, they are as they were.
 * Refusals: 2, 3, 1 (either text or the filler), 4, 8, 9 (any of the first three buffers is too small, or len would be
 * over 65,535; or any of the six scratch buffers has fewer elements than normalized_len + len, even where nothing is
 * matched).
 * Room, always enough: in each of the first three as in zulmyren_replace; in each of the six 131,070. In each of the
 * six normalized_len + len are needed and enough. */
zulmyren_written zulmyren_replace_by_edits(
    const uint8_t *original, size_t original_len, const uint8_t *normalized, size_t normalized_len,
    const uint16_t *starts, size_t starts_len, const uint16_t *ends, size_t ends_len, uint32_t original_shift,
    const uint8_t *list, size_t list_len, const uint8_t *content, size_t content_len,
    uint8_t *out, size_t out_len,
    uint16_t *out_starts, size_t out_starts_len, uint16_t *out_ends, size_t out_ends_len,
    uint8_t *first, size_t first_len,
    uint16_t *first_starts, size_t first_starts_len, uint16_t *first_ends, size_t first_ends_len,
    uint8_t *second, size_t second_len,
    uint16_t *second_starts, size_t second_starts_len, uint16_t *second_ends, size_t second_ends_len);

/* Whether two notes are published alike: whether zulmyren_replace, with the same match list and the same filler, gives
 * the same bytes and the same alignments for both. That is so exactly when two things hold. The two notes have the same
 * bytes and alignments outside the matched places. And, if the filler is not empty, they have the same alignment at the
 * byte just before the end of each matched place that does not end at 0. Of the second note, other is the cleaned text.
 * Refusals: those of zulmyren_replace with buffers of 65,535 elements, for either note: 2, 3, 1, 4, 8, 9. The first
 * that applies to the one or the other is given: a list that does not cover the first note is 8, but 2 if the second
 * note is overlong. alike is false where it refuses. */
zulmyren_comparison zulmyren_published_alike(
    const uint8_t *original, size_t original_len, const uint8_t *normalized, size_t normalized_len,
    const uint16_t *starts, size_t starts_len, const uint16_t *ends, size_t ends_len, uint32_t original_shift,
    const uint8_t *other_original, size_t other_original_len, const uint8_t *other, size_t other_len,
    const uint16_t *other_starts, size_t other_starts_len, const uint16_t *other_ends, size_t other_ends_len,
    uint32_t other_shift,
    const uint8_t *list, size_t list_len, const uint8_t *content, size_t content_len);

/* ==== BLANKING BY LITERALS. All three calls find and replace at once, and say how often. A literal that is not found
 * is no refusal: a misspelt name is accepted, and leaves the text as it is. So look at the numbers before you hand
 * anything out. ==== */

/* Blanks every match of a literal in a fresh text. It gives what zulmyren_from_text, zulmyren_find_matches and
 * zulmyren_replace publish one after the other, in one call that needs no list and no columns of the fresh note. The
 * published note becomes the first len elements of out, out_starts and out_ends. matches is 0 where the literal was not
 * found. The literal can still be in the result: aab with ab replaced by b is ab.
 * Refusals: 2 (the text), 1 (text, literal or filler), 9 (a buffer is too small, or len would be over 65,535).
 * Room, always enough: text_len where content_len <= literal_len or literal_len is 0, and else 65,535. */
zulmyren_redaction zulmyren_redact(
    const uint8_t *text, size_t text_len, const uint8_t *literal, size_t literal_len,
    const uint8_t *content, size_t content_len,
    uint8_t *out, size_t out_len,
    uint16_t *out_starts, size_t out_starts_len, uint16_t *out_ends, size_t out_ends_len);

/* The same in a note, which may have been edited before: zulmyren_find_matches in its cleaned text, and
 * zulmyren_replace by that list. The match list becomes the front of list, and the published note the first len
 * elements of out, out_starts and out_ends. Its transcript and shift are the note's own. The answer does not have the
 * list's length: the list ends with the place whose end is normalized_len.
 * Refusals: 2, 3, 1 (either text, the literal or the filler), 4, 9 (any of the four buffers is too small, or len would
 * be over 65,535).
 * Room, always enough: for the list as in zulmyren_find_matches; for each of the other three normalized_len where
 * content_len <= literal_len or literal_len is 0, and else 65,535. */
zulmyren_redaction zulmyren_redact_note(
    const uint8_t *original, size_t original_len, const uint8_t *normalized, size_t normalized_len,
    const uint16_t *starts, size_t starts_len, const uint16_t *ends, size_t ends_len, uint32_t original_shift,
    const uint8_t *literal, size_t literal_len, const uint8_t *content, size_t content_len,
    uint8_t *list, size_t list_len, uint8_t *out, size_t out_len,
    uint16_t *out_starts, size_t out_starts_len, uint16_t *out_ends, size_t out_ends_len);

/* Blanks several literals in a note, each by its filler: the first one, then the second one in what the first left, and
 * so on. words has the bytes of all literals and fillers end to end, sizes the number of bytes of each of them:
 *
 *           pair 0                pair 1
 *           literal   filler      literal   filler
 *   words   José      [finder]    nest 12   [nest]    without gaps: José[finder]nest 12[nest]; words_len is 26
 *   sizes   5         8           7         6         é has two bytes; sizes_len is 4
 *
 * The published note becomes the first len elements of out, out_starts and out_ends. Its transcript and shift are the
 * note's own. For each pair i, counted from 0, one number is written to each of three columns:
 *   blanked[i]   how many matches of the literal gave way to the filler
 *   left[i]      how many matches the literal has in the published text
 *   fillers[i]   how many matches the filler has in the cleaned text as it was passed
 * The answer has, beside len, how many elements of blanked are 0 (not_found), how many of left are not 0 (left), and
 * how many of fillers are not 0 (fillers_found). A literal or filler without a byte matches nothing, so an empty
 * literal is never found. No pairs are fine: then the note is published as it is.
 *
 * BEFORE YOU PUBLISH, see that the call accepted and that these three are 0:
 *   not_found      else a literal is not in the note, or not any more: perhaps it is misspelt
 *   left           else a literal can still be read. left is 0 exactly when no literal that has a byte occurs anywhere
 *                  in the published text (proved: NothingLeft)
 *   fillers_found  else a reader cannot tell which of the fillers are blanks, and perhaps a literal and its filler were
 *                  exchanged
 * That is about the literals as they are spelt, and about nothing else: docs/OFFICE.md.
 *
 * Refusals: 2 (also more than 65,535 pairs), 3 (also an odd sizes_len, or sizes whose sum is not words_len), 1 (also a
 * literal or a filler), 4, 9 (after one of the pairs the text has more than 65,535 bytes, even if a later one makes it
 * shorter; or any of the six buffers is too small).
 * Room, always enough: in each of the first three normalized_len where no filler is longer than its literal, and else
 * 65,535; in each of the last three sizes_len / 2, which is needed too. Stack: some 1,600,000 bytes. */
zulmyren_redactions zulmyren_redact_all(
    const uint8_t *original, size_t original_len, const uint8_t *normalized, size_t normalized_len,
    const uint16_t *starts, size_t starts_len, const uint16_t *ends, size_t ends_len, uint32_t original_shift,
    const uint8_t *words, size_t words_len, const uint32_t *sizes, size_t sizes_len,
    uint8_t *out, size_t out_len,
    uint16_t *out_starts, size_t out_starts_len, uint16_t *out_ends, size_t out_ends_len,
    uint32_t *blanked, size_t blanked_len, uint32_t *left, size_t left_len, uint32_t *fillers, size_t fillers_len);

/* ==== EDITS. Each writes the note that it leaves: the first len elements of out, out_starts and out_ends become its
 * cleaned text and its alignments; its transcript and its shift are the note's own. Every call takes that note again.
 * To edit it once more, pass these as normalized, starts and ends, and three other buffers for the new result.
 *
 * Room: as many elements in each of the three as the result has. 65,535 are always enough; each call says what else.
 *
 * A SCRIPT is bytes, one command after the other:
 *   1  replace             the byte 1, then a code point in four bytes, the lowest first
 *   2  add                 the byte 2, then a code point in four bytes, the lowest first
 *   3  replace and remove  the byte 3, then a code point in four bytes, the lowest first, then a count, 1 or more, in
 *                          two bytes, the lower first
 * So the five bytes 1, 0x78, 0, 0, 0 replace a character by x. A position goes through the range, from its start on
 * and from character to character:
 * - Command 1 puts its character in the place of the one at the position, and the position moves on past it. The new
 *   character has the alignment of the old one.
 * - Command 2 puts its character in, and the position stays. The new character has the alignment of the byte before
 *   the position in the note as it was passed, also where that byte is gone by now; and 0..0 where the position is 0.
 * - Command 3 is command 1, and then as many more characters as its count says are removed; fewer where the range has
 *   no more.
 * The characters of the commands take the place of the whole range: what no command came to is gone too, and an empty
 * script removes the range.
 *
 * THE WHOLE RANGE is what zulmyren_transform, zulmyren_map, zulmyren_lowercase, zulmyren_filter and zulmyren_clear
 * edit. It is what zulmyren_convert_offsets answers for the whole transcript: from the first byte of the cleaned text
 * whose alignment is not empty up to the text's end. Of a note as zulmyren_from_text made it that is all of the text.
 * Bytes at the front with empty alignments are not in it, and stay: zulmyren_prepend of an empty string leaves such
 * bytes. Where all alignments are empty the range is empty: it is at the text's end, or at 0 where the transcript is
 * empty. So all of the text stays. Where the cleaned text is empty and the transcript is not, there is no range, and
 * nothing is done. ==== */

/* The commands of a script. */
enum { ZULMYREN_REPLACE = 1, ZULMYREN_ADD = 2, ZULMYREN_REPLACE_REMOVE = 3 };

/* Edits a range by a script (Rust: transform_range): a range of the transcript where of_original is true, else one of
 * the cleaned text. A range of the transcript is converted as by zulmyren_convert_offsets; where that says 10, the
 * note is written as it is. The first initial_offset characters of the range are passed over before the first command,
 * all of them if there are fewer, and are gone.
 * Refusals: 2, 3, 1, 4, 6 (the script, whole, also where the range is not edited), 5 (the range in the cleaned text,
 * after converting), 7 (command 1 or 3 comes where the range has ended), 9 (any of the three buffers is too small, or
 * len would be over 65,535).
 * Room, always enough: normalized_len + 4 * (script_len / 5). */
zulmyren_written zulmyren_transform_range(
    const uint8_t *original, size_t original_len, const uint8_t *normalized, size_t normalized_len,
    const uint16_t *starts, size_t starts_len, const uint16_t *ends, size_t ends_len, uint32_t original_shift,
    bool of_original, uint32_t start, uint32_t end,
    const uint8_t *script, size_t script_len, uint32_t initial_offset,
    uint8_t *out, size_t out_len,
    uint16_t *out_starts, size_t out_starts_len, uint16_t *out_ends, size_t out_ends_len);

/* The same of the whole range (Rust: transform). Refusals: 2, 3, 1, 4, 6, 7, 9. Room: the same. */
zulmyren_written zulmyren_transform(
    const uint8_t *original, size_t original_len, const uint8_t *normalized, size_t normalized_len,
    const uint16_t *starts, size_t starts_len, const uint16_t *ends, size_t ends_len, uint32_t original_shift,
    const uint8_t *script, size_t script_len, uint32_t initial_offset,
    uint8_t *out, size_t out_len,
    uint16_t *out_starts, size_t out_starts_len, uint16_t *out_ends, size_t out_ends_len);

/* Replaces every character of the cleaned text (Rust: map): codes has a code point for each of them, in order, and
 * each new character has the alignment of the old one.
 * Refusals: 2, 3, 1, 4, 6 (a number that is no code point), 11 (codes_len is not the number of characters of the
 * cleaned text), 7 (one of these characters is not in the whole range), 9.
 * Room, always enough: 4 * codes_len. */
zulmyren_written zulmyren_map(
    const uint8_t *original, size_t original_len, const uint8_t *normalized, size_t normalized_len,
    const uint16_t *starts, size_t starts_len, const uint16_t *ends, size_t ends_len, uint32_t original_shift,
    const uint32_t *codes, size_t codes_len,
    uint8_t *out, size_t out_len,
    uint16_t *out_starts, size_t out_starts_len, uint16_t *out_ends, size_t out_ends_len);

/* Makes the cleaned text lowercase (Rust: lowercase), for characters up to U+017F: the Unicode blocks Basic Latin,
 * Latin-1 Supplement and Latin Extended-A. A character becomes its lowercase letter (UnicodeData.txt, field 13), and
 * stays where it has none. The new character has the alignment of the old one, and as many bytes.
 * ONE BECOMES TWO: U+0130, a capital I with a dot above, becomes i and U+0307, the dot. Both have its alignment. They
 * have three bytes together, and it had two. So len is normalized_len and one more for each U+0130.
 * NOTHING ABOVE U+017F CHANGES, even where Unicode has a lowercase letter: U+0391 (Greek), U+0410 (Cyrillic), U+1E9E,
 * and U+212A, which looks like K.
 * To make the result lowercase again changes nothing (proved: LowercasedTwice).
 * Refusals: 2, 3, 1, 4, 7 (the first alignment is empty: its character is not in the whole range), 9 (any of the three
 * buffers is too small, or len would be over 65,535).
 * Room, always enough: normalized_len + normalized_len / 2. */
zulmyren_written zulmyren_lowercase(
    const uint8_t *original, size_t original_len, const uint8_t *normalized, size_t normalized_len,
    const uint16_t *starts, size_t starts_len, const uint16_t *ends, size_t ends_len, uint32_t original_shift,
    uint8_t *out, size_t out_len,
    uint16_t *out_starts, size_t out_starts_len, uint16_t *out_ends, size_t out_ends_len);

/* Drops characters of the cleaned text (Rust: filter): flags has a byte for each of them, in order, 0 to drop it and
 * any other to keep it. Where the whole range is all of the text, what is kept keeps its alignment. Else the characters
 * outside that range stay in any case, and the range becomes what is kept of the whole text, the i-th character with
 * the alignment of the range's i-th: of ab, after zulmyren_prepend of an empty string, keeping a alone leaves aa.
 * Refusals: 2, 3, 1, 4, 11 (flags_len is not the number of characters of the cleaned text), 7 (the i-th is kept, and
 * the whole range has no i-th), 9.
 * Room, always enough: normalized_len where the whole range is all of the text, else twice that. */
zulmyren_written zulmyren_filter(
    const uint8_t *original, size_t original_len, const uint8_t *normalized, size_t normalized_len,
    const uint16_t *starts, size_t starts_len, const uint16_t *ends, size_t ends_len, uint32_t original_shift,
    const uint8_t *flags, size_t flags_len,
    uint8_t *out, size_t out_len,
    uint16_t *out_starts, size_t out_starts_len, uint16_t *out_ends, size_t out_ends_len);

/* Puts a string after the cleaned text (Rust: append). Its bytes have the alignment of the text's last byte, 0..0
 * where the text is empty. Refusals: 2, 3, 1 (either text or the string), 4, 9.
 * Room, needed and enough: normalized_len + string_len. */
zulmyren_written zulmyren_append(
    const uint8_t *original, size_t original_len, const uint8_t *normalized, size_t normalized_len,
    const uint16_t *starts, size_t starts_len, const uint16_t *ends, size_t ends_len, uint32_t original_shift,
    const uint8_t *string, size_t string_len,
    uint8_t *out, size_t out_len,
    uint16_t *out_starts, size_t out_starts_len, uint16_t *out_ends, size_t out_ends_len);

/* Puts a string before the cleaned text (Rust: prepend). Its bytes have the alignment of the text's first character.
 * TWO EXCEPTIONS: an empty text stays empty, whatever the string is; and an empty string leaves the text as it is, but
 * its first character then has the alignment 0..0. Refusals: 2, 3, 1 (either text or the string), 4, 9.
 * Room, needed and enough: normalized_len + string_len, and none where the text is empty. */
zulmyren_written zulmyren_prepend(
    const uint8_t *original, size_t original_len, const uint8_t *normalized, size_t normalized_len,
    const uint16_t *starts, size_t starts_len, const uint16_t *ends, size_t ends_len, uint32_t original_shift,
    const uint8_t *string, size_t string_len,
    uint8_t *out, size_t out_len,
    uint16_t *out_starts, size_t out_starts_len, uint16_t *out_ends, size_t out_ends_len);

/* Removes the whole range (Rust: clear, which answers before_len). THIS NEED NOT EMPTY THE TEXT: what is not in that
 * range is left, in the first len elements of the three buffers. Refusals: 2, 3, 1, 4, 9.
 * Room, always enough: normalized_len. */
zulmyren_cleared zulmyren_clear(
    const uint8_t *original, size_t original_len, const uint8_t *normalized, size_t normalized_len,
    const uint16_t *starts, size_t starts_len, const uint16_t *ends, size_t ends_len, uint32_t original_shift,
    uint8_t *out, size_t out_len,
    uint16_t *out_starts, size_t out_starts_len, uint16_t *out_ends, size_t out_ends_len);

/* ==== PIECES. A match list and a behaviour cut a note into pieces. The behaviour says what becomes of the matched
 * places:
 *   1  removed               the pieces are the unmatched places
 *   2  isolated              every place is a piece
 *   3  merged with previous  a piece begins at each place, except at a matched one straight after an unmatched one
 *   4  merged with next      a piece ends at each place, except at a matched one straight before an unmatched one
 *   5  contiguous            a piece begins where matched and unmatched places change ==== */

/* The behaviours. */
enum {
    ZULMYREN_REMOVED = 1,
    ZULMYREN_ISOLATED = 2,
    ZULMYREN_MERGED_WITH_PREVIOUS = 3,
    ZULMYREN_MERGED_WITH_NEXT = 4,
    ZULMYREN_CONTIGUOUS = 5
};

/* Cuts a note into pieces (Rust: NormalizedString::split; with drop_empty PreTokenizedString::split, which drops the
 * pieces that have no byte of the cleaned text). ANY BEHAVIOUR BUT 1 TO 4 MEANS 5, 0 too: no number is refused.
 * Each piece is what zulmyren_slice gives for its range of the cleaned text. The first len elements of four buffers
 * become, for piece i:
 *   piece_starts[i]..piece_ends[i]   its range of the cleaned text
 *   piece_shifts[i]                  its shift
 *   piece_lengths[i]                 how many bytes its transcript has: those of original from piece_shifts[i] -
 *                                    original_shift on
 * The first alignments_len elements of out_starts and out_ends become the alignments of all pieces, one piece after the
 * other. Each number is counted from where its piece's transcript starts.
 * Refusals: 2, 3, 1, 4, 8, 9.
 * Room, always enough: list_len / 5 elements in each of the first four, normalized_len in each of the last two. */
zulmyren_cut zulmyren_split(
    const uint8_t *original, size_t original_len, const uint8_t *normalized, size_t normalized_len,
    const uint16_t *starts, size_t starts_len, const uint16_t *ends, size_t ends_len, uint32_t original_shift,
    const uint8_t *list, size_t list_len, uint32_t behavior, bool drop_empty,
    uint16_t *piece_starts, size_t piece_starts_len, uint16_t *piece_ends, size_t piece_ends_len,
    uint32_t *piece_shifts, size_t piece_shifts_len, uint16_t *piece_lengths, size_t piece_lengths_len,
    uint16_t *out_starts, size_t out_starts_len, uint16_t *out_ends, size_t out_ends_len);

/* Where the pieces are that have a byte of the cleaned text (Rust: get_splits, without tokens). ANY BEHAVIOUR BUT 1 TO
 * 4 MEANS 5, 0 too: no number is refused. The first len elements of out_starts and out_ends become the two numbers of
 * each piece.
 * - of_original true: its shift, and its shift plus the length of its transcript.
 * - of_original false: the sum of the lengths of the pieces before it, and this plus its own length. So these are its
 *   places in the cleaned text, unless behaviour 1 removed something before it.
 * These count bytes. With in_chars the two numbers, of either kind, are taken as two bytes of original and become the
 * characters that zulmyren_char_offsets answers for them. A shifted number and a place in the cleaned text are counted
 * so too, by the characters of this note's own transcript, where they need not belong.
 * CHARACTERS AND BYTES CAN BE MIXED: where zulmyren_char_offsets says 10, because the first number is original_len or
 * more, both numbers stay bytes, and nothing in the answer tells which pairs these are. The Rust does the same.
 * Refusals: 2, 3, 1, 4, 8, 9.
 * Room, always enough: the lesser of list_len / 5 and normalized_len elements in each of the two. */
zulmyren_written zulmyren_get_splits(
    const uint8_t *original, size_t original_len, const uint8_t *normalized, size_t normalized_len,
    const uint16_t *starts, size_t starts_len, const uint16_t *ends, size_t ends_len, uint32_t original_shift,
    const uint8_t *list, size_t list_len, uint32_t behavior, bool of_original, bool in_chars,
    uint32_t *out_starts, size_t out_starts_len, uint32_t *out_ends, size_t out_ends_len);

/* ==== THE SAME CALLS ON STRUCTS. zulmyren_note_replace passes a note to zulmyren_replace, zulmyren_text_redact a text
 * to zulmyren_redact, and so on. Only two are named otherwise: zulmyren_note_check is for zulmyren_check_note, and
 * zulmyren_note_redact for zulmyren_redact_note. What is said of a plain call holds of both: refusals, room and all.
 * A struct whose name ends in output has the buffers that a call writes. In C99, fill a struct by the names of its
 * fields: zulmyren_list_output out = {.bytes = list, .len = 100}. ==== */

/* Bytes of each kind: a filler does not pass for a literal. */
typedef struct {
    const uint8_t *bytes;
    size_t len;
} zulmyren_text;

typedef struct {
    const uint8_t *bytes;
    size_t len;
} zulmyren_literal;

typedef struct {
    const uint8_t *bytes;
    size_t len;
} zulmyren_filler;

typedef struct {
    const uint8_t *bytes;
    size_t len;
} zulmyren_list;

typedef struct {
    const uint8_t *bytes;
    size_t len;
} zulmyren_script;

static inline zulmyren_text zulmyren_text_of(const void *bytes, size_t len)
{
    zulmyren_text text;
    text.bytes = (const uint8_t *)bytes;
    text.len = len;
    return text;
}

static inline zulmyren_literal zulmyren_literal_of(const void *bytes, size_t len)
{
    zulmyren_literal literal;
    literal.bytes = (const uint8_t *)bytes;
    literal.len = len;
    return literal;
}

static inline zulmyren_filler zulmyren_filler_of(const void *bytes, size_t len)
{
    zulmyren_filler filler;
    filler.bytes = (const uint8_t *)bytes;
    filler.len = len;
    return filler;
}

static inline zulmyren_list zulmyren_list_of(const void *bytes, size_t len)
{
    zulmyren_list list;
    list.bytes = (const uint8_t *)bytes;
    list.len = len;
    return list;
}

static inline zulmyren_script zulmyren_script_of(const void *bytes, size_t len)
{
    zulmyren_script script;
    script.bytes = (const uint8_t *)bytes;
    script.len = len;
    return script;
}

/* A note. */
typedef struct {
    const uint8_t *original;
    size_t original_len;
    const uint8_t *normalized;
    size_t normalized_len;
    const uint16_t *starts;
    size_t starts_len;
    const uint16_t *ends;
    size_t ends_len;
    uint32_t original_shift;
} zulmyren_note;

/* A range of the transcript, where of_original is true, or of the cleaned text. */
typedef struct {
    bool of_original;
    uint32_t start;
    uint32_t end;
} zulmyren_range;

static inline zulmyren_range zulmyren_original_range(uint32_t start, uint32_t end)
{
    zulmyren_range range;
    range.of_original = true;
    range.start = start;
    range.end = end;
    return range;
}

static inline zulmyren_range zulmyren_normalized_range(uint32_t start, uint32_t end)
{
    zulmyren_range range;
    range.of_original = false;
    range.start = start;
    range.end = end;
    return range;
}

/* A list of ranges, or of pairs of positions. */
typedef struct {
    const uint32_t *starts;
    size_t starts_len;
    const uint32_t *ends;
    size_t ends_len;
} zulmyren_ranges;

/* Buffers for the answers to such a list. */
typedef struct {
    uint8_t *numbers;
    size_t numbers_len;
    uint32_t *starts;
    size_t starts_len;
    uint32_t *ends;
    size_t ends_len;
} zulmyren_answers_output;

/* Buffers for a published or edited note, or a set of scratch. */
typedef struct {
    uint8_t *text;
    size_t text_len;
    uint16_t *starts;
    size_t starts_len;
    uint16_t *ends;
    size_t ends_len;
} zulmyren_output;

/* Buffers for alignments alone. */
typedef struct {
    uint16_t *starts;
    size_t starts_len;
    uint16_t *ends;
    size_t ends_len;
} zulmyren_alignments_output;

/* A buffer for a match list. */
typedef struct {
    uint8_t *bytes;
    size_t len;
} zulmyren_list_output;

/* How to cut: a behaviour, ZULMYREN_REMOVED to ZULMYREN_CONTIGUOUS, and whether to drop empty pieces. */
typedef struct {
    uint32_t behavior;
    bool drop_empty;
} zulmyren_split_options;

/* Buffers for the pieces. */
typedef struct {
    uint16_t *piece_starts;
    size_t piece_starts_len;
    uint16_t *piece_ends;
    size_t piece_ends_len;
    uint32_t *piece_shifts;
    size_t piece_shifts_len;
    uint16_t *piece_lengths;
    size_t piece_lengths_len;
    uint16_t *starts;
    size_t starts_len;
    uint16_t *ends;
    size_t ends_len;
} zulmyren_pieces_output;

/* What to ask of the pieces: a behaviour, of which text, and whether in characters. */
typedef struct {
    uint32_t behavior;
    bool of_original;
    bool in_chars;
} zulmyren_get_splits_options;

/* Buffers for the two numbers of each piece. */
typedef struct {
    uint32_t *starts;
    size_t starts_len;
    uint32_t *ends;
    size_t ends_len;
} zulmyren_splits_output;

/* Pairs, in two buffers: words has room for words_room bytes and holds words_len of them; so it is with sizes. Begin
 * with both lengths 0, and add one pair after the other. */
typedef struct {
    uint8_t *words;
    size_t words_room;
    size_t words_len;
    uint32_t *sizes;
    size_t sizes_room;
    size_t sizes_len;
} zulmyren_pairs;

/* Adds a pair and answers true. Where one of the two buffers has no room for it, it adds nothing and answers false. */
static inline bool zulmyren_add_pair(zulmyren_pairs *pairs, zulmyren_literal literal, zulmyren_filler filler)
{
    size_t room = pairs->words_room - pairs->words_len;
    size_t i;
    if (literal.len != (uint32_t)literal.len || filler.len != (uint32_t)filler.len)
        return false;
    if (pairs->sizes_room - pairs->sizes_len < 2 || literal.len > room || filler.len > room - literal.len)
        return false;
    for (i = 0; i < literal.len; i++)
        pairs->words[pairs->words_len++] = literal.bytes[i];
    for (i = 0; i < filler.len; i++)
        pairs->words[pairs->words_len++] = filler.bytes[i];
    pairs->sizes[pairs->sizes_len++] = (uint32_t)literal.len;
    pairs->sizes[pairs->sizes_len++] = (uint32_t)filler.len;
    return true;
}

/* Buffers for the three numbers of each pair. */
typedef struct {
    uint32_t *blanked;
    size_t blanked_len;
    uint32_t *left;
    size_t left_len;
    uint32_t *fillers;
    size_t fillers_len;
} zulmyren_counts_output;

/* ---- Texts ---- */

static inline uint32_t zulmyren_text_char_offsets_all(
    zulmyren_text text, const zulmyren_ranges *pairs, const zulmyren_answers_output *out)
{
    return zulmyren_char_offsets_all(
        text.bytes, text.len, pairs->starts, pairs->starts_len, pairs->ends, pairs->ends_len,
        out->numbers, out->numbers_len, out->starts, out->starts_len, out->ends, out->ends_len);
}

static inline zulmyren_written zulmyren_text_find_matches(
    zulmyren_text text, zulmyren_literal literal, zulmyren_list_output out)
{
    return zulmyren_find_matches(text.bytes, text.len, literal.bytes, literal.len, out.bytes, out.len);
}

static inline zulmyren_redaction zulmyren_text_redact(
    zulmyren_text text, zulmyren_literal literal, zulmyren_filler filler, const zulmyren_output *out)
{
    return zulmyren_redact(
        text.bytes, text.len, literal.bytes, literal.len, filler.bytes, filler.len,
        out->text, out->text_len, out->starts, out->starts_len, out->ends, out->ends_len);
}

/* ---- Notes ---- */

/* Makes the note of a fresh text in *note, with its alignments in these columns. Text and columns have to stay as long
 * as the note is used. A refusal leaves *note as it was. */
static inline uint32_t zulmyren_note_from_text(
    zulmyren_note *note, zulmyren_text text, const zulmyren_alignments_output *columns)
{
    uint32_t refusal = zulmyren_from_text(
        text.bytes, text.len, columns->starts, columns->starts_len, columns->ends, columns->ends_len);
    if (refusal == ZULMYREN_ACCEPTED) {
        note->original = text.bytes;
        note->original_len = text.len;
        note->normalized = text.bytes;
        note->normalized_len = text.len;
        note->starts = columns->starts;
        note->starts_len = text.len;
        note->ends = columns->ends;
        note->ends_len = text.len;
        note->original_shift = 0;
    }
    return refusal;
}

/* The note that a call made of *note in these buffers, len elements in each: to be passed to the next call, which needs
 * three other buffers. */
static inline zulmyren_note zulmyren_note_edited(const zulmyren_note *note, const zulmyren_output *out, size_t len)
{
    zulmyren_note edited = *note;
    edited.normalized = out->text;
    edited.normalized_len = len;
    edited.starts = out->starts;
    edited.starts_len = len;
    edited.ends = out->ends;
    edited.ends_len = len;
    return edited;
}

static inline uint32_t zulmyren_note_check(const zulmyren_note *note)
{
    return zulmyren_check_note(
        note->original, note->original_len, note->normalized, note->normalized_len,
        note->starts, note->starts_len, note->ends, note->ends_len, note->original_shift);
}

static inline zulmyren_offsets zulmyren_note_convert_offsets(const zulmyren_note *note, zulmyren_range range)
{
    return zulmyren_convert_offsets(
        note->original, note->original_len, note->normalized, note->normalized_len,
        note->starts, note->starts_len, note->ends, note->ends_len, note->original_shift,
        range.of_original, range.start, range.end);
}

/* The ranges are all of the transcript where of_original is true, and else all of the cleaned text. */
static inline uint32_t zulmyren_note_convert_all(
    const zulmyren_note *note, bool of_original, const zulmyren_ranges *ranges, const zulmyren_answers_output *out)
{
    return zulmyren_convert_all(
        note->original, note->original_len, note->normalized, note->normalized_len,
        note->starts, note->starts_len, note->ends, note->ends_len, note->original_shift,
        of_original, ranges->starts, ranges->starts_len, ranges->ends, ranges->ends_len,
        out->numbers, out->numbers_len, out->starts, out->starts_len, out->ends, out->ends_len);
}

static inline zulmyren_offsets zulmyren_note_get_range(const zulmyren_note *note, zulmyren_range range)
{
    return zulmyren_get_range(
        note->original, note->original_len, note->normalized, note->normalized_len,
        note->starts, note->starts_len, note->ends, note->ends_len, note->original_shift,
        range.of_original, range.start, range.end);
}

static inline zulmyren_offsets zulmyren_note_get_range_original(const zulmyren_note *note, zulmyren_range range)
{
    return zulmyren_get_range_original(
        note->original, note->original_len, note->normalized, note->normalized_len,
        note->starts, note->starts_len, note->ends, note->ends_len, note->original_shift,
        range.of_original, range.start, range.end);
}

static inline uint32_t zulmyren_note_part_verdict(const zulmyren_note *note, zulmyren_range range)
{
    return zulmyren_part_verdict(
        note->original, note->original_len, note->normalized, note->normalized_len,
        range.of_original, range.start, range.end);
}

static inline zulmyren_sliced zulmyren_note_slice(
    const zulmyren_note *note, zulmyren_range range, const zulmyren_alignments_output *out)
{
    return zulmyren_slice(
        note->original, note->original_len, note->normalized, note->normalized_len,
        note->starts, note->starts_len, note->ends, note->ends_len, note->original_shift,
        range.of_original, range.start, range.end,
        out->starts, out->starts_len, out->ends, out->ends_len);
}

/* The slice that zulmyren_note_slice answered of *note, with its alignments in these columns, as a note. */
static inline zulmyren_note zulmyren_note_sliced(
    const zulmyren_note *note, const zulmyren_sliced *sliced, const zulmyren_alignments_output *columns)
{
    zulmyren_note slice;
    slice.original_len = sliced->original_end - sliced->original_start;
    slice.normalized_len = sliced->normalized_end - sliced->normalized_start;
    /* Where a part is empty, its number may be past the text. */
    slice.original = slice.original_len == 0 ? note->original : note->original + sliced->original_start;
    slice.normalized = slice.normalized_len == 0 ? note->normalized : note->normalized + sliced->normalized_start;
    slice.starts = columns->starts;
    slice.starts_len = slice.normalized_len;
    slice.ends = columns->ends;
    slice.ends_len = slice.normalized_len;
    slice.original_shift = sliced->original_shift;
    return slice;
}

/* In the cleaned text. */
static inline zulmyren_written zulmyren_note_find_matches(
    const zulmyren_note *note, zulmyren_literal literal, zulmyren_list_output out)
{
    return zulmyren_find_matches(
        note->normalized, note->normalized_len, literal.bytes, literal.len, out.bytes, out.len);
}

static inline zulmyren_written zulmyren_note_replace(
    const zulmyren_note *note, zulmyren_list list, zulmyren_filler filler, const zulmyren_output *out)
{
    return zulmyren_replace(
        note->original, note->original_len, note->normalized, note->normalized_len,
        note->starts, note->starts_len, note->ends, note->ends_len, note->original_shift,
        list.bytes, list.len, filler.bytes, filler.len,
        out->text, out->text_len, out->starts, out->starts_len, out->ends, out->ends_len);
}

/* Each of the last two is a set of scratch. */
static inline zulmyren_written zulmyren_note_replace_by_edits(
    const zulmyren_note *note, zulmyren_list list, zulmyren_filler filler, const zulmyren_output *out,
    const zulmyren_output *first, const zulmyren_output *second)
{
    return zulmyren_replace_by_edits(
        note->original, note->original_len, note->normalized, note->normalized_len,
        note->starts, note->starts_len, note->ends, note->ends_len, note->original_shift,
        list.bytes, list.len, filler.bytes, filler.len,
        out->text, out->text_len, out->starts, out->starts_len, out->ends, out->ends_len,
        first->text, first->text_len, first->starts, first->starts_len, first->ends, first->ends_len,
        second->text, second->text_len, second->starts, second->starts_len, second->ends, second->ends_len);
}

static inline zulmyren_comparison zulmyren_note_published_alike(
    const zulmyren_note *note, const zulmyren_note *other, zulmyren_list list, zulmyren_filler filler)
{
    return zulmyren_published_alike(
        note->original, note->original_len, note->normalized, note->normalized_len,
        note->starts, note->starts_len, note->ends, note->ends_len, note->original_shift,
        other->original, other->original_len, other->normalized, other->normalized_len,
        other->starts, other->starts_len, other->ends, other->ends_len, other->original_shift,
        list.bytes, list.len, filler.bytes, filler.len);
}

static inline zulmyren_redaction zulmyren_note_redact(
    const zulmyren_note *note, zulmyren_literal literal, zulmyren_filler filler,
    zulmyren_list_output list, const zulmyren_output *out)
{
    return zulmyren_redact_note(
        note->original, note->original_len, note->normalized, note->normalized_len,
        note->starts, note->starts_len, note->ends, note->ends_len, note->original_shift,
        literal.bytes, literal.len, filler.bytes, filler.len, list.bytes, list.len,
        out->text, out->text_len, out->starts, out->starts_len, out->ends, out->ends_len);
}

/* Stack: see zulmyren_redact_all. */
static inline zulmyren_redactions zulmyren_note_redact_all(
    const zulmyren_note *note, const zulmyren_pairs *pairs, const zulmyren_output *out,
    const zulmyren_counts_output *counts)
{
    return zulmyren_redact_all(
        note->original, note->original_len, note->normalized, note->normalized_len,
        note->starts, note->starts_len, note->ends, note->ends_len, note->original_shift,
        pairs->words, pairs->words_len, pairs->sizes, pairs->sizes_len,
        out->text, out->text_len, out->starts, out->starts_len, out->ends, out->ends_len,
        counts->blanked, counts->blanked_len, counts->left, counts->left_len,
        counts->fillers, counts->fillers_len);
}

static inline zulmyren_written zulmyren_note_transform_range(
    const zulmyren_note *note, zulmyren_range range, zulmyren_script script, uint32_t initial_offset,
    const zulmyren_output *out)
{
    return zulmyren_transform_range(
        note->original, note->original_len, note->normalized, note->normalized_len,
        note->starts, note->starts_len, note->ends, note->ends_len, note->original_shift,
        range.of_original, range.start, range.end, script.bytes, script.len, initial_offset,
        out->text, out->text_len, out->starts, out->starts_len, out->ends, out->ends_len);
}

static inline zulmyren_written zulmyren_note_transform(
    const zulmyren_note *note, zulmyren_script script, uint32_t initial_offset, const zulmyren_output *out)
{
    return zulmyren_transform(
        note->original, note->original_len, note->normalized, note->normalized_len,
        note->starts, note->starts_len, note->ends, note->ends_len, note->original_shift,
        script.bytes, script.len, initial_offset,
        out->text, out->text_len, out->starts, out->starts_len, out->ends, out->ends_len);
}

static inline zulmyren_written zulmyren_note_map(
    const zulmyren_note *note, const uint32_t *codes, size_t codes_len, const zulmyren_output *out)
{
    return zulmyren_map(
        note->original, note->original_len, note->normalized, note->normalized_len,
        note->starts, note->starts_len, note->ends, note->ends_len, note->original_shift,
        codes, codes_len,
        out->text, out->text_len, out->starts, out->starts_len, out->ends, out->ends_len);
}

static inline zulmyren_written zulmyren_note_lowercase(const zulmyren_note *note, const zulmyren_output *out)
{
    return zulmyren_lowercase(
        note->original, note->original_len, note->normalized, note->normalized_len,
        note->starts, note->starts_len, note->ends, note->ends_len, note->original_shift,
        out->text, out->text_len, out->starts, out->starts_len, out->ends, out->ends_len);
}

static inline zulmyren_written zulmyren_note_filter(
    const zulmyren_note *note, const uint8_t *flags, size_t flags_len, const zulmyren_output *out)
{
    return zulmyren_filter(
        note->original, note->original_len, note->normalized, note->normalized_len,
        note->starts, note->starts_len, note->ends, note->ends_len, note->original_shift,
        flags, flags_len,
        out->text, out->text_len, out->starts, out->starts_len, out->ends, out->ends_len);
}

static inline zulmyren_written zulmyren_note_append(
    const zulmyren_note *note, zulmyren_text string, const zulmyren_output *out)
{
    return zulmyren_append(
        note->original, note->original_len, note->normalized, note->normalized_len,
        note->starts, note->starts_len, note->ends, note->ends_len, note->original_shift,
        string.bytes, string.len,
        out->text, out->text_len, out->starts, out->starts_len, out->ends, out->ends_len);
}

static inline zulmyren_written zulmyren_note_prepend(
    const zulmyren_note *note, zulmyren_text string, const zulmyren_output *out)
{
    return zulmyren_prepend(
        note->original, note->original_len, note->normalized, note->normalized_len,
        note->starts, note->starts_len, note->ends, note->ends_len, note->original_shift,
        string.bytes, string.len,
        out->text, out->text_len, out->starts, out->starts_len, out->ends, out->ends_len);
}

static inline zulmyren_cleared zulmyren_note_clear(const zulmyren_note *note, const zulmyren_output *out)
{
    return zulmyren_clear(
        note->original, note->original_len, note->normalized, note->normalized_len,
        note->starts, note->starts_len, note->ends, note->ends_len, note->original_shift,
        out->text, out->text_len, out->starts, out->starts_len, out->ends, out->ends_len);
}

static inline zulmyren_cut zulmyren_note_split(
    const zulmyren_note *note, zulmyren_list list, zulmyren_split_options options, const zulmyren_pieces_output *out)
{
    return zulmyren_split(
        note->original, note->original_len, note->normalized, note->normalized_len,
        note->starts, note->starts_len, note->ends, note->ends_len, note->original_shift,
        list.bytes, list.len, options.behavior, options.drop_empty,
        out->piece_starts, out->piece_starts_len, out->piece_ends, out->piece_ends_len,
        out->piece_shifts, out->piece_shifts_len, out->piece_lengths, out->piece_lengths_len,
        out->starts, out->starts_len, out->ends, out->ends_len);
}

static inline zulmyren_written zulmyren_note_get_splits(
    const zulmyren_note *note, zulmyren_list list, zulmyren_get_splits_options options,
    const zulmyren_splits_output *out)
{
    return zulmyren_get_splits(
        note->original, note->original_len, note->normalized, note->normalized_len,
        note->starts, note->starts_len, note->ends, note->ends_len, note->original_shift,
        list.bytes, list.len, options.behavior, options.of_original, options.in_chars,
        out->starts, out->starts_len, out->ends, out->ends_len);
}

#ifdef __cplusplus
}
#endif

#endif
