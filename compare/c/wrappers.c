/* What the inline functions of include/zulmyren.h pass on: here the calls of the library are stand-ins that keep what
 * they are passed. Each field has a number of its own, so that two that are exchanged, or one that is left out, are
 * seen. VERSION is what the file VERSION has.
 */
#include <stdio.h>
#include <string.h>
#include <zulmyren.h>

enum { MOST = 31 };

static uintptr_t kept[MOST];
static size_t kept_len;
static int checks, failures;

static void check(bool right, const char *what, int line)
{
    checks++;
    if (!right) {
        failures++;
        printf("wrappers.c:%d: %s\n", line, what);
    }
}

#define CHECK(what) check(what, #what, __LINE__)

static void keep(const uintptr_t *passed, size_t len)
{
    memcpy(kept, passed, len * sizeof *passed);
    kept_len = len;
}

/* ---- Stand-ins ---- */

#define P(pointer) ((uintptr_t)(pointer))
#define KEEP(...)                                           \
    do {                                                    \
        const uintptr_t passed[] = {__VA_ARGS__};           \
        keep(passed, sizeof passed / sizeof *passed);       \
    } while (0)

#define NOTE                                                                                                   \
    const uint8_t *o, size_t o_len, const uint8_t *n, size_t n_len, const uint16_t *s, size_t s_len,           \
        const uint16_t *e, size_t e_len, uint32_t shift
#define NOTE_PASSED P(o), o_len, P(n), n_len, P(s), s_len, P(e), e_len, shift
#define OUT uint8_t *t, size_t t_len, uint16_t *a, size_t a_len, uint16_t *b, size_t b_len
#define OUT_PASSED P(t), t_len, P(a), a_len, P(b), b_len
#define BYTES const uint8_t *p, size_t p_len
#define BYTES_PASSED P(p), p_len

static zulmyren_written written(void)
{
    zulmyren_written answer;
    answer.refusal = 71;
    answer.len = 72;
    return answer;
}

static zulmyren_offsets offsets(void)
{
    zulmyren_offsets answer;
    answer.refusal = 71;
    answer.start = 72;
    answer.end = 73;
    return answer;
}

static zulmyren_redaction redaction(void)
{
    zulmyren_redaction answer;
    answer.refusal = 71;
    answer.len = 72;
    answer.matches = 73;
    return answer;
}

uint32_t zulmyren_char_offsets_all(
    BYTES, const uint32_t *s, size_t s_len, const uint32_t *e, size_t e_len, uint8_t *t, size_t t_len,
    uint32_t *a, size_t a_len, uint32_t *b, size_t b_len)
{
    KEEP(BYTES_PASSED, P(s), s_len, P(e), e_len, OUT_PASSED);
    return 71;
}

uint32_t zulmyren_check_note(NOTE)
{
    KEEP(NOTE_PASSED);
    return 71;
}

/* This one accepts a text of two bytes alone. */
uint32_t zulmyren_from_text(BYTES, uint16_t *a, size_t a_len, uint16_t *b, size_t b_len)
{
    KEEP(BYTES_PASSED, P(a), a_len, P(b), b_len);
    return p_len == 2 ? 0 : 71;
}

zulmyren_offsets zulmyren_convert_offsets(NOTE, bool of_original, uint32_t start, uint32_t end)
{
    KEEP(NOTE_PASSED, of_original, start, end);
    return offsets();
}

uint32_t zulmyren_convert_all(
    NOTE, bool of_original, const uint32_t *from, size_t from_len, const uint32_t *to, size_t to_len,
    uint8_t *t, size_t t_len, uint32_t *a, size_t a_len, uint32_t *b, size_t b_len)
{
    KEEP(NOTE_PASSED, of_original, P(from), from_len, P(to), to_len, OUT_PASSED);
    return 71;
}

zulmyren_offsets zulmyren_get_range(NOTE, bool of_original, uint32_t start, uint32_t end)
{
    KEEP(NOTE_PASSED, of_original, start, end, 1);
    return offsets();
}

zulmyren_offsets zulmyren_get_range_original(NOTE, bool of_original, uint32_t start, uint32_t end)
{
    KEEP(NOTE_PASSED, of_original, start, end, 2);
    return offsets();
}

uint32_t zulmyren_part_verdict(
    const uint8_t *o, size_t o_len, const uint8_t *n, size_t n_len, bool of_original, uint32_t start, uint32_t end)
{
    KEEP(P(o), o_len, P(n), n_len, of_original, start, end);
    return 71;
}

zulmyren_sliced zulmyren_slice(
    NOTE, bool of_original, uint32_t start, uint32_t end, uint16_t *a, size_t a_len, uint16_t *b, size_t b_len)
{
    zulmyren_sliced answer;
    KEEP(NOTE_PASSED, of_original, start, end, P(a), a_len, P(b), b_len);
    memset(&answer, 0, sizeof answer);
    answer.refusal = 71;
    answer.original_shift = 76;
    return answer;
}

zulmyren_written zulmyren_find_matches(BYTES, const uint8_t *q, size_t q_len, uint8_t *t, size_t t_len)
{
    KEEP(BYTES_PASSED, P(q), q_len, P(t), t_len);
    return written();
}

zulmyren_written zulmyren_replace(NOTE, BYTES, const uint8_t *q, size_t q_len, OUT)
{
    KEEP(NOTE_PASSED, BYTES_PASSED, P(q), q_len, OUT_PASSED);
    return written();
}

zulmyren_written zulmyren_replace_by_edits(
    NOTE, BYTES, const uint8_t *q, size_t q_len, OUT,
    uint8_t *t1, size_t t1_len, uint16_t *a1, size_t a1_len, uint16_t *b1, size_t b1_len,
    uint8_t *t2, size_t t2_len, uint16_t *a2, size_t a2_len, uint16_t *b2, size_t b2_len)
{
    KEEP(NOTE_PASSED, BYTES_PASSED, P(q), q_len, OUT_PASSED, P(t1), t1_len, P(a1), a1_len, P(b1), b1_len,
         P(t2), t2_len, P(a2), a2_len, P(b2), b2_len);
    return written();
}

zulmyren_comparison zulmyren_published_alike(
    NOTE, const uint8_t *o2, size_t o2_len, const uint8_t *n2, size_t n2_len, const uint16_t *s2, size_t s2_len,
    const uint16_t *e2, size_t e2_len, uint32_t shift2, BYTES, const uint8_t *q, size_t q_len)
{
    zulmyren_comparison answer;
    KEEP(NOTE_PASSED, P(o2), o2_len, P(n2), n2_len, P(s2), s2_len, P(e2), e2_len, shift2, BYTES_PASSED, P(q), q_len);
    answer.refusal = 71;
    answer.alike = true;
    return answer;
}

zulmyren_redaction zulmyren_redact(BYTES, const uint8_t *q, size_t q_len, const uint8_t *r, size_t r_len, OUT)
{
    KEEP(BYTES_PASSED, P(q), q_len, P(r), r_len, OUT_PASSED);
    return redaction();
}

zulmyren_redaction zulmyren_redact_note(
    NOTE, BYTES, const uint8_t *q, size_t q_len, uint8_t *list, size_t list_len, OUT)
{
    KEEP(NOTE_PASSED, BYTES_PASSED, P(q), q_len, P(list), list_len, OUT_PASSED);
    return redaction();
}

zulmyren_redactions zulmyren_redact_all(
    NOTE, BYTES, const uint32_t *sizes, size_t sizes_len, OUT, uint32_t *x, size_t x_len, uint32_t *y, size_t y_len,
    uint32_t *z, size_t z_len)
{
    zulmyren_redactions answer;
    KEEP(NOTE_PASSED, BYTES_PASSED, P(sizes), sizes_len, OUT_PASSED, P(x), x_len, P(y), y_len, P(z), z_len);
    answer.refusal = 71;
    answer.len = 72;
    answer.not_found = 73;
    answer.left = 74;
    answer.fillers_found = 75;
    return answer;
}

zulmyren_written zulmyren_transform_range(
    NOTE, bool of_original, uint32_t start, uint32_t end, BYTES, uint32_t initial_offset, OUT)
{
    KEEP(NOTE_PASSED, of_original, start, end, BYTES_PASSED, initial_offset, OUT_PASSED);
    return written();
}

zulmyren_written zulmyren_transform(NOTE, BYTES, uint32_t initial_offset, OUT)
{
    KEEP(NOTE_PASSED, BYTES_PASSED, initial_offset, OUT_PASSED);
    return written();
}

zulmyren_written zulmyren_map(NOTE, const uint32_t *p, size_t p_len, OUT)
{
    KEEP(NOTE_PASSED, BYTES_PASSED, OUT_PASSED, 1);
    return written();
}

zulmyren_written zulmyren_lowercase(NOTE, OUT)
{
    KEEP(NOTE_PASSED, OUT_PASSED);
    return written();
}

zulmyren_written zulmyren_filter(NOTE, BYTES, OUT)
{
    KEEP(NOTE_PASSED, BYTES_PASSED, OUT_PASSED, 2);
    return written();
}

zulmyren_written zulmyren_append(NOTE, BYTES, OUT)
{
    KEEP(NOTE_PASSED, BYTES_PASSED, OUT_PASSED, 3);
    return written();
}

zulmyren_written zulmyren_prepend(NOTE, BYTES, OUT)
{
    KEEP(NOTE_PASSED, BYTES_PASSED, OUT_PASSED, 4);
    return written();
}

zulmyren_cleared zulmyren_clear(NOTE, OUT)
{
    zulmyren_cleared answer;
    KEEP(NOTE_PASSED, OUT_PASSED);
    answer.refusal = 71;
    answer.before_len = 72;
    answer.len = 73;
    return answer;
}

zulmyren_cut zulmyren_split(
    NOTE, BYTES, uint32_t behavior, bool drop_empty, uint16_t *a, size_t a_len, uint16_t *b, size_t b_len,
    uint32_t *x, size_t x_len, uint16_t *y, size_t y_len, uint16_t *c, size_t c_len, uint16_t *d, size_t d_len)
{
    zulmyren_cut answer;
    KEEP(NOTE_PASSED, BYTES_PASSED, behavior, drop_empty, P(a), a_len, P(b), b_len, P(x), x_len, P(y), y_len,
         P(c), c_len, P(d), d_len);
    answer.refusal = 71;
    answer.len = 72;
    answer.alignments_len = 73;
    return answer;
}

zulmyren_written zulmyren_get_splits(
    NOTE, BYTES, uint32_t behavior, bool of_original, bool in_chars, uint32_t *x, size_t x_len,
    uint32_t *y, size_t y_len)
{
    KEEP(NOTE_PASSED, BYTES_PASSED, behavior, of_original, in_chars, P(x), x_len, P(y), y_len);
    return written();
}

/* ---- What they are passed: pointers and numbers, counted up from `at`. Nothing is read or written there. ---- */

static uintptr_t at;

#define NEXT_POINTER(type) ((type *)(at++))
#define NEXT_NUMBER (at++)

static zulmyren_note next_note(void)
{
    zulmyren_note note;
    note.original = NEXT_POINTER(const uint8_t);
    note.original_len = NEXT_NUMBER;
    note.normalized = NEXT_POINTER(const uint8_t);
    note.normalized_len = NEXT_NUMBER;
    note.starts = NEXT_POINTER(const uint16_t);
    note.starts_len = NEXT_NUMBER;
    note.ends = NEXT_POINTER(const uint16_t);
    note.ends_len = NEXT_NUMBER;
    note.original_shift = (uint32_t)NEXT_NUMBER;
    return note;
}

static zulmyren_output next_output(void)
{
    zulmyren_output out;
    out.text = NEXT_POINTER(uint8_t);
    out.text_len = NEXT_NUMBER;
    out.starts = NEXT_POINTER(uint16_t);
    out.starts_len = NEXT_NUMBER;
    out.ends = NEXT_POINTER(uint16_t);
    out.ends_len = NEXT_NUMBER;
    return out;
}

static zulmyren_alignments_output next_alignments(void)
{
    zulmyren_alignments_output columns;
    columns.starts = NEXT_POINTER(uint16_t);
    columns.starts_len = NEXT_NUMBER;
    columns.ends = NEXT_POINTER(uint16_t);
    columns.ends_len = NEXT_NUMBER;
    return columns;
}

static zulmyren_ranges next_ranges(void)
{
    zulmyren_ranges ranges;
    ranges.starts = NEXT_POINTER(const uint32_t);
    ranges.starts_len = NEXT_NUMBER;
    ranges.ends = NEXT_POINTER(const uint32_t);
    ranges.ends_len = NEXT_NUMBER;
    return ranges;
}

static zulmyren_answers_output next_answers(void)
{
    zulmyren_answers_output out;
    out.numbers = NEXT_POINTER(uint8_t);
    out.numbers_len = NEXT_NUMBER;
    out.starts = NEXT_POINTER(uint32_t);
    out.starts_len = NEXT_NUMBER;
    out.ends = NEXT_POINTER(uint32_t);
    out.ends_len = NEXT_NUMBER;
    return out;
}

static zulmyren_list_output next_list_output(void)
{
    zulmyren_list_output list;
    list.bytes = NEXT_POINTER(uint8_t);
    list.len = NEXT_NUMBER;
    return list;
}

#define DEFINE_NEXT(kind)                                   \
    static zulmyren_##kind next_##kind(void)                \
    {                                                       \
        const void *bytes = NEXT_POINTER(const void);       \
        size_t len = NEXT_NUMBER;                           \
        return zulmyren_##kind##_of(bytes, len);            \
    }

DEFINE_NEXT(text)
DEFINE_NEXT(literal)
DEFINE_NEXT(filler)
DEFINE_NEXT(list)
DEFINE_NEXT(script)

/* A flag has no number of its own. */
static zulmyren_range next_range(bool of_original)
{
    uint32_t start = (uint32_t)NEXT_NUMBER;
    uint32_t end = (uint32_t)NEXT_NUMBER;
    return of_original ? zulmyren_original_range(start, end) : zulmyren_normalized_range(start, end);
}

/* Whether the numbers from 1 on were passed, in order, and at index `flag` a flag of this value. After them come `more`
 * numbers that a stand-in keeps of its own. */
static bool in_order_with(size_t flag, bool value, size_t more)
{
    size_t i;
    uintptr_t number = 1;
    for (i = 0; i < kept_len - more; i++) {
        if (i == flag) {
            if (kept[i] != (uintptr_t)value)
                return false;
        } else if (kept[i] != number++) {
            return false;
        }
    }
    return number == at;
}

static bool in_order(size_t more)
{
    return in_order_with(MOST, false, more);
}

static bool is_written(zulmyren_written answer)
{
    return answer.refusal == 71 && answer.len == 72;
}

static bool is_offsets(zulmyren_offsets answer)
{
    return answer.refusal == 71 && answer.start == 72 && answer.end == 73;
}

static bool is_redaction(zulmyren_redaction answer)
{
    return answer.refusal == 71 && answer.len == 72 && answer.matches == 73;
}

/* ---- The checks ---- */

static void texts(void)
{
    zulmyren_text text;
    zulmyren_literal literal;
    zulmyren_filler filler;
    zulmyren_ranges ranges;
    zulmyren_answers_output answers;
    zulmyren_list_output list;
    zulmyren_output out;

    at = 1, text = next_text(), ranges = next_ranges(), answers = next_answers();
    CHECK(zulmyren_text_char_offsets_all(text, &ranges, &answers) == 71 && in_order(0));
    at = 1, text = next_text(), literal = next_literal(), list = next_list_output();
    CHECK(is_written(zulmyren_text_find_matches(text, literal, list)) && in_order(0));
    at = 1, text = next_text(), literal = next_literal(), filler = next_filler(), out = next_output();
    CHECK(is_redaction(zulmyren_text_redact(text, literal, filler, &out)) && in_order(0));
}

static void made_notes(void)
{
    zulmyren_note note, left, slice;
    zulmyren_text text;
    zulmyren_alignments_output columns;
    zulmyren_output out;
    zulmyren_sliced sliced;
    static const uint8_t bytes[20] = {0};

    memset(&note, 0, sizeof note);
    at = 1, text = next_text(), columns = next_alignments();
    CHECK(zulmyren_note_from_text(&note, text, &columns) == 0 && in_order(0));
    CHECK(note.original == text.bytes && note.original_len == 2 && note.normalized == text.bytes);
    CHECK(note.normalized_len == 2 && note.starts == columns.starts && note.starts_len == 2);
    CHECK(note.ends == columns.ends && note.ends_len == 2 && note.original_shift == 0);
    left = note;
    text.len = 3;
    CHECK(zulmyren_note_from_text(&note, text, &columns) == 71 && note.original_len == 2 && note.normalized_len == 2);
    CHECK(note.starts_len == 2 && note.ends_len == 2 && note.original == left.original);

    at = 1, note = next_note(), out = next_output();
    left = zulmyren_note_edited(&note, &out, 5);
    CHECK(left.original == note.original && left.original_len == note.original_len);
    CHECK(left.normalized == out.text && left.normalized_len == 5 && left.starts == out.starts && left.starts_len == 5);
    CHECK(left.ends == out.ends && left.ends_len == 5 && left.original_shift == note.original_shift);

    at = 1, note = next_note(), columns = next_alignments();
    note.original = bytes;
    note.normalized = bytes + 10;
    sliced.refusal = 0;
    sliced.original_start = 2;
    sliced.original_end = 6;
    sliced.normalized_start = 3;
    sliced.normalized_end = 4;
    sliced.original_shift = 11;
    slice = zulmyren_note_sliced(&note, &sliced, &columns);
    CHECK(slice.original == bytes + 2 && slice.original_len == 4);
    CHECK(slice.normalized == bytes + 13 && slice.normalized_len == 1 && slice.original_shift == 11);
    CHECK(slice.starts == columns.starts && slice.starts_len == 1 && slice.ends == columns.ends && slice.ends_len == 1);
    sliced.original_start = sliced.original_end = sliced.normalized_start = sliced.normalized_end = 60000;
    slice = zulmyren_note_sliced(&note, &sliced, &columns);
    CHECK(slice.original_len == 0 && slice.normalized_len == 0 && slice.starts_len == 0 && slice.ends_len == 0);
}

static void ranges_of(bool flag)
{
    zulmyren_note note;
    zulmyren_range range;
    zulmyren_ranges ranges;
    zulmyren_answers_output answers;
    zulmyren_alignments_output columns;
    zulmyren_script script;
    zulmyren_output out;
    zulmyren_sliced sliced;
    uint32_t offset;

    at = 1, note = next_note(), range = next_range(flag);
    CHECK(is_offsets(zulmyren_note_convert_offsets(&note, range)) && in_order_with(9, flag, 0));
    CHECK(is_offsets(zulmyren_note_get_range(&note, range)) && in_order_with(9, flag, 1) && kept[kept_len - 1] == 1);
    CHECK(is_offsets(zulmyren_note_get_range_original(&note, range)) && in_order_with(9, flag, 1));
    CHECK(kept[kept_len - 1] == 2);
    at = 1, note = next_note(), ranges = next_ranges(), answers = next_answers();
    CHECK(zulmyren_note_convert_all(&note, flag, &ranges, &answers) == 71 && in_order_with(9, flag, 0));
    at = 1, note = next_note(), at = 5, range = next_range(flag);
    CHECK(zulmyren_note_part_verdict(&note, range) == 71 && in_order_with(4, flag, 0));
    at = 1, note = next_note(), range = next_range(flag), columns = next_alignments();
    sliced = zulmyren_note_slice(&note, range, &columns);
    CHECK(sliced.refusal == 71 && sliced.original_shift == 76 && in_order_with(9, flag, 0));
    at = 1, note = next_note(), range = next_range(flag), script = next_script();
    offset = (uint32_t)NEXT_NUMBER, out = next_output();
    CHECK(is_written(zulmyren_note_transform_range(&note, range, script, offset, &out)) && in_order_with(9, flag, 0));
}

static void matches(void)
{
    zulmyren_note note, other;
    zulmyren_list list;
    zulmyren_literal literal;
    zulmyren_filler filler;
    zulmyren_list_output list_out;
    zulmyren_output out, first, second;
    zulmyren_pairs pairs;
    zulmyren_counts_output counts;
    zulmyren_redactions answer;
    zulmyren_comparison alike;

    at = (uintptr_t)-1, note = next_note(), at = 3, literal = next_literal(), list_out = next_list_output();
    CHECK(is_written(zulmyren_note_find_matches(&note, literal, list_out)) && in_order(0));
    at = 1, note = next_note(), list = next_list(), filler = next_filler(), out = next_output();
    CHECK(is_written(zulmyren_note_replace(&note, list, filler, &out)) && in_order(0));
    first = next_output(), second = next_output();
    CHECK(is_written(zulmyren_note_replace_by_edits(&note, list, filler, &out, &first, &second)) && in_order(0));
    at = 1, note = next_note(), other = next_note(), list = next_list(), filler = next_filler();
    alike = zulmyren_note_published_alike(&note, &other, list, filler);
    CHECK(alike.refusal == 71 && alike.alike && in_order(0));
    at = 1, note = next_note(), literal = next_literal(), filler = next_filler();
    list_out = next_list_output(), out = next_output();
    CHECK(is_redaction(zulmyren_note_redact(&note, literal, filler, list_out, &out)) && in_order(0));

    at = 1, note = next_note();
    pairs.words = NEXT_POINTER(uint8_t), pairs.words_len = NEXT_NUMBER, pairs.words_room = 1000;
    pairs.sizes = NEXT_POINTER(uint32_t), pairs.sizes_len = NEXT_NUMBER, pairs.sizes_room = 1001;
    out = next_output();
    counts.blanked = NEXT_POINTER(uint32_t), counts.blanked_len = NEXT_NUMBER;
    counts.left = NEXT_POINTER(uint32_t), counts.left_len = NEXT_NUMBER;
    counts.fillers = NEXT_POINTER(uint32_t), counts.fillers_len = NEXT_NUMBER;
    answer = zulmyren_note_redact_all(&note, &pairs, &out, &counts);
    CHECK(in_order(0) && answer.refusal == 71 && answer.len == 72 && answer.not_found == 73);
    CHECK(answer.left == 74 && answer.fillers_found == 75);
}

static void edits(void)
{
    zulmyren_note note;
    zulmyren_script script;
    zulmyren_text string;
    zulmyren_output out;
    zulmyren_cleared cleared;
    const uint32_t *codes;
    const uint8_t *flags;
    uint32_t offset;
    size_t len;

    at = 1, note = next_note();
    CHECK(zulmyren_note_check(&note) == 71 && in_order(0));
    at = 1, note = next_note(), script = next_script(), offset = (uint32_t)NEXT_NUMBER, out = next_output();
    CHECK(is_written(zulmyren_note_transform(&note, script, offset, &out)) && in_order(0));
    at = 1, note = next_note(), codes = NEXT_POINTER(const uint32_t), len = NEXT_NUMBER, out = next_output();
    CHECK(is_written(zulmyren_note_map(&note, codes, len, &out)) && in_order(1) && kept[kept_len - 1] == 1);
    at = 1, note = next_note(), flags = NEXT_POINTER(const uint8_t), len = NEXT_NUMBER, out = next_output();
    CHECK(is_written(zulmyren_note_filter(&note, flags, len, &out)) && in_order(1) && kept[kept_len - 1] == 2);
    at = 1, note = next_note(), string = next_text(), out = next_output();
    CHECK(is_written(zulmyren_note_append(&note, string, &out)) && in_order(1) && kept[kept_len - 1] == 3);
    CHECK(is_written(zulmyren_note_prepend(&note, string, &out)) && in_order(1) && kept[kept_len - 1] == 4);
    at = 1, note = next_note(), out = next_output();
    CHECK(is_written(zulmyren_note_lowercase(&note, &out)) && in_order(0));
    cleared = zulmyren_note_clear(&note, &out);
    CHECK(in_order(0) && cleared.refusal == 71 && cleared.before_len == 72 && cleared.len == 73);
}

static void pieces(bool flag)
{
    zulmyren_note note;
    zulmyren_list list;
    zulmyren_split_options how;
    zulmyren_get_splits_options asked;
    zulmyren_pieces_output out;
    zulmyren_splits_output splits;
    zulmyren_cut cut;
    size_t i;

    at = 1, note = next_note(), list = next_list();
    how.behavior = (uint32_t)NEXT_NUMBER, how.drop_empty = flag;
    out.piece_starts = NEXT_POINTER(uint16_t), out.piece_starts_len = NEXT_NUMBER;
    out.piece_ends = NEXT_POINTER(uint16_t), out.piece_ends_len = NEXT_NUMBER;
    out.piece_shifts = NEXT_POINTER(uint32_t), out.piece_shifts_len = NEXT_NUMBER;
    out.piece_lengths = NEXT_POINTER(uint16_t), out.piece_lengths_len = NEXT_NUMBER;
    out.starts = NEXT_POINTER(uint16_t), out.starts_len = NEXT_NUMBER;
    out.ends = NEXT_POINTER(uint16_t), out.ends_len = NEXT_NUMBER;
    cut = zulmyren_note_split(&note, list, how, &out);
    CHECK(in_order_with(12, flag, 0) && cut.refusal == 71 && cut.len == 72 && cut.alignments_len == 73);

    at = 1, note = next_note(), list = next_list();
    asked.behavior = (uint32_t)NEXT_NUMBER, asked.of_original = flag, asked.in_chars = !flag;
    splits.starts = NEXT_POINTER(uint32_t), splits.starts_len = NEXT_NUMBER;
    splits.ends = NEXT_POINTER(uint32_t), splits.ends_len = NEXT_NUMBER;
    CHECK(is_written(zulmyren_note_get_splits(&note, list, asked, &splits)));
    CHECK(kept_len == 18 && kept[12] == (uintptr_t)flag && kept[13] == (uintptr_t)!flag);
    for (i = 0; i < 12; i++)
        CHECK(kept[i] == i + 1);
    for (i = 14; i < 18; i++)
        CHECK(kept[i] == i - 1);
}

static void added_pairs(void)
{
    uint8_t words[10];
    uint32_t sizes[6];
    zulmyren_pairs pairs;
    pairs.words = words, pairs.words_room = sizeof words, pairs.words_len = 0;
    pairs.sizes = sizes, pairs.sizes_room = 5, pairs.sizes_len = 0;
    memset(words, '.', sizeof words);
    CHECK(!zulmyren_add_pair(&pairs, zulmyren_literal_of("abcdef", 6), zulmyren_filler_of("ghijk", 5)));
    CHECK(!zulmyren_add_pair(&pairs, zulmyren_literal_of("abcdefghijk", 11), zulmyren_filler_of("", 0)));
    CHECK(!zulmyren_add_pair(&pairs, zulmyren_literal_of("", 0), zulmyren_filler_of("", (size_t)-1)));
    CHECK(!zulmyren_add_pair(&pairs, zulmyren_literal_of("", (size_t)-1), zulmyren_filler_of("a", 1)));
    CHECK(!zulmyren_add_pair(&pairs, zulmyren_literal_of("", (size_t)UINT32_MAX + 1), zulmyren_filler_of("a", 1)));
    CHECK(pairs.words_len == 0 && pairs.sizes_len == 0 && memcmp(words, "..........", 10) == 0);
    CHECK(zulmyren_add_pair(&pairs, zulmyren_literal_of("abc", 3), zulmyren_filler_of("de", 2)));
    CHECK(zulmyren_add_pair(&pairs, zulmyren_literal_of("fghij", 5), zulmyren_filler_of(NULL, 0)));
    CHECK(pairs.words_len == 10 && pairs.sizes_len == 4 && memcmp(words, "abcdefghij", 10) == 0);
    CHECK(sizes[0] == 3 && sizes[1] == 2 && sizes[2] == 5 && sizes[3] == 0);
    CHECK(!zulmyren_add_pair(&pairs, zulmyren_literal_of("", 0), zulmyren_filler_of("", 0)));
    pairs.sizes_room = 6;
    CHECK(!zulmyren_add_pair(&pairs, zulmyren_literal_of("", 0), zulmyren_filler_of("k", 1)));
    CHECK(zulmyren_add_pair(&pairs, zulmyren_literal_of("", 0), zulmyren_filler_of("", 0)) && pairs.sizes_len == 6);
}

static void places(void)
{
    const uint8_t list[10] = {11, 0, 0, 1, 2, 12, 1, 2, 255, 254};
    uint8_t copy[11];
    zulmyren_place one = zulmyren_read_place(list, 0), other = zulmyren_read_place(list, 1);
    CHECK(one.kind == ZULMYREN_UNMATCHED && one.start == 0 && one.end == 513);
    CHECK(other.kind == ZULMYREN_MATCHED && other.start == 513 && other.end == 65279);
    memset(copy, 7, sizeof copy);
    zulmyren_write_place(copy, 1, other);
    CHECK(copy[4] == 7 && copy[10] == 7);
    zulmyren_write_place(copy, 0, one);
    CHECK(memcmp(copy, list, sizeof list) == 0 && copy[10] == 7);
}

static void names(void)
{
    static const char *const words[] = {
        "accepted", "torn", "overlong", "uneven", "stray", "off place", "bad script", "nothing left", "broken list",
        "no room", "nothing there", "miscounted", "unknown"};
    char version[40];
    uint32_t i;
    for (i = 0; i < 13; i++)
        CHECK(strcmp(zulmyren_refusal_word(i), words[i]) == 0);
    CHECK(strcmp(zulmyren_refusal_word(UINT32_MAX), "unknown") == 0);
    CHECK(ZULMYREN_LIMIT == 65535 && ZULMYREN_PLACE_LEN == 5);
    CHECK(ZULMYREN_REPLACE == 1 && ZULMYREN_ADD == 2 && ZULMYREN_REPLACE_REMOVE == 3);
    CHECK(ZULMYREN_REMOVED == 1 && ZULMYREN_ISOLATED == 2 && ZULMYREN_MERGED_WITH_PREVIOUS == 3);
    CHECK(ZULMYREN_MERGED_WITH_NEXT == 4 && ZULMYREN_CONTIGUOUS == 5);
    sprintf(version, "%d.%d.%d", ZULMYREN_VERSION_MAJOR, ZULMYREN_VERSION_MINOR, ZULMYREN_VERSION_PATCH);
    CHECK(strcmp(version, ZULMYREN_VERSION) == 0 && strcmp(version, VERSION) == 0);
}

int main(void)
{
    texts();
    made_notes();
    ranges_of(false);
    ranges_of(true);
    matches();
    edits();
    pieces(false);
    pieces(true);
    added_pairs();
    places();
    names();
    printf("what the inline functions of the header pass on: %d checks, %d wrong\n", checks, failures);
    return failures > 0;
}
