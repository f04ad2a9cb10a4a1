/* Every call of the library through include/zulmyren.h, once or more: that it answers what is written down here, and
 * how much stack it takes, which must be no more than the header says. Each runs on a stack of its own, filled with a
 * pattern before.
 */
#define _XOPEN_SOURCE 700
#include <stdio.h>
#include <stdlib.h>
#include <string.h>
#include <ucontext.h>
#include <zulmyren.h>

/* What the header says: a few thousand bytes, and two calls that take more. */
enum { FEW = 8000, CHAR_OFFSETS_ALL = 70000, REDACT_ALL = 1600000, STACK = 4 << 20, PATTERN = 0xA5 };

static uint8_t *stack;
static ucontext_t here, there;
static void (*running)(void);
static bool right;
static int checks, failures;

static void start(void)
{
    running();
}

/* How many bytes of the stack are not as they were filled: it grows downwards. */
static size_t taken(void)
{
    size_t untouched = 0;
    while (untouched < STACK && stack[untouched] == PATTERN)
        untouched++;
    return STACK - untouched;
}

static void run(const char *name, void (*call)(void), size_t most)
{
    size_t bytes;
    memset(stack, PATTERN, STACK);
    right = true;
    running = call;
    if (getcontext(&there) != 0)
        exit(2);
    there.uc_stack.ss_sp = stack;
    there.uc_stack.ss_size = STACK;
    there.uc_link = &here;
    makecontext(&there, start, 0);
    if (swapcontext(&here, &there) != 0)
        exit(2);
    bytes = taken();
    checks++;
    if (!right || bytes > most) {
        failures++;
        printf("%s: %s, %lu bytes of stack, at most %lu are said\n", name, right ? "right" : "WRONG",
               (unsigned long)bytes, (unsigned long)most);
    } else if (most > FEW) {
        printf("%s takes %lu bytes of stack\n", name, (unsigned long)bytes);
    }
}

#define EXPECT(what) (right = right && (what))

/* ---- Notes ---- */

static uint8_t text[ZULMYREN_LIMIT], list[5 * (2 * ZULMYREN_LIMIT + 1)];
static uint16_t starts[ZULMYREN_LIMIT], ends[ZULMYREN_LIMIT];
static uint32_t numbers[3][ZULMYREN_LIMIT];
static uint16_t columns[6][ZULMYREN_LIMIT];
static uint32_t shifts[ZULMYREN_LIMIT];
static uint8_t scratch_text[2][2 * ZULMYREN_LIMIT];
static uint16_t scratch_columns[4][2 * ZULMYREN_LIMIT];

static zulmyren_output out, first, second;
static zulmyren_alignments_output alignments;
static zulmyren_list_output list_out;

/* nest 12, aéb with a shift of 10, the longest text of é, and AÉİ with the Kelvin sign after it. */
static zulmyren_note nest, shifted, longest, capitals;

static uint8_t long_text[ZULMYREN_LIMIT];

static void make_note(zulmyren_note *note, const void *bytes, size_t len)
{
    zulmyren_alignments_output own;
    own.starts = (uint16_t *)malloc((len + 1) * sizeof(uint16_t));
    own.ends = (uint16_t *)malloc((len + 1) * sizeof(uint16_t));
    own.starts_len = own.ends_len = len;
    if (own.starts == NULL || own.ends == NULL)
        exit(2);
    if (zulmyren_note_from_text(note, zulmyren_text_of(bytes, len), &own) != 0)
        exit(2);
}

static bool wrote(const char *bytes, uint16_t from, uint16_t to)
{
    size_t len = strlen(bytes);
    return memcmp(text, bytes, len) == 0 && starts[len - 1] == from && ends[len - 1] == to;
}

static zulmyren_literal literal(const char *bytes)
{
    return zulmyren_literal_of(bytes, strlen(bytes));
}

static zulmyren_filler filler(const char *bytes)
{
    return zulmyren_filler_of(bytes, strlen(bytes));
}

/* ---- Texts ---- */

static void well_formed(void)
{
    EXPECT(zulmyren_well_formed((const uint8_t *)"\xC3\xA9", 2) && !zulmyren_well_formed((const uint8_t *)"\xC3", 1));
    EXPECT(zulmyren_well_formed(long_text, ZULMYREN_LIMIT - 1));
}

static void letter_count(void)
{
    zulmyren_count answer = zulmyren_letter_count(nest.normalized, nest.normalized_len, 1, 4);
    EXPECT(answer.refusal == 0 && answer.count == 3);
    answer = zulmyren_letter_count(shifted.normalized, shifted.normalized_len, 1, 2);
    EXPECT(answer.refusal == ZULMYREN_OFF_PLACE && answer.count == 0);
    answer = zulmyren_letter_count(long_text, ZULMYREN_LIMIT - 1, 0, ZULMYREN_LIMIT - 1);
    EXPECT(answer.refusal == 0 && answer.count == ZULMYREN_LIMIT / 2);
}

static void char_offsets(void)
{
    zulmyren_offsets answer = zulmyren_char_offsets(shifted.normalized, shifted.normalized_len, 2, 4);
    EXPECT(answer.refusal == 0 && answer.start == 1 && answer.end == 3);
}

static const uint32_t from[2] = {2, 9}, to[2] = {4, 3};

static zulmyren_ranges two_ranges(void)
{
    zulmyren_ranges ranges;
    ranges.starts = from, ranges.starts_len = 2, ranges.ends = to, ranges.ends_len = 2;
    return ranges;
}

static zulmyren_answers_output two_answers(void)
{
    zulmyren_answers_output answers;
    answers.numbers = text, answers.numbers_len = 2;
    answers.starts = numbers[0], answers.starts_len = 2, answers.ends = numbers[1], answers.ends_len = 2;
    return answers;
}

static void char_offsets_all(void)
{
    zulmyren_ranges pairs = two_ranges();
    zulmyren_answers_output answers = two_answers();
    zulmyren_text bytes = zulmyren_text_of(shifted.normalized, shifted.normalized_len);
    EXPECT(zulmyren_text_char_offsets_all(bytes, &pairs, &answers) == 0);
    EXPECT(text[0] == 0 && numbers[0][0] == 1 && numbers[1][0] == 3 && text[1] == 10 && numbers[0][1] == 0);
}

/* ---- Ranges ---- */

static void check_note(void)
{
    zulmyren_note uneven = nest;
    uneven.ends_len--;
    EXPECT(zulmyren_note_check(&nest) == 0 && zulmyren_note_check(&longest) == 0);
    EXPECT(zulmyren_note_check(&uneven) == ZULMYREN_UNEVEN);
}

static void from_text(void)
{
    zulmyren_note note;
    EXPECT(zulmyren_note_from_text(&note, zulmyren_text_of(long_text, ZULMYREN_LIMIT - 1), &alignments) == 0);
    EXPECT(starts[3] == 2 && ends[3] == 4);
}

static void convert_offsets(void)
{
    zulmyren_offsets answer = zulmyren_note_convert_offsets(&shifted, zulmyren_normalized_range(1, 2));
    EXPECT(answer.refusal == 0 && answer.start == 1 && answer.end == 3);
    answer = zulmyren_note_convert_offsets(&shifted, zulmyren_original_range(1, 2));
    EXPECT(answer.refusal == 0 && answer.start == 1 && answer.end == 1);
}

static void convert_all(void)
{
    zulmyren_ranges ranges = two_ranges();
    zulmyren_answers_output answers = two_answers();
    EXPECT(zulmyren_note_convert_all(&shifted, false, &ranges, &answers) == 0);
    EXPECT(text[0] == 0 && numbers[0][0] == 1 && numbers[1][0] == 4 && text[1] == 10 && numbers[1][1] == 0);
}

static void get_range(void)
{
    zulmyren_offsets answer = zulmyren_note_get_range(&shifted, zulmyren_original_range(0, 9));
    EXPECT(answer.refusal == 0 && answer.start == 0 && answer.end == 4);
    answer = zulmyren_note_get_range(&shifted, zulmyren_normalized_range(1, 2));
    EXPECT(answer.refusal == ZULMYREN_NOTHING_THERE);
}

static void get_range_original(void)
{
    zulmyren_offsets answer = zulmyren_note_get_range_original(&shifted, zulmyren_normalized_range(1, 2));
    EXPECT(answer.refusal == 0 && answer.start == 1 && answer.end == 3);
}

static void part_verdict(void)
{
    EXPECT(zulmyren_note_part_verdict(&shifted, zulmyren_original_range(1, 3)) == 0);
    EXPECT(zulmyren_note_part_verdict(&shifted, zulmyren_normalized_range(1, 2)) == ZULMYREN_NOTHING_THERE);
}

static void slice(void)
{
    zulmyren_sliced answer = zulmyren_note_slice(&shifted, zulmyren_normalized_range(1, 3), &alignments);
    zulmyren_note part = zulmyren_note_sliced(&shifted, &answer, &alignments);
    EXPECT(answer.refusal == 0 && answer.original_start == 1 && answer.original_end == 3);
    EXPECT(answer.normalized_start == 1 && answer.normalized_end == 3 && answer.original_shift == 11);
    EXPECT(starts[1] == 0 && ends[1] == 2 && zulmyren_note_check(&part) == 0 && part.original[0] == 0xC3);
}

/* ---- Matches ---- */

/* The list of a literal in nest 12. */
static zulmyren_list found(const char *bytes)
{
    zulmyren_written answer = zulmyren_note_find_matches(&nest, literal(bytes), list_out);
    EXPECT(answer.refusal == 0);
    return zulmyren_list_of(list, answer.len);
}

static void find_matches(void)
{
    zulmyren_list places = found("t");
    zulmyren_place place = zulmyren_read_place(places.bytes, 1);
    EXPECT(places.len == 15 && place.kind == ZULMYREN_MATCHED && place.start == 3 && place.end == 4);
}

static void replace(void)
{
    zulmyren_written answer = zulmyren_note_replace(&nest, found("12"), filler("**"), &out);
    EXPECT(answer.refusal == 0 && answer.len == 7 && wrote("nest **", 6, 7));
}

/* A place of the list. */
static void write_place(size_t index, int kind, size_t start, size_t end)
{
    zulmyren_place place;
    place.kind = (uint8_t)kind, place.start = (uint16_t)start, place.end = (uint16_t)end;
    zulmyren_write_place(list, index, place);
}

/* Then the longest note: its first character and its last one, and nothing straight after it. */
static void replace_by_edits(void)
{
    size_t last = ZULMYREN_LIMIT - 3;
    zulmyren_list places = found("12");
    zulmyren_output small = second;
    zulmyren_written answer = zulmyren_note_replace_by_edits(&nest, places, filler("**"), &out, &first, &second);
    EXPECT(answer.refusal == 0 && answer.len == 7 && wrote("nest **", 6, 7));
    small.ends_len = 13;
    answer = zulmyren_note_replace_by_edits(&nest, places, filler("#"), &out, &first, &small);
    EXPECT(answer.refusal == 0 && answer.len == 6 && wrote("nest #", 6, 7));
    answer = zulmyren_note_replace_by_edits(&nest, places, filler("**"), &out, &first, &small);
    EXPECT(answer.refusal == ZULMYREN_NO_ROOM && answer.len == 0 && wrote("nest #", 6, 7));
    write_place(0, ZULMYREN_MATCHED, 0, 2);
    write_place(1, ZULMYREN_UNMATCHED, 2, last);
    write_place(2, ZULMYREN_MATCHED, last, last + 2);
    write_place(3, ZULMYREN_MATCHED, last + 2, last + 2);
    places = zulmyren_list_of(list, 4 * ZULMYREN_PLACE_LEN);
    answer = zulmyren_note_replace_by_edits(&longest, places, filler("x"), &out, &first, &second);
    EXPECT(answer.refusal == 0 && answer.len == last + 1 && wrote("x\xC3\xA9", 2, 4));
    EXPECT(memcmp(text + answer.len - 2, "xx", 2) == 0 && starts[answer.len - 1] == last);
}

static void published_alike(void)
{
    zulmyren_comparison answer = zulmyren_note_published_alike(&nest, &nest, found("12"), filler("**"));
    EXPECT(answer.refusal == 0 && answer.alike);
    answer = zulmyren_note_published_alike(&nest, &shifted, found("12"), filler("**"));
    EXPECT(answer.refusal == ZULMYREN_BROKEN_LIST && !answer.alike);
}

static void redact(void)
{
    zulmyren_text bytes = zulmyren_text_of(nest.original, nest.original_len);
    zulmyren_redaction answer = zulmyren_text_redact(bytes, literal("12"), filler("#"), &out);
    EXPECT(answer.refusal == 0 && answer.len == 6 && answer.matches == 1 && wrote("nest #", 6, 7));
    answer = zulmyren_redact(long_text, ZULMYREN_LIMIT - 1, (const uint8_t *)"\xC3\xA9", 2, (const uint8_t *)"x", 1,
                             text, ZULMYREN_LIMIT, starts, ZULMYREN_LIMIT, ends, ZULMYREN_LIMIT);
    EXPECT(answer.refusal == 0 && answer.len == ZULMYREN_LIMIT / 2 && answer.matches == ZULMYREN_LIMIT / 2);
}

static void redact_note(void)
{
    zulmyren_redaction answer = zulmyren_note_redact(&shifted, literal("\xC3\xA9"), filler("e"), list_out, &out);
    EXPECT(answer.refusal == 0 && answer.len == 3 && answer.matches == 1 && wrote("ae", 1, 3));
    EXPECT(zulmyren_read_place(list, 1).end == 3);
    answer = zulmyren_note_redact(&longest, literal("\xC3\xA9"), filler("e"), list_out, &out);
    EXPECT(answer.refusal == 0 && answer.len == ZULMYREN_LIMIT / 2 && answer.matches == ZULMYREN_LIMIT / 2);
}

static void redact_all(void)
{
    static uint8_t words[100];
    uint32_t sizes[6];
    zulmyren_pairs pairs;
    zulmyren_counts_output counts;
    zulmyren_redactions answer;
    pairs.words = words, pairs.words_room = sizeof words, pairs.words_len = 0;
    pairs.sizes = sizes, pairs.sizes_room = 6, pairs.sizes_len = 0;
    counts.blanked = numbers[0], counts.left = numbers[1], counts.fillers = numbers[2];
    counts.blanked_len = counts.left_len = counts.fillers_len = 3;
    EXPECT(zulmyren_add_pair(&pairs, literal("nest"), filler("[n]")));
    EXPECT(zulmyren_add_pair(&pairs, literal("Jose"), filler("1")));
    EXPECT(zulmyren_add_pair(&pairs, literal("2"), filler("nest")));
    answer = zulmyren_note_redact_all(&nest, &pairs, &out, &counts);
    EXPECT(answer.refusal == 0 && answer.len == 9 && wrote("[n] 1nest", 6, 7));
    EXPECT(answer.not_found == 1 && answer.left == 1 && answer.fillers_found == 2);
    EXPECT(numbers[0][0] == 1 && numbers[0][1] == 0 && numbers[0][2] == 1);
    EXPECT(numbers[1][0] == 1 && numbers[1][1] == 0 && numbers[1][2] == 0);
    EXPECT(numbers[2][0] == 0 && numbers[2][1] == 1 && numbers[2][2] == 1);
    pairs.words_len = pairs.sizes_len = 0;
    EXPECT(zulmyren_add_pair(&pairs, literal("\xC3\xA9"), filler("ab")));
    EXPECT(zulmyren_add_pair(&pairs, literal("ab"), filler("c")));
    answer = zulmyren_note_redact_all(&longest, &pairs, &out, &counts);
    EXPECT(answer.refusal == 0 && answer.len == ZULMYREN_LIMIT / 2 && numbers[0][1] == ZULMYREN_LIMIT / 2);
    EXPECT(answer.not_found == 0 && answer.left == 0 && answer.fillers_found == 0);
}

/* ---- Edits ---- */

/* A character replaced by x; then y added. */
static const uint8_t script_bytes[10] = {ZULMYREN_REPLACE, 'x', 0, 0, 0, ZULMYREN_ADD, 'y', 0, 0, 0};

static void transform_range(void)
{
    zulmyren_script script = zulmyren_script_of(script_bytes, sizeof script_bytes);
    zulmyren_written answer =
        zulmyren_note_transform_range(&shifted, zulmyren_normalized_range(1, 3), script, 0, &out);
    EXPECT(answer.refusal == 0 && answer.len == 4 && wrote("axy", 1, 3) && text[3] == 'b');
    answer = zulmyren_note_transform_range(&shifted, zulmyren_normalized_range(1, 2), script, 0, &out);
    EXPECT(answer.refusal == ZULMYREN_OFF_PLACE && answer.len == 0);
}

static void transform(void)
{
    zulmyren_script script = zulmyren_script_of(script_bytes, sizeof script_bytes);
    zulmyren_written answer = zulmyren_note_transform(&shifted, script, 1, &out);
    EXPECT(answer.refusal == 0 && answer.len == 2 && wrote("xy", 1, 3));
}

static void map(void)
{
    static const uint32_t codes[3] = {0x78, 0xE9, 0x79};
    zulmyren_written answer = zulmyren_note_map(&shifted, codes, 3, &out);
    EXPECT(answer.refusal == 0 && answer.len == 4 && wrote("x\xC3\xA9y", 3, 4));
    EXPECT(zulmyren_note_map(&shifted, codes, 2, &out).refusal == ZULMYREN_MISCOUNTED);
}

/* The Kelvin sign stays. */
static void lowercase(void)
{
    zulmyren_output small = out;
    zulmyren_written answer = zulmyren_note_lowercase(&capitals, &out);
    EXPECT(answer.refusal == 0 && answer.len == 9 && wrote("a\xC3\xA9i\xCC\x87\xE2\x84\xAA", 5, 8));
    EXPECT(starts[3] == 3 && ends[3] == 5 && starts[4] == 3 && ends[4] == 5 && starts[5] == 3 && ends[5] == 5);
    small.text_len = 8;
    EXPECT(zulmyren_note_lowercase(&capitals, &small).refusal == ZULMYREN_NO_ROOM);
    answer = zulmyren_note_lowercase(&longest, &out);
    EXPECT(answer.refusal == 0 && answer.len == ZULMYREN_LIMIT - 1 && memcmp(text, long_text, answer.len) == 0);
}

static void filter(void)
{
    static const uint8_t flags[3] = {0, 1, 0};
    zulmyren_written answer = zulmyren_note_filter(&shifted, flags, 3, &out);
    EXPECT(answer.refusal == 0 && answer.len == 2 && wrote("\xC3\xA9", 1, 3));
}

static void append(void)
{
    zulmyren_written answer = zulmyren_note_append(&shifted, zulmyren_text_of("xy", 2), &out);
    EXPECT(answer.refusal == 0 && answer.len == 6 && wrote("a\xC3\xA9" "bxy", 3, 4));
}

/* What it leaves is passed to the next call. */
static void prepend(void)
{
    zulmyren_written answer = zulmyren_note_prepend(&shifted, zulmyren_text_of("xy", 2), &out);
    zulmyren_note edited = zulmyren_note_edited(&shifted, &out, answer.len);
    EXPECT(answer.refusal == 0 && answer.len == 6 && wrote("xy", 0, 1) && zulmyren_note_check(&edited) == 0);
}

static void clear(void)
{
    zulmyren_cleared answer = zulmyren_note_clear(&shifted, &out);
    EXPECT(answer.refusal == 0 && answer.before_len == 4 && answer.len == 0);
}

/* ---- Pieces ---- */

static void split(void)
{
    zulmyren_split_options how;
    zulmyren_pieces_output pieces;
    zulmyren_cut answer;
    how.behavior = ZULMYREN_ISOLATED, how.drop_empty = false;
    pieces.piece_starts = columns[0], pieces.piece_ends = columns[1];
    pieces.piece_shifts = shifts, pieces.piece_lengths = columns[2];
    pieces.starts = columns[3], pieces.ends = columns[4];
    pieces.piece_starts_len = pieces.piece_ends_len = pieces.piece_shifts_len = pieces.piece_lengths_len = 3;
    pieces.starts_len = pieces.ends_len = 7;
    answer = zulmyren_note_split(&nest, found(" "), how, &pieces);
    EXPECT(answer.refusal == 0 && answer.len == 3 && answer.alignments_len == 7);
    EXPECT(columns[0][2] == 5 && columns[1][2] == 7 && shifts[2] == 5 && columns[2][2] == 2);
    EXPECT(columns[3][6] == 1 && columns[4][6] == 2);
    how.behavior = ZULMYREN_REMOVED;
    answer = zulmyren_note_split(&nest, found(" "), how, &pieces);
    EXPECT(answer.refusal == 0 && answer.len == 2 && answer.alignments_len == 6);
}

/* Behaviour 0 is 5. */
static void get_splits(void)
{
    zulmyren_get_splits_options asked;
    zulmyren_splits_output splits;
    zulmyren_written answer;
    asked.behavior = 0, asked.of_original = true, asked.in_chars = false;
    splits.starts = numbers[0], splits.ends = numbers[1];
    splits.starts_len = splits.ends_len = 3;
    answer = zulmyren_note_get_splits(&nest, found(" "), asked, &splits);
    EXPECT(answer.refusal == 0 && answer.len == 3 && numbers[0][2] == 5 && numbers[1][2] == 7);
    asked.behavior = ZULMYREN_REMOVED, asked.of_original = false;
    answer = zulmyren_note_get_splits(&nest, found(" "), asked, &splits);
    EXPECT(answer.refusal == 0 && answer.len == 2 && numbers[0][1] == 4 && numbers[1][1] == 6);
}

static void prepare(void)
{
    size_t i;
    stack = (uint8_t *)malloc(STACK);
    if (stack == NULL)
        exit(2);
    for (i = 0; i + 1 < ZULMYREN_LIMIT; i += 2)
        long_text[i] = 0xC3, long_text[i + 1] = 0xA9;
    make_note(&nest, "nest 12", 7);
    make_note(&shifted, "a\xC3\xA9" "b", 4);
    shifted.original_shift = 10;
    make_note(&longest, long_text, ZULMYREN_LIMIT - 1);
    make_note(&capitals, "A\xC3\x89\xC4\xB0\xE2\x84\xAA", 8);
    out.text = text, out.starts = starts, out.ends = ends;
    out.text_len = out.starts_len = out.ends_len = ZULMYREN_LIMIT;
    first.text = scratch_text[0], first.starts = scratch_columns[0], first.ends = scratch_columns[1];
    second.text = scratch_text[1], second.starts = scratch_columns[2], second.ends = scratch_columns[3];
    first.text_len = first.starts_len = first.ends_len = 2 * ZULMYREN_LIMIT;
    second.text_len = second.starts_len = second.ends_len = 2 * ZULMYREN_LIMIT;
    alignments.starts = starts, alignments.ends = ends;
    alignments.starts_len = alignments.ends_len = ZULMYREN_LIMIT;
    list_out.bytes = list, list_out.len = sizeof list;
}

#define RUN(call, most) run("zulmyren_" #call, call, most)

int main(void)
{
    prepare();
    RUN(well_formed, FEW);
    RUN(letter_count, FEW);
    RUN(char_offsets, FEW);
    RUN(char_offsets_all, CHAR_OFFSETS_ALL);
    RUN(check_note, FEW);
    RUN(from_text, FEW);
    RUN(convert_offsets, FEW);
    RUN(convert_all, FEW);
    RUN(get_range, FEW);
    RUN(get_range_original, FEW);
    RUN(part_verdict, FEW);
    RUN(slice, FEW);
    RUN(find_matches, FEW);
    RUN(replace, FEW);
    RUN(replace_by_edits, FEW);
    RUN(published_alike, FEW);
    RUN(redact, FEW);
    RUN(redact_note, FEW);
    RUN(redact_all, REDACT_ALL);
    RUN(transform_range, FEW);
    RUN(transform, FEW);
    RUN(map, FEW);
    RUN(lowercase, FEW);
    RUN(filter, FEW);
    RUN(append, FEW);
    RUN(prepend, FEW);
    RUN(clear, FEW);
    RUN(split, FEW);
    RUN(get_splits, FEW);
    printf("every call of the header, with its stack: %d checks, %d wrong\n", checks, failures);
    return failures > 0;
}
