/* Blanks two literals in a note, and writes nothing unless it is safe to hand out.
 *
 *   redact_example LITERAL FILLER LITERAL FILLER < NOTE
 *
 * From the root of the source:
 *   (cd crates/zulmyren_c && rt lib)
 *   mkdir -p target
 *   gcc -std=c99 -Iinclude -o target/redact_example examples/redact.c crates/zulmyren_c/out/libzulmyren_c.a
 *
 * Status: 0 written; 1 refused or not read or written whole; 2 wrong use; 3 nothing written, since a literal was not
 * found or can still be read, or a filler was in the note already.
 */
#include <stdio.h>
#include <string.h>
#include <zulmyren.h>

enum { PAIRS = 2, WORDS_ROOM = 4096 };

/* One byte more than a note may have, so that a longer one is seen. */
static uint8_t note_bytes[ZULMYREN_LIMIT + 1];
static uint16_t note_starts[ZULMYREN_LIMIT];
static uint16_t note_ends[ZULMYREN_LIMIT];

static uint8_t published[ZULMYREN_LIMIT];
static uint16_t published_starts[ZULMYREN_LIMIT];
static uint16_t published_ends[ZULMYREN_LIMIT];

static int refused(uint32_t refusal)
{
    fprintf(stderr, "refused %u %s\n", (unsigned)refusal, zulmyren_refusal_word(refusal));
    return 1;
}

/* Adds the literal and the filler that the program was started with. */
static bool add_words(zulmyren_pairs *pairs, char **words)
{
    int i;
    for (i = 0; i < PAIRS; i++) {
        const char *literal = words[2 * i];
        const char *filler = words[2 * i + 1];
        if (!zulmyren_add_pair(
                pairs, zulmyren_literal_of(literal, strlen(literal)), zulmyren_filler_of(filler, strlen(filler))))
            return false;
    }
    return true;
}

/* Says of each pair what keeps the note back, by its number: the literal itself is not spelt. */
static int held_back(const zulmyren_counts_output *counts)
{
    int i;
    for (i = 0; i < PAIRS; i++) {
        if (counts->blanked[i] == 0)
            fprintf(stderr, "literal %d is not found\n", i + 1);
        if (counts->left[i] != 0)
            fprintf(stderr, "literal %d can still be read\n", i + 1);
        if (counts->fillers[i] != 0)
            fprintf(stderr, "the filler of literal %d is in the note already\n", i + 1);
    }
    return 3;
}

int main(int argc, char **argv)
{
    static uint8_t words[WORDS_ROOM];
    uint32_t sizes[2 * PAIRS], blanked[PAIRS], left[PAIRS], fillers[PAIRS];
    zulmyren_pairs pairs;
    zulmyren_alignments_output columns;
    zulmyren_output out;
    zulmyren_counts_output counts;
    zulmyren_note note;
    zulmyren_redactions answer;
    uint32_t refusal;
    size_t len;

    pairs.words = words;
    pairs.words_room = WORDS_ROOM;
    pairs.words_len = 0;
    pairs.sizes = sizes;
    pairs.sizes_room = 2 * PAIRS;
    pairs.sizes_len = 0;
    if (argc != 1 + 2 * PAIRS || !add_words(&pairs, argv + 1)) {
        fprintf(stderr, "usage: redact_example LITERAL FILLER LITERAL FILLER < NOTE\n");
        return 2;
    }

    len = fread(note_bytes, 1, sizeof note_bytes, stdin);
    if (ferror(stdin)) {
        perror("standard input");
        return 1;
    }
    columns.starts = note_starts;
    columns.starts_len = ZULMYREN_LIMIT;
    columns.ends = note_ends;
    columns.ends_len = ZULMYREN_LIMIT;
    refusal = zulmyren_note_from_text(&note, zulmyren_text_of(note_bytes, len), &columns);
    if (refusal != ZULMYREN_ACCEPTED)
        return refused(refusal);

    out.text = published;
    out.text_len = ZULMYREN_LIMIT;
    out.starts = published_starts;
    out.starts_len = ZULMYREN_LIMIT;
    out.ends = published_ends;
    out.ends_len = ZULMYREN_LIMIT;
    counts.blanked = blanked;
    counts.blanked_len = PAIRS;
    counts.left = left;
    counts.left_len = PAIRS;
    counts.fillers = fillers;
    counts.fillers_len = PAIRS;
    answer = zulmyren_note_redact_all(&note, &pairs, &out, &counts);
    if (answer.refusal != ZULMYREN_ACCEPTED)
        return refused(answer.refusal);

    /* The note is handed out only if all three numbers are 0. */
    if (answer.not_found != 0 || answer.left != 0 || answer.fillers_found != 0)
        return held_back(&counts);
    if (fwrite(published, 1, answer.len, stdout) != answer.len || fflush(stdout) != 0) {
        perror("standard output");
        return 1;
    }
    return 0;
}
