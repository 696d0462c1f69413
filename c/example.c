/*
 * Prints each wall's verdict and steel, the sheet, and the drawing of wall 1 of a job file, and how it is written again, with other figures of
 * wall 1 too; or why it is refused:
 *
 *     cc -std=c99 -Wall -Wextra -pedantic -o example c/example.c target/staticlib/liboffice.a
 *     ./example jobs/case-a.job
 */
#include <stdio.h>
#include <string.h>

#include "office.h"

/* No job is longer than this, and a file that is gets the same answer cut short here as whole. */
static uint8_t job[65536];
static int64_t numbers[OFFICE_LINE_NUMBERS * OFFICE_MOST_WALLS];
static uint8_t text[OFFICE_TEXT_ROOM];
static double figures[OFFICE_FIGURE_ROOM];
static uint32_t walls[OFFICE_WALL_ROOM];
static uint32_t loads[OFFICE_LOAD_ROOM];
static uint8_t again[OFFICE_FILE_ROOM];

static const struct {
    uint16_t bit;
    const char *words;
} checks[] = {
    {OFFICE_SLIDES, "slides"},
    {OFFICE_OVERTURNS, "overturns"},
    {OFFICE_OVER_ALLOWABLE, "a pressure is over the allowable"},
    {OFFICE_NO_SERVICE_BLOCK, "no service block"},
    {OFFICE_NO_FACTORED_BLOCK, "no factored block"},
    {OFFICE_TOE_STEEL_FAILS, "toe steel"},
    {OFFICE_STEM_STEEL_FAILS, "stem steel"},
    {OFFICE_SHEAR_FAILS, "shear"},
    {OFFICE_HEEL_STEEL_FAILS, "heel steel"},
};

static const char *reason(uint32_t refusal)
{
    switch (refusal) {
    case OFFICE_TOO_SHORT: return "the file is too short for a header";
    case OFFICE_WRONG_EDITION: return "wrong edition";
    case OFFICE_COUNT_OUT_OF_RANGE: return "the number of walls or of loads is out of range, or a record isn't whole";
    case OFFICE_WRONG_OFFSET: return "an offset is wrong";
    case OFFICE_WRONG_LENGTH: return "the length is wrong";
    case OFFICE_WALL_OUT_OF_RANGE: return "a field is out of range,";
    case OFFICE_LOAD_OUT_OF_RANGE: return "a field is out of range, or the wall isn't there, in load";
    case OFFICE_NINTH_LOAD: return "a wall has a ninth load, load";
    case OFFICE_BUFFER_TOO_SHORT: return "the buffer is too short";
    case OFFICE_OUTPUT_TOO_SHORT: return "the output is too short";
    case OFFICE_NO_SUCH_WALL: return "there is no wall";
    default: return "worked";
    }
}

static int refused(uint64_t answer)
{
    printf("refused, %u: %s", (unsigned)office_answer_number(answer), reason(office_answer_number(answer)));
    if (office_answer_wall(answer) != 0)
        printf(" field %lu of wall %lu", (unsigned long)office_answer_field(answer), (unsigned long)office_answer_wall(answer));
    else if (office_answer_place(answer) != 0)
        printf(" %lu", (unsigned long)office_answer_place(answer));
    printf("\n");
    return 1;
}

static void print_verdict(const int64_t *line)
{
    const char *before = " fails: ";
    uint16_t failures = (uint16_t)line[OFFICE_LINE_FAILURES];
    printf("wall %d", (int)line[OFFICE_LINE_WALL]);
    for (size_t i = 0; i < sizeof checks / sizeof checks[0]; i++)
        if (office_has_failed(failures, checks[i].bit)) {
            printf("%s%s", before, checks[i].words);
            before = ", ";
        }
    printf("%s\n", failures == 0 ? " passes" : "");
}

/* Areas are in hundredths of mm2, and are never negative. */
static void print_steel(const int64_t *line)
{
    long toe = (long)line[OFFICE_LINE_TOE_STEEL], stem = (long)line[OFFICE_LINE_STEM_STEEL], heel = (long)line[OFFICE_LINE_HEEL_STEEL];
    printf("steel required: toe %ld.%02ld mm2, stem %ld.%02ld mm2, heel %ld.%02ld mm2\n", toe / 100, toe % 100, stem / 100, stem % 100, heel / 100, heel % 100);
}

static void print_drawing(uint32_t shape)
{
    printf("wall 1: R %.3f kN, %.1f mm from the toe; H %.3f kN; ", figures[OFFICE_FIGURE_R], figures[OFFICE_FIGURE_DISTANCE], figures[OFFICE_FIGURE_H]);
    if (shape == OFFICE_NOTHING)
        printf("no block\n");
    else if (shape == OFFICE_WHOLE)
        printf("the whole base bears, toe %.3f and heel %.3f kN/m2\n", figures[OFFICE_FIGURE_ONE], figures[OFFICE_FIGURE_TWO]);
    else
        printf("a triangle from the %s, peak %.3f kN/m2, %.1f mm long\n", shape == OFFICE_TOE_TRIANGLE ? "toe" : "heel", figures[OFFICE_FIGURE_ONE], figures[OFFICE_FIGURE_TWO]);
}

/* The records, as they are by now, as a job. */
static uint64_t write_again(void)
{
    return office_write(walls, OFFICE_WALL_FIELDS * office_wall_count(job), loads, OFFICE_LOAD_FIELDS * office_load_count(job), again, sizeof again);
}

/* Wall 1's verdict in that job, or why it is refused. */
static void print_again(const char *with)
{
    uint64_t answer = write_again();
    printf("with %s, ", with);
    if (office_answer_number(answer) == OFFICE_WORKED)
        answer = office_calculate(again, office_answer_bytes(answer), numbers, OFFICE_LINE_NUMBERS * OFFICE_MOST_WALLS);
    if (office_answer_number(answer) == OFFICE_WORKED)
        print_verdict(numbers);
    else
        refused(answer);
}

int main(int count, char **words)
{
    FILE *file = count == 2 ? fopen(words[1], "rb") : NULL;
    if (file == NULL) {
        fprintf(stderr, "example: give the name of a job file that can be read\n");
        return 2;
    }
    size_t length = fread(job, 1, sizeof job, file);
    int unread = ferror(file);
    fclose(file);
    if (unread) {
        fprintf(stderr, "example: %s can't be read\n", words[1]);
        return 2;
    }

    uint64_t answer = office_calculate(job, length, numbers, OFFICE_LINE_NUMBERS * OFFICE_MOST_WALLS);
    if (office_answer_number(answer) != OFFICE_WORKED)
        return refused(answer);
    for (size_t i = 0; i < office_wall_count(job); i++) {
        print_verdict(numbers + OFFICE_LINE_NUMBERS * i);
        print_steel(numbers + OFFICE_LINE_NUMBERS * i);
    }

    fwrite(text, 1, office_text(job, length, text, sizeof text), stdout);

    answer = office_drawing(job, length, 1, figures, OFFICE_FIGURE_ROOM);
    if (office_answer_number(answer) != OFFICE_WORKED)
        return refused(answer);
    print_drawing(office_answer_shape(answer));

    answer = office_records(job, length, walls, OFFICE_WALL_ROOM, loads, OFFICE_LOAD_ROOM);
    if (office_answer_number(answer) != OFFICE_WORKED)
        return refused(answer);
    answer = write_again();
    if (office_answer_number(answer) != OFFICE_WORKED)
        return refused(answer);
    size_t bytes = office_answer_bytes(answer);
    printf("written again: %u bytes, %s\n", (unsigned)bytes, bytes == length && memcmp(again, job, length) == 0 ? "the same" : "not the same");

    walls[OFFICE_WALL_STEM_SPACING] = 50; /* the records begin with wall 1's */
    print_again("a stem bar every 50 mm");

    walls[OFFICE_WALL_DOWNSTAND_DEPTH] = 600;
    walls[OFFICE_WALL_DOWNSTAND_POSITION] = 0;
    walls[OFFICE_WALL_DOWNSTAND_THICKNESS] = 200;
    print_again("a downstand 600 mm deep at the toe");

    walls[OFFICE_WALL_STEM_HEIGHT] = 0;
    print_again("a stem of no height");
    return 0;
}
