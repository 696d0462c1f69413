/*
 * The wall sheet for C and C++: the numbers of a job's sheet, its printed text, and the drawing of one of its walls; a job file written from
 * records, and one taken apart into them.
 *
 * The functions stand in target/staticlib/liboffice.a, which `./library` makes for x86-64 Linux. They are written in Rattle
 * (crates/office_c), and each is proved to answer what its comment says for every job, buffer and number, and to return. They keep nothing
 * from one call to the next, allocate nothing, and call nothing but memcpy and memset, so threads may call them at the same time.
 *
 * The proofs can't see a caller in C. What each caller owes:
 *
 *   - A pointer leads to as many elements as the length behind it says, aligned as their type is, and these are at most PTRDIFF_MAX bytes
 *     in all. Where the length is 0 nothing is read or written, and the pointer may be NULL.
 *   - All elements have values before the call, those of a buffer that is written too; any values will do.
 *   - A buffer that is written overlaps nothing else that the call is given. Until the call returns nothing else reads or writes it, and
 *     nothing else writes to what is only read, which is `const`.
 *
 * Nothing is owed of what a job or a record holds. Any bytes have an answer, and so have any numbers: a job that can't be worked, and records
 * that would make one, are refused.
 */
#ifndef OFFICE_H
#define OFFICE_H

#include <stdbool.h>
#include <stddef.h>
#include <stdint.h>

#ifdef __cplusplus
extern "C" {
#endif

/* ---- how much is lent */

enum {
    OFFICE_LINE_NUMBERS = 19, /* numbers on a wall's line */
    OFFICE_MOST_WALLS = 64,   /* walls that a job may have; 19 x 64 numbers are room for any sheet */
    OFFICE_TEXT_ROOM = 25536, /* bytes, room for the text of any job: 21 x 19 x 64 */
    OFFICE_FIGURE_ROOM = 5,   /* doubles, room for the figures of any drawing */
    OFFICE_WALL_FIELDS = 38,  /* numbers in a wall's record */
    OFFICE_LOAD_FIELDS = 5,   /* numbers in a load's record */
    OFFICE_MOST_LOADS = 512,  /* loads that a job may have */
    /* numbers, room for the walls of any job, and for its loads: 2432 and 2560 */
    OFFICE_WALL_ROOM = OFFICE_WALL_FIELDS * OFFICE_MOST_WALLS,
    OFFICE_LOAD_ROOM = OFFICE_LOAD_FIELDS * OFFICE_MOST_LOADS,
    /* bytes, room for any job: 19980 */
    OFFICE_FILE_ROOM = 12 + 4 * OFFICE_WALL_ROOM + 4 * OFFICE_LOAD_ROOM
};

/* ---- what is answered, packed in one number: the place in the low 32 bits, the refusal's number in the next 16, shape or bytes above */

static inline uint32_t office_answer_place(uint64_t answer) { return (uint32_t)(answer & 0xffffffffu); }
static inline uint32_t office_answer_number(uint64_t answer) { return (uint32_t)(answer >> 32 & 0xffffu); }
static inline uint32_t office_answer_shape(uint64_t answer) { return (uint32_t)(answer >> 48); } /* of a drawing */
static inline size_t office_answer_bytes(uint64_t answer) { return (size_t)(answer >> 48); }     /* of a job that is written */

/*
 * A refusal's number. Of several faults the one that stands higher here is named; among walls the first, and of that wall the first field,
 * in field order; among loads the first, whether for 6 or 7, and a load with both faults has 6.
 */
enum office_refusal {
    OFFICE_WORKED = 0,             /* no refusal */
    OFFICE_TOO_SHORT = 1,          /* the job has fewer than 12 bytes */
    OFFICE_WRONG_EDITION = 2,      /* its edition isn't 2 */
    OFFICE_COUNT_OUT_OF_RANGE = 3, /* it has no wall or more than 64, or more than 512 loads; or a record isn't whole */
    OFFICE_WRONG_OFFSET = 4,       /* an offset isn't the one that the counts give */
    OFFICE_WRONG_LENGTH = 10,      /* the length isn't, or isn't that of the job */
    OFFICE_WALL_OUT_OF_RANGE = 5,  /* a wall has a field out of range; the place is the wall's number x 100 + the field's */
    OFFICE_LOAD_OUT_OF_RANGE = 6,  /* a load has one, or is on no wall of the job; the place is the load's number */
    OFFICE_NINTH_LOAD = 7,         /* a load is the ninth on its wall; the place is the load's number */
    OFFICE_NO_SUCH_WALL = 18,      /* the job has no wall of the number asked for, which is the place */
    OFFICE_BUFFER_TOO_SHORT = 8,   /* the lent buffer hasn't the room */
    OFFICE_OUTPUT_TOO_SHORT = 9    /* it hasn't the room for the job that is to be written */
};
/* Walls, fields and loads are numbered from 1, in the job's order. Where no place is named it is 0. */

/* The wall and the field that OFFICE_WALL_OUT_OF_RANGE names, the field by its number in docs/JOB-FILE.md; 0 of any other answer. */
static inline uint32_t office_answer_wall(uint64_t answer)
{
    return office_answer_number(answer) == OFFICE_WALL_OUT_OF_RANGE ? office_answer_place(answer) / 100 : 0;
}
static inline uint32_t office_answer_field(uint64_t answer)
{
    return office_answer_number(answer) == OFFICE_WALL_OUT_OF_RANGE ? office_answer_place(answer) % 100 : 0;
}

/* ---- the sheet in numbers */

/* Where each number of a line stands. Forces, moments and steel are per metre run. An area is in
   hundredths of mm2: 89165 is 891.65 mm2. */
enum office_line {
    OFFICE_LINE_WALL,         /* the wall's number */
    OFFICE_LINE_FAILURES,     /* the checks that it fails, a bit each */
    OFFICE_LINE_R,            /* vertical force, N */
    OFFICE_LINE_H,            /* horizontal force on the wall's whole height, N */
    OFFICE_LINE_PROPPING,     /* propping force, N */
    OFFICE_LINE_M6,           /* moment about the toe, at the base's underside, in sixths of a N mm; it may be negative */
    OFFICE_LINE_SERVICE_TOE,  /* pressure at the toe, N/m2 */
    OFFICE_LINE_SERVICE_HEEL, /* and at the heel */
    OFFICE_LINE_FACTORED_TOE, /* the same two, factored */
    OFFICE_LINE_FACTORED_HEEL,
    OFFICE_LINE_TOE_SHEAR,    /* N */
    OFFICE_LINE_TOE_MOMENT,   /* N mm */
    OFFICE_LINE_TOE_STEEL,    /* area required, in hundredths of mm2 */
    OFFICE_LINE_STEM_SHEAR,   /* N */
    OFFICE_LINE_STEM_MOMENT,  /* N mm */
    OFFICE_LINE_STEM_STEEL,   /* area required, in hundredths of mm2 */
    OFFICE_LINE_HEEL_SHEAR,   /* N */
    OFFICE_LINE_HEEL_MOMENT,  /* N mm */
    OFFICE_LINE_HEEL_STEEL    /* area required, in hundredths of mm2 */
};

/* The bits of OFFICE_LINE_FAILURES. No other bit is ever set, and a wall with none passes. */
enum office_failure {
    OFFICE_SLIDES = 1,             /* passive force and friction don't hold an unpropped wall */
    OFFICE_OVERTURNS = 2,          /* the restoring moment is less than the overturning one */
    OFFICE_OVER_ALLOWABLE = 4,     /* a service pressure is over the allowable */
    OFFICE_NO_SERVICE_BLOCK = 8,   /* no bearing block is given in service */
    OFFICE_NO_FACTORED_BLOCK = 16, /* none is given for the factored totals */
    OFFICE_TOE_STEEL_FAILS = 32,
    OFFICE_STEM_STEEL_FAILS = 64,
    OFFICE_SHEAR_FAILS = 128,      /* of toe, stem or heel */
    OFFICE_HEEL_STEEL_FAILS = 256
};

/*
 * The sheet of a job. Where it is worked the answer is 0, and the buffer holds 19 numbers for each wall, in the job's order, and behind
 * them what it held before. A refusal is 1 to 8 or 10, with its place, and the buffer is as it was; it is 8 where the buffer has room for
 * fewer than 19 numbers for each wall. The shape is 0.
 */
uint64_t office_calculate(const uint8_t *job, size_t job_length, int64_t *out, size_t out_length);

/*
 * Is the bit of a check set in the failures of a line? They are its number at OFFICE_LINE_FAILURES, which a uint16_t holds. The check is
 * named by its bit, one of enum office_failure; of any other number the answer is false.
 */
bool office_has_failed(uint16_t failures, uint16_t check);

/* ---- the sheet as it is printed */

/*
 * The text of a job, in ASCII: a line for each wall, or one that says `refused` with the refusal's number, 1 to 7 or 10, and its place. It
 * is put at the start of the buffer, with no 0 behind it, and what stands behind it is as it was. The answer is how many bytes it took. A
 * buffer with fewer than 25536 bytes is left as it was, and the answer is 0, whatever the job.
 */
size_t office_text(const uint8_t *job, size_t job_length, uint8_t *out, size_t out_length);

/* ---- the drawing of a wall */

/* How the base bears in service, and the figures that the shape has of its own. */
enum office_shape {
    OFFICE_NOTHING = 0,      /* no block: none */
    OFFICE_WHOLE = 1,        /* on all of the base: the pressures at toe and heel, kN/m2 */
    OFFICE_TOE_TRIANGLE = 2, /* a triangle from the toe: its peak, kN/m2, and the length in contact, mm */
    OFFICE_HEEL_TRIANGLE = 3 /* a triangle from the heel: the same two */
};

/* Where each figure stands. */
enum office_figure {
    OFFICE_FIGURE_R,        /* R, kN */
    OFFICE_FIGURE_H,        /* H, kN */
    OFFICE_FIGURE_DISTANCE, /* how far from the toe R acts, at the base's underside, mm */
    OFFICE_FIGURE_ONE,      /* the shape's own two */
    OFFICE_FIGURE_TWO
};

/*
 * The drawing of a wall, by its number in the job, from 1. Where it is drawn the answer's refusal is 0 and its shape is the wall's, and the
 * buffer holds five figures, or three where the shape is nothing, and behind them what it held before. Each is a quotient of two whole
 * numbers, rounded once, and none is a NaN. A refusal is 1 to 7, 10, 18, or 8 where the buffer has room for fewer than five doubles, whatever
 * the shape; then the shape is 0, and the buffer is as it was.
 */
uint64_t office_drawing(const uint8_t *job, size_t job_length, uint32_t wall, double *out, size_t out_length);

/* ---- a job's records */

/*
 * Where each number of a wall's record stands, which is its field's number less 1. Lengths are in mm, densities in 10 N/m3, coefficients in
 * thousandths. docs/JOB-FILE.md has the ranges. Of a wall without a downstand the last three are 0.
 */
enum office_wall {
    OFFICE_WALL_KIND,              /* 0 unpropped, 1 propped at the base */
    OFFICE_WALL_STEM_HEIGHT,
    OFFICE_WALL_STEM_THICKNESS,
    OFFICE_WALL_TOE,               /* how far the toe reaches in front of the stem, */
    OFFICE_WALL_HEEL,              /* and the heel behind it */
    OFFICE_WALL_BASE_THICKNESS,
    OFFICE_WALL_COVER_IN_FRONT,
    OFFICE_WALL_EXCAVATION,        /* unplanned */
    OFFICE_WALL_WATER,             /* its height above the underside of the downstand, or of the base where there is none */
    OFFICE_WALL_STEM_DENSITY,
    OFFICE_WALL_BASE_DENSITY,
    OFFICE_WALL_MOIST_DENSITY,     /* of moist fill, */
    OFFICE_WALL_SATURATED_DENSITY, /* of saturated fill, */
    OFFICE_WALL_SOIL_DENSITY,      /* of the soil at the base */
    OFFICE_WALL_KA,
    OFFICE_WALL_K0,
    OFFICE_WALL_PASSIVE,           /* Kp x cos(base friction angle) */
    OFFICE_WALL_TANGENT,           /* of the base friction angle */
    OFFICE_WALL_ALLOWABLE,         /* bearing, kN/m2 */
    OFFICE_WALL_SURCHARGE,         /* 10 N/m2 */
    OFFICE_WALL_FCU,               /* N/mm2 */
    OFFICE_WALL_FY,                /* N/mm2 */
    OFFICE_WALL_LEAST_STEEL,       /* hundredths of a percent */
    OFFICE_WALL_TOE_COVER,         /* over the toe's bars, and their diameter and spacing */
    OFFICE_WALL_TOE_BAR,
    OFFICE_WALL_TOE_SPACING,
    OFFICE_WALL_STEM_COVER,        /* the same three of the stem */
    OFFICE_WALL_STEM_BAR,
    OFFICE_WALL_STEM_SPACING,
    OFFICE_WALL_TOE_STRESS,        /* what the concrete takes in shear, 1/1000 N/mm2 */
    OFFICE_WALL_STEM_STRESS,
    OFFICE_WALL_HEEL_COVER,        /* the same three of the heel, and its stress */
    OFFICE_WALL_HEEL_BAR,
    OFFICE_WALL_HEEL_SPACING,
    OFFICE_WALL_HEEL_STRESS,
    OFFICE_WALL_DOWNSTAND_DEPTH,   /* below the base's underside; how far from the toe it begins, and how thick it is */
    OFFICE_WALL_DOWNSTAND_POSITION,
    OFFICE_WALL_DOWNSTAND_THICKNESS
};

/* And of a load's. */
enum office_load {
    OFFICE_LOAD_WALL,      /* the number of its wall, from 1 */
    OFFICE_LOAD_DIRECTION, /* 0 down, 1 horizontal towards the toe */
    OFFICE_LOAD_POSITION,  /* of a load down, from the toe; of a horizontal one, above the underside of the base */
    OFFICE_LOAD_DEAD,      /* N/m */
    OFFICE_LOAD_LIVE       /* N/m */
};

/* How many walls, and how many loads, a job has that isn't refused. */
static inline size_t office_wall_count(const uint8_t *job) { return job[2] + 256u * job[3]; }
static inline size_t office_load_count(const uint8_t *job) { return job[6] + 256u * job[7]; }

/*
 * The records of a job. Where it is taken apart the answer is 0, and the one buffer holds 38 numbers for each wall, the other 5 for each
 * load, in the job's order, and behind them what they held before. A refusal is 1 to 7 or 10, with its place, or 8 where either buffer has
 * room for fewer; then both are as they were.
 */
uint64_t office_records(const uint8_t *job, size_t job_length, uint32_t *walls, size_t walls_length, uint32_t *loads, size_t loads_length);

/*
 * The job that records make: 38 numbers for each wall, and 5 for each load. Where it is written the answer's refusal is 0 and its bytes are
 * 12, 152 for each wall and 20 for each load; the buffer holds the job in so many, and behind them what it held before. office_records gives
 * the same records of it, and what it gives of any job is written as the same bytes. A refusal is 3, also for numbers that aren't whole
 * records, 5 to 7 as the job would be refused, with its place, or 9 where the buffer has room for fewer bytes; then the answer's bytes are
 * 0, and the buffer is as it was.
 */
uint64_t office_write(const uint32_t *walls, size_t walls_length, const uint32_t *loads, size_t loads_length, uint8_t *out, size_t out_length);

#ifdef __cplusplus
}
#endif

#endif
