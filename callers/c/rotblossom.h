/* The constant-pool builder, its block file, and texts with their units, for C and C++.
 *
 * Link target/staticlib/libcpool.a for cpool_run, target/staticlib/libblocks.a for the block functions and target/staticlib/libtexts.a
 * for the text functions; `tools/library cpool blocks texts` proves and writes them, for x86-64 processors of level v2 (with SSE4.2).
 * Documents 01 and 02 are the pages of rules: what a job is, and what each refusal number means.
 *
 * What a caller owes, to every function here:
 * - each pointer points to as many elements as the length behind it says, aligned as its type, and isn't NULL, also where that
 *   length is 0;
 * - no two of the things pointed to overlap;
 * - during the call nobody else writes what is const here, or reads or writes the rest.
 * No job is wrong to give, and no length: what is too short is refused. The functions keep to the lengths, end for every input, keep
 * nothing between calls, allocate nothing and take less than 4 KB of stack; calls on different memory may run at the same time.
 */
#ifndef ROTBLOSSOM_H
#define ROTBLOSSOM_H

#include <stddef.h>
#include <stdint.h>

#ifdef __cplusplus
extern "C" {
#endif

/* The longest job, in bytes; a longer one is refused with 1. */
#define ROTBLOSSOM_LONGEST_JOB 1048576

/* How much work (in words) and how many gaps a job must be lent; with fewer it is refused with 2. */
#define ROTBLOSSOM_LEAST_WORK(job_bytes) (6 * (job_bytes) + 1024)
#define ROTBLOSSOM_LEAST_GAPS(job_bytes) ((job_bytes) / 5 + 2)

/* The outputs' sizes are the caller's choice: with one too short for the job the run is refused with 18, and can be tried again with
 * more. No job needs more than these. */
#define ROTBLOSSOM_MOST_ANSWERS(job_bytes) ((job_bytes) / 3)
#define ROTBLOSSOM_LONGEST_POOL 4294967294
#define ROTBLOSSOM_LONGEST_BOOTSTRAPS 8589934590
#define ROTBLOSSOM_LONGEST_CLASS_NAME 65535

/* A free run of slots: what the gap table is made of. */
typedef struct rotblossom_gap {
    uint16_t first;
    uint16_t last;
} rotblossom_gap;

/* What stands at each place of cpool_run's numbers. After a refusal all but the first are 0. */
enum rotblossom_number {
    ROTBLOSSOM_PLACE,           /* the refusal's record; 0 if the job is built */
    ROTBLOSSOM_ANSWERS,         /* how many answers were written, and as many marks */
    ROTBLOSSOM_POOL,            /* how many bytes of the pool */
    ROTBLOSSOM_BOOTSTRAP_COUNT, /* how many bootstraps there are */
    ROTBLOSSOM_BOOTSTRAPS,      /* how many bytes of them were written */
    ROTBLOSSOM_NAME_SLOT,       /* the slot of the text "BootstrapMethods"; 0: none */
    ROTBLOSSOM_CLASS_GIVEN,     /* 1 if there is a class name, which may be empty; else 0 */
    ROTBLOSSOM_CLASS_NAME,      /* how many bytes of it were written */
    ROTBLOSSOM_VISITS,          /* the visit count */
    ROTBLOSSOM_NUMBERS
};

/* How an answer was come by: what stands in marks. */
enum rotblossom_mark {
    ROTBLOSSOM_RAW, /* the request leads to a raw number */
    ROTBLOSSOM_NEW, /* the constant was given its slot for this request */
    ROTBLOSSOM_OLD  /* an earlier request has the same constant */
};

/* Builds a job. Returns 0 if it is built, else the refusal's number, and writes all nine numbers.
 *
 * work and gaps may hold anything. After refusals 1 and 2 they are untouched; after every other end they are wholly zero. A built job
 * writes a prefix of each output, as long as its number says (answers in uint16_t, the others in bytes), and nothing behind it; a
 * refused one writes no output. */
uint32_t cpool_run(const uint8_t *job, size_t job_length,
                   uint32_t *work, size_t work_length,
                   rotblossom_gap *gaps, size_t gaps_length,
                   uint16_t *answers, size_t answers_length,
                   uint8_t *marks, size_t marks_length,
                   uint8_t *pool, size_t pool_length,
                   uint8_t *bootstraps, size_t bootstraps_length,
                   uint8_t *class_name, size_t class_name_length,
                   size_t numbers[ROTBLOSSOM_NUMBERS]);

/* How many bytes the block file of a job has, and the job of a block file at most. */
#define ROTBLOSSOM_FILE_BYTES(job_bytes) ((job_bytes) == 0 ? 512 : ((job_bytes) + 503) / 504 * 512)
#define ROTBLOSSOM_MOST_JOB_BYTES(file_bytes) ((file_bytes) / 512 * 504)

/* Reads the job in a block file. Returns 0, or 20 (not whole blocks), 1 (too long), 19 (a wrong block) or 18 (no room for the job).
 * place gets the first wrong block for 19, else 0; size gets the job's length, or 0. The job is a prefix of what is lent for it, and
 * nothing behind it is written; a refusal writes none of it. */
uint32_t blocks_read(const uint8_t *file, size_t file_length,
                     uint8_t *job, size_t job_length,
                     size_t *place, size_t *size);

/* Writes a job as a block file, in the same way. Returns 0, or 1 (too long) or 18 (no room for the file). */
uint32_t blocks_write(const uint8_t *job, size_t job_length,
                      uint8_t *file, size_t file_length,
                      size_t *place, size_t *size);

/* No text has more units, and no row of units a longer text. */
#define ROTBLOSSOM_MOST_UNITS(text_bytes) (text_bytes)
#define ROTBLOSSOM_MOST_TEXT_BYTES(units) (3 * (units))

/* Reads the sixteen-bit units of a text as JVMS 4.4.7 has it. Returns 0, or 25 (no text) or 18 (no room for the units). size gets how many
 * units there are, or 0. They are a prefix of what is lent for them, and nothing behind it is written; a refusal writes none of it. */
uint32_t texts_read(const uint8_t *text, size_t text_length,
                    uint16_t *units, size_t units_length,
                    size_t *size);

/* Writes any row of units as a text, in the same way: each in the form that JVMS 4.4.7 lays down for it. Returns 0 or 18 (no room for
 * the text). What is written passes, and reading it gives the units back. */
uint32_t texts_write(const uint16_t *units, size_t units_length,
                     uint8_t *text, size_t text_length,
                     size_t *size);

#ifdef __cplusplus
}
#endif

#endif
