/* Builds case b of document 01, from a block file: a text "A", a Class of it, and a request for the Class. Then the same with a pool
 * a byte too short, and with work a word too short. Last, a text of three units. */
#undef NDEBUG
#include <assert.h>
#include <stdio.h>
#include <string.h>

#include "rotblossom.h"

enum {
    JOB = 18,
    WORK = ROTBLOSSOM_LEAST_WORK(JOB),
    GAPS = ROTBLOSSOM_LEAST_GAPS(JOB),
    FILE_BYTES = ROTBLOSSOM_FILE_BYTES(JOB),
    ANSWERS = ROTBLOSSOM_MOST_ANSWERS(JOB),
    POOL = 9
};

static const uint8_t case_b[JOB] = {
    1, 0, 1, 0x41,    /* constant 0: the text "A" */
    7, 1, 0, 0,       /* constant 1: the Class of constant 0 */
    0x50,             /* the definitions end */
    0x51, 1, 0, 1,    /* a slot is asked for constant 1 */
    0x60, 2, 1, 0, 0  /* build without the name; request 0 is the class */
};

static const uint8_t case_b_pool[POOL] = {0, 3, 7, 0, 2, 1, 0, 1, 0x41};

/* What is lent. The least work and gaps will do, with anything in them. */
static uint32_t work[WORK];
static rotblossom_gap gaps[GAPS];
static uint16_t answers[ANSWERS];
static uint8_t marks[ANSWERS];
static uint8_t pool[POOL + 1];
static uint8_t bootstraps[1];
static uint8_t class_name[4];
static size_t numbers[ROTBLOSSOM_NUMBERS];

static uint32_t build(const uint8_t *job, size_t work_length, size_t pool_length) {
    memset(work, 0xff, sizeof work);
    memset(gaps, 0xff, sizeof gaps);
    memset(pool, 0xaa, sizeof pool);
    return cpool_run(job, JOB, work, work_length, gaps, GAPS, answers, ANSWERS, marks, ANSWERS, pool, pool_length,
                     bootstraps, 0, class_name, sizeof class_name, numbers);
}

static int work_is(uint32_t word) {
    size_t i;
    for (i = 0; i < WORK; i++) {
        if (work[i] != word) return 0;
    }
    return 1;
}

static void show(void) {
    static const char *const mark_names[] = {"raw", "new", "old"};
    size_t i;
    printf("answers");
    for (i = 0; i < numbers[ROTBLOSSOM_ANSWERS]; i++) printf(" %u %s", (unsigned)answers[i], mark_names[marks[i]]);
    printf(", pool ");
    for (i = 0; i < numbers[ROTBLOSSOM_POOL]; i++) printf("%02x", (unsigned)pool[i]);
    printf(", class %.*s, visits %u\n", (int)numbers[ROTBLOSSOM_CLASS_NAME], (const char *)class_name,
           (unsigned)numbers[ROTBLOSSOM_VISITS]);
}

static void case_b_is_built(const uint8_t *job) {
    assert(build(job, WORK, POOL + 1) == 0);
    show();
    assert(numbers[ROTBLOSSOM_PLACE] == 0);
    assert(numbers[ROTBLOSSOM_ANSWERS] == 1 && answers[0] == 1 && marks[0] == ROTBLOSSOM_NEW);
    assert(numbers[ROTBLOSSOM_POOL] == POOL && memcmp(pool, case_b_pool, POOL) == 0 && pool[POOL] == 0xaa);
    assert(numbers[ROTBLOSSOM_BOOTSTRAP_COUNT] == 0 && numbers[ROTBLOSSOM_BOOTSTRAPS] == 0);
    assert(numbers[ROTBLOSSOM_NAME_SLOT] == 0);
    assert(numbers[ROTBLOSSOM_CLASS_GIVEN] == 1 && numbers[ROTBLOSSOM_CLASS_NAME] == 1 && class_name[0] == 'A');
    assert(numbers[ROTBLOSSOM_VISITS] == 4);
    assert(work_is(0));
}

static void too_little_is_refused(const uint8_t *job) {
    /* The pool is too short: 18 at the build record, 4. Work is cleared, no output is written. */
    assert(build(job, WORK, POOL - 1) == 18);
    assert(numbers[ROTBLOSSOM_PLACE] == 4 && numbers[ROTBLOSSOM_POOL] == 0);
    assert(pool[0] == 0xaa && work_is(0));

    /* Work is too short: 2, and it is untouched. */
    assert(build(job, WORK - 1, POOL) == 2);
    assert(numbers[ROTBLOSSOM_PLACE] == 0 && pool[0] == 0xaa && work_is(0xffffffff));
    printf("18 and 2 refused\n");
}

static void texts_come_back(void) {
    static const uint16_t units[3] = {0x41, 0, 0xd83d};
    static const uint8_t text[6] = {0x41, 0xc0, 0x80, 0xed, 0xa0, 0xbd};
    static const uint8_t zero[1] = {0};
    uint8_t written[ROTBLOSSOM_MOST_TEXT_BYTES(3)];
    uint16_t read[ROTBLOSSOM_MOST_UNITS(6)];
    size_t size;

    assert(texts_write(units, 3, written, sizeof written, &size) == 0);
    assert(size == sizeof text && memcmp(written, text, sizeof text) == 0);
    assert(texts_read(text, sizeof text, read, 6, &size) == 0);
    assert(size == 3 && memcmp(read, units, sizeof units) == 0);

    /* A zero byte is no text, and two units too few are no room. */
    assert(texts_read(zero, 1, read, 6, &size) == 25 && size == 0);
    assert(texts_read(text, sizeof text, read, 1, &size) == 18 && size == 0);
    printf("a text of %u bytes and back\n", (unsigned)sizeof text);
}

int main(void) {
    static uint8_t file[FILE_BYTES];
    static uint8_t job[JOB];
    size_t place, size;

    assert(blocks_write(case_b, JOB, file, FILE_BYTES, &place, &size) == 0);
    assert(size == FILE_BYTES && file[508] == 0 && file[509] == 0 && file[510] == 0x12 && file[511] == 0x3d);
    assert(blocks_read(file, FILE_BYTES, job, JOB, &place, &size) == 0);
    assert(size == JOB && memcmp(job, case_b, JOB) == 0);

    case_b_is_built(job);
    too_little_is_refused(job);
    texts_come_back();
    return 0;
}
