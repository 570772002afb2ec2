/* What the parts of the test of include/tahvenno_rows.h share. */
#ifndef CHECK_H
#define CHECK_H

#include "tahvenno_rows.h"

/* The words of the longest row; the refusal of a fill whose words are ill formed or empty. */
enum { MOST_WORDS = TAHVENNO_ROW_WORDS, BAD_FILL = 9 };

/* Says what is wrong, and ends the test. */
_Noreturn void fail(const char *format, ...);

/* Repeatable numbers: any; of any width; below a limit; up to the most, often it or 0. */
uint64_t roll(void);
uint64_t any_width(void);
uint64_t below(uint64_t limit);
uint64_t up_to(uint64_t most);

/* What was done, in a line at the end. */
extern struct counts {
    uint64_t built, named, judged, accepted, memories, accesses, commands, names;
} counts;

/* One struct of the header, whichever. */
union fields {
    struct tahvenno_ste ste;
    struct tahvenno_cd cd;
    struct tahvenno_stage1 stage1;
    struct tahvenno_stage2 stage2;
    struct tahvenno_region region;
};

/* A member of such a struct, in its order: where it is in the struct, and in the words. A flag is a bool. */
struct part {
    const char *name;
    enum tahvenno_field field;
    size_t at;
    bool flag;
    unsigned word;
    uint64_t bits;
};

/* A kind of row: what every row of it has in word 0, its members, and its functions, those of the unit last. */
struct kind {
    const char *name;
    uint64_t number, word0;
    size_t words, parts;
    const struct part *part;
    void (*any)(union fields *fields, bool last_level);
    bool (*has)(const union fields *fields, enum tahvenno_field field);
    enum tahvenno_field (*build)(const union fields *fields, uint64_t *row);
    bool (*read)(const uint64_t *row, union fields *fields);
    uint64_t (*kind_of)(const uint64_t *row);
    uint64_t (*fill)(const uint64_t *row);
};

enum { KINDS = 5 };
extern const struct kind kinds[KINDS];

uint64_t get_part(const struct part *part, const union fields *fields);
void set_part(const struct part *part, union fields *fields, uint64_t value);

/* The words by the names of tahvenno.h, without a look at the rules; false if a number is too wide for its part. */
bool put_parts(const struct kind *kind, const union fields *fields, uint64_t *row);

/* The largest number that a part has room for. */
uint64_t most_of(const struct part *part);

/* The parts of the test. */
void check_rows(uint64_t rounds);
void check_bad_fields(uint64_t rounds);
void check_words(uint64_t rounds);
void check_meaning(uint64_t rounds);
void check_memories(void);
void check_controls(void);
void check_recorders(void);
void check_commands(void);
void check_names(void);

#endif
