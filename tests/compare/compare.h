/* One question for both programs, the second and the archive, and the comparison of all that comes back. */
#ifndef COMPARE_H
#define COMPARE_H

#include <stddef.h>
#include <stdint.h>

enum call { ENCODE, DECODE, FRAME_LENGTH, FRAME_BOUNDS, MAKE_FRAME, READ_LINE, READ_OWN_LINE, CALLS };

struct question {
    enum call call;
    uint32_t identifier;
    const uint8_t *given; /* payload, field or line */
    size_t there;         /* the bytes of it that are there */
    size_t claimed;       /* its length as the call is told */
    size_t room;          /* of the lent buffer as the call is told */
    int lend_null;        /* the lent buffer is NULL */
};

/* The usual question: what is claimed is there, and a buffer is lent. */
static inline struct question question(enum call call, uint32_t identifier, const uint8_t *given, size_t length,
                                       size_t room)
{
    return (struct question){call, identifier, given, given == NULL ? 0 : length, length, room, 0};
}

/* Both programs must give the same answer and leave the same bytes. The second program's answer is returned. */
uint64_t compare(struct question question);

/* The same, and both must give this answer and this result, which the documents say. */
void expect(struct question question, uint64_t expected, const uint8_t *result, size_t result_len);

/* A fact about one of the two programs. */
void check(int holds, const char *fact);

/* A number below the bound, from a fixed seed. */
uint64_t random_below(uint64_t bound);

void ask_known(void);
void ask_many(void);

#endif
