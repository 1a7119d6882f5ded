/* The proved checker of VIPR 1.0 certificates, for programs in C and C++.
 *
 * crates/vipr_c proves what the calls answer; docs/LIBRARY.md says how to build and link them.
 * They keep nothing between calls and may be called from several threads at once. Their memory comes from malloc, realloc
 * and free, and all of it is given back before a call returns. A call takes less than 64 kB of stack, whatever the text.
 * Its time has no bound that is promised, and it can't be stopped: check a stranger's text in a process of its own.
 *
 * No pointer may be null, also if the size or the room is 0 (in C++ the data of an empty vector or string_view may be null).
 * `size` is the number of bytes of the text, which isn't changed. */
#ifndef VIPR_H
#define VIPR_H

#include <stddef.h>
#include <stdint.h>

#define VIPR_VERSION "1.2.0"
#define VIPR_VERSION_MAJOR 1
#define VIPR_VERSION_MINOR 0

#ifdef __cplusplus
extern "C" {
#endif

/* What the calls return. */
enum vipr_status {
    VIPR_VERIFIED = 0,   /* the text is a certificate whose claim is proved, and so true; shown, or tightened */
    VIPR_REFUSED = 1,    /* it is none: the answer has the cause and the place of the first fault */
    VIPR_NO_PROFILE = 2, /* the profile is neither 1 nor 2, and nothing was read */
    VIPR_NO_MEMORY = 3   /* memory was refused, and there is no verdict */
};

/* Where a text is refused. */
enum vipr_place {
    VIPR_NOWHERE = 0,
    VIPR_BYTE = 1,       /* number: the offset of the token's first byte */
    VIPR_SOLUTION = 2,   /* number: the listed solution, counted from 0 */
    VIPR_DERIVATION = 3, /* number: the index of the derived constraint */
    VIPR_END = 4         /* at the end of the solutions or of the certificate */
};

/* A verdict in numbers. What the status doesn't ask for is 0. */
struct vipr_answer {
    uint32_t cause; /* refused: the number of its cause, of docs/FORMAT.md */
    uint32_t place; /* refused: an enum vipr_place */
    uint64_t number;
    uint32_t solutions; /* verified: how many solutions are listed */
    uint32_t derived;   /* how many constraints are derived */
    uint64_t peak;      /* how many derived constraints had to be held at most */
    uint32_t has_goal;  /* 1 where a constraint has to prove the dual side */
    uint32_t goal;      /* the least index of one that does */
};

/* Whether the text is verified by the rules of the first profile: VIPR_VERIFIED, VIPR_REFUSED or VIPR_NO_MEMORY. This call
 * has the shortest proved statement. If it answers VIPR_VERIFIED, the text states a problem and listed solutions, and
 * the claim is true of whatever problem it states: docs/STATEMENT.md, part 1. */
int32_t vipr_is_verified(const void *text, size_t size);

/* Checks the text of a certificate by the rules of the first profile, and gives the verdict in numbers. */
int32_t vipr_check(const void *text, size_t size, struct vipr_answer *answer);

/* The calls below write a text to a buffer of the caller, and its whole length to *length. They write at most `room`
 * bytes: the first of the text, without a 0 after them. What the buffer held after them stays. If the length is larger
 * than the room, call again with as much room: the work is done once more. With VIPR_NO_PROFILE and VIPR_NO_MEMORY there is
 * no text, the length is 0, and so is all in the struct. The buffer may not overlap the text. */

/* Room that is always enough for vipr_report. The texts of the others have no such bound: they quote rows and names. */
#define VIPR_REPORT_ROOM 512

/* Checks the text of a certificate by the rules of a profile, 1 or 2. Gives the numbers, and what `vipr check` prints, as
 * "verified range 1 1\nsolutions 1 derived 5 peak 4\n": the claim is in the first line. */
int32_t vipr_report(uint32_t profile, const void *text, size_t size, char *lines, size_t room, size_t *length,
                    struct vipr_answer *answer);

/* What `vipr explain` prints. */
int32_t vipr_explain(uint32_t profile, const void *text, size_t size, char *lines, size_t room, size_t *length);

/* What `vipr explain --long` prints of a file: the same, and a page for people that explains it. The name of the file is
 * `name_size` bytes, which the page shows. */
int32_t vipr_explain_long(uint32_t profile, const char *name, size_t name_size, const void *text, size_t size, char *lines,
                          size_t room, size_t *length);

/* What `vipr show` writes, with `--compact` unless `compact` is 0. The answer has the refusal of a text that spells no
 * certificate; all else in it is 0. */
int32_t vipr_show(uint32_t compact, const void *text, size_t size, char *shown, size_t room, size_t *length,
                  struct vipr_answer *answer);

/* What became of a certificate that was to be tightened. What the status doesn't ask for is 0. */
struct vipr_figures {
    uint32_t cause; /* refused: as in a struct vipr_answer */
    uint32_t place;
    uint64_t number;
    uint32_t kept;        /* tightened: how many derivations were written */
    uint32_t removed;     /* how many were left out */
    uint64_t peak_before; /* how many derived constraints had to be held at most */
    uint64_t peak_after;  /* how many of the tightened certificate have to be */
};

/* What `vipr tighten` writes by the rules of a profile, with `--compact` unless `compact` is 0. */
int32_t vipr_tighten(uint32_t profile, uint32_t compact, const void *text, size_t size, char *tightened, size_t room,
                     size_t *length, struct vipr_figures *figures);

/* The name of a cause, such as "NotDominated", to a buffer as above, and a 0 after it if there is room for that. Returns its
 * length without the 0, which is 0 for a number that is no cause. No name has more than 18 bytes. */
size_t vipr_cause_name(uint32_t cause, char *name, size_t room);

/* The version of the library, VIPR_VERSION of the header that it was built with, in the same way. */
size_t vipr_version(char *version, size_t room);

/* The SHA-256 of a text in 64 hex digits of lower case, as `vipr check --sum` prints it, in the same way. Returns 64. */
size_t vipr_digest(const void *text, size_t size, char *digest, size_t room);

#ifdef __cplusplus
}
#endif

#endif
