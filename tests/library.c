/* Calls the library on a file, with a buffer of its own, and writes what the buffer holds and then a line of numbers.
 *
 * usage: library FILE CALL PROFILE COMPACT ROOM ..  CALL is verified, check, report, explain, long, show,
 *                                              digest or tighten
 *        library name CAUSE ROOM ..
 *        library version ROOM
 *        library growths FILE
 *
 * The words behind `..` may come more than once, and each time there is a call. The line is `status S length L`, and what the call's struct holds. The buffer is filled with `.` before the call, and so
 * has to be the byte behind the room after it. `growths` makes each call with its first growth refused, its second, and
 * so on: each has to return 3, a length of 0 and a struct of zeros, and to leave the buffer; or all that it returns without
 * a refusal, since a derivation whose reading failed so at first is read anew; or, of `long`, that without its page. None
 * may keep memory. It writes how many
 * growths it refused. Linked with -Wl,--wrap=malloc,--wrap=realloc,--wrap=free. */
#include <stdio.h>
#include <stdlib.h>
#include <string.h>

#include "vipr.h"

#define ROOM 4096

enum call { IS_VERIFIED, CHECK, REPORT, EXPLAIN, EXPLAIN_LONG, SHOW, DIGEST, TIGHTEN, CALLS };

static const char *const NAMES[] = {"verified", "check", "report", "explain", "long", "show", "digest", "tighten"};

/* What a call is asked, and what it answers. */
struct job {
    enum call call;
    uint32_t profile, compact;
    const char *name;
    const uint8_t *text;
    size_t size, room, length;
    char *buffer;
    struct vipr_answer answer;
    struct vipr_figures figures;
};

static long growths, refused, kept;

void *__real_malloc(size_t size);
void *__real_realloc(void *old, size_t size);
void __real_free(void *old);

void *__wrap_malloc(size_t size)
{
    void *made = ++growths == refused ? NULL : __real_malloc(size);
    kept += made != NULL;
    return made;
}

void *__wrap_realloc(void *old, size_t size)
{
    void *made = ++growths == refused ? NULL : __real_realloc(old, size);
    kept += old == NULL && made != NULL;
    return made;
}

void __wrap_free(void *old)
{
    kept -= old != NULL;
    __real_free(old);
}

/* The bytes of a file, or NULL. */
static uint8_t *read_file(const char *name, size_t *length)
{
    FILE *file = fopen(name, "rb");
    uint8_t *text = NULL;
    long size;
    if (file == NULL)
        return NULL;
    if (fseek(file, 0, SEEK_END) == 0 && (size = ftell(file)) >= 0 && fseek(file, 0, SEEK_SET) == 0) {
        text = malloc((size_t)size + 1);
        *length = text == NULL ? 0 : fread(text, 1, (size_t)size, file);
    }
    fclose(file);
    return text;
}

static int32_t run(struct job *it)
{
    memset(it->buffer, '.', it->room + 1);
    memset(&it->answer, 0xFF, sizeof it->answer);
    memset(&it->figures, 0xFF, sizeof it->figures);
    it->length = it->call == IS_VERIFIED || it->call == CHECK ? 0 : 12345;
    switch (it->call) {
    case IS_VERIFIED:
        return vipr_is_verified(it->text, it->size);
    case CHECK:
        return vipr_check(it->text, it->size, &it->answer);
    case REPORT:
        return vipr_report(it->profile, it->text, it->size, it->buffer, it->room, &it->length, &it->answer);
    case EXPLAIN:
        return vipr_explain(it->profile, it->text, it->size, it->buffer, it->room, &it->length);
    case EXPLAIN_LONG:
        return vipr_explain_long(it->profile, it->name, strlen(it->name), it->text, it->size, it->buffer, it->room, &it->length);
    case SHOW:
        return vipr_show(it->compact, it->text, it->size, it->buffer, it->room, &it->length, &it->answer);
    case DIGEST:
        it->length = vipr_digest(it->text, it->size, it->buffer, it->room);
        return 0;
    default:
        return vipr_tighten(it->profile, it->compact, it->text, it->size, it->buffer, it->room, &it->length, &it->figures);
    }
}

static int are_all(const void *bytes, size_t count, int value)
{
    const unsigned char *at = bytes;
    while (count > 0 && *at == value)
        at++, count--;
    return count == 0;
}

static int has_answer(const struct job *it) { return it->call == CHECK || it->call == REPORT || it->call == SHOW; }

/* Whether a call that lacked memory answered so, and kept none. */
static int lacks(const struct job *it, int32_t status)
{
    return status == VIPR_NO_MEMORY && it->length == 0 && kept == 0 && are_all(it->buffer, it->room + 1, '.')
        && (!has_answer(it) || are_all(&it->answer, sizeof it->answer, 0))
        && (it->call != TIGHTEN || are_all(&it->figures, sizeof it->figures, 0));
}

/* Whether a call returned what another one did, and kept no memory. */
static int repeats(const struct job *it, int32_t status, const struct job *first, const char *text, int32_t ended)
{
    return status == ended && it->length == first->length && kept == 0 && memcmp(it->buffer, text, it->room + 1) == 0
        && memcmp(&it->answer, &first->answer, sizeof it->answer) == 0
        && memcmp(&it->figures, &first->figures, sizeof it->figures) == 0;
}

/* Whether a long explanation has its first lines alone, since there was no memory for the page behind them. */
static int lacks_page(const struct job *it, int32_t status, const struct job *first, const char *text, int32_t ended)
{
    return it->call == EXPLAIN_LONG && status == ended && it->length < first->length && kept == 0
        && memcmp(it->buffer, text, it->length < it->room ? it->length : it->room) == 0;
}

/* Makes a call with each of its growths refused in turn, and returns how many there were, or -1. */
static long refuse_each(struct job *it)
{
    static char text[ROOM + 1];
    struct job first;
    int32_t status, ended;
    long number, count;
    growths = refused = kept = 0;
    ended = run(it);
    count = growths;
    if (ended == VIPR_NO_MEMORY || kept != 0)
        return -1;
    first = *it;
    memcpy(text, it->buffer, it->room + 1);
    for (number = 1; number <= count; number++) {
        growths = 0;
        refused = number;
        status = run(it);
        refused = 0;
        if (!lacks(it, status) && !repeats(it, status, &first, text, ended)
            && !lacks_page(it, status, &first, text, ended)) {
            printf("%s, growth %ld: status %d, length %zu, kept %ld\n", NAMES[it->call], number, status, it->length, kept);
            return -1;
        }
    }
    return count;
}

static int all_growths(const uint8_t *text, size_t size)
{
    static char buffer[ROOM + 1];
    long sum = 0;
    for (int call = 0; call < CALLS; call++) {
        struct job it = {(enum call)call, 1, 1, "FILE", text, size, ROOM, 0, buffer, {0}, {0}};
        long count = refuse_each(&it);
        if (count < 0)
            return 1;
        sum += count;
    }
    printf("%ld growths refused\n", sum);
    return 0;
}

/* A place by the header's words for it. */
static const char *place_name(uint32_t place)
{
    switch (place) {
    case VIPR_NOWHERE:
        return "nowhere";
    case VIPR_BYTE:
        return "byte";
    case VIPR_SOLUTION:
        return "solution";
    case VIPR_DERIVATION:
        return "derivation";
    case VIPR_END:
        return "end";
    default:
        return "unknown";
    }
}

static void print(const struct job *it, int32_t status)
{
    fwrite(it->buffer, 1, it->room, stdout);
    printf("\n%sstatus %d length %zu", it->buffer[it->room] == '.' ? "" : "overrun ", status, it->length);
    if (has_answer(it))
        printf(" answer %u %s %llu %u %u %llu %u %u", it->answer.cause, place_name(it->answer.place),
               (unsigned long long)it->answer.number, it->answer.solutions, it->answer.derived,
               (unsigned long long)it->answer.peak, it->answer.has_goal, it->answer.goal);
    if (it->call == TIGHTEN)
        printf(" figures %u %s %llu %u %u %llu %llu", it->figures.cause, place_name(it->figures.place),
               (unsigned long long)it->figures.number, it->figures.kept, it->figures.removed,
               (unsigned long long)it->figures.peak_before, (unsigned long long)it->figures.peak_after);
    printf("\n");
}

static uint32_t number(const char *word) { return (uint32_t)strtoul(word, NULL, 10); }

/* Makes room for the bytes of a buffer and the one behind them. */
static int has_buffer(struct job *it)
{
    it->buffer = malloc(it->room + 1);
    return it->buffer != NULL;
}

/* The name of a cause, or the version where there is none, in a buffer. */
static int print_name(const char *cause, const char *room)
{
    struct job it = {EXPLAIN, 0, 0, NULL, NULL, 0, number(room), 0, NULL, {0}, {0}};
    if (!has_buffer(&it))
        return 2;
    memset(it.buffer, '.', it.room + 1);
    it.length = cause == NULL ? vipr_version(it.buffer, it.room) : vipr_cause_name(number(cause), it.buffer, it.room);
    print(&it, 0);
    free(it.buffer);
    return 0;
}

/* A call on the text of a file, as four words have it. */
static int print_call(char **words, const char *file, const uint8_t *text, size_t size)
{
    struct job it = {IS_VERIFIED, number(words[1]), number(words[2]), file, text, size, number(words[3]), 0, NULL, {0}, {0}};
    while (it.call < CALLS - 1 && strcmp(words[0], NAMES[it.call]) != 0)
        it.call++;
    if (!has_buffer(&it))
        return 2;
    print(&it, run(&it));
    free(it.buffer);
    return 0;
}

int main(int count, char **words)
{
    const int is_growths = count == 3 && strcmp(words[1], "growths") == 0;
    int status = 0;
    uint8_t *text;
    size_t size;
    if (count == 3 && strcmp(words[1], "version") == 0)
        return print_name(NULL, words[2]);
    if (count > 3 && strcmp(words[1], "name") == 0) {
        for (int at = 2; at + 1 < count && status == 0; at += 2)
            status = print_name(words[at], words[at + 1]);
        return status;
    }
    if (count < 3 || (text = read_file(words[is_growths ? 2 : 1], &size)) == NULL)
        return 2;
    if (is_growths)
        status = all_growths(text, size);
    for (int at = 2; at + 3 < count && status == 0; at += 4)
        status = print_call(words + at, words[1], text, size);
    free(text);
    return status;
}
