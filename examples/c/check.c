/* Checks certificates by the library for C, and prints a line for each, which names the claim.
 *
 *     cc check.c $(pkg-config --cflags --libs vipr) -o check
 *     ./check FILE..
 *
 * The exit status is the largest of the files': 0 verified, 1 refused, 3 no memory; 2 if one can't be read. A file that is
 * cut by another process while it is checked ends this one by SIGBUS, as any mapped file does. */
#include <fcntl.h>
#include <stdio.h>
#include <sys/mman.h>
#include <sys/stat.h>
#include <unistd.h>

#include "vipr.h"

/* Prints the lines of a verdict as one. */
static void print(const char *name, const char *lines, size_t length)
{
    size_t at;
    printf("%s: ", name);
    for (at = 0; at < length && at < VIPR_REPORT_ROOM; at++) {
        if (lines[at] != '\n')
            putchar(lines[at]);
        else
            fputs(at + 1 < length ? ", " : "\n", stdout);
    }
    if (length == 0)
        puts("no memory");
}

/* Checks a file where it lies: its pages are mapped, so that a large one needs no memory of its own. */
static int check(const char *name)
{
    char lines[VIPR_REPORT_ROOM];
    size_t length;
    struct vipr_answer answer;
    struct stat about;
    const void *text = "";
    int32_t status;
    int file = open(name, O_RDONLY);
    if (file < 0 || fstat(file, &about) != 0)
        return perror(name), 2;
    if (about.st_size > 0)
        text = mmap(NULL, (size_t)about.st_size, PROT_READ, MAP_PRIVATE, file, 0);
    close(file);
    if (text == MAP_FAILED)
        return perror(name), 2;
    status = vipr_report(1, text, (size_t)about.st_size, lines, sizeof lines, &length, &answer);
    print(name, lines, length);
    if (about.st_size > 0)
        munmap((void *)text, (size_t)about.st_size);
    return status;
}

int main(int count, char **words)
{
    int largest = 0;
    for (int at = 1; at < count; at++) {
        int status = check(words[at]);
        if (status > largest)
            largest = status;
    }
    return largest;
}
