/* mark SHEET: marks the answers of a student, and fails where a mark is not the one that the sheet names. ../README.md says what a sheet is. */
#define _DEFAULT_SOURCE /* getline, strsep */
#include <stdio.h>
#include <stdlib.h>
#include <string.h>

#include "lethmuok.h"

/* A mark is one of these, or the engine's refusal, which is negative. */
enum { WRONG = 0, RIGHT = 1, UNREADABLE = 2 };

struct bytes {
    uint8_t at[LETHMUOK_MAX_CODE];
    size_t len;
};

/* The word is a number from 0 to limit, without sign or leading zeros. */
static int is_number(const char *word, int limit)
{
    size_t digits = strspn(word, "0123456789");
    return word[digits] == '\0' && digits >= 1 && digits <= 3 && (digits == 1 || word[0] != '0') && atoi(word) <= limit;
}

/* Reads the bytes in a text, spaces between them; answers whether there is nothing else in it. */
static int read_bytes(char *text, struct bytes *b)
{
    b->len = 0;
    for (char *word = strtok(text, " "); word; word = strtok(NULL, " ")) {
        if (!is_number(word, 255) || b->len == sizeof b->at)
            return 0;
        b->at[b->len++] = (uint8_t)atoi(word);
    }
    return 1;
}

static int same(const struct bytes *a, const struct bytes *b)
{
    return a->len == b->len && memcmp(a->at, b->at, a->len) == 0;
}

static int64_t mark_code(const struct bytes *table, const struct bytes *answer)
{
    struct bytes code;
    int64_t r = lethmuok_accept(answer->at, answer->len);
    if (r < 0)
        return r;
    r = lethmuok_code_of_map(table->at, table->len, code.at, sizeof code.at);
    if (r < 0)
        return r;
    code.len = (size_t)r;
    return same(&code, answer) ? RIGHT : WRONG;
}

static int64_t mark_map(const struct bytes *code, const struct bytes *answer)
{
    struct bytes map, renaming;
    int64_t r = lethmuok_map_of_code(code->at, code->len, map.at, sizeof map.at);
    if (r < 0)
        return r;
    map.len = (size_t)r;
    r = lethmuok_isomorphism(answer->at, answer->len, map.at, map.len, renaming.at, sizeof renaming.at);
    if (r == LETHMUOK_NONE)
        return WRONG;
    return r < 0 ? r : RIGHT;
}

/* The student says that this code follows, or with NULL that none does. Moves on to the code that follows; at the end of the list it sets *ended. */
static int64_t mark_step(struct bytes *code, const struct bytes *answer, int *ended)
{
    struct bytes next;
    int64_t r = lethmuok_successor(code->at, code->len, next.at, sizeof next.at);
    *ended = r == LETHMUOK_LAST;
    if (*ended)
        return answer ? WRONG : RIGHT;
    if (r < 0)
        return r;
    next.len = (size_t)r;
    *code = next;
    return answer && same(&next, answer) ? RIGHT : WRONG;
}

static int64_t mark_next(struct bytes *code, char *answers)
{
    int64_t mark = RIGHT;
    int ended = 0;
    for (char *text = strsep(&answers, ","); text; text = strsep(&answers, ",")) {
        struct bytes answer;
        size_t spaces = strspn(text, " ");
        int is_end = strncmp(text + spaces, "end", 3) == 0 && text[spaces + 3 + strspn(text + spaces + 3, " ")] == '\0';
        if (!is_end && !read_bytes(text, &answer))
            return UNREADABLE;
        if (mark == RIGHT)
            mark = ended ? WRONG : mark_step(code, is_end ? NULL : &answer, &ended);
    }
    return mark;
}

static int64_t mark(const char *question, char *given, char *answer)
{
    struct bytes g, a;
    if (!read_bytes(given, &g))
        return UNREADABLE;
    if (strcmp(question, "next") == 0)
        return mark_next(&g, answer);
    if (!read_bytes(answer, &a))
        return UNREADABLE;
    if (strcmp(question, "code") == 0)
        return mark_code(&g, &a);
    return strcmp(question, "map") == 0 ? mark_map(&g, &a) : UNREADABLE;
}

/* The mark that a sheet names, as the engine would say it; UNREADABLE if it is none. */
static int64_t read_mark(char *text)
{
    char *word = strtok(text, " "), *cause = strtok(NULL, " ");
    if (!word || strtok(NULL, " "))
        return UNREADABLE;
    if (cause)
        return strcmp(word, "refused") == 0 && is_number(cause, 99) && atoi(cause) > 0 ? -atoi(cause) : UNREADABLE;
    return strcmp(word, "right") == 0 ? RIGHT : strcmp(word, "wrong") == 0 ? WRONG : UNREADABLE;
}

/* Prints the line without its last part, and the mark; answers whether it is the one that the last part names, or UNREADABLE. */
static int64_t mark_line(char *line)
{
    char *copy = strdup(line), *rest = copy;
    if (!copy)
        abort();
    char *question = strsep(&rest, ":"), *given = strsep(&rest, ":"), *answer = strsep(&rest, ":"), *named = strsep(&rest, ":");
    int64_t found = UNREADABLE, expected = UNREADABLE;
    if (named && !rest) {
        line[named - copy - 1] = '\0';
        found = mark(question, given, answer);
        expected = read_mark(named);
    }
    free(copy);
    if (found == UNREADABLE || expected == UNREADABLE)
        return UNREADABLE;
    printf("%s: ", line);
    if (found < 0)
        printf("refused %d", (int)-found);
    else
        printf(found == RIGHT ? "right" : "wrong");
    printf(found == expected ? "\n" : " (NOT as expected)\n");
    return found == expected;
}

/* Marks every line and prints how many there were; answers the exit status. */
static int mark_sheet(FILE *sheet)
{
    char *line = NULL;
    size_t room = 0;
    ssize_t length;
    int number = 0, marked = 0, failed = 0, unreadable = 0;
    while ((length = getline(&line, &room, sheet)) >= 0) {
        number++;
        if (length > 0 && line[length - 1] == '\n')
            line[--length] = '\0';
        if (length == 0 || line[0] == '#')
            continue;
        int64_t as_expected = strlen(line) == (size_t)length ? mark_line(line) : UNREADABLE;
        if (as_expected == UNREADABLE) {
            printf("line %d: unreadable\n", number);
            unreadable++;
        } else {
            marked++;
            failed += !as_expected;
        }
    }
    free(line);
    printf("%d answers marked, %d marks not as expected, %d lines unreadable\n", marked, failed, unreadable);
    return marked == 0 || failed != 0 || unreadable != 0;
}

int main(int argc, char **argv)
{
    if (argc != 2) {
        fprintf(stderr, "usage: mark SHEET\n");
        return 2;
    }
    FILE *sheet = fopen(argv[1], "r");
    int status = sheet ? mark_sheet(sheet) : 2;
    if (!sheet || ferror(sheet)) {
        fprintf(stderr, "mark: the sheet cannot be read\n");
        return 2;
    }
    fclose(sheet);
    return status;
}
