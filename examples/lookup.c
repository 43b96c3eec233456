/*
 * lookup DICTIONARY QUERY: prints the signs of an FSW dictionary that meet a query, each with its
 * number.
 *
 * It shows the whole way of a caller: search, fetch, and what to do with a refusal. The exit status
 * is 0 if the search was made, 1 if the library refused it and 2 if it could not be made.
 */
#include "halofret.h"

#include <stdio.h>
#include <stdlib.h>
#include <string.h>

/* What a refusal says, without its place. */
static const char *reason(uint64_t number)
{
    switch (number) {
    case HALOFRET_TEXT_WRONG: return "the query is wrong after this many bytes";
    case HALOFRET_TEXT_SHORT: return "the query stops early, after this many bytes";
    case HALOFRET_PREFIX_LONG: return "the query has over 32 prefix items";
    case HALOFRET_SIGNBOX_LONG: return "the query has over 32 signbox items";
    case HALOFRET_RANGE_REVERSED: return "a range of the query ends below its start there";
    case HALOFRET_ROOM_SHORT: return "the list is too short; this many entries are needed";
    case HALOFRET_DICTIONARY_UNENDED: return "the dictionary's last line is not ended";
    case HALOFRET_LINE_WRONG: return "this line of the dictionary is not a sign";
    case HALOFRET_TOO_MANY: return "the dictionary has over 65,535 lines";
    case HALOFRET_ENTRY_ABSENT: return "there is no such entry";
    default: return "a refusal that these calls do not give";
    }
}

static int refused(const char *call, uint64_t number, uint64_t place)
{
    fprintf(stderr, "lookup: %s: refusal %u at %lu: %s.\n", call, (unsigned)number,
            (unsigned long)place, reason(number));
    return 1;
}

static int failed(const char *what)
{
    fprintf(stderr, "lookup: %s.\n", what);
    return 2;
}

/* Reads a whole file; NULL if it cannot be read to its end. */
static uint8_t *read_file(const char *name, size_t *length)
{
    FILE *file = fopen(name, "rb");
    uint8_t *bytes = NULL;
    size_t room = 0;
    *length = 0;
    if (file == NULL)
        return NULL;
    do {
        uint8_t *longer = (uint8_t *)realloc(bytes, room + 65536);
        if (longer == NULL)
            break;
        bytes = longer;
        room += 65536;
        *length += fread(bytes + *length, 1, room - *length, file);
    } while (*length == room);
    if (!feof(file) || ferror(file)) {
        free(bytes);
        bytes = NULL;
    }
    fclose(file);
    return bytes;
}

/* Fetches and prints the first count entries of a list. There is no second dictionary: it is a
 * null pointer of length 0. */
static int print_entries(const uint8_t *dictionary, size_t length, const uint16_t *list,
                         size_t count)
{
    size_t i;
    for (i = 0; i < count; i++) {
        uint64_t answer[HALOFRET_FETCH_ANSWER];
        halofret_fetch(dictionary, length, NULL, 0, list[i], answer);
        if (answer[0] != HALOFRET_DONE)
            return refused("fetch", answer[0], 0);
        printf("%u ", (unsigned)list[i]);
        fwrite(dictionary + answer[2], 1, (size_t)answer[3], stdout);
        putchar('\n');
    }
    if (fflush(stdout) != 0 || ferror(stdout))
        return failed("the signs could not be written");
    return 0;
}

static int look_up(const uint8_t *dictionary, size_t length, uint16_t *list, size_t room,
                   const char *query)
{
    uint64_t answer[HALOFRET_SEARCH_ANSWER];
    halofret_search(false, dictionary, length, list, room, false, false, (const uint8_t *)query,
                    strlen(query), answer);
    if (answer[0] != HALOFRET_DONE)
        return refused("search", answer[0], answer[1]);
    return print_entries(dictionary, length, list, (size_t)answer[3]);
}

int main(int argc, char **argv)
{
    static uint16_t list[HALOFRET_MOST_LINES];
    uint8_t *dictionary;
    size_t length;
    int status;
    if (argc != 3)
        return failed("a dictionary and a query are needed");
    dictionary = read_file(argv[1], &length);
    if (dictionary == NULL)
        return failed("the dictionary cannot be read");
    status = look_up(dictionary, length, list, HALOFRET_MOST_LINES, argv[2]);
    free(dictionary);
    return status;
}
