/* A worked session, as a file of ../sessions tells it. */
#ifndef WORKED_H
#define WORKED_H

#include <stdbool.h>
#include <stddef.h>
#include <stdint.h>

enum { MOST_WORKED = 8192, MOST_TEXT = 256, MOST_WORKED_LINE = 512 };

struct worked {
    const char *name;
    uint32_t serial;
    uint64_t capabilities;
    uint64_t time;

    /* All that the client sends, and all that it is sent. */
    uint8_t client[MOST_WORKED];
    size_t client_count;
    uint8_t server[MOST_WORKED];
    size_t server_count;

    /* What it asks for, a line each, and how the session ends. */
    char requests[MOST_WORKED];
    uint32_t end;
    char text[MOST_TEXT];
};

/* Reads the bytes of the digits, two for each, with blanks between them. Whether they are that, and there was room. */
bool read_digits(const char *digits, uint8_t *bytes, size_t room, size_t *count);

/* Takes the word in front of a line, and cuts off its end. What follows the word; NULL where it is another one. */
const char *behind(char *line, const char *word);

/* Reads the file. Whether it is as it should be. */
bool load_worked(struct worked *worked, const char *path);

#endif
