#include "worked.h"

#include <stdio.h>
#include <stdlib.h>
#include <string.h>

/* The value of a hexadecimal digit; -1 where it is none. */
static int digit_value(char digit) {
    static const char digits[] = "0123456789abcdef";
    const char *at = digit == 0 ? NULL : strchr(digits, digit);
    return at == NULL ? -1 : (int)(at - digits);
}

bool read_digits(const char *digits, uint8_t *bytes, size_t room, size_t *count) {
    while (*digits != 0) {
        if (*digits == ' ') {
            digits++;
            continue;
        }
        int high = digit_value(digits[0]);
        int low = high < 0 ? -1 : digit_value(digits[1]);
        if (low < 0 || *count == room)
            return false;
        bytes[(*count)++] = (uint8_t)(high * 16 + low);
        digits += 2;
    }
    return true;
}

const char *behind(char *line, const char *word) {
    size_t length = strlen(word);
    line[strcspn(line, "\n")] = 0;
    return strncmp(line, word, length) == 0 && line[length] == ' ' ? line + length + 1 : NULL;
}

/* Adds a line. Whether there was room. */
static bool add_request(struct worked *worked, const char *request) {
    size_t length = strlen(worked->requests);
    int count = snprintf(worked->requests + length, MOST_WORKED - length, "%s\n", request);
    return count > 0 && (size_t)count < MOST_WORKED - length;
}

/* Takes one line. Whether it is one of a worked session. */
static bool take_line(struct worked *worked, char *line) {
    const char *rest;
    if ((rest = behind(line, "client")) != NULL)
        return read_digits(rest, worked->client, MOST_WORKED, &worked->client_count);
    if ((rest = behind(line, "server")) != NULL)
        return read_digits(rest, worked->server, MOST_WORKED, &worked->server_count);
    if ((rest = behind(line, "request")) != NULL)
        return add_request(worked, rest);
    if ((rest = behind(line, "serial")) != NULL)
        worked->serial = (uint32_t)strtoul(rest, NULL, 10);
    else if ((rest = behind(line, "capabilities")) != NULL)
        worked->capabilities = strtoull(rest, NULL, 10);
    else if ((rest = behind(line, "time")) != NULL)
        worked->time = strtoull(rest, NULL, 10);
    else if ((rest = behind(line, "end")) != NULL)
        worked->end = (uint32_t)strtoul(rest, NULL, 10);
    else if ((rest = behind(line, "text")) != NULL)
        snprintf(worked->text, MOST_TEXT, "%s", rest);
    else
        return line[0] == '#' || line[0] == 0;
    return true;
}

bool load_worked(struct worked *worked, const char *path) {
    char line[MOST_WORKED_LINE];
    FILE *file = fopen(path, "r");
    if (file == NULL)
        return false;
    memset(worked, 0, sizeof *worked);
    const char *slash = strrchr(path, '/');
    worked->name = slash == NULL ? path : slash + 1;
    bool good = true;
    while (good && fgets(line, sizeof line, file) != NULL)
        good = take_line(worked, line);
    good = good && ferror(file) == 0;
    return fclose(file) == 0 && good;
}
