#include "ours.h"

#include "walk.h"

#include <stdio.h>
#include <stdlib.h>
#include <string.h>
#include <sys/wait.h>
#include <unistd.h>

// A frame: two bytes of length, the kind, the record.
static void put_frame(FILE *file, const struct input *input)
{
    size_t length = input->size + 1;
    putc((int)(length >> 8), file);
    putc((int)(length & 255), file);
    putc(input->kind, file);
    fwrite(input->bytes, 1, input->size, file);
}

static bool put_frames(FILE *file, const struct input *inputs, size_t count)
{
    for (size_t i = 0; i < count; i++)
        put_frame(file, &inputs[i]);
    return fflush(file) == 0 && fseek(file, 0, SEEK_SET) == 0;
}

static bool run(char *const command[], FILE *in, FILE *out)
{
    int status;
    pid_t child = fork();
    if (child == 0) {
        if (dup2(fileno(in), 0) == 0 && dup2(fileno(out), 1) == 1)
            execvp(command[0], command);
        perror(command[0]);
        _exit(127);
    }
    return child > 0 && waitpid(child, &status, 0) == child && WIFEXITED(status) && WEXITSTATUS(status) == 0;
}

static bool take_all(FILE *file, struct answers *answers)
{
    long size = fseek(file, 0, SEEK_END) == 0 ? ftell(file) : -1;
    if (size < 0 || fseek(file, 0, SEEK_SET) != 0)
        return false;
    free(answers->chars);
    answers->size = (size_t)size;
    answers->chars = malloc(answers->size + 1);
    return answers->chars != NULL && fread(answers->chars, 1, answers->size, file) == answers->size;
}

bool ask_ours(char *const command[], const struct input *inputs, size_t count, struct answers *answers)
{
    FILE *in = tmpfile(), *out = tmpfile();
    bool good = in != NULL && out != NULL && put_frames(in, inputs, count) && run(command, in, out)
        && take_all(out, answers);
    if (!good)
        fprintf(stderr, "compare: %s could not be run on %zu inputs to its end\n", command[0], count);
    if (in != NULL)
        fclose(in);
    if (out != NULL)
        fclose(out);
    return good;
}

size_t line_end(const struct answers *answers, size_t place)
{
    const char *found = memchr(answers->chars + place, '\n', answers->size - place);
    return found == NULL ? answers->size : (size_t)(found - answers->chars) + 1;
}

static bool begins_with(const char *chars, size_t size, const char *word)
{
    return size >= strlen(word) && memcmp(chars, word, strlen(word)) == 0;
}

struct listing next_listing(const struct answers *answers, size_t *place)
{
    size_t start = *place, end = start == answers->size ? start : line_end(answers, start);
    while (end < answers->size && !begins_with(answers->chars + end, answers->size - end, "kind "))
        end = line_end(answers, end);
    *place = end;
    return (struct listing) {answers->chars + start, end - start};
}

static int hex_digit(char c)
{
    return '0' <= c && c <= '9' ? c - '0' : 'a' <= c && c <= 'f' ? c - 'a' + 10 : -1;
}

// Hex up to the end of its line, which is the last.
static bool again_of(const char *hex, size_t size, struct reply *reply)
{
    if (size % 2 != 1 || hex[size - 1] != '\n' || size / 2 > sizeof reply->again)
        return false;
    for (reply->again_size = 0; reply->again_size < size / 2; reply->again_size++) {
        int high = hex_digit(hex[2 * reply->again_size]), low = hex_digit(hex[2 * reply->again_size + 1]);
        if (high < 0 || low < 0)
            return false;
        reply->again[reply->again_size] = (uint8_t)(high << 4 | low);
    }
    return true;
}

static size_t last_line(struct listing listing)
{
    size_t start = listing.size - 1;
    while (start > 0 && listing.chars[start - 1] != '\n')
        start--;
    return start;
}

// A line that says what was had behind Short, and behind no other refusal.
static bool is_refusal(const char *head)
{
    unsigned number;
    int end = 0, more = 0;
    if (sscanf(head, "kind %*d refused %u at %*u value %*u%n", &number, &end) != 1 || end == 0)
        return false;
    if (number == SHORT)
        sscanf(head + end, " had %*u%n", &more);
    return (more != 0) == (number == SHORT) && head[end + more] == '\n';
}

bool reply_of_listing(struct listing listing, struct reply *reply)
{
    static const char word[] = "again ";
    char head[64];
    int kind, end = 0;
    if (listing.size == 0)
        return false;
    snprintf(head, sizeof head, "%.*s", (int)(listing.size < 63 ? listing.size : 63), listing.chars);
    reply->read = sscanf(head, "kind %d read %zu tail %*u%n", &kind, &reply->consumed, &end) == 2 && end != 0;
    if (!reply->read)
        return is_refusal(head);
    size_t start = last_line(listing), body = start + strlen(word);
    return begins_with(listing.chars + start, listing.size - start, word)
        && again_of(listing.chars + body, listing.size - body, reply);
}
