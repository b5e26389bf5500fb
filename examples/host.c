/* A host in C: carries out a scenario through the linked engine, and prints the answers as the program gorsepick does.
 *
 *     host FILE
 *
 * It knows the commands of docs/PROGRAM.md but for image, load and alone, and prints no summary. Lines are carried out as
 * they are read; one that is wrong ends the host with status 1. Its serial book is kept through the library alone: at a
 * commit the slot's script is run by itself on a second, fresh engine over a copy of the pages.
 */
#include "gorsepick.h"

#include <stdio.h>
#include <stdlib.h>
#include <string.h>

enum { MOST_WORDS = 16384, MOST_SCRIPTS = 256, MOST_BYTES = 256, MOST_LINE = 200000, SLOTS = 8 };

typedef struct script {
    char name[64];
    uint8_t bytes[MOST_BYTES];
    size_t length;
} script;

typedef struct store {
    uint32_t words[MOST_WORDS];
    size_t length;
    bool log;
} store;

static gorsepick_memory memory; /* where the engine lies */
static gorsepick_engine engine = {&memory};
static store plant; /* the store that the calls go to */
static store book;  /* the pages as the serial book has them */
static bool flags = GORSEPICK_COUNTERS;
static script scripts[MOST_SCRIPTS];
static size_t script_count;
static const script *begun[SLOTS]; /* the script of each slot that the book has */
static long line_number;

static void fail(const char *what)
{
    fflush(stdout);
    fprintf(stderr, "line %ld: %s\n", line_number, what);
    exit(1);
}

static uint32_t number(const char *word)
{
    char *end;
    unsigned long long n = word ? strtoull(word, &end, 10) : 0;
    if (!word || *word < '0' || *word > '9' || *end || n > UINT32_MAX)
        fail("a number from 0 to 4294967295 is due");
    return (uint32_t)n;
}

static int digit(char c)
{
    if (c >= '0' && c <= '9')
        return c - '0';
    if (c >= 'a' && c <= 'f')
        return c - 'a' + 10;
    if (c >= 'A' && c <= 'F')
        return c - 'A' + 10;
    fail("a hexadecimal digit is due");
    return 0;
}

static script *find_script(const char *name)
{
    for (size_t i = script_count; i > 0; i--)
        if (name && strcmp(scripts[i - 1].name, name) == 0)
            return &scripts[i - 1];
    fail("no earlier line gave a script of this name");
    return NULL;
}

static void keep_script(const char *name)
{
    if (!name || strlen(name) >= sizeof scripts->name || script_count == MOST_SCRIPTS)
        fail("a script of a short name is due, and not too many");
    script *s = &scripts[script_count++];
    strcpy(s->name, name);
    size_t digits = 0;
    for (const char *word; (word = strtok(NULL, " ")) != NULL;)
        for (; *word; word++, digits++) {
            if (digits == 2 * MOST_BYTES)
                fail("a script of fewer bytes is due");
            uint8_t *byte = &s->bytes[digits / 2];
            *byte = (uint8_t)(digits % 2 ? *byte * 16 + digit(*word) : digit(*word));
        }
    if (digits % 2)
        fail("an even count of hexadecimal digits is due");
    s->length = digits / 2;
}

static void show_values(const char *what, gorsepick_answer answer)
{
    printf("%s", what);
    for (uint32_t i = 0; i < answer.count; i++)
        printf(" %zu", answer.values[i]);
    printf("\n");
}

/* Prints a refusal, or what an accepted call answers. Says whether it was accepted. */
static bool show(gorsepick_answer answer, const char *accepted)
{
    char refused[32];
    snprintf(refused, sizeof refused, "refused %u", answer.refusal);
    show_values(answer.refusal ? refused : accepted, answer);
    return answer.refusal == GORSEPICK_ACCEPTED;
}

static void show_pages(store *s)
{
    printf("pages");
    uint32_t word, missing;
    for (uint32_t page = 0; gorsepick_read(s->words, s->length, s->log, page, &word, &missing); page++)
        printf(" %u", word);
    printf("\n");
}

static void take_store(bool log)
{
    plant.length = 0;
    plant.log = log;
    for (const char *word; (word = strtok(NULL, " ")) != NULL;) {
        if (plant.length == MOST_WORDS)
            fail("fewer words are due");
        plant.words[plant.length++] = number(word);
    }
    printf("size %u\n", gorsepick_size(plant.words, plant.length, plant.log));
}

/* The book starts anew from the store's pages; slots that are open then are not in it. */
static void start_book(void)
{
    uint32_t word, missing;
    book.length = 0;
    book.log = GORSEPICK_FLAT;
    while (gorsepick_read(plant.words, plant.length, plant.log, (uint32_t)book.length, &word, &missing))
        book.words[book.length++] = word;
    memset(begun, 0, sizeof begun);
}

/* Runs a slot's script alone over the book's pages: on a fresh engine, with nothing beside it. */
static void book_commit(uint32_t slot)
{
    if (!begun[slot])
        return;
    gorsepick_memory room;
    gorsepick_engine alone = {&room};
    gorsepick_fresh(alone);
    gorsepick_begin(&alone, 0, begun[slot]->bytes, begun[slot]->length);
    while (gorsepick_turn(&alone, 0, 0, book.words, book.length, book.log, flags).values[0] == GORSEPICK_MOVED)
        ;
    gorsepick_commit(&alone, 0, book.words, book.length, book.log);
    begun[slot] = NULL;
}

static void show_turn(gorsepick_answer answer)
{
    static const char *const ends[] = {"moved", "ended", "waiting"};
    if (answer.refusal)
        show(answer, "");
    else
        printf("%s\n", ends[answer.values[0]]);
}

static void show_stand(gorsepick_answer answer)
{
    static const char *const finds[] = {"ended", "waiting", "ready"};
    if (answer.refusal)
        show(answer, "");
    else
        printf("step %zu %s\n", answer.values[0], finds[answer.values[1]]);
}

static void show_entry(gorsepick_answer answer)
{
    if (answer.refusal)
        show(answer, "");
    else if (answer.count == 0)
        printf("absent\n");
    else
        printf("step %zu page %zu\n", answer.values[0], answer.values[1]);
}

static void count_shadows(void)
{
    int count = 0;
    for (uint32_t slot = 0; slot < SLOTS; slot++)
        for (uint32_t other = 0; other < SLOTS; other++)
            count += gorsepick_stand(&engine, slot, other).refusal == GORSEPICK_ACCEPTED;
    printf("%d shadows\n", count);
}

static bool is(const char *command, const char *name)
{
    return strcmp(command, name) == 0;
}

/* The commands on the store. Says whether it was one. */
static bool store_command(const char *command)
{
    uint32_t page, word, missing;
    if (is(command, "flat") || is(command, "log")) {
        take_store(is(command, "log"));
        start_book();
    } else if (is(command, "get")) {
        page = number(strtok(NULL, " "));
        if (gorsepick_read(plant.words, plant.length, plant.log, page, &word, &missing))
            printf("word %u\n", word);
        else
            printf("fault %u\n", missing);
    } else if (is(command, "put")) {
        page = number(strtok(NULL, " "));
        word = number(strtok(NULL, " "));
        if (gorsepick_put(plant.words, plant.length, plant.log, page, word, &missing)) {
            start_book();
            printf("put\n");
        } else
            printf("fault %u\n", missing);
    } else if (is(command, "pages")) {
        show_pages(&plant);
    } else if (is(command, "book")) {
        show_pages(&book);
    } else if (is(command, "words")) {
        printf("words");
        for (size_t i = 0; i < plant.length; i++)
            printf(" %u", plant.words[i]);
        printf("\n");
    } else
        return false;
    return true;
}

/* The five calls and the questions. Says whether it was one. */
static bool engine_command(const char *command)
{
    if (is(command, "allow")) {
        show(gorsepick_set_allowance(&engine, number(strtok(NULL, " "))), "allowed");
        return true;
    }
    if (is(command, "shadows")) {
        count_shadows();
        return true;
    }
    if (!is(command, "begin") && !is(command, "turn") && !is(command, "commit") && !is(command, "abort")
        && !is(command, "stand") && !is(command, "entry"))
        return false;
    uint32_t slot = number(strtok(NULL, " "));
    if (is(command, "begin")) {
        const script *s = find_script(strtok(NULL, " "));
        if (show(gorsepick_begin(&engine, slot, s->bytes, s->length), "begun"))
            begun[slot] = s;
    } else if (is(command, "commit")) {
        if (show(gorsepick_commit(&engine, slot, plant.words, plant.length, plant.log), "committed"))
            book_commit(slot);
    } else if (is(command, "abort")) {
        if (show(gorsepick_abort(&engine, slot), "aborted"))
            begun[slot] = NULL;
    } else {
        uint32_t other = number(strtok(NULL, " "));
        if (is(command, "turn"))
            show_turn(gorsepick_turn(&engine, slot, other, plant.words, plant.length, plant.log, flags));
        else if (is(command, "stand"))
            show_stand(gorsepick_stand(&engine, slot, other));
        else
            show_entry(gorsepick_read_entry(&engine, slot, other, number(strtok(NULL, " "))));
    }
    return true;
}

static void carry_out(char *line)
{
    static char words[MOST_LINE];
    line[strcspn(line, "#\r\n")] = '\0';
    strcpy(words, line);
    char *command = strtok(line, " ");
    if (!command)
        return;
    if (is(command, "script")) {
        keep_script(strtok(NULL, " "));
        return;
    }
    if (is(command, "arithmetic")) {
        const char *name = strtok(NULL, " ");
        if (!name || (!is(name, "counters") && !is(name, "flags")))
            fail("counters or flags is due");
        flags = is(name, "flags");
        start_book();
        return;
    }
    /* the line's words, parted by single spaces */
    char echo[MOST_LINE];
    size_t length = 0;
    for (const char *at = words; *at; at++)
        if (*at != ' ' || (length && echo[length - 1] != ' '))
            echo[length++] = *at;
    while (length && echo[length - 1] == ' ')
        length--;
    printf("%.*s -> ", (int)length, echo);
    if (!store_command(command) && !engine_command(command))
        fail("this host has no such command");
    if (strtok(NULL, " "))
        fail("fewer words are due");
}

int main(int count, char **arguments)
{
    static char line[MOST_LINE];
    if (count != 2) {
        fprintf(stderr, "host FILE: carries out the scenario in FILE through the linked engine\n");
        return 1;
    }
    if (gorsepick_engine_size() != sizeof memory) {
        fprintf(stderr, "the header and the library are not of one version\n");
        return 1;
    }
    FILE *file = fopen(arguments[1], "r");
    if (!file) {
        perror(arguments[1]);
        return 1;
    }
    gorsepick_fresh(engine);
    while (fgets(line, sizeof line, file)) {
        line_number++;
        carry_out(line);
    }
    fclose(file);
    return 0;
}
