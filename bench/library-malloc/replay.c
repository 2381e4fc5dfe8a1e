/* Parses a trace, runs it on the C library's malloc, each script of a round in a thread of its own, and prints a line
   for each step: what a program pays that asks for no hardening. It takes only traces that hmreplay accepts, and makes
   no step that the C library leaves undefined: reads and writes go as far as the block, a block is freed once.

   cc -O2 -pthread replay.c -o replay && ./replay run < TRACE */
#include <malloc.h>
#include <pthread.h>
#include <stdint.h>
#include <stdio.h>
#include <stdlib.h>
#include <string.h>

enum kind { MALLOC, CALLOC, ALIGNED, REALLOC, FREE, SIZED_FREE, WRITE, READ, SIZE, KINDS };
static const char *words[KINDS] = {"malloc", "calloc", "aligned", "realloc", "free", "sfree", "write", "read", "size"};

struct step {
    enum kind kind;
    int name;  /* the name that is set */
    int place; /* the name that is meant; -1: address 0, or one that no block has */
    int64_t offset;
    uint64_t first, second;
};

struct script {
    int thread;
    struct step *steps;
    size_t count, room;
    char *out;
    size_t written;
};

static char **names; /* a table of names by their hashes, open addressing */
static int *numbers;
static size_t slots, used;
static void **blocks; /* the block of each number */

static size_t hash(const char *text, size_t len) {
    size_t h = 1469598103934665603u;
    for (size_t i = 0; i < len; i++) h = (h ^ (unsigned char)text[i]) * 1099511628211u;
    return h;
}

static void grow(void) {
    size_t old = slots;
    char **former = names;
    int *held = numbers;
    slots = old ? old * 2 : 1024;
    names = calloc(slots, sizeof *names);
    numbers = calloc(slots, sizeof *numbers);
    for (size_t i = 0; i < old; i++)
        if (former[i]) {
            size_t at = hash(former[i], strlen(former[i])) & (slots - 1);
            while (names[at]) at = (at + 1) & (slots - 1);
            names[at] = former[i];
            numbers[at] = held[i];
        }
    free(former);
    free(held);
}

static int number_of(const char *text, size_t len) {
    if (2 * used >= slots) grow();
    size_t at = hash(text, len) & (slots - 1);
    while (names[at] && (strncmp(names[at], text, len) || names[at][len])) at = (at + 1) & (slots - 1);
    if (!names[at]) {
        names[at] = strndup(text, len);
        numbers[at] = used++;
    }
    return numbers[at];
}

static int place_of(const char *word, int64_t *offset) {
    *offset = 0;
    if (word[0] == '@' || !strcmp(word, "null")) return -1;
    size_t len = strcspn(word, "+-");
    if (word[len]) *offset = strtoll(word + len, NULL, 10);
    return number_of(word, len);
}

static void read_step(struct script *script, char **word) {
    if (script->count == script->room) {
        script->room = script->room ? script->room * 2 : 64;
        script->steps = realloc(script->steps, script->room * sizeof *script->steps);
    }
    struct step *step = &script->steps[script->count++];
    memset(step, 0, sizeof *step);
    while (strcmp(words[step->kind], word[0])) step->kind++;
    int next = 1;
    if (step->kind <= REALLOC) {
        step->name = number_of(word[1], strlen(word[1]));
        next = 2;
    }
    if (step->kind >= REALLOC) step->place = place_of(word[next++], &step->offset);
    if (step->kind != FREE && step->kind != SIZE)
        step->first = strtoull(word[next++], NULL, 10);
    if (step->kind == CALLOC || step->kind == ALIGNED) step->second = strtoull(word[next], NULL, 10);
    if (step->kind == WRITE) step->second = strtoull(word[next], NULL, 16);
}

static size_t within(const struct step *step, unsigned char *block) {
    size_t usable = block ? malloc_usable_size(block) : 0;
    if (step->offset < 0 || (uint64_t)step->offset >= usable) return 0;
    size_t left = usable - step->offset;
    return step->first < left ? step->first : left;
}

static int give(char *out, int name, void *block) {
    blocks[name] = block;
    return block ? sprintf(out, "given %zu\n", malloc_usable_size(block)) : sprintf(out, "no space\n");
}

static int read_bytes(char *out, unsigned char *from, size_t len) {
    int n = sprintf(out, "bytes");
    for (size_t i = 0, j; i < len; i = j) {
        for (j = i; j < len && from[j] == from[i]; j++) {}
        if (n < 400) n += sprintf(out + n, " %02x*%zu", from[i], j - i);
    }
    return n + sprintf(out + n, "\n");
}

static int make(char *out, const struct step *step) {
    unsigned char *block = step->kind >= REALLOC && step->place >= 0 ? blocks[step->place] : NULL;
    size_t len;
    switch (step->kind) {
    case MALLOC: return give(out, step->name, malloc(step->first));
    case CALLOC: return give(out, step->name, calloc(step->first, step->second));
    case ALIGNED: return give(out, step->name, memalign(step->first, step->second));
    case REALLOC:
        if (step->place >= 0) blocks[step->place] = NULL;
        return give(out, step->name, realloc(block, step->first));
    case FREE:
    case SIZED_FREE:
        if (step->offset || !block) return sprintf(out, "skipped\n");
        free(block);
        blocks[step->place] = NULL;
        return sprintf(out, "freed\n");
    case WRITE:
        len = within(step, block);
        if (len) memset(block + step->offset, step->second, len);
        return sprintf(out, "written\n");
    case READ:
        len = within(step, block);
        return read_bytes(out, block + step->offset, len);
    default: return sprintf(out, "size %zu\n", block ? malloc_usable_size(block) : 0);
    }
}

static int round_number;

static void *run_script(void *given) {
    struct script *script = given;
    size_t room = 0;
    for (size_t i = 0; i < script->count; i++) {
        if (room < script->written + 512) script->out = realloc(script->out, room = 2 * room + 65536);
        char *at = script->out + script->written;
        int n = sprintf(at, "%d.%d.%zu ", round_number, script->thread, i + 1);
        script->written += n + make(at + n, &script->steps[i]);
    }
    return NULL;
}

static void run_round(struct script *scripts, int count) {
    pthread_t threads[64];
    blocks = realloc(blocks, (used + 1) * sizeof *blocks);
    static size_t known;
    for (; known <= used; known++) blocks[known] = NULL;
    for (int i = 1; i < count; i++) pthread_create(&threads[i], NULL, run_script, &scripts[i]);
    if (count) run_script(&scripts[0]);
    for (int i = 1; i < count; i++) pthread_join(threads[i], NULL);
    for (int i = 0; i < count; i++) {
        fwrite(scripts[i].out, 1, scripts[i].written, stdout);
        free(scripts[i].out);
        free(scripts[i].steps);
    }
}

int main(void) {
    static struct script scripts[64];
    int count = 0;
    char line[300];
    while (fgets(line, sizeof line, stdin)) {
        char *word[8] = {0};
        int n = 0;
        for (char *w = strtok(line, " \n"); w && n < 8; w = strtok(NULL, " \n")) word[n++] = w;
        if (!strcmp(word[0], "hmtrace") || !strcmp(word[0], "note")) continue;
        if (!strcmp(word[0], "round") || !strcmp(word[0], "end")) {
            if (round_number) run_round(scripts, count);
            memset(scripts, 0, sizeof scripts);
            count = 0;
            round_number++;
        } else if (!strcmp(word[0], "thread"))
            scripts[count++].thread = atoi(word[1]);
        else
            read_step(&scripts[count - 1], word);
    }
    return 0;
}
