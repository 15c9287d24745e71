/* A server that lacks a call: the module is refused, and the log has the name of the call. The module is loaded into this program,
 * which gives it calls that do nothing. */
#define _GNU_SOURCE
#include <dlfcn.h>
#include <stdarg.h>
#include <stdio.h>
#include <string.h>

static const char *lacking; /* the name of a call, or NULL */
static char asked[128][64]; /* the names that were asked for */
static int count;
static char said[1000];

static void say(void *ctx, const char *level, const char *text, ...) {
    va_list words;
    (void)ctx;
    (void)level;
    va_start(words, text);
    vsnprintf(said, sizeof said, text, words);
    va_end(words);
}

static int refuse(void) {
    return 1;
}

/* Gives the calls of a server that has all but one. */
static int get_call(const char *name, void *to) {
    void (*call)(void) = strcmp(name, "RedisModule_Log") == 0 ? (void (*)(void))say : (void (*)(void))refuse;
    if (lacking == NULL && count < 128)
        snprintf(asked[count++], sizeof *asked, "%s", name);
    if (lacking != NULL && strcmp(name, lacking) == 0)
        return 1;
    memcpy(to, &call, sizeof call);
    return 0;
}

int main(int count_of_words, char **words) {
    int (*get)(const char *, void *) = get_call;
    int (*load)(void *, void **, int), at;
    void *module = count_of_words == 2 ? dlopen(words[1], RTLD_NOW) : NULL, *found;
    if (module == NULL || (found = dlsym(module, "RedisModule_OnLoad")) == NULL)
        return fprintf(stderr, "no module: %s\n", dlerror()), 1;
    memcpy(&load, &found, sizeof load);
    /* With all calls it finds that its name is taken. */
    if (load(&get, NULL, 0) != 1 || strstr(said, "its name is taken") == NULL || count < 50)
        return fprintf(stderr, "with all calls: %s\n", said), 1;
    for (at = 0; at < count; at++) {
        lacking = asked[at];
        said[0] = '\0';
        if (strcmp(lacking, "RedisModule_SetCommandACLCategories") == 0)
            continue;
        if (load(&get, NULL, 0) != 1 || (strcmp(lacking, "RedisModule_Log") != 0 && strstr(said, lacking) == NULL))
            return fprintf(stderr, "without %s: %s\n", lacking, said), 1;
    }
    return 0;
}
