/* The settings, which come by the environment and are taken out of it; and exec, before which they are put back. */
#define _GNU_SOURCE
#include <dlfcn.h>
#include <stdio.h>
#include <string.h>
#include <unistd.h>
#include "trace_malloc.h"

static const char *const NAMES[] = {"TRACE_MALLOC_LINES=", "TRACE_MALLOC_REPORT=", "TRACE_MALLOC_SHOWN=", "TRACE_MALLOC_MOUNT=", "LD_PRELOAD="};
static char *settings[SETTINGS]; /* as the environment had them, as NAME=VALUE */
pid_t traced;

/* Which setting a string of the environment is, or SETTINGS. */
static int setting_of(const char *string) {
    int which = 0;
    while (which < SETTINGS && strncmp(string, NAMES[which], strlen(NAMES[which]))) which++;
    return which;
}

const char *setting(int which, const char *otherwise) {
    return settings[which] ? settings[which] + strlen(NAMES[which]) : otherwise;
}

/* What follows this library's name, the first in LD_PRELOAD. */
static const char *others_loaded(void) {
    const char *rest = strpbrk(setting(LOADED, ""), ": ");
    return rest ? rest + 1 : "";
}

void take_settings(void) {
    for (char **each = environ; each && *each; each++) {
        int which = setting_of(*each);
        if (which < SETTINGS && (settings[which] = __wrap_malloc(strlen(*each) + 1))) strcpy(settings[which], *each);
    }
}

/* By hand, as programs may have functions of their own of the names setenv and unsetenv, as bash does. */
void leave_environment(void) {
    char **to = environ, *rest = NULL;
    if (*others_loaded() && (rest = __wrap_malloc(strlen(NAMES[LOADED]) + strlen(others_loaded()) + 1)))
        sprintf(rest, "%s%s", NAMES[LOADED], others_loaded());
    for (char **each = environ; each && *each; each++) {
        int which = setting_of(*each);
        if (which == SETTINGS) *to++ = *each;
        else if (which == LOADED && rest) *to++ = rest;
    }
    if (to) *to = NULL;
}

/* The environment of what the process goes on as: this one, with the settings; as it is in any other process, or if there is no memory. */
static char *const *with_settings(char *const *given) {
    size_t count = 0;
    const char *loaded = NULL;
    if (!settings[LOADED] || !given || getpid() != traced) return given;
    for (; given[count]; count++)
        if (setting_of(given[count]) == LOADED) loaded = given[count] + strlen(NAMES[LOADED]);
    char **all = __wrap_malloc((count + SETTINGS + 1) * sizeof *all), **end = all;
    const char *own = setting(LOADED, ""), *rest = loaded ? loaded : "";
    char *both = __wrap_malloc(strlen(settings[LOADED]) + strlen(rest) + 2);
    if (!all || !both) return given;
    sprintf(both, "%s%.*s%s%s", NAMES[LOADED], (int)strcspn(own, ": "), own, *rest ? ":" : "", rest);
    for (int which = 0; which < LOADED; which++)
        if (settings[which]) *end++ = settings[which];
    *end++ = both;
    for (; *given; given++)
        if (setting_of(*given) == SETTINGS) *end++ = *given;
    *end = NULL;
    return all;
}

EXPORTED int execve(const char *path, char *const *words, char *const *environment) {
    int (*next_execve)(const char *, char *const *, char *const *);
    *(void **)&next_execve = dlsym(RTLD_NEXT, "execve");
    return next_execve(path, words, with_settings(environment));
}

EXPORTED int execvpe(const char *name, char *const *words, char *const *environment) {
    int (*next_execvpe)(const char *, char *const *, char *const *);
    *(void **)&next_execvpe = dlsym(RTLD_NEXT, "execvpe");
    return next_execvpe(name, words, with_settings(environment));
}

EXPORTED int execv(const char *path, char *const *words) {
    return execve(path, words, environ);
}

EXPORTED int execvp(const char *name, char *const *words) {
    return execvpe(name, words, environ);
}
