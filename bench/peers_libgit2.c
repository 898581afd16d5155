/* Answers paths as `git check-attr --stdin` does, by libgit2's git_attr_get_many_ext, for peers.py.
 * peers_libgit2 NAME.. <PATHS, in a repository */
#include <git2.h>
#include <stdio.h>
#include <stdlib.h>
#include <string.h>

static const char *text(const char *value) {
    switch (git_attr_value(value)) {
    case GIT_ATTR_VALUE_TRUE: return "set";
    case GIT_ATTR_VALUE_FALSE: return "unset";
    case GIT_ATTR_VALUE_STRING: return value;
    default: return "unspecified";
    }
}

int main(int argc, char **words) {
    static const char *values[64];
    const char **names = (const char **)words + 1;
    size_t count = (size_t)argc - 1, room = 0;
    char *path = 0;
    git_repository *repository;
    git_attr_options options = GIT_ATTR_OPTIONS_INIT;
    if (argc < 2 || argc > 65) return fputs("usage: peers_libgit2 NAME.. <PATHS\n", stderr), 2;
    git_libgit2_init();
    options.flags = GIT_ATTR_CHECK_FILE_THEN_INDEX | GIT_ATTR_CHECK_NO_SYSTEM;
    if (git_repository_open(&repository, ".")) goto failed;
    while (getline(&path, &room, stdin) > 0) {
        path[strcspn(path, "\n")] = 0;
        if (git_attr_get_many_ext(values, repository, &options, path, count, names)) goto failed;
        for (size_t at = 0; at < count; at++) {
            fputs(path, stdout);
            fputs(": ", stdout);
            fputs(names[at], stdout);
            fputs(": ", stdout);
            fputs(text(values[at]), stdout);
            putchar('\n');
        }
    }
    free(path);
    git_repository_free(repository);
    git_libgit2_shutdown();
    return 0;
failed:
    return fprintf(stderr, "peers_libgit2: %s\n", git_error_last() ? git_error_last()->message : "?"), 1;
}
