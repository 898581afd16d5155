/* The same by git_attr_get_many_ext of libgit2: c_library_libgit2 COUNT REPOSITORY NAME.. <PATHS */
#include <git2.h>
#include <stdio.h>
#include <stdlib.h>
#include <string.h>

int main(int argc, char **words) {
    static char line[1 << 12], *paths[1 << 17];
    static const char *values[64];
    git_repository *repository;
    git_attr_options options = GIT_ATTR_OPTIONS_INIT;
    size_t found = 0, read = 0, count = argc > 1 ? strtoul(words[1], 0, 10) : 0;
    if (argc < 4 || argc > 66) return fputs("usage: c_library_libgit2 COUNT REPOSITORY NAME.. <PATHS\n", stderr), 2;
    for (; read < 1 << 17 && fgets(line, sizeof line, stdin); read++) {
        line[strcspn(line, "\n")] = 0;
        paths[read] = strdup(line);
    }
    git_libgit2_init();
    if (git_repository_open(&repository, words[2])) return 1;
    options.flags = GIT_ATTR_CHECK_FILE_THEN_INDEX | GIT_ATTR_CHECK_NO_SYSTEM;
    for (size_t i = 0; i < count && read; i++) {
        const char **names = (const char **)words + 3;
        if (git_attr_get_many_ext(values, repository, &options, paths[i % read], (size_t)argc - 3, names)) return 1;
        for (int at = 0; at < argc - 3; at++) found += git_attr_value(values[at]) != GIT_ATTR_VALUE_UNSPECIFIED;
    }
    git_repository_free(repository);
    git_libgit2_shutdown();
    printf("%zu\n", found);
    return 0;
}
