/* Scripts as the tests of the bench take them. */
#ifndef SCRIPTS_H
#define SCRIPTS_H
#include "tests.h"

#define MOST_JOBS 32

/* The script without the line `steps` and all behind it, which a bench doesn't take. */
static inline struct text without_steps(struct text script) {
    for (size_t at = 0; at + 6 <= script.length; at++)
        if ((at == 0 || script.bytes[at - 1] == '\n') && memcmp(script.bytes + at, "steps\n", 6) == 0) script.length = at;
    return script;
}

/* Whether the first line says that FILE.out, beside the script, is what `labrun rounds` prints. */
static inline int is_stored_run(struct text script) {
    static const char head[] = "# labrun rounds";
    return script.length > sizeof head && memcmp(script.bytes, head, sizeof head - 1) == 0;
}

#define ROUNDS 10000 /* what labrun goes by without words */

/* The N of a first line `# labrun rounds N: ..`, else `ROUNDS`. */
static inline uint32_t limit_of(struct text script) {
    static const char head[] = "# labrun rounds ";
    size_t length = sizeof head - 1;
    return script.length > length && memcmp(script.bytes, head, length) == 0 ? (uint32_t)atol((const char *)script.bytes + length) : ROUNDS;
}

/* The file's name without its folders and its ending. */
static inline void base_name(const char *path, char *name, size_t room) {
    const char *slash = strrchr(path, '/');
    snprintf(name, room, "%s", slash ? slash + 1 : path);
    char *dot = strrchr(name, '.');
    if (dot) *dot = 0;
}
#endif
