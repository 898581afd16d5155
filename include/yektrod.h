/* Yektrod for C: the gitattributes of paths, by an engine that the caller keeps.
 *
 *   yektrod y = {0};
 *   yektrod_place place = {{directory, directory_length}, {source, source_length}};
 *   yektrod_question question = {{path, path_length}, false, 0};
 *   yektrod_row rows[64];
 *   uint8_t text[4096];
 *   size_t list, dropped;
 *   yektrod_needed needed;
 *   if (yektrod_open(&y) == YEKTROD_DONE) {
 *       yektrod_add_in(&y, bytes, length, &place, true, &list, &dropped);
 *       if (yektrod_ask_into(&y, &question, rows, 64, text, sizeof text, &needed) == YEKTROD_DONE) {
 *           .. rows[i] for i below needed.rows, and its name: rows[i].name_length bytes at text + rows[i].at ..
 *       }
 *       yektrod_close(&y);
 *   }
 *
 * What a caller promises, since no call can test it:
 *
 *   1. A `yektrod` is all zero bytes before the first call, and only these functions write it after that.
 *   2. It may be moved, but not copied and used twice: two copies would free one engine twice.
 *   3. A call has its `yektrod` for itself alone, and so whatever it is passed to write into: no other thread uses them, and they
 *      overlap neither one another nor what is read.
 *   4. No pointer is NULL, also at length 0, and each is aligned for its type. `length` bytes can be read there, and
 *      `room` bytes or rows can be written. A length is below 2^63. A `bool` is 0 or 1, also those of a yektrod_answer_t that is
 *      passed to be written; other memory that is passed to be written need not be set before.
 *   5. An engine is used by one call at a time. It may be used from any thread, if a lock or a join orders its calls.
 *   6. `malloc`, `realloc` and `free` are of one allocator, and align a block to each power of two up to 16 that divides
 *      its size. No call comes from a signal handler, or from the forked child of a process with threads.
 *   7. A call has 32 KB of stack, whatever its input.
 *
 * What is no promise, since a status answers it: a call before `yektrod_open`, after `yektrod_close`, a second open or
 * close, a number past the end, a buffer that is too small, bytes that are not UTF-8, a malformed script, no memory.
 *
 * Nothing that a call is passed is kept. What `yektrod_open` takes `yektrod_close` frees; a caller frees nothing.
 */
#ifndef YEKTROD_H
#define YEKTROD_H

#include <stdbool.h>
#include <stddef.h>
#include <stdint.h>

#ifdef __cplusplus
extern "C" {
#endif

/* The version of this header, 0.36.0: the major number times 2^16, the minor number times 2^8, and the patch number. */
#define YEKTROD_VERSION 0x002400u

/* An engine: lists of attributes files, selected names, and the answers to the last question. Zero bytes: closed. */
typedef struct {
    void *engine;
    bool live;
} yektrod;

/* A text: its bytes, and how many. */
typedef struct {
    const uint8_t *at;
    size_t length;
} yektrod_bytes;

/* What the functions return. After a status other than 0 the engine and all that was passed to be written are as before, except:

   - NO_MEMORY of yektrod_ask and yektrod_ask_into leaves no answers;
   - BUFFER_TOO_SMALL of yektrod_text, yektrod_name, yektrod_found and yektrod_ask_into sets `needed`. yektrod_found also makes its
     row zero, and yektrod_ask_into its rows, and holds the new answers; there is nothing to be read in `text` then;
   - BUFFER_TOO_SMALL and MALFORMED of yektrod_run: `out` is written as far as there is room, and `written`; with MALFORMED also
     `malformed`. */
enum {
    YEKTROD_DONE = 0,
    YEKTROD_NO_MEMORY = 1,
    YEKTROD_CLOSED = 2,           /* there is no engine; of yektrod_open: there is one already */
    YEKTROD_NOT_FOUND = 3,        /* no such answer, line, text, name or attribute */
    YEKTROD_INVALID = 4,          /* a source, root or name is not UTF-8; is_dir is out of range; a directory begins or ends with a
                                     slash, or has `//` or a part `.` or `..` */
    YEKTROD_NO_LIST = 5,          /* there is no list to remove */
    YEKTROD_BUFFER_TOO_SMALL = 6, /* the text is longer than the room, or there are more rows; `needed` or `written` gets the length */
    YEKTROD_MALFORMED = 7,        /* a record of a script is malformed */

    /* the same by their first names */
    YEKTROD_SHUT = YEKTROD_CLOSED,
    YEKTROD_MISSING = YEKTROD_NOT_FOUND,
    YEKTROD_UNREADABLE = YEKTROD_INVALID,
    YEKTROD_NO_ROOM = YEKTROD_BUFFER_TOO_SMALL
};

/* Why a line was dropped. */
enum {
    YEKTROD_MACRO_NAME = 1,       /* it defines a macro whose name is invalid or reserved */
    YEKTROD_NEGATIVE_PATTERN = 2, /* its pattern begins with `!` */
    YEKTROD_ATTRIBUTE_NAME = 3,   /* one of its names is invalid */
    YEKTROD_RESERVED = 4          /* one of its names is reserved */
};

/* A line that was dropped: its number, from 1, and why. */
typedef struct {
    size_t line;
    int32_t reason;
} yektrod_dropped_line;

/* The state of an attribute. */
enum { YEKTROD_UNSPECIFIED = 0, YEKTROD_SET = 1, YEKTROD_UNSET = 2, YEKTROD_HAS_VALUE = 3 };

/* An answer, without its texts. */
typedef struct {
    int32_t state;
    bool is_macro;   /* the attribute is a macro */
    bool has_source; /* a line of a file decided it */
    bool has_cause;  /* the line names a macro, whose body has the attribute */
    size_t line;     /* the number of the line, from 1; 0 without a source */
} yektrod_answer_t;

/* The texts of an answer. An unspecified attribute may have no source, and then it has no pattern; a text that is missing is
   YEKTROD_NOT_FOUND. */
enum { YEKTROD_NAME = 0, YEKTROD_VALUE = 1, YEKTROD_SOURCE = 2, YEKTROD_PATTERN = 3, YEKTROD_CAUSE = 4 };

/* What a number of a row is that is missing. */
#define YEKTROD_NONE SIZE_MAX

/* The flags of a row. */
enum { YEKTROD_IS_MACRO = 1, YEKTROD_HAS_SOURCE = 2, YEKTROD_HAS_CAUSE = 4 };

/* An answer, with the offset of its texts. It has integers alone, so memory that rows are written to need not be set before. */
typedef struct {
    int32_t state;
    uint32_t flags;
    size_t line;  /* the number of the line that decides, from 1; 0 without a source */
    size_t list;  /* the index of its list: the lists are counted from 0, the built-in one first; YEKTROD_NONE without a source */
    size_t name;  /* the number of the attribute; YEKTROD_NONE if the selected text is no name of the lists */
    size_t cause; /* the number of the macro whose body has the attribute; YEKTROD_NONE without one */
    size_t at;    /* where its texts begin in `text`: name, value, source, pattern, cause, one directly after the other */
    size_t name_length, value_length, source_length, pattern_length, cause_length; /* in bytes; 0 of a text that is missing */
} yektrod_row;

/* Where a list applies, and what it is called: each of any bytes. */
typedef struct {
    yektrod_bytes directory; /* the directory below which it applies, without a slash at either end; empty: everywhere */
    yektrod_bytes source;    /* is told with its answers, and says nothing of where the list applies */
} yektrod_place;

/* A path to look up, relative to the top of the repository, with a slash at neither end and no `//`, `.` or `..` in it: no status tells
   of another form. `fold` is whether letters match in either case; `is_dir` is 1 for a directory, 0 for none, and -1 if that is not
   known. */
typedef struct {
    yektrod_bytes path;
    bool fold;
    int32_t is_dir;
} yektrod_question;

/* How many rows and how many bytes of text the answers to a question take. */
typedef struct {
    size_t rows;
    size_t text;
} yektrod_needed;

/* The version of the library, as YEKTROD_VERSION has that of the header. */
uint32_t yektrod_version(void);

/* Makes an engine with the built-in list, which defines the macro `binary`, and without a selection.
   Returns DONE, NO_MEMORY, CLOSED (there is an engine already). */
int32_t yektrod_open(yektrod *y);

/* Adds the list of an attributes file as the last one, which takes precedence, and leaves no answers. `source` is the path of the
   file. The patterns apply to the paths below the directory of `source`, taken relative to `root` (mostly empty: the top of the
   repository). They apply to all paths if `has_root` is false, and `root` is not read then, or if `source` is not below `root`.
   `dropped` gets the number of lines that were dropped.
   Returns DONE, NO_MEMORY, CLOSED, INVALID (the source, or the root that is read, is not UTF-8). */
int32_t yektrod_add(yektrod *y, const uint8_t *bytes, size_t length, const uint8_t *source, size_t source_length,
                    const uint8_t *root, size_t root_length, bool has_root, bool allow_macros, size_t *dropped);

/* Adds the list of an attributes file as the last one, as yektrod_add does, below a directory of any bytes. `list` gets its index,
   and `dropped` the number of lines that were dropped.
   No path lies below a directory that is INVALID, so its list is not needed.
   Returns DONE, NO_MEMORY, CLOSED, INVALID (the directory begins or ends with a slash, or has `//` or a part `.` or `..`). */
int32_t yektrod_add_in(yektrod *y, const uint8_t *bytes, size_t length, const yektrod_place *place, bool allow_macros,
                       size_t *list, size_t *dropped);

/* A line that was dropped of the last list that was added, by its number among those, from 0.
   Returns DONE, CLOSED, NOT_FOUND. */
int32_t yektrod_dropped(yektrod *y, size_t i, yektrod_dropped_line *line);

/* Removes the last list, and leaves no answers. The next list gets its index.
   Returns DONE, CLOSED, NO_LIST. */
int32_t yektrod_pop(yektrod *y);

/* Selects the names that are looked up, in the order of the answers, and leaves no answers. With a count of 0 all names are. A text
   that is no valid name is always unspecified.
   Returns DONE, NO_MEMORY, CLOSED, INVALID (a name is not UTF-8). */
int32_t yektrod_select(yektrod *y, const yektrod_bytes *names, size_t count);

/* Looks a path up, as a yektrod_question has it. `answers` gets the number of answers: one for each selected name, or, without a
   selection, one for each name that is specified. If there is no memory, no answers are left, and nothing else changes.
   Returns DONE, NO_MEMORY, CLOSED, INVALID (is_dir). */
int32_t yektrod_ask(yektrod *y, const uint8_t *path, size_t length, bool fold, int32_t is_dir, size_t *answers);

/* Asks as yektrod_ask does, and writes all answers to the front of `rows`, and their texts to the front of `text`, and nothing after
   them (no NUL). `needed` gets how many rows and how many bytes of text there are. If these are more than `rows_room` or `text_room`,
   the status is BUFFER_TOO_SMALL: each row of the room is zero then, there is nothing to be read in `text`, and the answers are held
   as after yektrod_ask, so that yektrod_answers and yektrod_text can tell them.
   Returns DONE, NO_MEMORY (no answers are left), CLOSED, INVALID (is_dir), BUFFER_TOO_SMALL. */
int32_t yektrod_ask_into(yektrod *y, const yektrod_question *question, yektrod_row *rows, size_t rows_room,
                         uint8_t *text, size_t text_room, yektrod_needed *needed);

/* Writes the answers to the last question to the front of `rows`, from the one with this number on, from 0, as many as fit. `written`
   gets how many these are. `at` is 0 in each; yektrod_text tells their texts.
   Returns DONE, CLOSED. */
int32_t yektrod_answers(yektrod *y, size_t from, yektrod_row *rows, size_t rows_room, size_t *written);

/* An answer to the last question, by its number, from 0.
   Returns DONE, CLOSED, NOT_FOUND. */
int32_t yektrod_answer(yektrod *y, size_t i, yektrod_answer_t *answer);

/* Copies a text of an answer to the front of `to`, and writes nothing after it (no NUL). `needed` gets the length of the text. If that
   is more than `room`, nothing is copied, `needed` still gets the length, and the status is BUFFER_TOO_SMALL. It takes no memory.
   Returns DONE, CLOSED, NOT_FOUND (also if `which` is none of the five), BUFFER_TOO_SMALL. */
int32_t yektrod_text(yektrod *y, size_t i, int32_t which, uint8_t *to, size_t room, size_t *needed);

/* The answer to the last question for the attribute with this number, whatever is selected, with its texts at the front of `text`,
   which so is another room than that of answers which are still read. It is there for each selected name, and for each macro that is
   the cause of an answer, of its cause, and so on; without a selection for all. For another attribute it may be NOT_FOUND. An
   attribute that a line sets to unspecified (`!x`) has an answer with a source; one that no line names is NOT_FOUND. `needed` gets the
   length of the texts. If that is more than `text_room`, the row is zero, there is nothing to be read in `text`, and the status is
   BUFFER_TOO_SMALL.
   Returns DONE, CLOSED, NOT_FOUND, BUFFER_TOO_SMALL. */
int32_t yektrod_found(yektrod *y, size_t number, yektrod_row *row, uint8_t *text, size_t text_room, size_t *needed);

/* How many names there are, of attributes and macros. Their numbers are those below.
   Returns DONE, CLOSED. */
int32_t yektrod_names(yektrod *y, size_t *count);

/* Copies the name with this number to the front of `to`, and writes nothing after it (no NUL). `needed` gets the length of the name. If
   that is more than `room`, nothing is copied, `needed` still gets the length, and the status is BUFFER_TOO_SMALL. A name keeps its
   number until the engine is closed.
   Returns DONE, CLOSED, NOT_FOUND, BUFFER_TOO_SMALL. */
int32_t yektrod_name(yektrod *y, size_t number, uint8_t *to, size_t room, size_t *needed);

/* Frees the engine, if there is one. */
void yektrod_close(yektrod *y);

/* Plays a script (docs/SCRIPT.md) over an engine of its own, which begins with the built-in list: what the program writes for it
   goes to the front of `out`, as far as there is room. `written` gets the length of the whole text, also if the room is too little.
   With MALFORMED, also if the room is too little, the text is that of the records before the first malformed one, and
   `malformed` gets the number of that record, from 1. With NO_MEMORY nothing is written to any of the three.
   Returns DONE, NO_MEMORY, BUFFER_TOO_SMALL, MALFORMED. */
int32_t yektrod_run(const uint8_t *script, size_t length, uint8_t *out, size_t room, size_t *written, size_t *malformed);

#ifdef __cplusplus
}
#endif

#endif
