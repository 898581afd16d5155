/* Plays random calls over two engines, within what the header asks of a caller, and compares what they give with yektrod_run of
 * the script of the same calls. Each call has to come up with each of its statuses, but for want of memory.
 * usage: random [SEED [CALLS]]
 */
#include "calls.h"
#include "records.h"

#define ANY(array) ((array)[below(sizeof(array) / sizeof *(array))])
#define WANTED(e, status) ((e)->is_open ? (int32_t)(status) : YEKTROD_CLOSED)
#define ROOM_FOR(needed) (below(2) ? (needed) + below(2) : below((needed) + 2)) /* at most one byte or row more */
#define MOST 96          /* lists of an engine, and rows of a question */
#define UNSET 0x07070707 /* what rows are filled with */

static unsigned long seed = 1, step;
#define CHECK(fact) ((fact) ? (void)0 : fail(__LINE__, #fact))

static void fail(int line, const char *fact) {
    fprintf(stderr, "random: seed %lu, call %lu, line %d: not %s\n", seed, step, line, fact);
    exit(1);
}

static size_t below(size_t bound) {
    static uint64_t state;
    state = (state ? state : seed) * 6364136223846793005u + 1442695040888963407u;
    return (size_t)(state >> 33) % bound;
}

/* An engine, the script of its calls since it was opened, and what that writes. A list has a source, and the name that it has in
   the script. `wanted` are the answers to the last question in form `o`. */
typedef struct {
    yektrod y;
    bool is_open, has_answers;
    buffer script, said, wanted, path;
    buffer sources[MOST], shown[MOST];
    yektrod_question question;
    size_t list_count, selected_count, answers;
} engine;

/* What the script of an engine and one record more write beyond what it has said. */
static yektrod_bytes run(const engine *e, const buffer *record) {
    static buffer script;
    static uint8_t out[1 << 16];
    size_t written, length, malformed, room = below(80);
    script.length = 0;
    put(&script, all(&e->script));
    put(&script, all(record));
    memset(out, 7, sizeof out);
    int32_t status = CALL(run, script.at, script.length - 1, out, room, &length, &malformed);
    CHECK(status == YEKTROD_MALFORMED && length < sizeof out && out[length < room ? length : room] == 7);
    status = CALL(run, script.at, script.length, out, room, &written, &malformed);
    CHECK((written <= room) == (status == YEKTROD_DONE) && written < sizeof out && out[room] == 7);
    CHECK(CALL(run, script.at, script.length, out, written + below(2), &length, &malformed) == YEKTROD_DONE && length == written);
    CHECK(written >= e->said.length && equal(all(&e->said), (yektrod_bytes){out, e->said.length}));
    return (yektrod_bytes){out + e->said.length, written - e->said.length};
}

/* A text of an answer, or with -1 a name by its number: with some room, then with enough. One that is missing has no address. */
static yektrod_bytes text_of(engine *e, size_t i, int32_t which) {
    static uint8_t texts[6][1024];
    uint8_t *to = texts[which + 1];
    for (size_t room = below(12), needed;; room = ROOM_FOR(needed)) {
        memset(to, 7, sizeof *texts);
        int32_t status = which < 0 ? CALL(name, &e->y, i, to, room, &needed) : CALL(text, &e->y, i, which, to, room, &needed);
        if (status == YEKTROD_NOT_FOUND) return (yektrod_bytes){0, 0};
        CHECK(needed < sizeof *texts && (needed <= room) == (status == YEKTROD_DONE) && to[status ? 0 : needed] == 7);
        if (status == YEKTROD_DONE) return (yektrod_bytes){to, needed};
    }
}

/* Writes an answer as the script does, which has another name for its list. */
static void put_told(buffer *b, const engine *e, int32_t state, size_t line, yektrod_bytes *texts) {
    size_t list = 0;
    if (texts[YEKTROD_SOURCE].at) {
        while (list < e->list_count && !equal(texts[YEKTROD_SOURCE], all(&e->sources[list]))) list++;
        CHECK(list < e->list_count && texts[YEKTROD_PATTERN].at);
        texts[YEKTROD_SOURCE] = all(&e->shown[list]);
    }
    put_answer(b, e->question.path, state, line, texts);
}

/* Writes a row as the script does; its numbers are those of its texts, which lie in `text`, or are got by `i` without it. */
static void put_row(buffer *b, engine *e, const yektrod_row *row, size_t i, const uint8_t *text) {
    const size_t lengths[] = {row->name_length, row->value_length, row->source_length, row->pattern_length, row->cause_length};
    const bool has_source = row->flags & YEKTROD_HAS_SOURCE, has_cause = row->flags & YEKTROD_HAS_CAUSE;
    const bool has[] = {true, row->state == YEKTROD_HAS_VALUE, has_source, has_source, has_cause};
    yektrod_bytes texts[5];
    size_t at = row->at;
    for (int32_t which = 0; which < 5; at += lengths[which++]) {
        texts[which] = text ? (yektrod_bytes){has[which] ? text + at : 0, lengths[which]} : text_of(e, i, which);
        CHECK((texts[which].at != 0) == has[which] && texts[which].length == lengths[which] && (text || !row->at));
    }
    CHECK(has_source == (row->list != YEKTROD_NONE) && has_source == (row->line > 0));
    CHECK(has_cause ? equal(texts[YEKTROD_CAUSE], text_of(e, row->cause, -1)) : row->cause == YEKTROD_NONE);
    CHECK(!has_source || equal(texts[YEKTROD_SOURCE], all(&e->sources[row->list])));
    CHECK(row->name == YEKTROD_NONE ? !has_source : equal(texts[YEKTROD_NAME], text_of(e, row->name, -1)));
    put_told(b, e, row->state, row->line, texts);
}

/* The answers that an engine holds are those of the script, by the calls of version 1 and as rows. */
static void check_answers(engine *e) {
    static buffer by_calls, by_rows;
    yektrod_answer_t answer = {0};
    yektrod_row rows[MOST];
    yektrod_bytes texts[5];
    size_t from = below(e->answers + 2), written, room = below(4), rest = from < e->answers ? e->answers - from : 0;
    by_calls.length = by_rows.length = 0;
    CHECK(CALL(answers, &e->y, from, rows, room, &written) == YEKTROD_DONE && written == (rest < room ? rest : room));
    CHECK(CALL(answers, &e->y, 0, rows, MOST, &written) == YEKTROD_DONE && written == e->answers);
    CHECK(CALL(answer, &e->y, e->answers + below(2), &answer) == YEKTROD_NOT_FOUND);
    for (size_t i = 0; i < e->answers; i++) {
        CHECK(CALL(answer, &e->y, i, &answer) == YEKTROD_DONE);
        CHECK(rows[i].flags == (answer.is_macro ? 1u : 0) + (answer.has_source ? 2u : 0) + (answer.has_cause ? 4u : 0));
        for (int32_t which = 0; which < 5; which++) texts[which] = text_of(e, i, which);
        put_told(&by_calls, e, answer.state, answer.line, texts);
        put_row(&by_rows, e, &rows[i], i, 0);
    }
    CHECK(equal(all(&by_calls), all(&e->wanted)) && equal(all(&by_rows), all(&e->wanted)));
}

/* Asks with some room, then with enough, and compares the rows. */
static void ask_into(engine *e, const yektrod_question *q, int32_t wanted) {
    static uint8_t text[1 << 14];
    static buffer by_rows;
    yektrod_row rows[MOST], row;
    yektrod_needed needed = {77, 77};
    size_t rows_room = below(5), text_room = below(100), written;
    for (int32_t status = YEKTROD_BUFFER_TOO_SMALL; status;) {
        memset(rows, 7, sizeof rows);
        memset(text, 7, sizeof text);
        status = CALL(ask_into, &e->y, q, rows, rows_room, text, text_room, &needed);
        CHECK(text[text_room] == 7 && rows[rows_room].state == UNSET);
        if (wanted) return CHECK(status == wanted && needed.rows == 77 && *text == 7 && rows->state == UNSET);
        CHECK((status == YEKTROD_DONE) == (needed.rows <= rows_room && needed.text <= text_room));
        CHECK(needed.rows + 1 < MOST && needed.text + 1 < sizeof text);
        e->answers = needed.rows;
        if (status == YEKTROD_BUFFER_TOO_SMALL) check_answers(e);
        for (size_t i = 0; status && i < sizeof *rows * rows_room; i++) CHECK(!((uint8_t *)rows)[i]);
        rows_room = ROOM_FOR(needed.rows);
        text_room = ROOM_FOR(needed.text);
    }
    by_rows.length = 0;
    CHECK(text[needed.text] == 7 && rows[needed.rows].state == UNSET);
    for (size_t i = 0; i < needed.rows; i++) {
        put_row(&by_rows, e, &rows[i], i, text);
        rows[i].at = 0;
        CHECK(CALL(answers, &e->y, i, &row, 1, &written) == YEKTROD_DONE && written == 1 && !memcmp(&row, &rows[i], sizeof row));
    }
    CHECK(equal(all(&by_rows), all(&e->wanted)));
}

static void ask(engine *e, bool into) {
    static const char *const parts[] = {"a", "b", "c", "A", "d", "b.c", "x.C", "\377", "q\tx", "e\ne"};
    static buffer record, path;
    size_t answers = 77;
    path.length = record.length = 0;
    for (size_t i = below(4); i > 0; i--) print(&path, "%s%s", path.length ? "/" : "", ANY(parts));
    yektrod_question q = {all(&path), false, (int32_t)below(60) - 2};
    q.fold = q.is_dir & 1;
    if (q.is_dir > 2) q.is_dir = q.is_dir / 2 % 3 - 1;
    int32_t wanted = WANTED(e, q.is_dir < -1 || q.is_dir > 1 ? YEKTROD_INVALID : YEKTROD_DONE);
    if (wanted == YEKTROD_DONE) {
        e->path.length = e->wanted.length = 0;
        put(&e->path, all(&path));
        q.path = all(&e->path);
        e->question = q;
        put_ask(&record, &q);
        put(&e->wanted, run(e, &record));
        e->has_answers = true;
    }
    if (into) ask_into(e, &q, wanted);
    else CHECK(CALL(ask, &e->y, q.path.at, q.path.length, q.fold, q.is_dir, &answers) == wanted);
    if (!into && !wanted) e->answers = answers;
    else CHECK(answers == 77);
    CHECK(wanted || !e->selected_count || e->answers == e->selected_count);
}

/* After a change of the lists or of the selection there are no answers. */
static void change(engine *e, const buffer *record, yektrod_bytes said) {
    put(&e->script, all(record));
    put(&e->said, said);
    e->has_answers = false;
    e->answers = e->wanted.length = 0;
}

/* Some lines of an attributes file, now and then with any byte. */
static yektrod_bytes contents(void) {
    static const char *const patterns[] = {"*", "*.c", "a/b", "/a", "a/", "**/b", "A*", "\"q\\tx\"", "b?", "[ab]", "a/**/c",
                                           "\\!b", "!b", "[attr]m", "[attr]n", "[attr]-", "# c", "", "b\t", "\377"};
    static const char *const items[] = {"x", "-x", "!x", "x=1", "y=a-value-that-is-longer-than-the-others", "-y", "m", "n", "!m",
                                        "-n", "n=2", "binary", "invalid", "=", "builtin_q", "z=\377"};
    static buffer text;
    text.length = 0;
    for (size_t i = below(6); i > 0; i--) {
        print(&text, "%s", ANY(patterns));
        for (size_t j = below(5); j > 0; j--) print(&text, " %s", ANY(items));
        if (i > 1 || below(2)) print(&text, below(8) ? "\n" : "\r\n");
    }
    size_t byte = below(text.length + 1), value = below(2048);
    if (byte < text.length && value < 256) text.at[byte] = (uint8_t)value;
    return all(&text);
}

/* Adds a list. The script has the directory in front of its name. No path is in `\376`, nor in `other`, its name there. */
static void add(engine *e, bool in) {
    static const char *const directories[] = {"", "a", "a/b", "d", "A", "c/a", "\376", "/", "/a", "a/", "a//b", ".", "./a"};
    static const char *const roots[] = {"", "", "a", "\377"};
    static buffer record, said;
    if (e->list_count == MOST) return;
    buffer *source = &e->sources[e->list_count], *shown = &e->shown[e->list_count];
    size_t which = below(2) ? below(5) : below(13), dropped = 77, index = 77;
    bool macros = below(4), has_root = in || below(3);
    yektrod_bytes bytes = contents(), directory = text_at(directories[which]), root = text_at(in ? "" : ANY(roots));
    bool is_invalid = in ? which > 6 : which == 6 || (has_root && *root.at == 0xff);
    int32_t wanted = WANTED(e, is_invalid ? YEKTROD_INVALID : YEKTROD_DONE), status;
    source->length = shown->length = record.length = said.length = 0;
    put(shown, in && which == 6 ? text_at("other") : directory);
    print(shown, "%sf%zu", shown->length ? "/" : "", e->list_count);
    if (in) print(source, "\376%zu%c", e->list_count, 0);
    else put(source, all(shown));
    yektrod_place place = {directory, all(source)};
    if (in) status = CALL(add_in, &e->y, bytes.at, bytes.length, &place, macros, &index, &dropped);
    else status = CALL(add, &e->y, bytes.at, bytes.length, source->at, source->length, root.at, root.length, has_root, macros,
                       &dropped);
    CHECK(status == wanted && (status == YEKTROD_DONE) == (dropped != 77) && index == (in && !status ? e->list_count : 77));
    if (status != YEKTROD_DONE) return;
    put_add(&record, macros, all(shown), has_root ? &root : 0, bytes);
    yektrod_dropped_line line;
    for (size_t i = 0; i < dropped; i++) {
        CHECK(CALL(dropped, &e->y, i, &line) == YEKTROD_DONE);
        put_dropped(&said, all(shown), &line);
    }
    CHECK(CALL(dropped, &e->y, dropped, &line) == YEKTROD_NOT_FOUND && equal(all(&said), run(e, &record)));
    change(e, &record, all(&said));
    e->list_count++;
}

static void pop(engine *e) {
    static const buffer record = {(uint8_t *)"pop\n", 4, 4};
    int32_t status = CALL(pop, &e->y);
    CHECK(status == WANTED(e, e->list_count ? YEKTROD_DONE : YEKTROD_NO_LIST));
    if (status != YEKTROD_DONE) return;
    change(e, &record, text_at(""));
    e->list_count--;
}

static void select_names(engine *e) {
    static const char *const names[] = {"x", "y", "m", "text", "new", "no name", "", "\377"};
    static buffer record;
    yektrod_bytes selected[4];
    size_t count = below(5);
    bool is_invalid = false;
    for (size_t i = 0; i < count; i++) {
        selected[i] = text_at(ANY(names));
        is_invalid |= selected[i].length && *selected[i].at == 0xff;
    }
    int32_t status = CALL(select, &e->y, selected, count);
    CHECK(status == WANTED(e, is_invalid ? YEKTROD_INVALID : YEKTROD_DONE));
    if (status != YEKTROD_DONE) return;
    record.length = 0;
    put_names(&record, selected, count);
    change(e, &record, text_at(""));
    e->selected_count = count;
}

/* The answer for the attribute with this number: whether there is one, and its row. */
static bool found(engine *e, size_t number, yektrod_row *row) {
    static uint8_t text[1 << 12];
    static buffer record, by_row;
    size_t room = below(40), needed;
    for (int32_t status = YEKTROD_BUFFER_TOO_SMALL; status; room = ROOM_FOR(needed)) {
        memset(text, 7, sizeof text);
        memset(row, 7, sizeof *row);
        status = CALL(found, &e->y, number, row, text, room, &needed);
        if (status == YEKTROD_NOT_FOUND) return false;
        CHECK(e->has_answers && (needed <= room) == (status == YEKTROD_DONE) && text[status ? room : needed] == 7);
        for (size_t i = 0; status && i < sizeof *row; i++) CHECK(!((uint8_t *)row)[i]);
    }
    record.length = by_row.length = 0;
    CHECK(row->name == number && row->at == 0 && (row->flags & YEKTROD_HAS_SOURCE));
    put_row(&by_row, e, row, 0, text);
    yektrod_bytes name = text_of(e, number, -1);
    put_names(&record, &name, 1);
    put_ask(&record, &e->question);
    CHECK(equal(all(&by_row), run(e, &record)));
    return true;
}

/* Each answer with a source is found by its number, and so is each macro in its chain of causes. Without a selection all that is
   found beside the answers is unspecified. */
static void check_found(engine *e) {
    yektrod_row rows[MOST], row;
    size_t count, written;
    CHECK(CALL(names, &e->y, &count) == YEKTROD_DONE && !found(e, count + below(2), &row));
    CHECK(!text_of(e, count + below(2), -1).at);
    CHECK(CALL(answers, &e->y, 0, rows, MOST, &written) == YEKTROD_DONE);
    for (size_t number = 0; number < count; number++) {
        bool is_answer = false, is_found = found(e, number, &row);
        for (size_t i = 0; i < written; i++)
            if (rows[i].name == number && (rows[i].flags & YEKTROD_HAS_SOURCE)) {
                CHECK(is_found && !memcmp(&rows[i], &row, sizeof row));
                is_answer = true;
            }
        CHECK(text_of(e, number, -1).at != 0);
        CHECK(!is_found || is_answer || e->selected_count || row.state == YEKTROD_UNSPECIFIED);
        while (is_answer && row.cause != YEKTROD_NONE) CHECK(found(e, row.cause, &row));
    }
}

static void check_closed(engine *e) {
    yektrod_answer_t answer = {0};
    yektrod_row row;
    yektrod_dropped_line line;
    uint8_t to[1];
    size_t n = 77;
    const int32_t statuses[] = {
        CALL(dropped, &e->y, 0, &line), CALL(answers, &e->y, 0, &row, 1, &n), CALL(found, &e->y, 0, &row, to, 1, &n),
        CALL(answer, &e->y, 0, &answer), CALL(text, &e->y, 0, 0, to, 1, &n), CALL(name, &e->y, 0, to, 1, &n),
        CALL(names, &e->y, &n)};
    for (size_t i = 0; i < sizeof statuses / sizeof *statuses; i++) CHECK(statuses[i] == YEKTROD_CLOSED && n == 77);
}

static void play(engine *e) {
    size_t which = below(40);
    if (which < 2) {
        CHECK(CALL(open, &e->y) == (e->is_open ? YEKTROD_CLOSED : YEKTROD_DONE));
        if (!e->is_open) e->list_count = 1;
        e->is_open = true;
    } else if (which < 3) {
        yektrod_close(&e->y);
        e->is_open = e->has_answers = false;
        e->script.length = e->said.length = e->wanted.length = e->answers = e->list_count = e->selected_count = 0;
    } else if (which < 15) add(e, which < 9);
    else if (which < 18) pop(e);
    else if (which < 21) select_names(e);
    else if (which < 32) ask(e, which < 27);
    else if (!e->is_open) check_closed(e);
    else if (which < 36) check_answers(e);
    else check_found(e);
}

int main(int count, char **words) {
    static engine engines[2];
    unsigned long most = count > 2 ? strtoul(words[2], 0, 10) : 100000;
    if (count > 1) seed = strtoul(words[1], 0, 10);
    CHECK(yektrod_version() == YEKTROD_VERSION);
    for (; step < most; step++) play(&engines[below(2)]);
    for (size_t i = 0; i < 2; i++) yektrod_close(&engines[i].y);
    return !are_all_seen() || printf("random: seed %lu, %lu calls: each gives what its script says\n", seed, most) < 0;
}
