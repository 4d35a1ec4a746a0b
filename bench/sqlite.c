/* Runs a script of shorts through SQLite's C library and prints each line with its reply, as `ltx_run run` does.
 *
 * One session, one database in memory, prepared statements, one table whose key is the pair of table and key. It knows
 * `short`, `get`, `put`, `del`, `scan` and `commit` of keys and values that are spelt as they are: what the workloads
 * of scripts.py need, and no more. Any other line is a mistake of the workload, and ends it with status 1.
 *
 * usage: sqlite < SCRIPT        (cc -O2 -o sqlite sqlite.c -lsqlite3)
 */
#include <sqlite3.h>
#include <stdio.h>
#include <stdlib.h>
#include <string.h>

enum { MOST_WORDS = 6, LONGEST_LINE = 8192 };

typedef struct {
    sqlite3 *db;
    sqlite3_stmt *begin, *commit, *get, *put, *del, *scan, *scan_up;
    long begun;
} Engine;

static void fail(const char *what) {
    fprintf(stderr, "sqlite: %s\n", what);
    exit(1);
}

static sqlite3_stmt *prepare(sqlite3 *db, const char *sql) {
    sqlite3_stmt *statement = NULL;
    if (sqlite3_prepare_v3(db, sql, -1, SQLITE_PREPARE_PERSISTENT, &statement, NULL) != SQLITE_OK) fail(sqlite3_errmsg(db));
    return statement;
}

static Engine open_engine(void) {
    Engine e = {0};
    if (sqlite3_open(":memory:", &e.db) != SQLITE_OK) fail("no database");
    if (sqlite3_exec(e.db, "CREATE TABLE rows (t INTEGER, k BLOB, v BLOB, PRIMARY KEY (t, k)) WITHOUT ROWID", NULL, NULL, NULL) != SQLITE_OK) fail(sqlite3_errmsg(e.db));
    e.begin = prepare(e.db, "BEGIN");
    e.commit = prepare(e.db, "COMMIT");
    e.get = prepare(e.db, "SELECT v FROM rows WHERE t = ?1 AND k = ?2");
    e.put = prepare(e.db, "INSERT OR REPLACE INTO rows VALUES (?1, ?2, ?3)");
    e.del = prepare(e.db, "DELETE FROM rows WHERE t = ?1 AND k = ?2");
    e.scan = prepare(e.db, "SELECT k, v FROM rows WHERE t = ?1 AND k >= ?2 AND k < ?3 ORDER BY k");
    e.scan_up = prepare(e.db, "SELECT k, v FROM rows WHERE t = ?1 AND k >= ?2 ORDER BY k");
    return e;
}

static void bind_bytes(sqlite3_stmt *s, int place, const char *word) {
    if (sqlite3_bind_blob(s, place, word, (int)strlen(word), SQLITE_STATIC) != SQLITE_OK) fail("bind");
}

/* one statement without rows */
static void done(sqlite3_stmt *s) {
    if (sqlite3_step(s) != SQLITE_DONE) fail("step");
    sqlite3_reset(s);
}

static void print_column(sqlite3_stmt *s, int column) {
    putchar(' ');
    fwrite(sqlite3_column_blob(s, column), 1, (size_t)sqlite3_column_bytes(s, column), stdout);
}

static void get(sqlite3_stmt *s) {
    if (sqlite3_step(s) == SQLITE_ROW) {
        fputs("found", stdout);
        print_column(s, 0);
        putchar('\n');
    } else {
        puts("none");
    }
    sqlite3_reset(s);
}

/* The count comes before the rows, so they are gathered first, as the engine does. */
static void scan(sqlite3_stmt *s) {
    static char *text = NULL;
    static size_t room = 0;
    size_t length = 0;
    long count = 0;
    while (sqlite3_step(s) == SQLITE_ROW) {
        for (int column = 0; column < 2; column++) {
            size_t bytes = (size_t)sqlite3_column_bytes(s, column);
            if (length + bytes + 1 > room) {
                room = 2 * (length + bytes + 1);
                text = realloc(text, room);
                if (text == NULL) fail("memory");
            }
            text[length++] = ' ';
            memcpy(text + length, sqlite3_column_blob(s, column), bytes);
            length += bytes;
        }
        count++;
    }
    sqlite3_reset(s);
    printf("rows %ld", count);
    fwrite(text, 1, length, stdout);
    putchar('\n');
}

static const char *bound(const char *word) { return strcmp(word, "%") == 0 ? "" : word; }

static int is(const char *word, const char *verb, int count, int words) { return count == words && strcmp(word, verb) == 0; }

static void answer(Engine *e, int count, char **words) {
    if (count < 2) fail("a line of one word");
    const char *verb = words[1];
    if (is(verb, "short", count, 2)) {
        done(e->begin);
        printf("begun %ld\n", ++e->begun);
        return;
    }
    if (is(verb, "commit", count, 2)) {
        done(e->commit);
        puts("committed 1");
        return;
    }
    sqlite3_stmt *s = is(verb, "get", count, 4)                                ? e->get
                      : is(verb, "del", count, 4)                              ? e->del
                      : is(verb, "put", count, 5)                              ? e->put
                      : is(verb, "scan", count, 5) && strcmp(words[4], "%") == 0 ? e->scan_up
                      : is(verb, "scan", count, 5)                             ? e->scan
                                                                               : NULL;
    if (s == NULL) fail("a line that no workload has");
    sqlite3_bind_int(s, 1, atoi(words[2]));
    bind_bytes(s, 2, bound(words[3]));
    if (s == e->put || s == e->scan) bind_bytes(s, 3, words[4]);
    if (s == e->get) {
        get(s);
    } else if (s == e->scan || s == e->scan_up) {
        scan(s);
    } else {
        done(s);
        puts("done");
    }
}

int main(void) {
    static char line[LONGEST_LINE], copy[LONGEST_LINE];
    static char output[1 << 16];
    setvbuf(stdout, output, _IOFBF, sizeof output);
    Engine e = open_engine();
    while (fgets(line, sizeof line, stdin) != NULL) {
        line[strcspn(line, "\n")] = '\0';
        memcpy(copy, line, strlen(line) + 1);
        char *words[MOST_WORDS];
        int count = 0;
        for (char *word = strtok(copy, " "); word != NULL && count < MOST_WORDS; word = strtok(NULL, " ")) words[count++] = word;
        fputs(line, stdout);
        fputs(" => ", stdout);
        answer(&e, count, words);
    }
    return 0;
}
