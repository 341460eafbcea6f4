/* The orders of bench/run by SQLite: an entry under an identifier that no other has, and the price from one balance to the other where it
   covers it. Nothing is read, hashed or sealed. ORDERS of them, over so many entries: in memory and one transaction each, or in a new
   file, TOGETHER of them a transaction, each of which is synced in a log of its own before the next begins:
   sqlite ENTRIES ORDERS [FILE TOGETHER] */
#include <sqlite3.h>
#include <stdio.h>
#include <stdlib.h>
#include <string.h>

static sqlite3 *house;

static void failed(const char *what)
{
    fprintf(stderr, "bench/sqlite: %s: %s\n", what, sqlite3_errmsg(house));
    exit(1);
}

static void run(const char *text)
{
    if (sqlite3_exec(house, text, NULL, NULL, NULL) != SQLITE_OK)
        failed(text);
}

static sqlite3_stmt *prepared(const char *text)
{
    sqlite3_stmt *statement;
    if (sqlite3_prepare_v2(house, text, -1, &statement, NULL) != SQLITE_OK)
        failed(text);
    return statement;
}

/* Runs a statement that gives no row, and sees that it changed one. */
static void step(sqlite3_stmt *statement)
{
    if (sqlite3_step(statement) != SQLITE_DONE)
        failed(sqlite3_sql(statement));
    if (sqlite3_changes(house) != 1) {
        fprintf(stderr, "bench/sqlite: nothing was changed by %s\n", sqlite3_sql(statement));
        exit(1);
    }
    sqlite3_reset(statement);
}

static void record(sqlite3_stmt *statement, unsigned number)
{
    unsigned char epoid[16] = {0}, entry[125] = {3};
    memcpy(epoid, &number, sizeof number);
    memcpy(entry + 33, epoid, sizeof epoid);
    sqlite3_bind_blob(statement, 1, epoid, sizeof epoid, SQLITE_TRANSIENT);
    sqlite3_bind_blob(statement, 2, entry, sizeof entry, SQLITE_TRANSIENT);
    step(statement);
}

int main(int count, char **words)
{
    if (count != 3 && count != 5)
        return 2;
    unsigned entries = atoi(words[1]), orders = atoi(words[2]), together = count == 5 ? atoi(words[4]) : 1;
    if (together < 1 || sqlite3_open(count == 5 ? words[3] : ":memory:", &house) != SQLITE_OK)
        failed("open");
    if (count == 5) {
        run("pragma journal_mode = wal");
        run("pragma synchronous = full");
    }
    run("create table entry (epoid blob primary key, bytes blob not null) without rowid");
    run("create table account (id integer primary key, balance integer not null check (balance >= 0))");
    run("insert into account values (1, 0)");
    for (unsigned id = 2; id < 12; id++) {
        char text[80];
        snprintf(text, sizeof text, "insert into account values (%u, 1000000)", id);
        run(text);
    }
    sqlite3_stmt *begin = prepared("begin"), *commit = prepared("commit");
    sqlite3_stmt *put = prepared("insert into entry values (?, ?)");
    sqlite3_stmt *pay = prepared("update account set balance = balance - 1 where id = ?");
    sqlite3_stmt *earn = prepared("update account set balance = balance + 1 where id = 1");
    run("begin");
    for (unsigned number = 0; number < entries; number++)
        record(put, number);
    run("commit");
    for (unsigned number = 0; number < orders; number++) {
        if (number % together == 0) {
            sqlite3_step(begin);
            sqlite3_reset(begin);
        }
        record(put, entries + number);
        sqlite3_bind_int(pay, 1, 2 + number % 10);
        step(pay);
        step(earn);
        if ((number + 1) % together == 0 || number + 1 == orders) {
            if (sqlite3_step(commit) != SQLITE_DONE)
                failed("commit");
            sqlite3_reset(commit);
        }
    }
    return 0;
}
