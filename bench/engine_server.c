/* A server that stores the touches of its gates in a database engine.

       engine_server sqlite FILE LINES CONNECTIONS
       engine_server redis PORT LINES CONNECTIONS
       engine_server postgresql CONNINFO LINES CONNECTIONS

   It serves as lines.h says, and commits the bytes of each touch by themselves before it answers. The engine's settings are
   those for which a commit is stable: SQLite has WAL and synchronous=FULL here, and whoever starts the others sets
   synchronous_commit=on and appendfsync=always. SQLite has one connection under one mutex, since it has one writer at a
   time. The others have a connection for each line, so the engine may flush the touches of several lines at once.

   It begins with no touch in the engine, and prints 'stored N' at its end, which the engine has counted. */
#define _GNU_SOURCE
#include <libpq-fe.h>
#include <sqlite3.h>

#include "lines.h"

/* What each engine can do. */
struct Engine {
    const char *name;
    void (*begin)(const char *where, int lines);
    void (*commit)(int line, const unsigned char *touch, size_t size);
    long (*count)(void);
};

static const struct Engine *engine;

static void refused(const char *said)
{
    fprintf(stderr, "engine_server: %s\n", said);
    exit(1);
}

/* SQLite */

static pthread_mutex_t lock = PTHREAD_MUTEX_INITIALIZER;
static sqlite3 *database;
static sqlite3_stmt *insert;

static void run(const char *text)
{
    if (sqlite3_exec(database, text, NULL, NULL, NULL) != SQLITE_OK)
        refused(sqlite3_errmsg(database));
}

static void begin_sqlite(const char *where, int lines)
{
    (void)lines;
    if (sqlite3_open(where, &database) != SQLITE_OK)
        refused(sqlite3_errmsg(database));
    run("pragma journal_mode=wal; pragma synchronous=full; drop table if exists touches; create table touches (body blob)");
    if (sqlite3_prepare_v2(database, "insert into touches values (?)", -1, &insert, NULL) != SQLITE_OK)
        refused(sqlite3_errmsg(database));
}

static void commit_sqlite(int line, const unsigned char *touch, size_t size)
{
    (void)line;
    pthread_mutex_lock(&lock);
    sqlite3_bind_blob(insert, 1, touch, (int)size, SQLITE_STATIC);
    if (sqlite3_step(insert) != SQLITE_DONE || sqlite3_reset(insert) != SQLITE_OK)
        refused(sqlite3_errmsg(database));
    pthread_mutex_unlock(&lock);
}

static long count_sqlite(void)
{
    sqlite3_stmt *counting;

    if (sqlite3_prepare_v2(database, "select count(*) from touches", -1, &counting, NULL) != SQLITE_OK ||
        sqlite3_step(counting) != SQLITE_ROW)
        refused(sqlite3_errmsg(database));
    return (long)sqlite3_column_int64(counting, 0);
}

/* Redis, by its protocol: a command is sent as so many strings, and an answer ends with a line's end. */

static int redis[MOST_LINES];

/* Gives the number that Redis answers to a command. */
static long ask_redis(int line, const char *command, size_t size)
{
    char answer[128];
    size_t held = 0;

    if (send(redis[line], command, size, MSG_NOSIGNAL) != (ssize_t)size)
        refused("Redis takes no command");
    while (held < 2 || answer[held - 1] != '\n') {
        ssize_t got = recv(redis[line], answer + held, sizeof answer - 1 - held, 0);
        if (got <= 0)
            refused("Redis gives no answer");
        held += (size_t)got;
    }
    answer[held] = 0;
    if (answer[0] != ':')
        refused(answer);
    return atol(answer + 1);
}

static void begin_redis(const char *where, int lines)
{
    static const char drop[] = "*2\r\n$3\r\nDEL\r\n$7\r\ntouches\r\n";
    struct sockaddr_in address = {.sin_family = AF_INET, .sin_addr.s_addr = htonl(INADDR_LOOPBACK)};
    int at_once = 1;

    address.sin_port = htons((uint16_t)atoi(where));
    for (int line = 0; line < lines; line++) {
        redis[line] = socket(AF_INET, SOCK_STREAM | SOCK_CLOEXEC, 0);
        want(redis[line] >= 0, "socket");
        want(connect(redis[line], (struct sockaddr *)&address, sizeof address) == 0, "connect");
        want(setsockopt(redis[line], IPPROTO_TCP, TCP_NODELAY, &at_once, sizeof at_once) == 0, "setsockopt");
    }
    ask_redis(0, drop, sizeof drop - 1);
}

static void commit_redis(int line, const unsigned char *touch, size_t size)
{
    char command[128];
    size_t held = (size_t)sprintf(command, "*3\r\n$5\r\nRPUSH\r\n$7\r\ntouches\r\n$%zu\r\n", size);

    memcpy(command + held, touch, size);
    memcpy(command + held + size, "\r\n", 2);
    ask_redis(line, command, held + size + 2);
}

static long count_redis(void)
{
    static const char length[] = "*2\r\n$4\r\nLLEN\r\n$7\r\ntouches\r\n";

    return ask_redis(0, length, sizeof length - 1);
}

/* PostgreSQL */

static PGconn *sessions[MOST_LINES];

/* What a command came to, which has to be this. */
static PGresult *done(int line, PGresult *result, ExecStatusType wanted)
{
    if (PQresultStatus(result) != wanted)
        refused(PQerrorMessage(sessions[line]));
    return result;
}

static void begin_postgresql(const char *where, int lines)
{
    for (int line = 0; line < lines; line++) {
        sessions[line] = PQconnectdb(where);
        if (PQstatus(sessions[line]) != CONNECTION_OK)
            refused(PQerrorMessage(sessions[line]));
        if (line == 0) {
            PQclear(done(0, PQexec(sessions[0], "set client_min_messages=warning; drop table if exists touches; "
                                                "create table touches (body bytea)"), PGRES_COMMAND_OK));
        }
        PQclear(done(line, PQprepare(sessions[line], "insert", "insert into touches values ($1)", 1, NULL), PGRES_COMMAND_OK));
    }
}

static void commit_postgresql(int line, const unsigned char *touch, size_t size)
{
    const char *values[] = {(const char *)touch};
    int sizes[] = {(int)size}, are_bytes[] = {1};

    PQclear(done(line, PQexecPrepared(sessions[line], "insert", 1, values, sizes, are_bytes, 0), PGRES_COMMAND_OK));
}

static long count_postgresql(void)
{
    PGresult *result = done(0, PQexec(sessions[0], "select count(*) from touches"), PGRES_TUPLES_OK);

    return atol(PQgetvalue(result, 0, 0));
}

static const struct Engine engines[] = {
    {"sqlite", begin_sqlite, commit_sqlite, count_sqlite},
    {"redis", begin_redis, commit_redis, count_redis},
    {"postgresql", begin_postgresql, commit_postgresql, count_postgresql},
};

static void commit(int line, const unsigned char *touch, size_t size)
{
    engine->commit(line, touch, size);
}

int main(int argc, char **argv)
{
    for (size_t place = 0; argc == 5 && place < sizeof engines / sizeof *engines; place++) {
        if (strcmp(argv[1], engines[place].name) == 0)
            engine = &engines[place];
    }
    if (engine == NULL) {
        fprintf(stderr, "usage: engine_server sqlite|redis|postgresql WHERE LINES CONNECTIONS\n");
        return 2;
    }
    int lines = lines_of(argv[3]);
    connections = atoi(argv[4]);
    engine->begin(argv[2], lines);
    serve_lines(lines);
    printf("stored %ld\n", engine->count());
    return 0;
}
