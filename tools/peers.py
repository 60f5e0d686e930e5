"""The databases that tools/bench sets beside the program, each where it is there: SQLite by Python's module sqlite3, LMDB by ctypes, and durable
commits by threads of SQLite, LMDB, RocksDB and PostgreSQL, and rows of documents in SQLite and LMDB, by small programs in C, which `cc` makes in a
temporary folder.

What isn't on the machine is left out, with a line. On Debian: liblmdb-dev, librocksdb-dev, libsqlite3-dev, libpq-dev and postgresql.
"""

import ctypes
import ctypes.util
import functools
import glob
import mmap
import os
import pwd
import shutil
import sqlite3
import subprocess
import tempfile
import time


class Missing(Exception):
    """A database that isn't on this machine."""


class Value(ctypes.Structure):
    """MDB_val: a piece of memory."""

    _fields_ = [("size", ctypes.c_size_t), ("data", ctypes.c_char_p)]  # data is read by string_at alone: it may have bytes that are 0


@functools.cache
def lmdb_library():
    name = ctypes.util.find_library("lmdb")
    if not name:
        raise Missing("LMDB: no liblmdb")
    return ctypes.CDLL(name)


class Lmdb:
    """An environment of LMDB in one file; calls by their numbers in lmdb.h (0.9)."""

    IN_ONE_FILE, READ_ONLY, APPEND, COMPACT = 0x4000, 0x20000, 0x20000, 1

    def __init__(self, path, flags=0):
        self.library, self.environment = lmdb_library(), ctypes.c_void_p()
        self.call("mdb_env_create", ctypes.byref(self.environment))
        self.call("mdb_env_set_mapsize", self.environment, ctypes.c_size_t(1 << 30))
        self.call("mdb_env_open", self.environment, path.encode(), self.IN_ONE_FILE | flags, 0o644)
        self.flags = flags

    def call(self, name, *words):
        status = getattr(self.library, name)(*words)
        if status:
            raise Missing("LMDB: %s answers %d" % (name, status))

    def transaction(self):
        transaction, database = ctypes.c_void_p(), ctypes.c_uint()
        self.call("mdb_txn_begin", self.environment, None, self.flags, ctypes.byref(transaction))
        self.call("mdb_dbi_open", transaction, None, 0, ctypes.byref(database))
        return transaction, database

    def put_all(self, entries):
        """One transaction with these entries, by rising keys."""
        transaction, database = self.transaction()
        key, record, put = Value(), Value(), self.library.mdb_put
        for own_key, own_record in entries:
            key.data, key.size, record.data, record.size = own_key, len(own_key), own_record, len(own_record)
            if put(transaction, database, ctypes.byref(key), ctypes.byref(record), self.APPEND):
                raise Missing("LMDB: mdb_put")
        self.call("mdb_txn_commit", transaction)

    def get(self, asked):
        transaction, database = self.transaction()
        key, record = Value(len(asked), asked), Value()
        self.call("mdb_get", transaction, database, ctypes.byref(key), ctypes.byref(record))
        found = ctypes.string_at(ctypes.cast(ctypes.byref(record, Value.data.offset), ctypes.POINTER(ctypes.c_void_p)).contents.value, record.size)
        self.library.mdb_txn_abort(transaction)
        return found

    def copy(self, path, flags=0):
        self.call("mdb_env_copy2", self.environment, path.encode(), flags)

    def close(self):
        self.library.mdb_env_close(self.environment)


def sqlite_rows(path, *pragmas):
    """A database of SQLite with pages of 8,192 bytes and a table of entries."""
    rows = sqlite3.connect(path)
    for word in ("page_size = 8192", *pragmas):
        rows.execute("pragma " + word)
    rows.execute("create table if not exists entries (key blob primary key, record blob) without rowid")
    return rows


def timed(act):
    """What is answered, and the processor's and the clock's seconds for it."""
    processor, clock = time.process_time(), time.monotonic()
    answer = act()
    return answer, (time.process_time() - processor, time.monotonic() - clock)


# ---- an opening and one read


def opened_by_sqlite(path, key):
    rows = sqlite3.connect(path)
    found = rows.execute("select record from entries where key = ?", (key,)).fetchone()[0]
    rows.close()
    return found


def opened_by_lmdb(path, key):
    rows = Lmdb(path, Lmdb.READ_ONLY)
    found = rows.get(key)
    rows.close()
    return found


def openings(folder, entries, key):
    """For each database that is there its name and the processor's seconds of an opening and one read, the least of five, by rising keys."""
    entries = list(entries)
    rows = sqlite_rows(os.path.join(folder, "opened.sqlite"))
    rows.executemany("insert into entries values (?, ?)", entries)
    rows.commit()
    rows.close()
    made = [("SQLite", opened_by_sqlite, "opened.sqlite")]
    try:
        lmdb = Lmdb(os.path.join(folder, "opened.lmdb"))
        lmdb.put_all(entries)
        lmdb.close()
        made.append(("LMDB", opened_by_lmdb, "opened.lmdb"))
    except Missing as missing:
        print("left out: %s" % missing)
    wanted = dict(entries)[key]
    for name, act, file in made:
        path = os.path.join(folder, file)
        answers = [timed(lambda: act(path, key)) for _ in range(5)]
        if any(answer != wanted for answer, _ in answers):
            raise ValueError("%s reads another record" % name)
        yield name, min(seconds[0] for _, seconds in answers)


# ---- checkpoints and copies


def sqlite_checkpoints(folder, *parts):
    """For each part, rows of a transaction of its own, the seconds that SQLite takes to move it from its journal into its pages."""
    path, found = os.path.join(folder, "moved.sqlite"), []
    rows = sqlite_rows(path, "journal_mode = wal", "wal_autocheckpoint = 0", "synchronous = full")
    for part in parts:
        rows.executemany("insert into entries values (?, ?)", part)
        rows.commit()
        answer, seconds = timed(lambda: rows.execute("pragma wal_checkpoint(truncate)").fetchone())
        if answer[0] or os.path.getsize(path + "-wal"):
            raise ValueError("SQLite makes no checkpoint: %s" % (answer,))
        found.append(seconds)
    rows.close()
    return found


def lmdb_copies(folder, *parts):
    """For each part the seconds of its commit, and of a copy and of a compact copy behind it; nothing where LMDB isn't there."""
    try:
        rows = Lmdb(os.path.join(folder, "moved.lmdb"))
    except Missing as missing:
        print("left out: %s" % missing)
        return []
    found = []
    for number, part in enumerate(parts):
        part, copy = list(part), os.path.join(folder, "copy-%d.lmdb" % number)
        acts = (lambda: rows.put_all(part), lambda: rows.copy(copy), lambda: rows.copy(copy + ".compact", Lmdb.COMPACT))
        found.append([timed(act)[1] for act in acts])
    rows.close()
    return found


# ---- durable commits by threads

SYNCS = r"""
/* Loaded before a program, counts its syncs in a file that both see. */
#define _GNU_SOURCE
#include <dlfcn.h>
#include <fcntl.h>
#include <stdatomic.h>
#include <stdlib.h>
#include <sys/mman.h>
#include <unistd.h>

static atomic_long *count;

__attribute__((constructor)) static void opened(void) {
    const char *name = getenv("SYNCS");
    int file = name ? open(name, O_RDWR) : -1;
    void *at = file < 0 ? MAP_FAILED : mmap(0, sizeof *count, PROT_READ | PROT_WRITE, MAP_SHARED, file, 0);
    if (at != MAP_FAILED) count = at;
}

long syncs_so_far(void) { return count ? atomic_load(count) : 0; }

static int counted(const char *name, int file) {
    int (*real)(int) = (int (*)(int))dlsym(RTLD_NEXT, name);
    if (count) atomic_fetch_add(count, 1);
    return real(file);
}

int fsync(int file) { return counted("fsync", file); }
int fdatasync(int file) { return counted("fdatasync", file); }
"""

COMMITS = r"""
/* commits THREADS EACH PLACE: threads that make so many durable commits each, of one small row; prints the seconds from the first to the last, and how
   many syncs there were, where something counts them. */
#include <fcntl.h>
#include <pthread.h>
#include <stdio.h>
#include <stdlib.h>
#include <string.h>
#include <time.h>
#include <unistd.h>

static int threads, each;
static const char *place;

long syncs_so_far(void) __attribute__((weak));

static void need(int holds, const char *what) { if (!holds) { fprintf(stderr, "%s\n", what); exit(1); } }

#if defined(WITH_PAIRS) /* no database: so many commits as there are threads behind each pair of syncs, as a journal of groups has them */
static int file;
static void begin(void) { need((file = open(place, O_RDWR | O_CREAT, 0644)) >= 0, "open"); }
static void *joined(int thread) { return NULL; }
static void commit(void *it, int thread, int number) {
    static char group[64 * 64];
    if (thread) return;
    off_t at = (off_t)number * 64 * threads;
    need(pwrite(file, group, 64 * threads, at + 1) == 64 * threads && !fsync(file), "write");
    need(pwrite(file, "\1", 1, at) == 1 && !fsync(file), "gate");
}
#elif defined(WITH_SQLITE)
#include <sqlite3.h>
static int again(void *it, int times) { return usleep(200), 1; } /* asks again soon: its own handler sleeps up to 100 ms */
static sqlite3 *opened(void) {
    sqlite3 *db;
    need(!sqlite3_open(place, &db), "open");
    sqlite3_busy_handler(db, again, 0);
    need(!sqlite3_exec(db, "pragma journal_mode=wal; pragma synchronous=full", 0, 0, 0), "pragma");
    return db;
}
static void begin(void) { need(!sqlite3_exec(opened(), "create table entries(key blob primary key, record blob) without rowid", 0, 0, 0), "create"); }
static void *joined(int thread) {
    sqlite3_stmt *insert;
    need(!sqlite3_prepare_v2(opened(), "insert into entries values(?, ?)", -1, &insert, 0), "prepare");
    return insert;
}
static void commit(void *it, int thread, int number) {
    int key[2] = {thread, number};
    sqlite3_bind_blob(it, 1, key, sizeof key, SQLITE_TRANSIENT);
    sqlite3_bind_blob(it, 2, "\2n", 2, SQLITE_STATIC);
    need(sqlite3_step(it) == SQLITE_DONE, "step");
    sqlite3_reset(it);
}
#elif defined(WITH_LMDB)
#include <lmdb.h>
static MDB_env *environment;
static void begin(void) {
    need(!mdb_env_create(&environment) && !mdb_env_set_mapsize(environment, 1u << 30) && !mdb_env_open(environment, place, MDB_NOSUBDIR, 0644), "open");
}
static void *joined(int thread) { return NULL; }
static void commit(void *it, int thread, int number) {
    int own[2] = {thread, number};
    MDB_txn *txn; MDB_dbi dbi; MDB_val key = {sizeof own, own}, record = {2, "\2n"};
    need(!mdb_txn_begin(environment, 0, 0, &txn) && !mdb_dbi_open(txn, 0, 0, &dbi) && !mdb_put(txn, dbi, &key, &record, 0) && !mdb_txn_commit(txn), "commit");
}
#elif defined(WITH_ROCKSDB)
#include <rocksdb/c.h>
static rocksdb_t *db; static rocksdb_writeoptions_t *durable;
static void begin(void) {
    char *error = NULL; rocksdb_options_t *options = rocksdb_options_create();
    rocksdb_options_set_create_if_missing(options, 1);
    db = rocksdb_open(options, place, &error);
    need(!error, "open");
    durable = rocksdb_writeoptions_create();
    rocksdb_writeoptions_set_sync(durable, 1);
}
static void *joined(int thread) { return NULL; }
static void commit(void *it, int thread, int number) {
    int key[2] = {thread, number}; char *error = NULL;
    rocksdb_put(db, durable, (char *)key, sizeof key, "\2n", 2, &error);
    need(!error, "put");
}
#elif defined(WITH_POSTGRESQL)
#include <libpq-fe.h>
static PGconn *opened(void) {
    char words[400];
    snprintf(words, sizeof words, "host=%s user=bench dbname=postgres", place);
    PGconn *db = PQconnectdb(words);
    need(PQstatus(db) == CONNECTION_OK, PQerrorMessage(db));
    return db;
}
#define TELLS_SYNCS
static long syncs(void) {
    usleep(500000);
    PGconn *db = opened();
    PGresult *told = PQexec(db, "select wal_sync from pg_stat_wal");
    need(PQntuples(told) == 1, "pg_stat_wal");
    long found = atol(PQgetvalue(told, 0, 0));
    PQfinish(db);
    return found;
}
static void begin(void) {
    PGconn *db = opened();
    PQclear(PQexec(db, "drop table if exists entries; create table entries(key bytea primary key, record bytea)"));
    PQfinish(db);
}
static void *joined(int thread) {
    PGconn *db = opened();
    PQclear(PQprepare(db, "put", "insert into entries values($1, '\\x026e')", 1, NULL));
    return db;
}
static void commit(void *it, int thread, int number) {
    int key[2] = {thread, number}, length = sizeof key, binary = 1; const char *value = (char *)key;
    PGresult *done = PQexecPrepared(it, "put", 1, &value, &length, &binary, 0);
    need(PQresultStatus(done) == PGRES_COMMAND_OK, "insert");
    PQclear(done);
}
#endif

#ifdef TELLS_SYNCS
static void ended(void *it) { PQfinish(it); } /* a connection's counts are told when it ends */
#else
static void ended(void *it) {}
static long syncs(void) { return syncs_so_far ? syncs_so_far() : 0; }
#endif

static pthread_barrier_t at_once;

static void *work(void *number) {
    int thread = (int)(long)number;
    void *it = joined(thread);
    pthread_barrier_wait(&at_once);
    for (int made = 0; made < each; made++) commit(it, thread, made);
    ended(it);
    return NULL;
}

static double now(void) { struct timespec it; clock_gettime(CLOCK_MONOTONIC, &it); return it.tv_sec + it.tv_nsec / 1e9; }

int main(int argc, char **argv) {
    need(argc == 4, "usage");
    threads = atoi(argv[1]); each = atoi(argv[2]); place = argv[3];
    begin();
    pthread_t all[threads];
    pthread_barrier_init(&at_once, NULL, threads + 1);
    for (long it = 0; it < threads; it++) need(!pthread_create(&all[it], NULL, work, (void *)it), "thread");
    long before = syncs();
    pthread_barrier_wait(&at_once);
    double began = now();
    for (int it = 0; it < threads; it++) pthread_join(all[it], NULL);
    double took = now() - began;
    printf("%.6f %ld\n", took, syncs() - before);
    fflush(stdout);
    _exit(0);
}
"""

COMMITTERS = {
    "two syncs alone": ("PAIRS", []),
    "SQLite": ("SQLITE", ["-lsqlite3"]),
    "LMDB": ("LMDB", ["-llmdb"]),
    "RocksDB": ("ROCKSDB", ["-lrocksdb"]),
    "PostgreSQL": ("POSTGRESQL", ["-I/usr/include/postgresql", "-lpq"]),
}


# ---- the rows of a document, by one thread

ROWS = r"""
/* ROWS ACT COUNT ENTRIES PLACE: an act over rows of keys and records; prints the processor's seconds for it.
   ENTRIES has each entry by rising keys: two bytes of length and the key, the same for the record. */
#include <stdio.h>
#include <stdlib.h>
#include <string.h>
#include <time.h>
#include <unistd.h>

static void need(int it, const char *what) { if (!it) { fprintf(stderr, "%s\n", what); exit(1); } }

typedef struct { int key_size, size; const char *key, *record; } Entry;
static Entry *entries; static int count;

static void read_entries(const char *name) {
    FILE *file = fopen(name, "rb"); need(file != NULL, "entries");
    fseek(file, 0, SEEK_END); long size = ftell(file); rewind(file);
    unsigned char *at = malloc(size + 4), *end = at + size;
    need(fread(at, 1, size, file) == (size_t)size, "entries");
    entries = malloc(sizeof *entries * (size / 4 + 1));
    while (at < end) {
        Entry *it = &entries[count++];
        it->key_size = at[0] * 256 + at[1]; it->key = (char *)at + 2; at += 2 + it->key_size;
        it->size = at[0] * 256 + at[1]; it->record = (char *)at + 2; at += 2 + it->size;
    }
}

#if defined(WITH_SQLITE)
#include <sqlite3.h>
static sqlite3 *db; static sqlite3_stmt *put_row, *all_rows, *next_row;
static void run(const char *words) { need(sqlite3_exec(db, words, 0, 0, 0) == SQLITE_OK, words); }
static void prepare(const char *words, sqlite3_stmt **it) { need(sqlite3_prepare_v2(db, words, -1, it, 0) == SQLITE_OK, words); }
static void opened(const char *place, int durable) {
    need(sqlite3_open(place, &db) == SQLITE_OK, "open");
    run("pragma page_size = 8192"); run("pragma journal_mode = wal"); run(durable ? "pragma synchronous = full" : "pragma synchronous = off");
    run("create table if not exists entries (key blob primary key, record blob) without rowid");
    prepare("insert or replace into entries values (?, ?)", &put_row);
    prepare("select key, record from entries order by key", &all_rows);
    prepare("select key from entries where key > ? order by key limit 1", &next_row);
}
static void begin(void) { run("begin"); }
static void commit(void) { run("commit"); }
static void put(const Entry *it) {
    sqlite3_bind_blob(put_row, 1, it->key, it->key_size, SQLITE_STATIC); sqlite3_bind_blob(put_row, 2, it->record, it->size, SQLITE_STATIC);
    need(sqlite3_step(put_row) == SQLITE_DONE, "put"); sqlite3_reset(put_row);
}
static long scan(FILE *out) {
    long rows = 0;
    while (sqlite3_step(all_rows) == SQLITE_ROW) { fwrite(sqlite3_column_blob(all_rows, 1), 1, sqlite3_column_bytes(all_rows, 1), out); rows++; }
    return rows;
}
static int next(const Entry *it) {
    sqlite3_bind_blob(next_row, 1, it->key, it->key_size, SQLITE_STATIC);
    int found = sqlite3_step(next_row) == SQLITE_ROW && sqlite3_column_bytes(next_row, 0) > 0;
    sqlite3_reset(next_row); return found;
}
static void closed(void) { sqlite3_finalize(put_row); sqlite3_finalize(all_rows); sqlite3_finalize(next_row); sqlite3_close(db); }
#elif defined(WITH_LMDB)
#include <lmdb.h>
static MDB_env *env; static MDB_txn *txn; static MDB_dbi rows_of; static MDB_cursor *cursor;
static void opened(const char *place, int durable) {
    need(!mdb_env_create(&env) && !mdb_env_set_mapsize(env, 1L << 30) && !mdb_env_open(env, place, MDB_NOSUBDIR | (durable ? 0 : MDB_NOSYNC), 0644), "open");
}
static void begin(void) { need(!mdb_txn_begin(env, NULL, 0, &txn) && !mdb_dbi_open(txn, NULL, 0, &rows_of), "begin"); cursor = NULL; }
static void commit(void) { if (cursor) mdb_cursor_close(cursor); cursor = NULL; need(!mdb_txn_commit(txn), "commit"); }
static void put(const Entry *it) {
    MDB_val key = {it->key_size, (void *)it->key}, record = {it->size, (void *)it->record};
    need(!mdb_put(txn, rows_of, &key, &record, 0), "put");
}
static long scan(FILE *out) {
    long rows = 0; MDB_val key, record; begin(); need(!mdb_cursor_open(txn, rows_of, &cursor), "cursor");
    for (int it = mdb_cursor_get(cursor, &key, &record, MDB_FIRST); !it; it = mdb_cursor_get(cursor, &key, &record, MDB_NEXT)) { fwrite(record.mv_data, 1, record.mv_size, out); rows++; }
    commit(); return rows;
}
static int next(const Entry *it) {
    MDB_val key = {it->key_size, (void *)it->key}, record;
    if (!cursor) need(!mdb_cursor_open(txn, rows_of, &cursor), "cursor");
    return !mdb_cursor_get(cursor, &key, &record, MDB_SET_RANGE) && !mdb_cursor_get(cursor, &key, &record, MDB_NEXT) && key.mv_size > 0;
}
static void closed(void) { mdb_env_close(env); }
#endif

static double now(void) { struct timespec it; clock_gettime(CLOCK_PROCESS_CPUTIME_ID, &it); return it.tv_sec + it.tv_nsec / 1e9; }

int main(int argc, char **argv) {
    need(argc == 5, "usage");
    const char *act = argv[1]; int many = atoi(argv[2]); read_entries(argv[3]);
    double began = now();
    opened(argv[4], strcmp(act, "commits"));
    if (!strcmp(act, "put")) { begin(); for (int it = 0; it < count; it++) put(&entries[it]); commit(); }
    if (!strcmp(act, "get")) { FILE *out = fopen("/dev/null", "wb"); need(scan(out) == count, "rows"); fclose(out); }
    if (!strcmp(act, "commits")) for (int it = 0; it < many; it++) { begin(); for (int row = 0; row < 6; row++) put(&entries[(6 * it + row) % count]); commit(); }
    if (!strcmp(act, "steps")) {
        unsigned long seed = 7; long found = 0; begin(); began = now();
        for (int it = 0; it < many; it++) { seed = seed * 6364136223846793005UL + 1442695040888963407UL; found += next(&entries[(seed >> 33) % (count - 1)]); }
        need(found == many, "steps"); printf("%.6f\n", now() - began); return 0;
    }
    closed();
    printf("%.6f\n", now() - began);
    return 0;
}
"""


def acts_on_rows(folder, entries, acts):
    """For each database that is there its name and, for each act and its number, the processor's seconds, the least of three: `put` of all entries in
    one durable transaction, `get` of all in order, `commits` of six rows each without syncs, and `steps`, each to the next key above one by chance."""
    source, given = os.path.join(folder, "rows.c"), os.path.join(folder, "rows.entries")
    with open(source, "w", encoding="ascii") as file:
        file.write(ROWS)
    with open(given, "wb") as file:
        for part in (part for entry in entries for part in entry):
            file.write(len(part).to_bytes(2, "big") + part)
    found = []
    for name, (word, libraries) in COMMITTERS.items():
        if name not in ("SQLite", "LMDB"):
            continue
        program = os.path.join(folder, "rows-" + word.lower())
        if subprocess.run(["cc", "-O2", "-o", program, source, "-DWITH_" + word, *libraries], stderr=subprocess.DEVNULL).returncode:
            print("left out: %s: its library for C isn't there" % name)
            continue
        place, least = os.path.join(folder, "rows-of-" + word.lower()), {}
        for run in range(3):
            for act, number in acts:
                own = "%s-%s-%d" % (place, "put" if act in ("get", "steps") else act, run)  # these read what was put
                took = float(subprocess.run([program, act, str(number), given, own], check=True, capture_output=True).stdout)
                least[act] = min(took, least.get(act, took))
        found.append((name, least))
    return found


class Counted:
    """Counts the syncs of programs, by a library that is loaded before them."""

    def __init__(self, folder):
        source, self.library, self.file = (os.path.join(folder, name) for name in ("syncs.c", "syncs.so", "syncs"))
        with open(source, "w", encoding="ascii") as file:
            file.write(SYNCS)
        subprocess.run(["cc", "-O2", "-shared", "-fPIC", "-o", self.library, source], check=True)
        with open(self.file, "wb") as file:
            file.write(bytes(8))

    def environment(self):
        with open(self.file, "r+b") as file:
            file.write(bytes(8))
        return {**os.environ, "LD_PRELOAD": self.library, "SYNCS": self.file}

    def count(self):
        with open(self.file, "r+b") as file, mmap.mmap(file.fileno(), 8) as seen:
            return int.from_bytes(seen[:8], "little")


class Committers:
    """The peers that make durable commits: each a program of its own, where its library is there."""

    def __init__(self, folder):
        self.folder, self.built, self.server, self.runs = folder, {}, None, 0
        source = os.path.join(folder, "commits.c")
        with open(source, "w", encoding="ascii") as file:
            file.write(COMMITS)
        for name, (word, libraries) in COMMITTERS.items():
            program = os.path.join(folder, "commits-" + word.lower())
            made = subprocess.run(["cc", "-O2", "-pthread", "-o", program, source, "-DWITH_" + word, *libraries], stderr=subprocess.DEVNULL)
            if made.returncode == 0:
                self.built[name] = program
            else:
                print("left out: %s: its library for C isn't there" % name)
        if "PostgreSQL" in self.built:
            try:
                self.server = Server(os.path.dirname(os.path.abspath(folder)))
            except Missing as missing:
                print("left out: %s" % missing)
                del self.built["PostgreSQL"]

    def __enter__(self):
        return self

    def __exit__(self, *_):
        if self.server:
            self.server.stop()

    def run(self, name, threads, each, counted):
        """The seconds that the threads take for so many commits each, and how many syncs there were."""
        self.runs += 1
        place = self.server.folder if name == "PostgreSQL" else os.path.join(self.folder, "rows-%d" % self.runs)
        words = [self.built[name], str(threads), str(each), place]
        seconds, syncs = subprocess.run(words, check=True, capture_output=True, env=counted.environment()).stdout.split()
        return float(seconds), int(syncs)


class Server:
    """PostgreSQL as it comes, on a socket in a folder of its own."""

    def __init__(self, above):
        programs = shutil.which("initdb") or next(iter(sorted(glob.glob("/usr/lib/postgresql/*/bin/initdb"), reverse=True)), None)
        if not programs:
            raise Missing("PostgreSQL: no initdb")
        self.programs, self.user = os.path.dirname(os.path.realpath(programs)), {}
        self.folder = tempfile.mkdtemp(prefix="bench-postgresql-", dir=above)
        if os.geteuid() == 0:
            try:
                user = pwd.getpwnam("postgres")
            except KeyError:
                raise Missing("PostgreSQL: it doesn't run as root, and there is no user for it") from None
            os.chown(self.folder, user.pw_uid, user.pw_gid)
            self.user = {"user": user.pw_uid, "group": user.pw_gid, "extra_groups": []}
        self.act("initdb", "-D", self.data(), "-A", "trust", "-U", "bench", "--locale=C", "-E", "UTF8")
        options = "-c listen_addresses='' -c unix_socket_directories='%s' -c max_connections=100" % self.folder
        self.act("pg_ctl", "-D", self.data(), "-w", "-s", "-l", os.path.join(self.folder, "log"), "-o", options, "start")

    def data(self):
        return os.path.join(self.folder, "data")

    def act(self, program, *words):
        subprocess.run([os.path.join(self.programs, program), *words], cwd=self.folder, check=True, stdin=subprocess.DEVNULL, stdout=subprocess.DEVNULL, stderr=subprocess.DEVNULL, **self.user)

    def stop(self):
        self.act("pg_ctl", "-D", self.data(), "-w", "-s", "-m", "immediate", "stop")
        shutil.rmtree(self.folder, ignore_errors=True)
