#!/bin/bash
# What a step takes in `cnc run`, and what programs that keep the same rows in SQLite and in LMDB take, and the bare writes and syncs of a group of steps: all in one
# run, in alternating rounds, on the file system of one folder. It prints the median of the rounds, in microseconds a step, a line each.
#
# usage: peers.sh CNC [FOLDER [STEPS [SIDE [LINKS [ROUNDS]]]]]
#     CNC     the program, as `rt run` built it
#     FOLDER  a folder of the file system that is measured; a new one in it is used, and removed (.)
#     STEPS   the instances of `wide`, and the steps of SQLite, of LMDB and of the bare writes (20000)
#     SIDE    the side of `wavefront`, which has as many cells as its square (140)
#     LINKS   the instances of `chain` (2000)
#     ROUNDS  how often each is measured (5)
#
# It needs cc, awk, SQLite and LMDB with their headers: apt-get install gcc sqlite3 libsqlite3-dev liblmdb-dev
# Beside other work a sync waits for a processor; where that may be done, `chrt -f 50 peers.sh ..` gives it one at once.
#
# Measured of `cnc run`: from the start of the process to its reply `complete`, in a new store, made before. So the start of the process is in it, the opening of the
# store, and the tags, which steps put, up to 4000 each. Not in it: `cnc create`, and the report after the reply. The steps are
#     wide       STEPS instances that read nothing and put one item each
#     wavefront  a square of cells, each of which reads the two before it and puts their greater one
#     chain      LINKS instances, each of which reads what the one before it put
#
# Measured of SQLite: a program in C, below, on its own thread, with statements that were prepared before, in a new database with journal_mode=WAL and
# synchronous=FULL, from the first BEGIN to the last COMMIT, with SQLite's own checkpoints. Eight steps are one transaction, and then 64; a worker of `cnc run` commits up to 256 at once. A step inserts its item; or it inserts its
# item and the mark that it is done. Not in it: the start of the process, the tables, the graph, the tags, the choice of what runs next, the body of the step, and
# the checkpoint when the database is closed. So it does less than `cnc run` does; it says what its writes and syncs take, not what a program with steps takes.
#
# Measured of LMDB: the same, in a new database with its own settings, by which a commit is on the disk when it returns: from the first transaction to the end of the last.
#
# Measured of the bare writes: 330 bytes, fdatasync, one byte in front of them, fdatasync, for each eight steps, and then 2,640 bytes for each 64; and nothing else. Once at the end of a file that grows,
# once over zeros that were written and synced before.
set -eu
cnc=${1:?the program}
folder=${2:-.}
steps=${3:-20000}
side=${4:-140}
links=${5:-2000}
rounds=${6:-5}
block=4000
room=$(mktemp -d "$folder/peers.XXXXXX")
trap 'rm -rf "$room"' EXIT
export LC_ALL=C

# ---- the programs

cat >"$room/peer.c" <<'C'
#define _GNU_SOURCE
#include <fcntl.h>
#include <lmdb.h>
#include <sqlite3.h>
#include <stdio.h>
#include <stdlib.h>
#include <string.h>
#include <time.h>
#include <unistd.h>

enum { EIGHT = 330, MOST = 8 * EIGHT };

static double now(void) {
    struct timespec t;
    clock_gettime(CLOCK_MONOTONIC, &t);
    return t.tv_sec * 1e6 + t.tv_nsec / 1e3;
}

static void need(int holds, const char *what) {
    if (!holds) {
        fprintf(stderr, "peer: %s\n", what);
        exit(1);
    }
}

static sqlite3_stmt *prepared(sqlite3 *db, const char *text) {
    sqlite3_stmt *statement = NULL;
    need(sqlite3_prepare_v2(db, text, -1, &statement, NULL) == SQLITE_OK, text);
    return statement;
}

static void run(sqlite3_stmt *statement) {
    need(sqlite3_step(statement) == SQLITE_DONE, sqlite3_sql(statement));
    sqlite3_reset(statement);
}

static void ask(sqlite3 *db, const char *text, const char *answer) {
    sqlite3_stmt *statement = prepared(db, text);
    int went = sqlite3_step(statement);
    if (answer != NULL) {
        need(went == SQLITE_ROW && strcmp((const char *)sqlite3_column_text(statement, 0), answer) == 0, text);
    }
    sqlite3_finalize(statement);
}

static double database(const char *path, long steps, long together, int marks) {
    sqlite3 *db;
    need(sqlite3_open(path, &db) == SQLITE_OK, "no database");
    ask(db, "PRAGMA journal_mode=WAL", "wal");
    ask(db, "PRAGMA synchronous=FULL", NULL);
    ask(db, "PRAGMA synchronous", "2");
    ask(db, "CREATE TABLE item (collection INTEGER, k INTEGER, value INTEGER, PRIMARY KEY (collection, k)) WITHOUT ROWID", NULL);
    ask(db, "CREATE TABLE done (step INTEGER, k INTEGER, PRIMARY KEY (step, k)) WITHOUT ROWID", NULL);
    sqlite3_stmt *begin = prepared(db, "BEGIN"), *commit = prepared(db, "COMMIT");
    sqlite3_stmt *item = prepared(db, "INSERT INTO item VALUES (0, ?1, ?1)");
    sqlite3_stmt *done = prepared(db, "INSERT INTO done VALUES (0, ?1)");
    double start = now();
    for (long step = 0; step < steps; step++) {
        if (step % together == 0) run(begin);
        sqlite3_bind_int64(item, 1, step);
        run(item);
        if (marks) {
            sqlite3_bind_int64(done, 1, step);
            run(done);
        }
        if (step % together == together - 1 || step == steps - 1) run(commit);
    }
    double took = now() - start;
    char count[32];
    snprintf(count, sizeof count, "%ld", steps);
    ask(db, "SELECT CAST(count(*) AS TEXT) FROM item", count);
    sqlite3_finalize(begin);
    sqlite3_finalize(commit);
    sqlite3_finalize(item);
    sqlite3_finalize(done);
    need(sqlite3_close(db) == SQLITE_OK, "not closed");
    return took;
}

static void keep(MDB_txn *within, MDB_dbi table, size_t key, long long value) {
    MDB_val k = {sizeof key, &key}, v = {sizeof value, &value};
    need(mdb_put(within, table, &k, &v, 0) == 0, "a put");
}

static double map(const char *path, long steps, long together, int marks) {
    MDB_env *env;
    MDB_txn *within;
    MDB_dbi item, done;
    MDB_stat found;
    need(mdb_env_create(&env) == 0 && mdb_env_set_mapsize(env, (size_t)1 << 32) == 0 && mdb_env_set_maxdbs(env, 2) == 0, "no map");
    need(mdb_env_open(env, path, MDB_NOSUBDIR, 0666) == 0, "no map is open");
    need(mdb_txn_begin(env, NULL, 0, &within) == 0, "no transaction");
    need(mdb_dbi_open(within, "item", MDB_CREATE | MDB_INTEGERKEY, &item) == 0, "no items");
    need(mdb_dbi_open(within, "done", MDB_CREATE | MDB_INTEGERKEY, &done) == 0, "no marks");
    need(mdb_txn_commit(within) == 0, "no tables");
    double start = now();
    for (long step = 0; step < steps; step++) {
        if (step % together == 0) need(mdb_txn_begin(env, NULL, 0, &within) == 0, "no transaction");
        keep(within, item, step, step);
        if (marks) keep(within, done, step, 0);
        if (step % together == together - 1 || step == steps - 1) need(mdb_txn_commit(within) == 0, "no commit");
    }
    double took = now() - start;
    need(mdb_txn_begin(env, NULL, MDB_RDONLY, &within) == 0 && mdb_stat(within, item, &found) == 0, "nothing there");
    need((long)found.ms_entries == steps, "not all there");
    mdb_txn_abort(within);
    mdb_env_close(env);
    return took;
}

static double bare(const char *path, long steps, long together, int over) {
    int file = open(path, O_RDWR | O_CREAT | O_TRUNC, 0666);
    char bytes[MOST] = {0}, gate = 1;
    const ssize_t record = together * EIGHT / 8;
    need(file >= 0 && write(file, bytes, 1) == 1, "no file");
    for (long step = 0; over && step < steps; step += together) {
        need(write(file, bytes, record) == record, "no zeros");
    }
    need(fdatasync(file) == 0, "no sync");
    off_t end = 0;
    double start = now();
    for (long step = 0; step < steps; step += together) {
        need(pwrite(file, bytes, record, end + 1) == record && fdatasync(file) == 0, "a record");
        need(pwrite(file, &gate, 1, end) == 1 && fdatasync(file) == 0, "a gate");
        end += record;
    }
    double took = now() - start;
    close(file);
    return took;
}

int main(int count, char **words) {
    need(count == 5, "usage: peer one|two|put|puts|grown|over PATH STEPS TOGETHER");
    const char *kind = words[1], *path = words[2];
    long steps = atol(words[3]), together = atol(words[4]);
    need(together == 8 || together == 64, "8 or 64 together");
    double took;
    if (strcmp(kind, "one") == 0 || strcmp(kind, "two") == 0) {
        took = database(path, steps, together, strcmp(kind, "two") == 0);
    } else if (strcmp(kind, "put") == 0 || strcmp(kind, "puts") == 0) {
        took = map(path, steps, together, strcmp(kind, "puts") == 0);
    } else {
        took = bare(path, steps, together, strcmp(kind, "over") == 0);
    }
    printf("%.3f\n", took / steps);
    return 0;
}
C
cc -O2 -o "$room/peer" "$room/peer.c" -lsqlite3 -llmdb

# ---- the graphs and their scripts

cat >"$room/wide.graph" <<GRAPH
[out: k];
<from: b>;
<t: k>;
<from> :: (feed);
<t> :: (one);
(feed) -> <t>;
(one) -> [out];
env -> <from>;
[out] -> env;
step feed(b) {
  var k, last;
  read { }
  write {
    last = b + $block;
    if (last > $steps) { last = $steps; }
    for k in b .. last { put <t: k>; }
  }
}
step one(k) { read { } write { put [out: k] = k; } }
GRAPH
cat >"$room/chain.graph" <<GRAPH
[out: k];
<from: b>;
<t: k>;
<from> :: (feed);
<t> :: (next);
(feed) -> <t>;
[out] -> (next);
(next) -> [out];
env -> <from>;
env -> [out];
[out] -> env;
step feed(b) {
  var k, last;
  read { }
  write {
    last = b + $block;
    if (last > $links) { last = $links; }
    for k in b .. last { put <t: k + 1>; }
  }
}
step next(k) {
  var before;
  read { get before = [out: k - 1]; }
  write { put [out: k] = before + 1; }
}
GRAPH
cat >"$room/wavefront.graph" <<GRAPH
[c: i, j];
<t: i, j>;
<row: i>;
<edge: e>;
<t> :: (cell);
<row> :: (feed);
<edge> :: (edges);
[c] -> (cell);
(cell) -> [c];
(edges) -> [c];
(feed) -> <t>;
env -> <row>;
env -> <edge>;
[c] -> env;
step edges(e) {
  var k;
  read { }
  write {
    for k in 1 .. $((side + 1)) { put [c: 0, k] = k; put [c: k, 0] = k; }
  }
}
step feed(i) {
  var j;
  read { }
  write { for j in 1 .. $((side + 1)) { put <t: i, j>; } }
}
step cell(i, j) {
  var up, left;
  read { get up = [c: i - 1, j]; get left = [c: i, j - 1]; }
  write { if (up < left) { put [c: i, j] = left; } else { put [c: i, j] = up; } }
}
GRAPH

# The last line of a report in which nothing is left to do: so many items, and so many tags with their steps.
ended() {
    echo "$1 items, $2 tags, $2 of $2 steps done"
}

seq 0 "$block" $((steps - 1)) | sed 's/.*/tag <from: &>/' >"$room/wide.script"
ended "$steps" $((steps + (steps + block - 1) / block)) >"$room/wide.end"
{
    echo 'put [out: 0] = 0'
    seq 0 "$block" $((links - 1)) | sed 's/.*/tag <from: &>/'
} >"$room/chain.script"
ended $((links + 1)) $((links + (links + block - 1) / block)) >"$room/chain.end"
{
    echo 'tag <edge: 0>'
    seq 1 "$side" | sed 's/.*/tag <row: &>/'
} >"$room/wavefront.script"
ended $((side * side + 2 * side)) $((side * side + side + 1)) >"$room/wavefront.end"
for work in wide chain wavefront; do
    echo run >>"$room/$work.script"
done

# ---- the rounds

# The microseconds from the start of `cnc run` to its reply `complete`, for each of so many steps.
of_cnc() {
    local work=$1 count=$2 workers=$3 line took=
    mkdir "$room/store"
    "$cnc" create "$room/$work.graph" "$room/store" >/dev/null
    local begun=$EPOCHREALTIME
    exec 3< <(exec "$cnc" run "$room/store" "$room/$work.script" --workers "$workers")
    while read -r line <&3; do
        if [ "$line" = complete ]; then
            took=$((${EPOCHREALTIME/./} - ${begun/./}))
            break
        fi
    done
    if [ -z "$took" ] || [ "$(tail -n 1 <&3)" != "$(cat "$room/$work.end")" ]; then
        echo "peers: no right answer from $work" >&2
        exit 1
    fi
    exec 3<&-
    rm -r "$room/store"
    awk -v took="$took" -v count="$count" 'BEGIN { printf "%.3f\n", took / count }'
}

# The microseconds of each step by the program in C, with so many in a transaction.
of_peer() {
    "$room/peer" "$1" "$room/database" "$steps" "$2"
    rm -f "$room/database" "$room/database-wal" "$room/database-shm" "$room/database-lock"
}

# Measures one thing, and keeps what came under its name.
measure() {
    local name=$1
    shift
    "$@" >>"$room/$name.times"
}

for ((round = 0; round < rounds; round++)); do
    for workers in 1 4; do
        measure "cnc run, wide, $workers workers" of_cnc wide "$steps" "$workers"
        measure "cnc run, wavefront, $workers workers" of_cnc wavefront $((side * side)) "$workers"
        measure "cnc run, chain, $workers workers" of_cnc chain "$links" "$workers"
    done
    for together in 8 64; do
        measure "SQLite, one insert a step, $together together" of_peer one "$together"
        measure "SQLite, two inserts a step, $together together" of_peer two "$together"
        measure "LMDB, one put a step, $together together" of_peer put "$together"
        measure "LMDB, two puts a step, $together together" of_peer puts "$together"
        measure "bare writes and syncs, a file that grows, $together together" of_peer grown "$together"
        measure "bare writes and syncs, over zeros, $together together" of_peer over "$together"
    done
done

# ---- the medians

middle() {
    sort -n "$1" | awk '{ v[NR] = $1 } END { printf "%.1f (%.1f to %.1f)", v[int((NR + 1) / 2)], v[1], v[NR] }'
}

echo "microseconds a step: the median of $rounds rounds, the least and the most"
for workers in 1 4; do
    for work in wide wavefront chain; do
        name="cnc run, $work, $workers workers"
        echo "$name: $(middle "$room/$name.times")"
    done
done
for together in 8 64; do
    for name in "SQLite, one insert a step" "SQLite, two inserts a step" "LMDB, one put a step" "LMDB, two puts a step" "bare writes and syncs, a file that grows" "bare writes and syncs, over zeros"; do
        echo "$name, $together together: $(middle "$room/$name, $together together.times")"
    done
done
