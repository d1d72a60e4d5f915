#!/bin/sh
# Refuses the program one request for memory: the first that it makes, then the second, and so on, until it makes no more; and then one thread in the same way. Each command
# that has a store is tried so. Each time it writes what is right; or the right lines up to `refused 10: no memory`, and as the reply to `run` also `refused 8: halted` or
# `refused: no thread`; or `no memory`, with status 5. After that the store opens and goes on, and each line that was answered is there.
#
# usage: fail_alloc.sh CNC [N [FOLDER]]
#     N        the steps of a chain (9: then the script has more than 64 lines in a row, which are committed in groups)
#     FOLDER   where a new folder holds the stores, and is removed (the directory for temporary files); a file system in memory is fastest
# It needs a C compiler, `cc`: a small library stands before the C library's `malloc`, `realloc`, `calloc` and `pthread_create`, and counts. Some two minutes.
set -eu
cnc=$(realpath "${1:?the program}")
number=${2:-9}
here=$(realpath "$(dirname "$0")")
room=$(mktemp -d "${3:-${TMPDIR:-/tmp}}/fail_alloc.XXXXXX")
trap 'rm -rf "$room"' EXIT
cd "$room"
. "$here/chains.sh"

cat >counting.c <<'C'
#define _GNU_SOURCE
#include <dlfcn.h>
#include <errno.h>
#include <fcntl.h>
#include <pthread.h>
#include <stdlib.h>
#include <unistd.h>

extern void *__libc_malloc(size_t);
extern void *__libc_realloc(void *, size_t);
extern void *__libc_calloc(size_t, size_t);

/* How many requests there are up to the one that is refused, and that one; 0 or less if none will be. */
static long memory, threads;

__attribute__((constructor)) static void begin(void) {
    char *kind = getenv("REFUSED"), *place = getenv("PLACE");
    if (kind && place) *(*kind == 'm' ? &memory : &threads) = atol(place);
}

/* Whether this is the request that is refused. It leaves a file. */
static int is_refused(long *left) {
    if (__atomic_sub_fetch(left, 1, __ATOMIC_SEQ_CST)) return 0;
    close(open(getenv("MARK"), O_WRONLY | O_CREAT, 0666));
    errno = ENOMEM;
    return 1;
}

void *malloc(size_t size) { return is_refused(&memory) ? 0 : __libc_malloc(size); }

void *realloc(void *old, size_t size) { return is_refused(&memory) ? 0 : __libc_realloc(old, size); }

void *calloc(size_t count, size_t size) { return is_refused(&memory) ? 0 : __libc_calloc(count, size); }

int pthread_create(pthread_t *thread, const pthread_attr_t *how, void *(*run)(void *), void *with) {
    int (*create)(pthread_t *, const pthread_attr_t *, void *(*)(void *), void *) = dlsym(RTLD_NEXT, "pthread_create");
    return is_refused(&threads) ? EAGAIN : create(thread, how, run, with);
}
C
cc -shared -fPIC -O1 -o counting.so counting.c -ldl
mkdir empty done
"$cnc" create graph empty >created
cp -R empty/. done
"$cnc" run done script >out
cmp -s out right
"$cnc" draw graph >drawn
"$cnc" draw --store done >drawn_store

# without KIND PLACE WORD..: the program with these words, to which the request of this kind at this place is refused
without() {
    kind_of=$1
    place=$2
    shift 2
    rm -f mark
    status=0
    REFUSED=$kind_of PLACE=$place MARK=$room/mark LD_PRELOAD=$room/counting.so "$cnc" "$@" >out 2>err || status=$?
}

# A store as it was.
renew() {
    rm -rf store
    mkdir store
    cp "$1"/A "$1"/B store
}

# all_of KIND WHAT TRY: calls TRY with the places 1, 2, .. and a text that says where, until none is refused, and says what came
all_of() {
    : >kinds
    at=1
    while "$3" "$1" "$at" "$2 without $1 $at"; do at=$((at + 1)); done
    if [ "$1:$at" = memory:1 ]; then
        echo "fail_alloc: $2 made no request for memory that could be refused: is it the program that was proved and built?" >&2
        exit 1
    fi
    echo "$2, $((at - 1)) requests ($1):"
    sort kinds | uniq -c
}

# Whether a request was refused. If none was, the command must have come to all that it does; $1 is what it came to, $2 says where.
is_met() {
    if [ -e mark ]; then
        echo "$1" >>kinds
        return 0
    fi
    test "$1" = whole || wrong "$2, which made no such request"
    return 1
}

# A run on so many workers, and that it goes on.
run_on() {
    renew empty
    lines=0
    without "$1" "$2" run store script --workers "$workers"
    case $1 in
    memory) come_to 'refused 10: no memory' 'refused 8: halted' 'refused: no thread' || wrong "$3" ;;
    *) come_to none 'refused: no thread' none || wrong "$3" ;;
    esac
    case $kind in
    whole | 'no memory' | refused*) ;;
    *) wrong "$3" ;;
    esac
    found=$kind
    is_met "$found" "$3" || return 1
    goes_on "$3"
}

# What a command came to that writes the file $1 if nothing is refused; $2 says where.
whole_or_none() {
    if [ "$status" = 0 ]; then
        cmp -s out "$1" && test ! -s err || wrong "$2"
        kind=whole
        return
    fi
    test "$status" = 5 && test "$(cat err)" = 'no memory' || wrong "$2"
    head -c "$(stat -c %s out)" "$1" | cmp -s - out || wrong "$2"
    kind=$(cat err)
}

created() {
    rm -rf store
    without "$1" "$2" create graph store
    whole_or_none created "$3"
    is_met "$kind" "$3" || return 1
    status=0
    "$cnc" report store >again 2>err || status=$?
    if [ "$kind" = whole ] || [ "$status" = 0 ]; then
        test "$(cat again)" = '0 items, 0 tags, 0 of 0 steps done' || wrong "the report after $3"
    else
        test "$status" = 4 || { test "$status" = 5 && test ! -d store; } || wrong "the report after $3"
    fi
}

reported() {
    renew 'done'
    without "$1" "$2" report store
    whole_or_none report "$3"
    cmp -s store/A done/A && cmp -s store/B done/B || wrong "$3 has changed the files"
    is_met "$kind" "$3"
}

turned() {
    renew 'done'
    without "$1" "$2" turn store
    echo 'turned, generation 2' >wanted
    whole_or_none wanted "$3"
    is_met "$kind" "$3" || return 1
    "$cnc" report store | cmp -s - report || wrong "the report after $3"
    "$cnc" turn store >again || wrong "turn again after $3"
}

certified() {
    renew 'done'
    without "$1" "$2" verify store
    echo verified >wanted
    whole_or_none wanted "$3"
    cmp -s store/A done/A && cmp -s store/B done/B || wrong "$3 has changed the files"
    is_met "$kind" "$3"
}

drawn() {
    without "$1" "$2" draw graph
    whole_or_none drawn "$3"
    is_met "$kind" "$3"
}

drawn_store() {
    renew 'done'
    without "$1" "$2" draw --store store
    whole_or_none drawn_store "$3"
    is_met "$kind" "$3"
}

all_of memory create created
all_of memory report reported
all_of memory turn turned
all_of memory verify certified
all_of memory 'draw a graph' drawn
all_of memory 'draw a store' drawn_store
for workers in 1 4; do
    all_of memory "run on $workers" run_on
done
workers=8
all_of threads 'run on 8' run_on
grep -qx 'refused: no thread' kinds
