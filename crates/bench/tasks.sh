#!/bin/bash
# What an empty step takes on a store in memory, and what an empty task takes in a task group of oneTBB, which keeps nothing: in one run, in alternating rounds.
#
# usage: tasks.sh BENCH [TASKS [ROUNDS]]
#     BENCH   the program `bench`, as `rt run` built it
#     TASKS   the steps, and the tasks (1000000)
#     ROUNDS  how often each is measured (3)
#
# It needs a C++ compiler and oneTBB with its headers: apt-get install g++ libtbb-dev
#
# Measured of the steps: `bench pool`, which says itself what it measures. Measured of oneTBB: tasks that do nothing but count themselves, 4,000 of them spawned by a task
# each, from the first to the end of all; on 1, 2 and 4 threads, the least of ROUNDS.
set -eu
bench=$(realpath "${1:?the program bench}")
tasks=${2:-1000000}
rounds=${3:-3}
room=$(mktemp -d)
trap 'rm -rf "$room"' EXIT
export LC_ALL=C

cat >"$room/tasks.cpp" <<'CPP'
#include <atomic>
#include <chrono>
#include <cstdio>
#include <cstdlib>
#include <tbb/global_control.h>
#include <tbb/task_group.h>

struct alignas(64) Count {
    long tasks = 0;
};

static thread_local Count mine;
static std::atomic<long> all{0};

int main(int count, char **words) {
    if (count != 3) return 2;
    const long tasks = std::atol(words[1]), block = 4000;
    tbb::global_control threads(tbb::global_control::max_allowed_parallelism, std::atol(words[2]));
    tbb::task_group group;
    auto start = std::chrono::steady_clock::now();
    for (long first = 0; first < tasks; first += block) {
        group.run([&group, first, tasks] {
            for (long task = first; task < first + block && task < tasks; task++) {
                group.run([] {
                    if (++mine.tasks == 1000) {
                        all += 1000;
                        mine.tasks = 0;
                    }
                });
            }
        });
    }
    group.wait();
    std::chrono::duration<double, std::micro> took = std::chrono::steady_clock::now() - start;
    if (all > tasks) return 1;
    std::printf("%.3f\n", took.count() / tasks);
    return 0;
}
CPP
c++ -O2 -std=c++17 -o "$room/tasks" "$room/tasks.cpp" -ltbb

for ((round = 0; round < rounds; round++)); do
    (cd "$room" && "$bench" pool "$tasks")
    for threads in 1 2 4; do
        "$room/tasks" "$tasks" "$threads" >>"$room/$threads.times"
    done
done
echo "microseconds a task of oneTBB, the least of $rounds"
for threads in 1 2 4; do
    echo "$threads threads: $(sort -n "$room/$threads.times" | head -n 1)"
done
