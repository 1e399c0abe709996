// The same as bench.c, with RocksDB: each write is synced. usage: rocksdb THREADS COMMANDS FOLDER
#include <rocksdb/db.h>
#include <rocksdb/options.h>

#include <chrono>
#include <cstdio>
#include <cstdlib>
#include <thread>
#include <unistd.h>
#include <vector>

static void work(rocksdb::DB *base, unsigned long thread, unsigned long commands) {
    rocksdb::WriteOptions synced;
    synced.sync = true;
    for (unsigned long at = 0; at < commands; at++) {
        unsigned long cell = at * 1024 + thread;
        rocksdb::Slice bytes(reinterpret_cast<char *>(&cell), sizeof cell);
        if (!base->Put(synced, bytes, bytes).ok()) std::abort();
    }
}

int main(int count, char **words) {
    if (count != 4) return 2;
    unsigned long members = std::strtoul(words[1], nullptr, 10), commands = std::strtoul(words[2], nullptr, 10) / members;
    rocksdb::Options options;
    options.create_if_missing = true;
    options.max_background_jobs = 1;
    rocksdb::DB *base = nullptr;
    if (!rocksdb::DB::Open(options, words[3], &base).ok()) return 1;
    std::vector<std::thread> threads;
    auto start = std::chrono::steady_clock::now();
    for (unsigned long at = 0; at < members; at++) threads.emplace_back(work, base, at, commands);
    for (auto &thread : threads) thread.join();
    double all = std::chrono::duration<double, std::nano>(std::chrono::steady_clock::now() - start).count();
    std::printf("%lu %.0f\n", members, all / static_cast<double>(members * commands));
    std::fflush(stdout);
    _exit(0);
}
