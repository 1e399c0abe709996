/* What main.c asks of a store: this one, SQLite, LMDB or RocksDB. A store keeps a number under each key. Each call that
 * puts returns once what it put is on the disk. A fault ends the program. */
#ifndef PEERS_H
#define PEERS_H

#include <stdint.h>

enum { KEYS = 65536, TOGETHER = 16, THREADS = 16 };

#ifdef __cplusplus
extern "C" {
#endif

/* Makes a store at a path where nothing is, or opens one that a killed program left, until a key can be read. */
void store_make(const char *path);
void store_open(const char *path, uint32_t key, uint64_t value);

/* Puts one number, or sixteen neighbours together. */
void store_put(uint32_t key, uint64_t value);
void store_put_together(uint32_t first, uint64_t value);

/* Makes the store ready for sixteen threads, and puts one number for one of them. */
void store_share(const char *path);
void store_put_of(unsigned thread, uint32_t key, uint64_t value);

#ifdef __cplusplus
}
#endif
#endif
