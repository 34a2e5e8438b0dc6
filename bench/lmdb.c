// For comparison: the keys of lines into LMDB, a B+ tree over a file, as a seen set of its own would do it.
//   lmdb FOLDER LINES
// Each line's hash of eight bytes is stored where it isn't there yet, in transactions of 16,384 lines, each of which is synced
// when it commits; the texts are not stored. Prints the seconds that a first run took, and a second one over the same lines.
#include <lmdb.h>
#include <stdint.h>
#include <stdio.h>
#include <stdlib.h>
#include <sys/stat.h>
#include <time.h>

enum { BATCH = 16384 };

static void check(int answer) {
  if (answer == MDB_SUCCESS) return;
  fprintf(stderr, "%s\n", mdb_strerror(answer));
  exit(1);
}

static uint64_t hash(const char *line, size_t n) {
  uint64_t h = 14695981039346656037u;
  for (size_t i = 0; i < n; i++) h = (h ^ (unsigned char)line[i]) * 1099511628211u;
  h ^= h >> 29;
  h *= 0xBF58476D1CE4E5B9u;
  return h ^ h >> 32;
}

static void run(MDB_env *env, const char *name) {
  FILE *lines = fopen(name, "r");
  if (!lines) {
    perror(name);
    exit(1);
  }
  MDB_txn *txn = 0;
  MDB_dbi dbi = 0;
  char *line = 0;
  size_t size = 0;
  ssize_t n;
  for (size_t count = 0; (n = getline(&line, &size, lines)) > 0; count++) {
    if (count % BATCH == 0) {
      if (txn) check(mdb_txn_commit(txn));
      check(mdb_txn_begin(env, 0, 0, &txn));
      check(mdb_dbi_open(txn, 0, MDB_INTEGERKEY, &dbi));
    }
    uint64_t key = hash(line, (size_t)n);
    MDB_val k = {sizeof key, &key}, v = {0, 0};
    int answer = mdb_put(txn, dbi, &k, &v, MDB_NOOVERWRITE);
    if (answer != MDB_KEYEXIST) check(answer);
  }
  if (txn) check(mdb_txn_commit(txn));
  free(line);
  fclose(lines);
}

static double now(void) {
  struct timespec time;
  clock_gettime(CLOCK_MONOTONIC, &time);
  return (double)time.tv_sec + 1e-9 * (double)time.tv_nsec;
}

int main(int argc, char **argv) {
  if (argc != 3) return 2;
  if (mkdir(argv[1], 0777)) {
    perror(argv[1]);
    return 1;
  }
  MDB_env *env;
  check(mdb_env_create(&env));
  check(mdb_env_set_mapsize(env, (size_t)8 << 30));
  double from = now();
  check(mdb_env_open(env, argv[1], 0, 0666));
  run(env, argv[2]);
  double between = now();
  run(env, argv[2]);
  printf("%.3f %.3f\n", between - from, now() - between);
  mdb_env_close(env);
  return 0;
}
