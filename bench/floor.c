// What the disk alone asks of a run: the writes, cuts and syncs of the store's layout, and nothing else.
//   floor FOLDER LINES BUCKETS ARRAY TRIGGER
//   floor FOLDER STORE
// The first is for `seen` over a file of lines. It works out first what is written when, by these settings of the store and a
// hash of its own, and then times the calls alone: of a first run over a new store, and of a second one over the same lines.
// Prints the seconds that each took.
// The second is for a crawl. What was written when it takes from the store that the crawl left, by its events, its manifests
// and its judged offers: an array is flushed where it is full, and at the end of its turn. It then times the calls alone of a run
// that makes such a store, and prints the seconds, and how many writes and syncs they were.
#include <fcntl.h>
#include <stdint.h>
#include <stdio.h>
#include <stdlib.h>
#include <string.h>
#include <sys/stat.h>
#include <time.h>
#include <unistd.h>

enum { MOST_BUCKETS = 64, MOST_ARRAY = 8192, ENTRY = 27, JUDGED = 48, PAIR = 16 };
enum { HEAD = 0, EVENTS = 1, URLS = 100, PAIRS = 300 };
enum { MANIFEST = 0, CACHE = 1, JUDGED_FILE = 3, TEXTS = 4, JOURNAL = 10, AUX = 11, SIDE = 490 }; // behind a bay's first file

// One flush, of one array's texts, one merge, or one append of events.
struct step {
  int base;   // the bay's first file
  int bucket; // MERGE: a merge; EVENT: so many bytes of events, in `texts`
  uint64_t offers, texts, keys;
};

enum { MERGE = -1, EVENT = -2 };

static int buckets, bits; // 2 ^ bits buckets
static uint64_t array, trigger;

static struct step *steps;
static size_t count, room;
static int files[1024];
static uint64_t ends[1024];
static char *zeros;
static uint64_t writes, syncs;

static void die(const char *what) {
  perror(what);
  exit(1);
}

static void refuse(const char *what) {
  fprintf(stderr, "no store of a crawl that ended: %s\n", what);
  exit(1);
}

static void add(struct step step) {
  if (count == room && !(steps = realloc(steps, (room = room ? 2 * room : 1024) * sizeof *steps))) die("memory");
  steps[count++] = step;
}

static void write_at(int f, uint64_t at, uint64_t n) {
  for (uint64_t done = 0; done < n;) {
    ssize_t one = pwrite(files[f], zeros, n - done < (1 << 20) ? n - done : (1 << 20), (off_t)(at + done));
    if (one <= 0) die("write");
    writes++;
    done += (uint64_t)one;
  }
}

static void sync_file(int f) {
  if (fsync(files[f])) die("sync");
  syncs++;
}

static void append(int f, uint64_t n) { // a record of a journal, whose file ends with a closed gate
  write_at(f, ends[f], 4 + n + 1);
  sync_file(f);
  write_at(f, ends[f] - 1, 1);
  sync_file(f);
  ends[f] += 5 + n;
}

static void put(int f, uint64_t n) {
  write_at(f, ends[f], n);
  ends[f] += n;
}

static void open_file(const char *folder, int f, int is_journal) {
  char path[4096];
  snprintf(path, sizeof path, "%s/%04d", folder, f);
  if ((files[f] = open(path, O_RDWR | O_CREAT, 0666)) < 0) die(path);
  if (is_journal) {
    write_at(f, 0, 1);
    ends[f] = 1;
    sync_file(f);
  }
}

static uint64_t hash(const char *line, size_t n) {
  uint64_t h = 14695981039346656037u;
  for (size_t i = 0; i < n; i++) h = (h ^ (unsigned char)line[i]) * 1099511628211u;
  h ^= h >> 29;
  h *= 0xBF58476D1CE4E5B9u;
  return h ^ h >> 32;
}

static uint64_t *set;
static size_t held, slots;

static void enter(uint64_t key) {
  if (2 * held >= slots) {
    size_t old = slots;
    uint64_t *was = set;
    slots = slots ? 2 * slots : 1024;
    if (!(set = calloc(slots, sizeof *set))) die("memory");
    held = 0;
    for (size_t i = 0; i < old; i++)
      if (was[i]) enter(was[i]);
    free(was);
  }
  key |= key == 0;
  size_t i = key % slots;
  while (set[i] && set[i] != key) i = (i + 1) % slots;
  held += !set[i];
  set[i] = key;
}

static uint64_t waiting[MOST_BUCKETS], texts[MOST_BUCKETS], pending[MOST_BUCKETS], pending_texts[MOST_BUCKETS];
static uint64_t kept[MOST_BUCKETS][MOST_ARRAY];

static void merge(void) {
  struct step step = {URLS, MERGE, 0, 0, 0};
  for (int b = 0; b < buckets; b++) {
    step.offers += pending[b];
    step.texts += pending_texts[b];
    pending[b] = pending_texts[b] = 0;
  }
  step.keys = held;
  add(step);
}

static void flush(int b) {
  add((struct step){URLS, b, waiting[b], texts[b], 0});
  for (uint64_t i = 0; i < waiting[b]; i++) enter(kept[b][i]);
  pending[b] += waiting[b];
  pending_texts[b] += texts[b];
  waiting[b] = texts[b] = 0;
}

static void plan(const char *name) {
  FILE *lines = fopen(name, "r");
  if (!lines) die(name);
  char *line = 0;
  size_t size = 0;
  ssize_t n;
  while ((n = getline(&line, &size, lines)) > 0) {
    if (line[n - 1] == '\n') n--;
    if (n == 0) continue;
    uint64_t key = hash(line, (size_t)n);
    int b = bits ? (int)(key >> (64 - bits)) : 0;
    if (waiting[b] == array) {
      flush(b);
      if (pending[b] >= trigger) merge();
    }
    kept[b][waiting[b]++] = key;
    texts[b] += (uint64_t)n;
  }
  for (int b = 0; b < buckets; b++)
    if (waiting[b]) flush(b);
  for (int b = 0; b < buckets; b++)
    if (pending[b]) {
      merge();
      break;
    }
  fclose(lines);
}

static void empty(int f) {
  if (ftruncate(files[f], 0)) die("cut");
  ends[f] = 0;
}

static int live[1024]; // by a bay's first file, the side of the buckets' files that is
static int side[1024]; // and that of the cache

static void empty_side(int base, int side) { // the buckets' files, each journal with its closed gate
  int from = base + SIDE * side;
  for (int b = 0; b < buckets; b++) {
    empty(from + JOURNAL + 2 * b);
    empty(from + AUX + 2 * b);
  }
  for (int b = 0; b < buckets; b++) {
    put(from + JOURNAL + 2 * b, 1);
    sync_file(from + JOURNAL + 2 * b);
  }
}

static void carry_out_flush(struct step step) {
  int from = step.base + SIDE * live[step.base] + 2 * step.bucket;
  put(from + AUX, step.texts);
  sync_file(from + AUX);
  append(from + JOURNAL, ENTRY * step.offers);
}

static void carry_out_merge(struct step step) {
  int base = step.base;
  side[base] = 1 - side[base];
  write_at(base + CACHE + side[base], 0, PAIR * step.keys);
  put(base + JUDGED_FILE, JUDGED * step.offers);
  put(base + TEXTS, step.texts);
  sync_file(base + CACHE + side[base]);
  sync_file(base + JUDGED_FILE);
  sync_file(base + TEXTS);
  empty_side(base, 1 - live[base]);
  append(base + MANIFEST, 33 + 8 * (uint64_t)buckets);
  live[base] = 1 - live[base];
}

static void carry_out(size_t from, size_t to) {
  for (size_t i = from; i < to; i++) {
    struct step step = steps[i];
    if (step.bucket >= 0)
      carry_out_flush(step);
    else if (step.bucket == MERGE)
      carry_out_merge(step);
    else
      append(EVENTS, step.texts);
  }
}

static void make_bay(const char *folder, int base) {
  open_file(folder, base + MANIFEST, 1);
  for (int f = CACHE; f <= TEXTS; f++) open_file(folder, base + f, 0);
  for (int b = 0; b < buckets; b++) {
    open_file(folder, base + JOURNAL + 2 * b, 1);
    open_file(folder, base + AUX + 2 * b, 0);
    open_file(folder, base + JOURNAL + SIDE + 2 * b, 0);
    open_file(folder, base + AUX + SIDE + 2 * b, 0);
  }
}

static void make(const char *folder, int is_crawl) {
  if (mkdir(folder, 0777)) die(folder);
  if (is_crawl) {
    make_bay(folder, PAIRS);
    open_file(folder, EVENTS, 1);
  }
  make_bay(folder, URLS);
  open_file(folder, HEAD, 1);
  append(HEAD, 100);
}

static void sync_all(void) { // what opening a store syncs
  sync_file(HEAD);
  for (int f = MANIFEST; f <= TEXTS; f++) sync_file(URLS + f);
  for (int b = 0; b < buckets; b++) {
    sync_file(URLS + JOURNAL + SIDE * live[URLS] + 2 * b);
    sync_file(URLS + AUX + SIDE * live[URLS] + 2 * b);
  }
}

// A file of a store that was left.
struct bytes {
  unsigned char *at;
  size_t length;
};

static struct bytes read_file(const char *folder, int f) {
  char path[4096];
  snprintf(path, sizeof path, "%s/%04d", folder, f);
  int file = open(path, O_RDONLY);
  struct stat status;
  if (file < 0 || fstat(file, &status)) die(path);
  struct bytes bytes = {malloc((size_t)status.st_size + 1), 0};
  if (!bytes.at) die("memory");
  while (bytes.length < (size_t)status.st_size) {
    ssize_t one = read(file, bytes.at + bytes.length, (size_t)status.st_size - bytes.length);
    if (one <= 0) die(path);
    bytes.length += (size_t)one;
  }
  close(file);
  return bytes;
}

static uint64_t number(const unsigned char *at, int bytes) {
  uint64_t n = 0;
  for (int i = bytes - 1; i >= 0; i--) n = n << 8 | at[i];
  return n;
}

// The payload of a journal's next record from a place, which moves behind it.
static int next_record(struct bytes journal, size_t *place, struct bytes *payload) {
  if (*place + 5 > journal.length || journal.at[*place] != 0xA5) return 0;
  payload->at = journal.at + *place + 5;
  payload->length = number(journal.at + *place + 1, 4);
  *place += 5 + payload->length;
  return *place <= journal.length;
}

// What a bay that was left has been through, as far as it is planned.
struct bay {
  int base;
  struct bytes manifest, judged;
  size_t place;                             // where the manifest goes on
  int is_over;                              // no merge is left; else, of the next one:
  uint64_t keys, offers, cut[MOST_BUCKETS]; // what its record says
  uint64_t before[MOST_BUCKETS];            // the cut of the merge before
  uint64_t first[MOST_BUCKETS];             // where each bucket's offers begin among the judged ones
  uint64_t merged;                          // offers that are judged
  uint64_t lengths[MOST_BUCKETS];           // offers that are flushed
  uint64_t texts;                           // bytes of texts that are flushed and not judged
};

static void next_merge(struct bay *bay) {
  struct bytes payload;
  bay->is_over = !next_record(bay->manifest, &bay->place, &payload);
  if (bay->is_over) return;
  uint64_t first = bay->merged;
  bay->keys = number(payload.at + 1, 8);
  bay->offers = number(payload.at + 9, 8);
  for (int b = 0; b < buckets; b++) {
    bay->before[b] = bay->cut[b];
    bay->cut[b] = number(payload.at + 33 + 8 * b, 8);
    bay->first[b] = first;
    first += bay->cut[b] - bay->before[b];
  }
}

static struct bay open_bay(const char *folder, int base) {
  struct bay bay = {0};
  bay.base = base;
  bay.manifest = read_file(folder, base + MANIFEST);
  bay.judged = read_file(folder, base + JUDGED_FILE);
  next_merge(&bay);
  return bay;
}

static void plan_flush(struct bay *bay, int b, uint64_t offers) {
  struct step step = {bay->base, b, offers, 0, 0};
  for (uint64_t i = 0; i < offers; i++) {
    uint64_t entry = bay->first[b] + bay->lengths[b] + i - bay->before[b];
    if (JUDGED * (entry + 1) > bay->judged.length) refuse("an offer that was not judged");
    step.texts += number(bay->judged.at + JUDGED * entry + 4, 4);
  }
  bay->lengths[b] += offers;
  bay->texts += step.texts;
  add(step);
}

static void plan_flushes(struct bay *bay, const uint64_t *lengths) { // until the buckets have so many
  for (int b = 0; b < buckets; b++)
    while (bay->lengths[b] < lengths[b]) {
      uint64_t left = lengths[b] - bay->lengths[b];
      plan_flush(bay, b, left < array ? left : array);
    }
}

static void plan_merge(struct bay *bay) {
  plan_flushes(bay, bay->cut);
  add((struct step){bay->base, MERGE, bay->offers - bay->merged, bay->texts, bay->keys});
  bay->merged = bay->offers;
  bay->texts = 0;
  next_merge(bay);
}

// Whether the next merge ran before the buckets had so many.
static int is_merged_before(struct bay *bay, const uint64_t *lengths) {
  int is_before = 0;
  for (int b = 0; b < buckets; b++) {
    if (bay->is_over || bay->cut[b] > lengths[b]) return 0;
    is_before |= bay->cut[b] < lengths[b];
  }
  return is_before;
}

static void plan_turn(struct bay *urls, const unsigned char *fronts) {
  uint64_t lengths[MOST_BUCKETS];
  for (int b = 0; b < buckets; b++) lengths[b] = number(fronts + 8 * b, 8);
  while (is_merged_before(urls, lengths)) plan_merge(urls);
  plan_flushes(urls, lengths);
}

static void plan_pairs(struct bay *urls, struct bay *pairs, const unsigned char *numbers) {
  while (!urls->is_over && urls->merged < number(numbers + 8, 8)) plan_merge(urls);
  while (!pairs->is_over && pairs->merged < number(numbers + 16, 8)) plan_merge(pairs);
}

static void plan_crawl(const char *folder) {
  struct bytes head = read_file(folder, HEAD), events = read_file(folder, EVENTS), event;
  if (head.length < 105) refuse("its head");
  buckets = (int)number(head.at + 5 + 28, 8);
  array = number(head.at + 5 + 36, 8);
  if (buckets < 1 || buckets > MOST_BUCKETS || array < 1) refuse("its head");
  struct bay urls = open_bay(folder, URLS), pairs = open_bay(folder, PAIRS);
  uint64_t notes = 0; // bytes of a turn's notes, which are appended together
  for (size_t place = 0; next_record(events, &place, &event);) {
    if (event.at[0] == 4) {
      notes += 5 + event.length;
      continue;
    }
    if (event.at[0] == 5) plan_turn(&urls, event.at + 5);
    if (notes) add((struct step){0, EVENT, 0, notes - 5, 0});
    notes = 0;
    if (event.at[0] == 2) plan_pairs(&urls, &pairs, event.at + 1);
    add((struct step){0, EVENT, 0, event.length, 0});
  }
  if (!urls.is_over || !pairs.is_over) refuse("a merge behind the last event");
}

static double now(void) {
  struct timespec time;
  clock_gettime(CLOCK_MONOTONIC, &time);
  return (double)time.tv_sec + 1e-9 * (double)time.tv_nsec;
}

static int time_crawl(const char *folder, const char *store) {
  plan_crawl(store);
  double from = now();
  make(folder, 1);
  carry_out(0, count);
  printf("%.3f %llu %llu\n", now() - from, (unsigned long long)writes, (unsigned long long)syncs);
  return 0;
}

int main(int argc, char **argv) {
  if (!(zeros = calloc(1, 1 << 20))) die("memory");
  if (argc == 3) return time_crawl(argv[1], argv[2]);
  if (argc != 6) return 2;
  buckets = atoi(argv[3]);
  while (1 << bits < buckets) bits++;
  array = (uint64_t)atoi(argv[4]);
  trigger = (uint64_t)atoi(argv[5]);
  if (buckets != 1 << bits || buckets > MOST_BUCKETS || array < 1 || array > MOST_ARRAY) return 2;
  plan(argv[2]);
  size_t first = count;
  plan(argv[2]);
  double from = now();
  make(argv[1], 0);
  carry_out(0, first);
  double between = now();
  sync_all();
  carry_out(first, count);
  printf("%.3f %.3f\n", between - from, now() - between);
  return 0;
}
