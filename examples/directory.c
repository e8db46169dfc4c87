// A hash map whose directory grows with it, by linear hashing: a new key may split one bucket, so
// no call moves all entries. The directory stands in the root.

enum { FEWEST = 16, MOST = 32768 };

struct Entry { int64_t key, value; struct Entry *next; };

// FEWEST << level buckets, of which the first `split` are split already into two.
struct Directory { int64_t size, level, split; struct Entry *bucket[MOST]; };

persistent struct Directory root;

uint64_t mixed(uint64_t key) {
    key = (key ^ (key >> 30)) * 0xbf58476d1ce4e5b9;
    key = (key ^ (key >> 27)) * 0x94d049bb133111eb;
    return key ^ (key >> 31);
}

int64_t buckets() { return (FEWEST << root.level) + root.split; }

int64_t bucket_of(int64_t key) {
    uint64_t hash = mixed(key);
    int64_t least = hash % (FEWEST << root.level);
    if (least < root.split) { return hash % (FEWEST << (root.level + 1)); }
    return least;
}

struct Entry *found(int64_t key) {
    struct Entry *entry = root.bucket[bucket_of(key)];
    while (entry != NULL && entry->key != key) { entry = entry->next; }
    return entry;
}

// Splits the next bucket: its entries stay, or go to the one that is new.
void grow() {
    if (buckets() == MOST) { return; }
    int64_t low = root.split, high = buckets();
    struct Entry *entry = root.bucket[low];
    root.bucket[low] = NULL;
    root.split++;
    if (root.split == FEWEST << root.level) {
        root.level++;
        root.split = 0;
    }
    while (entry != NULL) {
        struct Entry *next = entry->next;
        int64_t to = bucket_of(entry->key) == low ? low : high;
        entry->next = root.bucket[to];
        root.bucket[to] = entry;
        entry = next;
    }
}

// Gives 1 for a new key and 0 for one that has another value now.
int64_t enter(int64_t key, int64_t value) {
    struct Entry *entry = found(key);
    if (entry != NULL) {
        entry->value = value;
        return 0;
    }
    entry = pm_new(struct Entry);
    if (entry == NULL) { abort(); }
    int64_t b = bucket_of(key);
    entry->key = key;
    entry->value = value;
    entry->next = root.bucket[b];
    root.bucket[b] = entry;
    root.size++;
    if (root.size > buckets()) { grow(); }
    return 1;
}

tx abort int64_t put(int64_t key, int64_t value) { return enter(key, value); }

// Puts n keys from the first on, each with its double as its value, and gives the map's size.
tx abort int64_t fill(int64_t first, int64_t n) {
    for (int64_t i = 0; i < n; i++) { enter(first + i, 2 * (first + i)); }
    return root.size;
}

// The value of a key, or -1.
tx const int64_t get(int64_t key) {
    struct Entry *entry = found(key);
    if (entry == NULL) { return -1; }
    return entry->value;
}

// Gives 1 if the key was there, else 0.
tx abort int64_t del(int64_t key) {
    int64_t b = bucket_of(key);
    struct Entry *before = NULL, *entry = root.bucket[b];
    while (entry != NULL && entry->key != key) {
        before = entry;
        entry = entry->next;
    }
    if (entry == NULL) { return 0; }
    if (before == NULL) {
        root.bucket[b] = entry->next;
    } else {
        before->next = entry->next;
    }
    pm_free(entry);
    root.size--;
    return 1;
}

// Gives 1 where each entry stands in its key's bucket and the size is theirs, else 0.
tx const int64_t check() {
    int64_t n = 0;
    for (int64_t b = 0; b < buckets(); b++) {
        for (struct Entry *entry = root.bucket[b]; entry != NULL; entry = entry->next) {
            if (bucket_of(entry->key) != b) { return 0; }
            n++;
        }
    }
    return n == root.size;
}
