// A cache of eight entries: the one that wasn't used for longest makes room.
#include <stdint.h>

struct Entry {
    int64_t key;
    int64_t value;
    struct Entry *newer;
    struct Entry *older;
};

struct Cache {
    struct Entry *newest;
    struct Entry *oldest;
    int64_t used;
    int64_t hits;
    int64_t misses;
};

persistent struct Cache root;

int64_t room() { return 8; }

struct Entry *find(int64_t key) {
    for (struct Entry *at = root.newest; at != NULL; at = at->older) {
        if (at->key == key) {
            return at;
        }
    }
    return NULL;
}

void take_out(struct Entry *entry) {
    if (entry->newer == NULL) {
        root.newest = entry->older;
    } else {
        entry->newer->older = entry->older;
    }
    if (entry->older == NULL) {
        root.oldest = entry->newer;
    } else {
        entry->older->newer = entry->newer;
    }
}

void put_first(struct Entry *entry) {
    entry->newer = NULL;
    entry->older = root.newest;
    if (root.newest == NULL) {
        root.oldest = entry;
    } else {
        root.newest->newer = entry;
    }
    root.newest = entry;
}

void use(struct Entry *entry) {
    if (root.newest != entry) {
        take_out(entry);
        put_first(entry);
    }
}

// Gives the value, or -1 where the key isn't there.
tx int64_t get(int64_t key) {
    struct Entry *entry = find(key);
    if (entry == NULL) {
        root.misses++;
        return -1;
    }
    root.hits++;
    use(entry);
    return entry->value;
}

// Gives the key that had to make room, or -1.
tx int64_t put(int64_t key, int64_t value) {
    struct Entry *entry = find(key);
    int64_t gone = -1;
    if (entry != NULL) {
        entry->value = value;
        use(entry);
        return gone;
    }
    if (root.used == room()) {
        entry = root.oldest;
        gone = entry->key;
        take_out(entry);
    } else {
        entry = pm_new(struct Entry);
        if (entry == NULL) {
            return -2;
        }
        root.used += 1;
    }
    entry->key = key;
    entry->value = value;
    put_first(entry);
    return gone;
}

tx int64_t forget(int64_t key) {
    struct Entry *entry = find(key);
    if (entry == NULL) {
        return 0;
    }
    take_out(entry);
    pm_free(entry);
    root.used -= 1;
    return 1;
}

// Gives 1 where both directions have the same entries, as many as are counted.
tx int64_t check() {
    int64_t down = 0;
    struct Entry *last = NULL;
    for (struct Entry *at = root.newest; at != NULL; at = at->older) {
        if (at->newer != last) {
            return 0;
        }
        last = at;
        down++;
    }
    return last == root.oldest && down == root.used && down <= room();
}

// The key that was used last; there must be one.
tx int64_t newest_key() { return root.newest->key; }
