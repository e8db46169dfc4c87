// A Bloom filter: each key sets four of 4,096 bits, so a key whose bits are not all set was never
// added. The hash is splitmix64.

enum { WORDS = 64, WAYS = 4 };

struct Filter { uint64_t bits[WORDS]; int64_t keys; };

persistent struct Filter root;

uint64_t mixed(uint64_t x) {
    x += 0x9e3779b97f4a7c15;
    x = (x ^ (x >> 30)) * 0xbf58476d1ce4e5b9;
    x = (x ^ (x >> 27)) * 0x94d049bb133111eb;
    return x ^ (x >> 31);
}

uint64_t place(uint64_t key, int64_t way) {
    return mixed(key + way) % (64 * WORDS);
}

tx int64_t add(uint64_t key) {
    for (int64_t way = 0; way < WAYS; way++) {
        uint64_t bit = place(key, way);
        root.bits[bit / 64] |= (uint64_t) 1 << bit % 64;
    }
    root.keys++;
    return root.keys;
}

tx const int64_t may_have(uint64_t key) {
    for (int64_t way = 0; way < WAYS; way++) {
        uint64_t bit = place(key, way);
        if ((root.bits[bit / 64] >> bit % 64 & 1) == 0) { return 0; }
    }
    return 1;
}

tx const uint64_t hash(uint64_t key) {
    return mixed(key);
}
