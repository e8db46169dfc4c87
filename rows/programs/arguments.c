struct R { int64_t n; };
persistent struct R root;
tx int64_t both() { return 0; }
tx int64_t put(int64_t a, int64_t b, int64_t c) { return b * 10 * a + c - 22; }
tx int64_t f(int64_t a) { return a; }
tx int64_t two(int64_t a, int64_t b) { return a * 10 + b; }
tx int64_t _a1_B() { return 3; }
tx int64_t inc2(int64_t a) { return a + 1; }
