struct R { int64_t n; int64_t a; int64_t b; int64_t t[4]; };
persistent struct R root;
tx int64_t inc(int64_t d) { root.n = root.n + d; return root.n; }
tx int64_t set(int64_t v) { root.n = v; return 0; }
tx int64_t bad(int64_t z) { root.n = 7; return 1 / z; }
tx int64_t add1(int64_t a) { return a + 1; }
tx int64_t both() { root.a = root.a + 1; root.b = root.b + 1; return 0; }
tx int64_t spin() { while (1) { } return 0; }
tx int64_t at(int64_t i) { return root.t[i]; }
tx int64_t no() { abort(); return 0; }
