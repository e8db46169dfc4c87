struct N { int64_t v; };
struct R { int64_t n; int64_t t[4]; struct N *head; };
persistent struct R root;
tx int64_t set(int64_t n) { root.n = n; return n; }
tx int64_t add(int64_t a) { root.n = root.n + a; return root.n; }
tx int64_t both(int64_t a) { return a / root.n; }
tx int64_t at(int64_t i) { root.n = root.n + 1; return root.t[i]; }
tx int64_t first() { return root.head->v; }
tx int64_t fill(int64_t k) { for (int64_t i = 0; i < k; i++) { root.t[i] = root.t[i] + 1; } return 0; }
tx int64_t loop() { while (1) { } }
tx abort int64_t stops() { root.n = 0; abort(); }
tx abort int64_t div(int64_t a) { root.n = 5; return 5 / a; }
