struct R { int64_t n; };
persistent struct R root;
tx int64_t go(int64_t k) { root.n = root.n + sum(k); return root.n; }
int64_t sum(int64_t k) { if (k == 0) { return 0; } return k + sum(k - 1); }
