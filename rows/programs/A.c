struct R { int64_t n; };
persistent struct R root;
tx int64_t inc(int64_t d) { root.n = root.n + d; return root.n; }
