struct R { int64_t n; };
persistent struct R root;
tx int64_t set(int64_t v) { root.n = v; return root.n; }
