struct R { int64_t n; };
persistent struct R root;
tx int64_t go(int64_t k) { return down(k); }
int64_t down(int64_t k) { if (k == 0) { return 7; } return ~~~~~~~~~~~~~~~~~~~~~~~~~~~~~~~~~~~~~~~~~~~~~~~~~~~~~~~~~~~~ down(k - 1); }
