struct R { int64_t n; int64_t t[4]; };
persistent struct R root;
tx int64_t all(int64_t a, int64_t b) {
  int64_t x = a;
  x *= b; x /= 3; x %= 1000; x &= 255; x |= 512; x ^= 5; x <<= 2; x >>= 1;
  root.n += x;
  root.t[x & 3] ^= b;
  return x;
}
tx abort int64_t by(int64_t a) { root.n /= a; return root.n; }
tx abort int64_t at(int64_t i, int64_t a) { root.t[i] %= a; return root.t[i]; }
