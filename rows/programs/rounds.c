struct R { int64_t n; };
persistent struct R root;
tx abort int64_t once(int64_t k) { do { root.n += 1; k--; } while (k > 0); return root.n; }
tx int64_t odd(int64_t k) {
  int64_t i = 0;
  int64_t s = 0;
  do {
    i++;
    if (i % 2 == 0) { continue; }
    if (i > 9) { break; }
    s += i;
  } while (i < k);
  return s;
}
tx abort int64_t ever() {
  do ; while (1);
  return 0;
}
