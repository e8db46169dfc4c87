struct R { int64_t n; int64_t m; };
persistent struct R root;
tx int64_t add(int64_t d) { root.n = root.n + d; return root.n; }
tx abort int64_t move(int64_t d) {
  root.n = root.n - d;
  root.m = d;
  if (root.n < 0) { abort(); }
  return root.n;
}
