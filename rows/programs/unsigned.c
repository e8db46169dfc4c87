struct Node { uint64_t key; int64_t val; uint64_t t[2]; };
struct R { uint64_t u; int64_t n; struct Node *p; };
persistent struct R root;
tx uint64_t set(uint64_t a) { root.u = a; root.n = a; return root.u; }
tx int64_t sget() { return root.u; }
tx uint64_t div(uint64_t a, int64_t b) { return a / b; }
tx int64_t rem(int64_t a, uint64_t b) { return a % b; }
tx int64_t sdiv(uint64_t a, int64_t b) { return (int64_t) a / b; }
tx uint64_t shr(uint64_t a, int64_t s) { return a >> s; }
tx uint64_t sar(uint64_t a, uint64_t s) { return (int64_t) a >> s; }
tx int64_t less(uint64_t a, int64_t b) { return (a < b) + 10 * (a >= b) + 100 * ((int64_t) a < b); }
tx uint64_t neg(int64_t a) { return -a; }
tx uint64_t top() { return 0xFFFFFFFFFFFFFFFF / 2 + 0x8000000000000000; }
tx int64_t half(int64_t a) { a /= (uint64_t) 2; return a; }
tx int64_t half2(int64_t a) { a >>= (uint64_t) 1; return a; }
tx int64_t cond(int64_t c) { return (c ? -1 : (uint64_t) 1) / 2; }
tx uint64_t node(uint64_t k) {
  struct Node *p = pm_new(struct Node);
  if (p == NULL) { return 0; }
  p->key = k;
  p->val = k;
  p->t[1] = ~k;
  root.p = p;
  return p->t[1];
}
