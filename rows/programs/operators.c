struct N { int64_t v; };
struct W { int64_t a[15]; };
struct R { int64_t n; struct W *w; };
persistent struct R root;
tx int64_t div(int64_t a, int64_t b) { return a / b; }
tx int64_t rem(int64_t a, int64_t b) { return a % b; }
tx int64_t shl(int64_t a, int64_t b) { return a << b; }
tx int64_t shr(int64_t a, int64_t b) { return a >> b; }
tx int64_t mul(int64_t a, int64_t b) { return a * b; }
tx int64_t neg(int64_t a) { return -a; }
tx int64_t inv(int64_t a) { return ~a * 10 + !a; }
tx int64_t cmp(int64_t a, int64_t b) { return (a < b) * 100000 + (a <= b) * 10000 + (a > b) * 1000 + (a >= b) * 100 + (a == b) * 10 + (a != b); }
tx int64_t bits(int64_t a, int64_t b) { return (a & b) * 10000 + (a | b) * 100 + (a ^ b); }
tx int64_t truth(int64_t a, int64_t b) { return (a && b) * 10 + (a || b); }
tx int64_t hide(int64_t x) { int64_t y = x; { int64_t x = y + 1; { int64_t x = 7; y = y * 10 + x; } y = y * 10 + x; } return y * 10 + x; }
tx int64_t own(int64_t x) { { int64_t x = x + 1; root.n = x; } return root.n * 10 + x; }
tx int64_t zero() { int64_t s = 0; for (int64_t i = 0; i < 3; i++) { int64_t k; k += 1; s += k; } return s; }
tx int64_t bare(int64_t n) { int64_t x = 0; for (; x < n; x++) int64_t x = 9; return x; }
tx int64_t branch(int64_t a) { int64_t x = 1; if (a) int64_t x = 2; else int64_t x = 3; return x; }
tx int64_t skip(int64_t n) { int64_t s = 0; for (int64_t i = 0; i < n; i += 1) { if (i == 2) { int64_t u = 1; continue; } if (i == 5) { int64_t u = 2; break; } s = s * 10 + i; } return s; }
tx int64_t wait(int64_t n) { int64_t s = 0; while (n) { n--; if (n == 3) continue; if (n == 1) break; s = s * 10 + n; } return s; }
tx int64_t nest() { int64_t s = 0; for (int64_t i = 0; i < 3; i++) for (int64_t j = 0; ; j++) { if (j > i) break; if (j == 1) continue; s = s * 10 + i; } return s; }
tx int64_t every() { int64_t i = 0; for (;;) { i++; if (i == 9) { while (1) { return i; } } } }
tx int64_t dangle(int64_t a, int64_t b) { if (a) if (b) return 1; else return 2; return 3; }
int64_t nothing(int64_t x) { x = 5; }
struct N *none() { return NULL; }
struct N *unset() { }
tx int64_t ends(int64_t x) { int64_t y = nothing(x); return (none() == unset()) * 100 + x * 10 + y; }
tx int64_t given(int64_t a, int64_t b) { a = a + b; b -= a; return a * 10 + b; }
tx int64_t ticks(int64_t n) { for (int64_t i = 0; i < n; i++) { } return 0; }
int64_t one() { return 1; }
tx int64_t calls(int64_t n) { int64_t s = 0; for (int64_t i = 0; i < n; i++) s += one(); return s; }
tx int64_t fill() { for (;;) { struct W *p = pm_new(struct W); if (!p) return root.n; root.w = p; p->a[14] = root.n; root.n++; } }
tx int64_t wide(int64_t i) { return root.w->a[i]; }
tx int64_t other() { struct W *p = pm_new(struct W); pm_free(p); struct N *q = pm_new(struct N); q->v = 3; return p->a[0]; }
