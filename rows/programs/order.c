struct N { int64_t v; int64_t t[3]; struct N *next; };
struct R { int64_t n; int64_t t[3]; struct N *p; struct N *q[2]; };
persistent struct R root;
int64_t mark(int64_t k) { root.n = root.n * 10 + k; return k; }
struct N *self(int64_t k) { mark(k); return root.p; }
void init() { root.p = pm_new(struct N); root.n = 0; }
tx int64_t and(int64_t a, int64_t b) { root.n = 0; return (mark(a) && mark(b)) * 1000 + root.n; }
tx int64_t or(int64_t a, int64_t b) { root.n = 0; return (mark(a) || mark(b)) * 1000 + root.n; }
int64_t three(int64_t a, int64_t b, int64_t c) { return a * 100 + b * 10 + c; }
tx int64_t order() { root.n = 0; return three(mark(1), mark(2), mark(3)) * 1000 + root.n; }
tx int64_t sides() { root.n = 0; int64_t x = mark(1) - (mark(2) * mark(3)); return root.n * 10 - x; }
tx int64_t store() { init(); self(1)->t[mark(2)] = mark(3); return root.n * 10 + root.p->t[2]; }
int64_t halt() { abort(); return 0; }
tx int64_t early() { init(); root.p->t[3] = halt(); return 0; }
tx int64_t sooner() { init(); root.p->t[3] += halt(); return 0; }
tx int64_t update() { init(); root.p->t[1] = 5; self(1)->t[mark(1)] += mark(4); return root.n * 10 + root.p->t[1]; }
void drop() { pm_free(root.p); }
int64_t gone() { drop(); return 1; }
tx int64_t again() { init(); root.p->v = 1; root.p->v += gone(); return 0; }
tx int64_t step() { init(); self(1)->v++; self(2)->v++; root.p->v--; root.t[1]--; return root.n * 100 + root.p->v * 10 + root.t[1]; }
tx int64_t chain() { init(); root.q[1] = pm_new(struct N); root.q[1]->next = root.p; root.q[1]->next->t[2] = 8; return root.p->t[2]; }
tx int64_t low(int64_t i) { root.t[i] = 1; return 0; }
tx int64_t null(int64_t i) { root.q[i]->v = mark(1); return 0; }
tx int64_t reused() { init(); struct N *p = root.p; drop(); struct N *q = pm_new(struct N); q->v = 4; return p->v; }
tx int64_t freed() { init(); struct N *p = root.p; pm_free(p); pm_free(p); return 0; }
tx int64_t nothing() { struct N *p; pm_free(p); return 0; }
