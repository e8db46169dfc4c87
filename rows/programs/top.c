struct N { int64_t v; struct N *next; int64_t t[3]; };
struct M { int64_t w; };
struct R { int64_t n; struct N *p; struct M *q; int64_t a[4]; struct N *h[2]; };
persistent struct R root;
@@