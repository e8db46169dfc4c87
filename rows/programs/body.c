struct Node { int64_t v; struct Node *next; };
struct R { int64_t n; int64_t t[4]; struct Node *head; };
persistent struct R root;
int64_t add(int64_t a, int64_t b) { return a + b; }
tx int64_t f(int64_t x, int64_t y) {
    @@
    return 0;
}
