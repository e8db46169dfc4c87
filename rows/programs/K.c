enum { ORDER = 8, MIN = ORDER / 2 - 1, NEXT };
enum { LOW = 1 << 63, LESS = -ORDER, ABOVE, };
struct R { int64_t n; int64_t t[ORDER]; };
persistent struct R root;
tx int64_t fill() { for (int64_t i = 0; i < ORDER; i++) { root.t[i] = i * NEXT; } return MIN; }
tx int64_t least() { return LOW; }
tx int64_t less(int64_t a) { return a - LESS * ABOVE; }
