// A sum whose check a storm breaks.
struct Sums { int64_t sum; };
persistent struct Sums root;

tx int64_t add(int64_t value) {
    root.sum += value;
    return root.sum;
}

tx int64_t clear() {
    root.sum = 0;
    return 0;
}

tx const int64_t check() { return root.sum < 20; }
