struct R { int64_t n; };
@
