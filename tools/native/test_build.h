/* Comes before an emitted file in a test: the event that ends the process, and a second device
   beside the pool's file, which tools/check_native has the flushes and fences of that file tell to.
   */
#ifndef TEST_BUILD
#define TEST_BUILD
extern unsigned long cut_at;
void shadow_flush(const void *words, unsigned long line);
void shadow_fence(void);
int shadow_sync(const void *words, const void *from, unsigned long bytes);
#endif
