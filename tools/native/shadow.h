/* A file that gets each line of a pool once it was flushed and then fenced. So it is at every
   moment what a loss of power leaves at least: the image of `power old`. Where a fence is an msync,
   it gets what that call names. */
#ifndef SHADOW
#define SHADOW

/* Makes the file OLD a copy of the pool's file, and keeps it so from now on. */
void shadow_begin(const char *pool, const char *old);

#endif
