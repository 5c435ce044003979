// swordcc includes this in what has accesses that clang's pass doesn't instrument, so that the program says at its end that it isn't recorded whole.
void swordrec_skips(void) __attribute__((weak));
static __attribute__((constructor(102))) void swordrec_says(void)
{
    if (swordrec_skips) swordrec_skips();
}
