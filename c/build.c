/* Both shared objects are of one build: what one keeps in a handle the other reads. BUILD names it, and an object that is
 * loaded beside one of another build is refused by the loader, which doesn't find this name. */
#ifdef OF_BREAKING
extern const char BUILD;
const char *const dia_breaking_build = &BUILD;
#else
const char BUILD = 1;
#endif
