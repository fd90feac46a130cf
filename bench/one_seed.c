// In the place of the system's random source, for LD_PRELOAD: every draw gives the number of the environment's variable ONE_SEED.
#include <stdint.h>
#include <stdlib.h>
#include <string.h>

int getentropy(void *to, size_t count) {
  const char *text = getenv("ONE_SEED");
  uint64_t seed = text ? strtoull(text, NULL, 10) : 0;
  memset(to, 0, count);
  memcpy(to, &seed, count < sizeof seed ? count : sizeof seed);
  return 0;
}
