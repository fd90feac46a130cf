// A graph whose triples' hashes end alike in a store with the seed SEED:
//   colliding_triples SEED VERTICES BITS COUNT
#include <cstdint>
#include <cstdio>
#include <cstdlib>

using u32 = uint32_t;
using u64 = uint64_t;

static u64 folded(u64 a, u64 b) {
  unsigned __int128 product = (unsigned __int128)a * b;
  return u64(product) ^ u64(product >> 64);
}

static u64 state_of(u64 seed) { return folded(0x243f6a8885a308d3ull ^ seed, 0x9e3779b97f4a7c15ull ^ 16); }

static u64 mixed(u64 state, u32 word) { return folded(state ^ (u64(word) | u64(word) << 32), 0x9e3779b97f4a7c15ull ^ 8); }

int main(int count, char **words) {
  if (count != 5) return 2;
  u64 state = state_of(strtoull(words[1], nullptr, 10));
  u32 vertices = u32(atoll(words[2])), mask = (1u << atoi(words[3])) - 1;
  u64 wanted = u64(atoll(words[4])), got = 0;
  for (u32 id = 0; id < vertices; id++) printf("v %u\n", id);
  for (u32 src = 0; src < vertices && got < wanted; src++) {
    u64 half = mixed(mixed(state, src), 0);
    for (u32 dst = 0; dst < vertices && got < wanted; dst++) {
      u64 hash = mixed(half, dst);
      if ((u32(hash ^ (hash >> 32)) & mask) == (77 & mask)) {
        printf("e %u %u r\n", src, dst);
        got++;
      }
    }
  }
}
