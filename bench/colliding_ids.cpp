// A graph of vertices whose ids have hashes that end alike in a store with the seed SEED:
//   colliding_ids SEED BITS COUNT
#include <cstdint>
#include <cstdio>
#include <cstdlib>

using u32 = uint32_t;
using u64 = uint64_t;

static u64 folded(u64 a, u64 b) {
  unsigned __int128 product = (unsigned __int128)a * b;
  return u64(product) ^ u64(product >> 64);
}

static u64 state_of(u64 seed) { return folded(0x243f6a8885a308d3ull ^ seed, 0x9e3779b97f4a7c15ull ^ 16); }

static u32 hash(u64 state, u32 id) {
  u64 word = folded(state ^ (u64(id) | u64(id) << 32), 0x9e3779b97f4a7c15ull ^ 8);
  return u32(word ^ (word >> 32));
}

int main(int count, char **words) {
  if (count != 4) return 2;
  u64 state = state_of(strtoull(words[1], nullptr, 10));
  u32 mask = (1u << atoi(words[2])) - 1;
  u64 wanted = u64(atoll(words[3])), got = 0;
  for (u64 id = 0; id < (1ull << 32) && got < wanted; id++)
    if ((hash(state, u32(id)) & mask) == (0x1234 & mask)) {
      printf("v %u\n", u32(id));
      got++;
    }
}
