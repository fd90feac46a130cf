// Shared parts of the two C++ peers: line reading, grammar, the labelled graph,
// the patterns, the backtracking search and the report text.
// Formats and refusals are those of the program's README.
// C++17, no dependencies.  Build with -O2.
#pragma once
#include <algorithm>
#include <array>
#include <cerrno>
#include <cstdint>
#include <cstdio>
#include <cstdlib>
#include <cstring>
#include <fcntl.h>
#include <deque>
#include <string>
#include <string_view>
#include <sys/types.h>
#include <unistd.h>
#include <utility>
#include <vector>

namespace csm {

using u8 = uint8_t;
using u32 = uint32_t;
using u64 = uint64_t;

// ---------------------------------------------------------------- limits
constexpr u64 LINE_BYTES = 4096;
constexpr u64 INPUT_BYTES = 1ull << 34;
constexpr u64 MAX_VERTICES = 1u << 20;
constexpr u64 MAX_EDGES = 1u << 22;
constexpr u64 MAX_LABELS = 65535;
constexpr u64 MAX_PATTERNS = 256;
constexpr u64 MAX_PV = 32;
constexpr u64 MAX_PE = 64;

enum Code : u8 {
  OK = 0, Long, Word, Arity, Number, Label, Exists, NoVertex, Absent, Busy,
  Full, BadMode, NoName, Order, Empty, Apart
};
inline const char *code_word(Code c) {
  static const char *w[] = {"", "long", "word", "arity", "number", "label", "exists",
                            "novertex", "absent", "busy", "full", "mode", "noname",
                            "order", "empty", "apart"};
  return w[c];
}
enum Status { Done = 0, NoFile = 1, Usage = 2, BadGraph = 3, BadPatterns = 4,
              ReadFault = 5, WriteFault = 6, Memory = 7, TooMuch = 8 };

// ---------------------------------------------------------------- output
struct Out {
  std::string buf;
  bool failed = false;
  void num(u64 v) {
    char t[20];
    int i = 20;
    do { t[--i] = char('0' + v % 10); v /= 10; } while (v);
    buf.append(t + i, size_t(20 - i));
  }
  void flush() {
    const char *p = buf.data();
    size_t n = buf.size();
    while (n && !failed) {
      ssize_t k = ::write(1, p, n);
      if (k < 0 && errno == EINTR) continue;
      if (k <= 0) { failed = true; break; }
      p += k; n -= size_t(k);
    }
    buf.clear();
  }
  void relief() { if (buf.size() >= (1u << 16)) flush(); }
};

// ---------------------------------------------------------------- open addressing
// Linear probing, Fibonacci hashing, backward-shift deletion.
constexpr u64 NOKEY = ~0ull;
template <class S> struct Table {  // S has `u64 key`
  std::vector<S> s;
  u64 used = 0;
  int shift = 60;
  Table() { reset(4); }
  void reset(int bits) {
    S e; memset(&e, 0, sizeof e); e.key = NOKEY;
    s.assign(size_t(1) << bits, e);
    shift = 64 - bits;
    used = 0;
  }
  static u64 mix(u64 k) { k ^= k >> 29; return k * 0x9E3779B97F4A7C15ull; }
  size_t home(u64 k) const { return size_t(mix(k) >> shift); }
  S *find(u64 k) {
    size_t m = s.size() - 1, i = home(k);
    for (;; i = (i + 1) & m) {
      if (s[i].key == k) return &s[i];
      if (s[i].key == NOKEY) return nullptr;
    }
  }
  S *put(u64 k) {  // k is not there
    if ((used + 1) * 3 > s.size() * 2) grow();
    size_t m = s.size() - 1, i = home(k);
    while (s[i].key != NOKEY) i = (i + 1) & m;
    s[i].key = k;
    used++;
    return &s[i];
  }
  void grow() {
    std::vector<S> old;
    old.swap(s);
    int bits = 64 - shift + 1;
    reset(bits);
    size_t m = s.size() - 1;
    for (auto &o : old)
      if (o.key != NOKEY) {
        size_t i = home(o.key);
        while (s[i].key != NOKEY) i = (i + 1) & m;
        s[i] = o;
        used++;
      }
  }
  void erase(S *p) {
    size_t m = s.size() - 1, i = size_t(p - s.data()), j = i;
    for (;;) {
      j = (j + 1) & m;
      if (s[j].key == NOKEY) break;
      size_t h = home(s[j].key);
      if (((j - h) & m) >= ((j - i) & m)) { s[i] = s[j]; i = j; }
    }
    memset(&s[i], 0, sizeof(S));
    s[i].key = NOKEY;
    used--;
  }
};

// ---------------------------------------------------------------- label names
struct Names {
  struct Slot { u64 key; u32 id; u32 pad; };
  std::deque<std::string> name;
  std::vector<u32> refs;   // vertices and triples of the graph that bear it
  std::vector<u32> slot;   // open addressing: id + 1
  u64 in_use = 0, used = 0;
  Names() : slot(64, 0) {}
  static u64 hash(std::string_view t) {
    u64 h = 1469598103934665603ull;
    for (unsigned char c : t) { h ^= c; h *= 1099511628211ull; }
    return h ^ (h >> 31);
  }
  static constexpr u32 NONE = ~0u;
  u32 find(std::string_view t) const {
    size_t m = slot.size() - 1, i = hash(t) & m;
    for (; slot[i]; i = (i + 1) & m)
      if (name[slot[i] - 1] == t) return slot[i] - 1;
    return NONE;
  }
  u32 intern(std::string_view t) {
    u32 f = find(t);
    if (f != NONE) return f;
    if ((used + 1) * 2 > slot.size()) {
      std::vector<u32> old;
      old.swap(slot);
      slot.assign(old.size() * 2, 0);
      size_t m = slot.size() - 1;
      for (u32 x : old)
        if (x) {
          size_t i = hash(name[x - 1]) & m;
          while (slot[i]) i = (i + 1) & m;
          slot[i] = x;
        }
    }
    name.emplace_back(t);
    refs.push_back(0);
    u32 id = u32(name.size() - 1);
    size_t m = slot.size() - 1, i = hash(t) & m;
    while (slot[i]) i = (i + 1) & m;
    slot[i] = id + 1;
    used++;
    return id;
  }
  void up(u32 l) { if (refs[l]++ == 0) in_use++; }
  void down(u32 l) { if (--refs[l] == 0) in_use--; }
};

// ---------------------------------------------------------------- lines and words
struct Words {
  std::array<std::string_view, 20> w;
  u32 n = 0;  // counts on past the array
};
enum Kind { GraphFile, UpdateFile, PatternFile };
enum Form : u8 { Blank, AddV, AddE, DropE, DropV, PName, PVertex, PEdge };
struct Parsed {
  Form form = Blank;
  u32 a = 0, b = 0;
  u32 nl = 0;
  bool iso = false;
  std::array<std::string_view, 16> label;
};
inline bool read_number(std::string_view w, u32 &v) {
  if (w.empty() || w.size() > 10) return false;
  u64 x = 0;
  for (char c : w) {
    if (c < '0' || c > '9') return false;
    x = x * 10 + u64(c - '0');
  }
  if (x >> 32) return false;
  v = u32(x);
  return true;
}
inline bool is_text(std::string_view w) {
  if (w.empty() || w.size() > 64) return false;
  for (unsigned char c : w)
    if (c < 0x21 || c > 0x7E) return false;
  return true;
}
// The line has no end bytes any more.
inline Code parse(Kind kind, std::string_view line, Parsed &p) {
  p.form = Blank;
  p.nl = 0;
  if (line.size() > LINE_BYTES) return Long;
  Words ws;
  const char *s = line.data(), *e = s + line.size();
  for (;;) {
    while (s < e && (*s == ' ' || *s == '\t')) s++;
    if (s == e) break;
    const char *t = s;
    while (s < e && *s != ' ' && *s != '\t') s++;
    if (ws.n == 0 && *t == '#') return OK;
    if (ws.n < ws.w.size()) ws.w[ws.n] = std::string_view(t, size_t(s - t));
    ws.n++;
  }
  if (ws.n == 0) return OK;
  std::string_view f = ws.w[0];
  Form form;
  if (kind == PatternFile) {
    if (f == "p") form = PName; else if (f == "v") form = PVertex;
    else if (f == "e") form = PEdge; else return Word;
  } else {
    if (f == "e") form = AddE; else if (f == "v") form = AddV;
    else if (kind == UpdateFile && f == "-e") form = DropE;
    else if (kind == UpdateFile && f == "-v") form = DropV;
    else return Word;
  }
  switch (form) {
    case PName:
      if (ws.n != 3) return Arity;
      if (!is_text(ws.w[1])) return Label;
      p.label[0] = ws.w[1];
      p.nl = 1;
      if (ws.w[2] == "hom") p.iso = false; else if (ws.w[2] == "iso") p.iso = true;
      else return BadMode;
      break;
    case AddV: case PVertex:
      if (ws.n < 2 || ws.n > 18) return Arity;
      if (!read_number(ws.w[1], p.a)) return Number;
      for (u32 i = 2; i < ws.n; i++) {
        if (!is_text(ws.w[i])) return Label;
        p.label[p.nl++] = ws.w[i];
      }
      break;
    case DropV:
      if (ws.n != 2) return Arity;
      if (!read_number(ws.w[1], p.a)) return Number;
      break;
    default:
      if (ws.n != 4) return Arity;
      if (!read_number(ws.w[1], p.a) || !read_number(ws.w[2], p.b)) return Number;
      if (!is_text(ws.w[3])) return Label;
      p.label[0] = ws.w[3];
      p.nl = 1;
  }
  p.form = form;
  return OK;
}

// Calls f(line) for each whole line, in pieces of at most 64 KiB; after each piece g().
// f answers false to end the reading.
template <class F, class G> Status each_line(int fd, F f, G g) {
  std::vector<char> piece(1 << 16);
  std::string rest;
  u64 got = 0;
  for (;;) {
    ssize_t k = ::read(fd, piece.data(), piece.size());
    if (k < 0 && errno == EINTR) continue;
    if (k < 0) return ReadFault;
    if (k == 0) break;
    got += u64(k);
    if (got > INPUT_BYTES) return TooMuch;
    const char *s = piece.data(), *e = s + k;
    while (s < e) {
      const char *nl = (const char *)memchr(s, '\n', size_t(e - s));
      if (!nl) {
        if (rest.size() <= LINE_BYTES + 1) {
          size_t room = LINE_BYTES + 2 - rest.size();
          rest.append(s, std::min(room, size_t(e - s)));
          // a rest that is too long keeps only that it is long
          if (rest.size() > LINE_BYTES + 1) rest.back() = 'x';
        }
        break;
      }
      std::string_view line(s, size_t(nl - s));
      if (!rest.empty()) {
        if (rest.size() <= LINE_BYTES + 1) rest.append(s, size_t(nl - s));
        line = rest;
      }
      if (!line.empty() && line.back() == '\r') line.remove_suffix(1);
      bool go = f(line);
      rest.clear();
      if (!go) return Done;
      s = nl + 1;
    }
    g();
  }
  if (!rest.empty()) {
    std::string_view line = rest;
    if (line.back() == '\r') line.remove_suffix(1);
    f(line);
  }
  return Done;
}

// ---------------------------------------------------------------- patterns
struct PEdgeT { u32 a, l, b; };
struct Inc { u32 e, other; bool out; };  // incident pattern edge, no self-loop
struct PatternT {
  std::string name;
  bool iso = false;
  u32 n = 0;
  u64 line = 0;
  std::vector<std::vector<u32>> labels;
  std::vector<PEdgeT> edges;
  std::vector<u32> cls;                 // label class of each vertex
  std::vector<std::vector<Inc>> inc;    // per vertex
  std::vector<std::vector<u32>> loops;  // per vertex
  bool connected() const {
    u32 seen = 1;
    for (bool more = true; more;) {
      more = false;
      for (auto &e : edges) {
        bool x = seen >> e.a & 1, y = seen >> e.b & 1;
        if (x != y) { seen |= 1u << e.a | 1u << e.b; more = true; }
      }
    }
    return n == 32 ? seen == ~0u : seen == (1u << n) - 1;
  }
  void prepare() {
    inc.assign(n, {});
    loops.assign(n, {});
    for (u32 i = 0; i < edges.size(); i++) {
      auto &e = edges[i];
      if (e.a == e.b) loops[e.a].push_back(i);
      else {
        inc[e.a].push_back({i, e.b, true});
        inc[e.b].push_back({i, e.a, false});
      }
    }
  }
};

// ---------------------------------------------------------------- graph
struct Graph {
  static constexpr u32 NONE = ~0u;
  struct VSlot { u64 key; u32 at; u32 pad; };
  struct ESlot { u64 key; u32 po, pi; };  // places in the out row and the in row
  struct RSlot {                          // row of (vertex, label, direction)
    u64 key;
    union { u32 *p; u32 small[2]; };
    u32 size, cap;                        // cap 2: kept in the slot itself
    const u32 *data() const { return cap <= 2 ? small : p; }
    u32 *data() { return cap <= 2 ? small : p; }
  };
  Names names;
  Table<VSlot> vmap;
  Table<ESlot> emap;
  Table<RSlot> rmap;
  std::vector<u32> id, lset, deg, spare;   // by dense place
  std::vector<std::vector<u32>> lsets;     // distinct label sets (ids ascending by intern)
  struct LHash { size_t operator()(const std::vector<u32> &v) const {
    u64 h = v.size(); for (u32 x : v) h = (h ^ x) * 0x9E3779B97F4A7C15ull; return size_t(h >> 7); } };
  std::vector<std::vector<u32>> lbucket = std::vector<std::vector<u32>>(4096);
  u64 vertices = 0;
  // label classes of the patterns
  std::vector<std::vector<u32>> classes;
  std::vector<u64> fitbits;
  u32 fitwords = 0;

  static u64 ekey(u32 s, u32 l, u32 t) { return u64(s) << 44 | u64(t) << 24 | l; }
  static void eparts(u64 k, u32 &s, u32 &l, u32 &t) {
    s = u32(k >> 44); t = u32(k >> 24) & 0xFFFFF; l = u32(k) & 0xFFFFFF;
  }
  static u64 rkey(u32 v, u32 l, bool out) { return u64(v) << 32 | u64(l) << 1 | u64(out); }

  u32 at(u32 ident) { auto *p = vmap.find(ident); return p ? p->at : NONE; }
  bool has(u32 s, u32 l, u32 t) { return emap.find(ekey(s, l, t)) != nullptr; }
  std::pair<const u32 *, u32> row(u32 v, u32 l, bool out) {
    auto *r = rmap.find(rkey(v, l, out));
    if (!r) return {nullptr, 0};
    return {r->data(), r->size};
  }
  bool fits(u32 v, u32 cls) const {
    return fitbits[size_t(lset[v]) * fitwords + (cls >> 6)] >> (cls & 63) & 1;
  }
  u32 lset_of(const std::vector<u32> &ls) {
    auto &b = lbucket[LHash()(ls) & 4095];
    for (u32 x : b) if (lsets[x] == ls) return x;
    b.push_back(u32(lsets.size()));
    lsets.push_back(ls);
    add_fit(u32(lsets.size() - 1));
    return u32(lsets.size() - 1);
  }
  void add_fit(u32 k) {
    if (!fitwords) return;
    fitbits.resize(size_t(k + 1) * fitwords, 0);
    for (u32 c = 0; c < classes.size(); c++)
      if (std::includes(lsets[k].begin(), lsets[k].end(), classes[c].begin(), classes[c].end()))
        fitbits[size_t(k) * fitwords + (c >> 6)] |= 1ull << (c & 63);
  }
  void start_patterns(std::vector<PatternT> &ps) {
    for (auto &p : ps) {
      p.cls.clear();
      for (auto &ls : p.labels) {
        u32 c = 0;
        while (c < classes.size() && classes[c] != ls) c++;
        if (c == classes.size()) classes.push_back(ls);
        p.cls.push_back(c);
      }
    }
    fitwords = u32((classes.size() + 63) / 64);
    fitbits.clear();
    if (fitwords) for (u32 k = 0; k < lsets.size(); k++) add_fit(k);
  }

  Code add_vertex(const Parsed &p) {
    if (vmap.find(p.a)) return Exists;
    if (vertices >= MAX_VERTICES) return Full;
    u32 fresh = 0;
    for (u32 i = 0; i < p.nl; i++) {
      bool again = false;
      for (u32 j = 0; j < i; j++) again |= p.label[j] == p.label[i];
      if (again) continue;
      u32 f = names.find(p.label[i]);
      if (f == Names::NONE || names.refs[f] == 0) fresh++;
    }
    if (fresh && names.in_use + fresh > MAX_LABELS) return Full;
    std::vector<u32> ls;
    for (u32 i = 0; i < p.nl; i++) ls.push_back(names.intern(p.label[i]));
    std::sort(ls.begin(), ls.end());
    ls.erase(std::unique(ls.begin(), ls.end()), ls.end());
    for (u32 l : ls) names.up(l);
    u32 v;
    if (!spare.empty()) { v = spare.back(); spare.pop_back(); }
    else { v = u32(id.size()); id.push_back(0); lset.push_back(0); deg.push_back(0); }
    id[v] = p.a;
    lset[v] = lset_of(ls);
    deg[v] = 0;
    auto *s = vmap.put(p.a);
    s->at = v;
    vertices++;
    return OK;
  }
  void drop_vertex(u32 v) {
    for (u32 l : lsets[lset[v]]) names.down(l);
    vmap.erase(vmap.find(id[v]));
    spare.push_back(v);
    vertices--;
  }
  u32 row_push(u32 v, u32 l, bool out, u32 other) {
    u64 k = rkey(v, l, out);
    auto *r = rmap.find(k);
    if (!r) { r = rmap.put(k); r->size = 0; r->cap = 2; r->p = nullptr; }
    if (r->size == r->cap) {
      u32 nc = r->cap == 2 ? 6 : r->cap + r->cap / 2 + 2;
      u32 *q;
      if (r->cap == 2) { q = (u32 *)malloc(nc * 4); memcpy(q, r->small, 8); }
      else q = (u32 *)realloc(r->p, nc * 4);
      r->p = q;
      r->cap = nc;
    }
    r->data()[r->size] = other;
    return r->size++;
  }
  // Takes the place out of the row; the last entry moves there.
  void row_cut(u32 v, u32 l, bool out, u32 place) {
    auto *r = rmap.find(rkey(v, l, out));
    u32 *d = r->data();
    u32 last = r->size - 1;
    if (place != last) {
      u32 moved = d[last];
      d[place] = moved;
      auto *s = emap.find(out ? ekey(v, l, moved) : ekey(moved, l, v));
      (out ? s->po : s->pi) = place;
    }
    r->size = last;
    if (last == 0) {
      if (r->cap > 2) free(r->p);
      rmap.erase(r);
    }
  }
  Code check_edge(const Parsed &p, u32 &s, u32 &l, u32 &t) {
    s = at(p.a);
    t = at(p.b);
    if (s == NONE || t == NONE) return NoVertex;
    l = names.find(p.label[0]);
    if (l != Names::NONE && has(s, l, t)) return Exists;
    if (emap.used >= MAX_EDGES) return Full;
    if ((l == Names::NONE || names.refs[l] == 0) && names.in_use + 1 > MAX_LABELS) return Full;
    if (l == Names::NONE) l = names.intern(p.label[0]);
    return OK;
  }
  void insert(u32 s, u32 l, u32 t) {
    u32 po = row_push(s, l, true, t), pi = row_push(t, l, false, s);
    auto *e = emap.put(ekey(s, l, t));
    e->po = po;
    e->pi = pi;
    deg[s]++;
    deg[t]++;
    names.up(l);
  }
  void remove(u32 s, u32 l, u32 t) {
    auto *e = emap.find(ekey(s, l, t));
    u32 po = e->po, pi = e->pi;
    row_cut(s, l, true, po);
    row_cut(t, l, false, pi);
    emap.erase(emap.find(ekey(s, l, t)));
    deg[s]--;
    deg[t]--;
    names.down(l);
  }
};

// ---------------------------------------------------------------- pattern file
struct PatternReader {
  std::vector<PatternT> ps;
  Code close() {
    if (ps.empty()) return OK;
    auto &q = ps.back();
    if (q.n == 0) return Empty;
    if (!q.connected()) return Apart;
    return OK;
  }
  // bad line is the last one's `p` line where the code is Empty or Apart
  Code take(u64 line, const Parsed &p, Names &names) {
    if (p.form == PName) {
      if (Code c = close()) return c;
      for (auto &q : ps) if (q.name == p.label[0]) return Exists;
      if (ps.size() >= MAX_PATTERNS) return Full;
      ps.emplace_back();
      ps.back().name = std::string(p.label[0]);
      ps.back().iso = p.iso;
      ps.back().line = line;
      return OK;
    }
    if (ps.empty()) return NoName;
    auto &q = ps.back();
    if (p.form == PVertex) {
      if (p.a != q.n) return Order;
      if (q.n >= MAX_PV) return Full;
      std::vector<u32> ls;
      for (u32 i = 0; i < p.nl; i++) ls.push_back(names.intern(p.label[i]));
      std::sort(ls.begin(), ls.end());
      ls.erase(std::unique(ls.begin(), ls.end()), ls.end());
      q.labels.push_back(ls);
      q.n++;
      return OK;
    }
    if (p.a >= q.n || p.b >= q.n) return NoVertex;
    u32 l = names.intern(p.label[0]);
    for (auto &e : q.edges) if (e.a == p.a && e.b == p.b && e.l == l) return Exists;
    if (q.edges.size() >= MAX_PE) return Full;
    q.edges.push_back({p.a, l, p.b});
    return OK;
  }
};

// ---------------------------------------------------------------- search
// Backtracking from the updated triple.  The next pattern vertex is the one with the
// shortest adjacency row among all pattern edges that lead to placed vertices.
// Filter: bool ok(u, v): whether v may stand for u (at least the labels).  A filter with an
// INDEX also bounds the number of candidates of u and can list them, which serves where a
// hub's row is longer than the whole list.
template <class Filter> struct Search {
  Graph &g;
  const PatternT &q;
  Filter &f;
  std::vector<u32> &found;  // flat, n ids each
  u32 img[32];              // dense places
  u32 placed = 0;           // bit set
  u32 order[32];
  u32 depth = 0;
  struct R { const u32 *d; u32 n; u32 owner; };
  R rows[64];
  u32 ei = 0, ex = 0, el = 0, ey = 0;
  Search(Graph &g_, const PatternT &q_, Filter &f_, std::vector<u32> &o) : g(g_), q(q_), f(f_), found(o) {}

  // Tests all edges between u (to stand at v) and placed vertices, but not edge `skip`.
  bool joins(u32 u, u32 v, u32 skip) {
    if (q.iso)
      for (u32 d = 0; d < depth; d++) if (img[order[d]] == v) return false;
    for (u32 i : q.loops[u]) {
      u32 l = q.edges[i].l;
      if (i < ei && l == el && v == ex && v == ey) return false;
      if (i != ei && !g.has(v, l, v)) return false;
    }
    for (auto &c : q.inc[u]) {
      if (!(placed >> c.other & 1)) continue;
      u32 o = img[c.other], s = c.out ? v : o, t = c.out ? o : v, l = q.edges[c.e].l;
      if (c.e < ei && l == el && s == ex && t == ey) return false;
      if (c.e != skip && c.e != ei && !g.has(s, l, t)) return false;
    }
    return true;
  }
  // Places u at v and looks up its rows; false where some row is empty.
  bool place(u32 u, u32 v) {
    img[u] = v;
    order[depth++] = u;
    placed |= 1u << u;
    for (auto &c : q.inc[u]) {
      if (placed >> c.other & 1) continue;
      auto r = g.row(v, q.edges[c.e].l, c.out);
      if (r.second == 0) return false;
      rows[c.e] = {r.first, r.second, u};
    }
    return true;
  }
  void lift(u32 u) { depth--; placed &= ~(1u << u); }
  void emit() { for (u32 u = 0; u < q.n; u++) found.push_back(g.id[img[u]]); }
  void go() {
    if (depth == q.n) { emit(); return; }
    u32 best = ~0u, be = 0, bu = 0;
    for (u32 d = 0; d < depth; d++)
      for (auto &c : q.inc[order[d]])
        if (!(placed >> c.other & 1)) {
          u32 n = rows[c.e].n;
          if constexpr (Filter::INDEX) n = std::min(n, f.live[c.other]);
          if (n < best) { best = n; be = c.e; bu = c.other; }
        }
    const u32 *d = rows[be].d;
    bool last = depth + 1 == q.n;
    auto take = [&](u32 v) {
      if (last) { img[bu] = v; emit(); return; }
      if (place(bu, v)) go();
      lift(bu);
    };
    u32 len = rows[be].n;
    if constexpr (Filter::INDEX)
      if (len > f.list_cost(bu)) {
        f.list(bu, [&](u32 v) { if (joins(bu, v, ~0u)) take(v); });
        return;
      }
    for (u32 k = 0; k < len; k++) {
      u32 v = d[k];
      if (f.ok(bu, v) && joins(bu, v, be)) take(v);
    }
  }
  void at_edge(u32 i, u32 s, u32 l, u32 t) {
    auto &e = q.edges[i];
    if (e.a == e.b ? s != t : (q.iso && s == t)) return;
    if (!f.ok(e.a, s) || (e.a != e.b && !f.ok(e.b, t))) return;
    ei = i; ex = s; el = l; ey = t;
    placed = 0; depth = 0;
    if (!joins(e.a, s, ~0u)) return;
    bool good = place(e.a, s);
    if (e.a != e.b) good = good && joins(e.b, t, ~0u) && place(e.b, t);
    if (good) go();
  }
};

// ---------------------------------------------------------------- report
template <u32 N> inline void sort_n(u32 *d, size_t k) {
  struct T { u32 x[N]; };
  T *t = reinterpret_cast<T *>(d);
  std::sort(t, t + k, [](const T &a, const T &b) {
    for (u32 i = 0; i < N; i++) if (a.x[i] != b.x[i]) return a.x[i] < b.x[i];
    return false;
  });
}
template <u32... I> inline void sort_any(u32 n, u32 *d, size_t k, std::integer_sequence<u32, I...>) {
  using F = void (*)(u32 *, size_t);
  static const F fs[] = {sort_n<I + 1>...};
  fs[n - 1](d, k);
}
inline void report(Out &out, u64 line, bool plus, const PatternT &q, std::vector<u32> &flat) {
  if (flat.empty()) return;
  size_t k = flat.size() / q.n;
  if (k > 1) sort_any(q.n, flat.data(), k, std::make_integer_sequence<u32, 32>());
  char head[128];
  int h = snprintf(head, sizeof head, "%c %llu %s", plus ? '+' : '-', (unsigned long long)line, q.name.c_str());
  const u32 *p = flat.data();
  for (size_t i = 0; i < k; i++) {
    out.buf.append(head, size_t(h));
    for (u32 u = 0; u < q.n; u++) { out.buf.push_back(' '); out.num(*p++); }
    out.buf.push_back('\n');
    out.relief();
  }
  flat.clear();
}

// ---------------------------------------------------------------- the command
// Engine(Graph&, vector<PatternT>&); edge(out, line, plus, s, l, t) is called with the
// triple in the graph (after an insertion, before a removal); vertex(out, line, plus, v) likewise.
inline int fail(Status s, u64 line = 0, Code c = OK) {
  const char *what = s == NoFile ? "no such file" : s == Usage ? "unknown command or wrong arguments"
                   : s == ReadFault ? "read fault" : s == WriteFault ? "write fault"
                   : s == TooMuch ? "input too large" : "out of memory";
  if (s == BadGraph || s == BadPatterns)
    fprintf(stderr, "turboflux: %s line %llu: %s\n", s == BadGraph ? "graph" : "patterns", (unsigned long long)line, code_word(c));
  else fprintf(stderr, "turboflux: %s\n", what);
  return int(s);
}

// Reads a graph file: 0, or the exit status.
inline int load_graph(const char *name, Graph &g) {
  Parsed p;
  u64 line = 0, bad = 0;
  Code code = OK;
  int fd = open(name, O_RDONLY);
  if (fd < 0) return fail(errno == ENOENT ? NoFile : ReadFault);
  Status st = each_line(fd, [&](std::string_view t) {
    line++;
    code = parse(GraphFile, t, p);
    if (!code && p.form == AddV) code = g.add_vertex(p);
    else if (!code && p.form == AddE) {
      u32 s, l, d;
      code = g.check_edge(p, s, l, d);
      if (code == OK) g.insert(s, l, d);
      else if (code == Exists) code = OK;
    }
    if (code) bad = line;
    return code == OK;
  }, [] {});
  close(fd);
  if (code) return fail(BadGraph, bad, code);
  return st ? fail(st) : 0;
}

// Reads a pattern file, and makes its patterns ready over the graph: 0, or the exit status.
inline int load_patterns(const char *name, Graph &g, PatternReader &pr) {
  Parsed p;
  u64 line = 0, bad = 0;
  Code code = OK;
  int fd = open(name, O_RDONLY);
  if (fd < 0) return fail(errno == ENOENT ? NoFile : ReadFault);
  Status st = each_line(fd, [&](std::string_view t) {
    line++;
    code = parse(PatternFile, t, p);
    if (!code && p.form != Blank) {
      code = pr.take(line, p, g.names);
      bad = (code == Empty || code == Apart) ? pr.ps.back().line : line;
    } else bad = line;
    return code == OK;
  }, [] {});
  close(fd);
  if (code) return fail(BadPatterns, bad, code);
  if (st) return fail(st);
  if ((code = pr.close())) return fail(BadPatterns, pr.ps.back().line, code);
  for (auto &q : pr.ps) q.prepare();
  g.start_patterns(pr.ps);
  return 0;
}

// The patterns of one vertex without an edge.
struct Singles {
  std::vector<u32> numbers;
  void build(const std::vector<PatternT> &ps) {
    for (u32 k = 0; k < ps.size(); k++)
      if (ps[k].edges.empty()) numbers.push_back(k);
  }
  // A vertex came or went.
  void vertex(Graph &g, const std::vector<PatternT> &ps, std::vector<u32> &found, Out &out, u64 line, bool plus, u32 v) const {
    for (u32 k : numbers)
      if (g.fits(v, ps[k].cls[0])) { found.push_back(g.id[v]); report(out, line, plus, ps[k], found); }
  }
};

template <class Engine> int watch_main(int argc, char **argv) {
  if (argc != 4 || strcmp(argv[1], "watch")) return fail(Usage);
  Graph g;
  if (int bad = load_graph(argv[2], g)) return bad;
  PatternReader pr;
  if (int bad = load_patterns(argv[3], g, pr)) return bad;
  Engine eng(g, pr.ps);
  Parsed p;
  Out out;
  u64 line = 0, accepted = 0, refused = 0;
  Status st = each_line(0, [&](std::string_view t) {
    line++;
    Code c = parse(UpdateFile, t, p);
    if (!c) switch (p.form) {
      case AddV:
        c = g.add_vertex(p);
        if (!c) { accepted++; eng.vertex(out, line, true, g.at(p.a)); }
        break;
      case DropV: {
        u32 v = g.at(p.a);
        if (v == Graph::NONE) c = NoVertex;
        else if (g.deg[v]) c = Busy;
        else { accepted++; eng.vertex(out, line, false, v); g.drop_vertex(v); }
        break;
      }
      case AddE: {
        u32 s, l, d;
        c = g.check_edge(p, s, l, d);
        if (!c) { accepted++; g.insert(s, l, d); eng.edge(out, line, true, s, l, d); }
        break;
      }
      case DropE: {
        u32 s = g.at(p.a), d = g.at(p.b), l = g.names.find(p.label[0]);
        if (s == Graph::NONE || d == Graph::NONE) c = NoVertex;
        else if (l == Names::NONE || !g.has(s, l, d)) c = Absent;
        else { accepted++; eng.edge(out, line, false, s, l, d); g.remove(s, l, d); }
        break;
      }
      default: break;
    }
    if (c) {
      refused++;
      out.buf += "! ";
      out.num(line);
      out.buf += ' ';
      out.buf += code_word(c);
      out.buf += '\n';
    }
    return !out.failed;
  }, [&] { out.flush(); });
  if (out.failed) return fail(WriteFault);
  if (st) { out.flush(); return fail(st); }
  out.buf += "= ";
  out.num(line);
  out.buf += ' ';
  out.num(accepted);
  out.buf += ' ';
  out.num(refused);
  out.buf += '\n';
  out.flush();
  if (out.failed) return fail(WriteFault);
  if (getenv("PEER_STATS")) eng.stats();
  return 0;
}

// Which patterns have edges of a label.
struct Route { u32 pattern; std::vector<u32> edges; };
struct Routes {
  std::vector<std::vector<Route>> by;  // by label
  void build(const std::vector<PatternT> &ps, size_t labels) {
    by.assign(labels, {});
    for (u32 k = 0; k < ps.size(); k++)
      for (u32 i = 0; i < ps[k].edges.size(); i++) {
        auto &r = by[ps[k].edges[i].l];
        if (r.empty() || r.back().pattern != k) r.push_back({k, {}});
        r.back().edges.push_back(i);
      }
  }
  const std::vector<Route> *of(u32 l) const { return l < by.size() && !by[l].empty() ? &by[l] : nullptr; }
};

}  // namespace csm
