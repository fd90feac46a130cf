// Peer: after TurboFlux (and SymBi's counters).  Per pattern a spanning tree
// and a table of pairs (pattern vertex, graph vertex) that are not Null, each with the number
// of its non-Null parents and, per child, the number of its Explicit children.  A search runs
// from the updated triple over Explicit pairs alone.
// No search where some pattern vertex has no Explicit pair; a hub's row that is longer than the
// table of the pattern vertex is not walked, the table is.
// Root rows are kept only where some child is Explicit (a root pair is never Null where it fits).
#include "csm.hpp"
using namespace csm;

// Rows of one pattern vertex: key + 1, in counter, one out counter per child.
struct Rows {
  u32 stride = 2, kids = 0, used = 0;
  int shift = 60;
  std::vector<u32> m;
  void init(u32 k) { kids = k; stride = 2 + k; m.assign(size_t(stride) << 4, 0); }
  size_t cap() const { return size_t(1) << (64 - shift); }
  size_t home(u32 v) const { return size_t((u64(v) * 0x9E3779B97F4A7C15ull) >> shift); }
  u32 *find(u32 v) {
    size_t msk = cap() - 1, i = home(v);
    for (;; i = (i + 1) & msk) {
      u32 *r = &m[i * stride];
      if (r[0] == v + 1) return r;
      if (r[0] == 0) return nullptr;
    }
  }
  u32 *put(u32 v) {
    if ((size_t(used) + 1) * 3 > cap() * 2) grow();
    size_t msk = cap() - 1, i = home(v);
    while (m[i * stride]) i = (i + 1) & msk;
    u32 *r = &m[i * stride];
    r[0] = v + 1;
    used++;
    return r;
  }
  void grow() {
    std::vector<u32> old;
    old.swap(m);
    size_t oc = cap();
    shift--;
    m.assign(stride * cap(), 0);
    size_t msk = cap() - 1;
    for (size_t k = 0; k < oc; k++) {
      u32 *o = &old[k * stride];
      if (!o[0]) continue;
      size_t i = home(o[0] - 1);
      while (m[i * stride]) i = (i + 1) & msk;
      memcpy(&m[i * stride], o, stride * 4);
    }
  }
  void erase(u32 *p) {
    size_t msk = cap() - 1, i = size_t(p - m.data()) / stride, j = i;
    for (;;) {
      j = (j + 1) & msk;
      u32 *q = &m[j * stride];
      if (!q[0]) break;
      size_t h = home(q[0] - 1);
      if (((j - h) & msk) >= ((j - i) & msk)) { memcpy(&m[i * stride], q, stride * 4); i = j; }
    }
    memset(&m[i * stride], 0, stride * 4);
    used--;
  }
  bool full(const u32 *r) const {
    for (u32 j = 0; j < kids; j++) if (!r[2 + j]) return false;
    return true;
  }
};

struct Dcg {
  Graph *g = nullptr;
  const PatternT *q = nullptr;
  u32 root = 0;
  u32 parent[32], pedge[32], slot[32];  // slot: number among the parent's children
  bool down[32];                        // the tree edge leads from the parent to the child
  std::vector<u32> kids[32];
  std::vector<u32> bfs;
  static constexpr bool INDEX = true;
  Rows rows[32];
  u32 live[32];   // Explicit pairs of each pattern vertex
  bool seen[32];  // whether the updated triple counts for this vertex's tree edge yet
  u32 cs = 0, cl = ~0u, ct = 0;

  bool fits(u32 u, u32 v) const { return g->fits(v, q->cls[u]); }
  bool ok(u32 u, u32 v) {  // Explicit
    u32 *r = rows[u].find(v);
    return r && rows[u].full(r);
  }
  size_t list_cost(u32 u) const { return rows[u].cap(); }
  template <class F> void list(u32 u, F f) const {
    auto &t = rows[u];
    for (size_t i = 0, n = t.cap(); i < n; i++) {
      const u32 *r = &t.m[i * t.stride];
      if (r[0] && t.full(r)) f(r[0] - 1);
    }
  }
  bool nonnull(u32 u, u32 v) { return u == root ? fits(u, v) : rows[u].find(v) != nullptr; }

  // Children side of v for tree vertex c / parents' side of w for tree vertex u.
  template <class F> void links(u32 c, u32 v, bool to_child, F f) {
    u32 l = q->edges[pedge[c]].l;
    bool out = to_child ? down[c] : !down[c];
    auto r = g->row(v, l, out);
    if (l == cl && !seen[c] && v == (out ? cs : ct)) {
      u32 skip = out ? ct : cs;
      for (u32 k = 0; k < r.second; k++) if (r.first[k] != skip) f(r.first[k]);
    } else
      for (u32 k = 0; k < r.second; k++) f(r.first[k]);
  }
  bool create(u32 u, u32 w) {
    rows[u].put(w)[1] = 1;
    bool all = true;
    for (u32 j = 0; j < kids[u].size(); j++) {
      u32 c = kids[u][j], cnt = 0;
      links(c, w, true, [&](u32 z) {
        if (!fits(c, z)) return;
        u32 *r = rows[c].find(z);
        if (r) { r[1]++; cnt += rows[c].full(r); }
        else cnt += create(c, z);
      });
      if (cnt) rows[u].find(w)[2 + j] = cnt; else all = false;
    }
    live[u] += all;
    return all;
  }
  void raise_out(u32 u, u32 v, u32 j) {
    u32 *r = rows[u].find(v);
    if (!r) { r = rows[u].put(v); r[1] = 1; }  // root
    if (r[2 + j]++ || !rows[u].full(r)) return;
    live[u]++;
    if (u != root)
      links(u, v, false, [&](u32 z) { if (nonnull(parent[u], z)) raise_out(parent[u], z, slot[u]); });
  }
  void lower_out(u32 u, u32 v, u32 j) {
    u32 *r = rows[u].find(v);
    bool was = rows[u].full(r);
    if (--r[2 + j]) return;
    live[u] -= was;
    if (u == root) {
      for (u32 i = 0; i < rows[u].kids; i++) if (r[2 + i]) return;
      rows[u].erase(r);
      return;
    }
    if (was)
      links(u, v, false, [&](u32 z) { if (nonnull(parent[u], z)) lower_out(parent[u], z, slot[u]); });
  }
  void lower_in(u32 u, u32 w) {
    u32 *r = rows[u].find(w);
    if (--r[1]) return;
    live[u] -= rows[u].full(r);
    rows[u].erase(r);
    for (u32 c : kids[u]) links(c, w, true, [&](u32 z) { if (fits(c, z)) lower_in(c, z); });
  }
  void link(u32 u, u32 v, u32 w) {
    seen[u] = true;
    if (!fits(u, w) || !nonnull(parent[u], v)) return;
    u32 *r = rows[u].find(w);
    bool ex;
    if (r) { r[1]++; ex = rows[u].full(r); } else ex = create(u, w);
    if (ex) raise_out(parent[u], v, slot[u]);
  }
  void unlink(u32 u, u32 v, u32 w) {
    seen[u] = false;
    if (!fits(u, w) || !nonnull(parent[u], v)) return;
    if (ok(u, w)) lower_out(parent[u], v, slot[u]);
    lower_in(u, w);
  }
  void update(bool plus, u32 s, u32 l, u32 t, const std::vector<u32> &es) {
    cs = s; cl = l; ct = t;
    for (u32 i : es) { auto &e = q->edges[i]; for (u32 u : {e.a, e.b}) if (u != root && pedge[u] == i) seen[u] = !plus; }
    for (u32 i : es) {
      auto &e = q->edges[i];
      if (e.a == e.b) continue;
      u32 u;
      if (e.b != root && pedge[e.b] == i) u = e.b;
      else if (e.a != root && pedge[e.a] == i) u = e.a;
      else continue;
      u32 v = down[u] ? s : t, w = down[u] ? t : s;
      if (plus) link(u, v, w); else unlink(u, v, w);
    }
    cl = ~0u;
  }

  // byl: triples by label
  void start(Graph &g_, const PatternT &q_, const std::vector<std::vector<std::pair<u32, u32>>> &byl) {
    g = &g_; q = &q_;
    u32 n = q->n, m = u32(q->edges.size());
    std::vector<u64> ce(m, 0), cv(n, 0);
    for (u32 i = 0; i < m; i++) {
      auto &e = q->edges[i];
      if (e.l < byl.size())
        for (auto &p : byl[e.l])
          if (fits(e.a, p.first) && fits(e.b, p.second) && (e.a != e.b || p.first == p.second)) ce[i]++;
    }
    for (auto &s : g->vmap.s)
      if (s.key != NOKEY) for (u32 u = 0; u < n; u++) cv[u] += fits(u, s.at);
    root = 0;
    if (m) {
      u32 b = 0;
      for (u32 i = 1; i < m; i++) if (ce[i] < ce[b]) b = i;
      u32 x = std::min(q->edges[b].a, q->edges[b].b), y = std::max(q->edges[b].a, q->edges[b].b);
      root = cv[y] < cv[x] ? y : x;
    }
    for (u32 u = 0; u < 32; u++) { pedge[u] = ~0u; live[u] = 0; seen[u] = true; kids[u].clear(); }
    u32 placed = 1u << root;
    bfs.assign(1, root);
    for (u32 k = 1; k < n; k++) {
      u32 b = ~0u;
      for (u32 i = 0; i < m; i++) {
        auto &e = q->edges[i];
        if ((placed >> e.a & 1) != (placed >> e.b & 1) && (b == ~0u || ce[i] < ce[b])) b = i;
      }
      auto &e = q->edges[b];
      bool dn = placed >> e.a & 1;
      u32 p = dn ? e.a : e.b, c = dn ? e.b : e.a;
      parent[c] = p; pedge[c] = b; down[c] = dn;
      kids[p].push_back(c);
      placed |= 1u << c;
      bfs.push_back(c);
    }
    for (u32 u = 0; u < n; u++) {
      std::sort(kids[u].begin(), kids[u].end());
      for (u32 j = 0; j < kids[u].size(); j++) slot[kids[u][j]] = j;
      rows[u].init(u32(kids[u].size()));
    }
    for (u32 k = 1; k < n; k++) {  // in counters, from the root outward
      u32 u = bfs[k];
      u32 l = q->edges[pedge[u]].l;
      if (l >= byl.size()) continue;
      for (auto &p : byl[l]) {
        u32 v = down[u] ? p.first : p.second, w = down[u] ? p.second : p.first;
        if (!fits(u, w) || !nonnull(parent[u], v)) continue;
        u32 *r = rows[u].find(w);
        if (!r) r = rows[u].put(w);
        r[1]++;
      }
    }
    for (u32 k = n; k-- > 1;) {  // out counters, towards the root
      u32 u = bfs[k];
      u32 l = q->edges[pedge[u]].l;
      if (l >= byl.size()) continue;
      for (auto &p : byl[l]) {
        u32 v = down[u] ? p.first : p.second, w = down[u] ? p.second : p.first;
        if (!ok(u, w) || !nonnull(parent[u], v)) continue;
        u32 *r = rows[parent[u]].find(v);
        if (!r) { r = rows[parent[u]].put(v); r[1] = 1; }
        r[2 + slot[u]]++;
      }
    }
    for (u32 u = 0; u < n; u++) list(u, [&](u32) { live[u]++; });
  }
  bool hopeless() const {
    for (u32 u = 0; u < q->n; u++) if (!live[u]) return true;
    return false;
  }
};

struct Engine {
  struct Fit {
    static constexpr bool INDEX = false;
    Dcg &d;
    bool ok(u32 u, u32 v) const { return d.fits(u, v); }
  };
  Graph &g;
  std::vector<PatternT> &ps;
  Routes routes;
  std::vector<Dcg> dcg;
  std::vector<u32> found;
  Singles singles;
  Engine(Graph &g_, std::vector<PatternT> &p) : g(g_), ps(p) {
    routes.build(ps, g.names.name.size());
    std::vector<std::vector<std::pair<u32, u32>>> byl(routes.by.size());
    for (auto &e : g.emap.s)
      if (e.key != NOKEY) {
        u32 s, l, t;
        Graph::eparts(e.key, s, l, t);
        if (routes.of(l)) byl[l].push_back({s, t});
      }
    dcg.resize(ps.size());
    singles.build(ps);
    for (u32 k = 0; k < ps.size(); k++)
      if (!ps[k].edges.empty()) dcg[k].start(g, ps[k], byl);
  }
  void vertex(Out &out, u64 line, bool plus, u32 v) {
    singles.vertex(g, ps, found, out, line, plus, v);
  }
  void edge(Out &out, u64 line, bool plus, u32 s, u32 l, u32 t) {
    auto *rs = routes.of(l);
    if (!rs) return;
    for (auto &r : *rs) {
      const PatternT &q = ps[r.pattern];
      Dcg &d = dcg[r.pattern];
      if (plus) d.update(true, s, l, t, r.edges);
      if (q.n == 1) {  // loops only: no tree
        Fit f{d};
        Search<Fit> x(g, q, f, found);
        for (u32 i : r.edges) x.at_edge(i, s, l, t);
      } else if (!d.hopeless()) {
        Search<Dcg> x(g, q, d, found);
        for (u32 i : r.edges) x.at_edge(i, s, l, t);
      }
      report(out, line, plus, q, found);
      if (!plus) d.update(false, s, l, t, r.edges);
    }
  }
  void stats() {
    u64 rows = 0, bytes = 0;
    for (auto &d : dcg)
      for (auto &r : d.rows) {
        rows += r.used;
        bytes += r.m.capacity() * 4;
        if (getenv("PEER_ROWS") && r.used) fprintf(stderr, "pattern %d vertex %d rows %u root %u\n", int(&d - dcg.data()), int(&r - d.rows), r.used, d.root);
      }
    fprintf(stderr, "rows %llu bytes %llu\n", (unsigned long long)rows, (unsigned long long)bytes);
  }
};

int main(int argc, char **argv) { return watch_main<Engine>(argc, argv); }
