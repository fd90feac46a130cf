// Peer for `match GRAPH PATTERNS` and `save GRAPH`: all embeddings of each
// pattern in one graph, sorted, and the one text of a graph.  Loader, grammar, graph, index and
// search are those of csm.hpp and indexed.cpp.
//   match_all match G P   builds the states of indexed.cpp per pattern, searches from the root over Explicit pairs
//   match_all plain G P   no index: searches from the triples of the pattern edge of least card
//   match_all save G      vertices, then triples, each ascending, each once
//   match_all load G      reads the graph alone (for the share of the loader)
// PEER_TIMES=1 writes CPU ms of the stages to standard error.
// Build: g++ -O2 -std=c++17 -o match_all match_all.cpp
#define main indexed_main
#include "indexed.cpp"
#undef main
#include <sys/resource.h>

static double cpu_ms() {
  rusage r;
  getrusage(RUSAGE_SELF, &r);
  return double(r.ru_utime.tv_sec) * 1e3 + double(r.ru_utime.tv_usec) / 1e3;
}
static bool times = false;
static double last_ms = 0;
static void stage(const char *name) {
  if (!times) return;
  double t = cpu_ms();
  fprintf(stderr, "%s %.1f\n", name, t - last_ms);
  last_ms = t;
}

struct Fit {
  static constexpr bool INDEX = false;
  Graph &g;
  const PatternT &q;
  bool ok(u32 u, u32 v) const { return g.fits(v, q.cls[u]); }
};

template <class F> void from_vertex(Search<F> &x, F &f, u32 u, u32 v) {
  if (!f.ok(u, v)) return;
  x.ei = ~0u; x.el = ~0u; x.placed = 0; x.depth = 0;
  if (!x.joins(u, v, ~0u)) return;
  if (x.place(u, v)) x.go();
}
template <class F> void from_edge(Search<F> &x, F &f, u32 i, u32 s, u32 t) {
  auto &e = x.q.edges[i];
  if (e.a == e.b ? s != t : (x.q.iso && s == t)) return;
  if (!f.ok(e.a, s) || (e.a != e.b && !f.ok(e.b, t))) return;
  x.ei = i; x.el = ~0u; x.placed = 0; x.depth = 0;
  if (!x.joins(e.a, s, ~0u)) return;
  bool good = x.place(e.a, s);
  if (e.a != e.b) good = good && x.joins(e.b, t, ~0u) && x.place(e.b, t);
  if (good) x.go();
}
static void list_out(Out &out, const PatternT &q, std::vector<u32> &flat) {
  size_t k = flat.size() / q.n;
  if (k > 1) sort_any(q.n, flat.data(), k, std::make_integer_sequence<u32, 32>());
  const u32 *p = flat.data();
  for (size_t i = 0; i < k; i++) {
    out.buf += "m ";
    out.buf += q.name;
    for (u32 u = 0; u < q.n; u++) { out.buf.push_back(' '); out.num(*p++); }
    out.buf.push_back('\n');
    out.relief();
  }
  flat.clear();
}
static void save(Graph &g, Out &out) {
  std::vector<u32> rank(g.names.name.size()), by(g.names.name.size());
  for (u32 i = 0; i < by.size(); i++) by[i] = i;
  std::sort(by.begin(), by.end(), [&](u32 a, u32 b) { return g.names.name[a] < g.names.name[b]; });
  for (u32 i = 0; i < by.size(); i++) rank[by[i]] = i;
  std::vector<std::pair<u32, u32>> ids;
  for (auto &s : g.vmap.s) if (s.key != NOKEY) ids.push_back({u32(s.key), s.at});
  std::sort(ids.begin(), ids.end());
  for (auto &p : ids) {
    out.buf += "v ";
    out.num(p.first);
    std::vector<u32> ls = g.lsets[g.lset[p.second]];
    for (u32 &l : ls) l = rank[l];
    std::sort(ls.begin(), ls.end());
    for (u32 l : ls) { out.buf += ' '; out.buf += g.names.name[by[l]]; }
    out.buf += '\n';
    out.relief();
  }
  struct T { u32 s, l, t; };
  std::vector<T> ts;
  ts.reserve(g.emap.used);
  for (auto &e : g.emap.s)
    if (e.key != NOKEY) {
      u32 s, l, t;
      Graph::eparts(e.key, s, l, t);
      ts.push_back({g.id[s], rank[l], g.id[t]});
    }
  std::sort(ts.begin(), ts.end(), [](const T &a, const T &b) {
    if (a.s != b.s) return a.s < b.s;
    if (a.l != b.l) return a.l < b.l;
    return a.t < b.t;
  });
  for (auto &t : ts) {
    out.buf += "e ";
    out.num(t.s);
    out.buf += ' ';
    out.num(t.t);
    out.buf += ' ';
    out.buf += g.names.name[by[t.l]];
    out.buf += '\n';
    out.relief();
  }
}

int main(int argc, char **argv) {
  times = getenv("PEER_TIMES") != nullptr;
  std::string how = argc > 1 ? argv[1] : "";
  bool pats = how == "match" || how == "plain";
  if (!(pats ? argc == 4 : (how == "save" || how == "load") && argc == 3)) return fail(Usage);
  Graph g;
  if (int bad = load_graph(argv[2], g)) return bad;
  stage("load");
  if (how == "load") return 0;
  Out out;
  if (how == "save") {
    save(g, out);
    out.flush();
    stage("save");
    return out.failed ? fail(WriteFault) : 0;
  }
  PatternReader pr;
  if (int bad = load_patterns(argv[3], g, pr)) return bad;
  std::vector<std::vector<std::pair<u32, u32>>> byl(g.names.name.size());
  for (auto &e : g.emap.s)
    if (e.key != NOKEY) {
      u32 s, l, t;
      Graph::eparts(e.key, s, l, t);
      byl[l].push_back({s, t});
    }
  std::vector<u32> found;
  std::vector<Dcg> dcg(how == "match" ? pr.ps.size() : 0);
  if (how == "match") {
    for (u32 k = 0; k < pr.ps.size(); k++)
      if (!pr.ps[k].edges.empty()) dcg[k].start(g, pr.ps[k], byl);
  }
  stage("build");
  u64 total = 0, rows = 0;
  double search = 0, write = 0;
  for (u32 k = 0; k < pr.ps.size(); k++) {
    const PatternT &q = pr.ps[k];
    double t0 = cpu_ms();
    if (q.n == 1 || q.edges.empty()) {
      Fit f{g, q};
      Search<Fit> x(g, q, f, found);
      for (auto &s : g.vmap.s) if (s.key != NOKEY) from_vertex(x, f, 0, s.at);
    } else if (how == "match") {
      Dcg &d = dcg[k];
      if (times) for (auto &r : d.rows) rows += r.used;
      if (!d.hopeless()) {
        Search<Dcg> x(g, q, d, found);
        d.list(d.root, [&](u32 v) { from_vertex(x, d, d.root, v); });
      }
    } else {
      Fit f{g, q};
      Search<Fit> x(g, q, f, found);
      u32 b = 0;
      u64 least = ~0ull;
      for (u32 i = 0; i < q.edges.size(); i++) {
        auto &e = q.edges[i];
        u64 c = 0;
        for (auto &p : byl[e.l]) c += f.ok(e.a, p.first) && f.ok(e.b, p.second) && (e.a != e.b || p.first == p.second);
        if (c < least) { least = c; b = i; }
      }
      if (least)
        for (auto &p : byl[q.edges[b].l]) from_edge(x, f, b, p.first, p.second);
    }
    double t1 = cpu_ms();
    total += found.size() / q.n;
    list_out(out, q, found);
    search += t1 - t0;
    write += cpu_ms() - t1;
  }
  out.buf += "= ";
  out.num(total);
  out.buf += '\n';
  out.flush();
  if (times) fprintf(stderr, "search %.1f\nsort+write %.1f\nrows %llu\ntotal %llu\n", search, write, (unsigned long long)rows, (unsigned long long)total);
  return out.failed ? fail(WriteFault) : 0;
}
