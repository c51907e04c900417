// Synthetic graphs and update batches in kcore's input format. Whole numbers only, so a seed gives the same bytes everywhere.
// build: g++ -O2 -std=c++17 gen.cpp -o gen
// usage: gen GRAPH... -- UPDATES... > file      (UPDATES may be left out; what is beyond the limits of kcore is written where the
//        environment has GEN_ANY_SIZE)
//  GRAPH:   er N M SEED | ba N K SEED | rmat SCALE M SEED | grid W H SEED | path N | clique N | star N | empty
//           lines N M SEED        N ids, M edge lines with repeats and loops, as raw SNAP files have them
//           file PATH             the edge lines of a file (its batches are left out)
//  UPDATES: random B S SEED       B batches of S: half removals of present edges, half insertions of absent pairs
//           mixed B S SEED        the same, but insertions close triangles (a neighbour of a neighbour) where possible
//           takeback B S SEED     B*S random edges go out, B batches; then the same come in again, B batches
//           insertonly B S SEED   B*S random edges are held back from the start; B batches put them in
//           window B S SEED       the edges in a shuffled order are a stream; batch: S oldest out, S new in
//           cycle B               on path N: close the path to a cycle, open it again (all N vertices rise, all fall)
//           flip B                on path N and a longer path beside it: the middle of the longer one is tied to one end of the
//                                 other, untied, tied to its other end, untied (each tie turns the order of a whole path
//                                 round, and no core number changes)
//           toggle B U V          add and remove edge U V in turn (clique +-1)
//           hub B S SEED          on star N: S edges of vertex 0 go out in one batch and come in again in the next
//           ladder B              on path N: U V grows a second rail edge by edge, then takes it down (chains of falls)
#include <algorithm>
#include <cstdint>
#include <cstdio>
#include <cstdlib>
#include <cstring>
#include <string>
#include <unordered_map>
#include <unordered_set>
#include <vector>
using namespace std;
typedef uint32_t u32; typedef uint64_t u64;
struct Rng { u64 s; u64 next() { u64 z = (s += 0x9e3779b97f4a7c15ULL); z = (z ^ (z >> 30)) * 0xbf58476d1ce4e5b9ULL; z = (z ^ (z >> 27)) * 0x94d049bb133111ebULL; return z ^ (z >> 31); }
  u32 below(u32 m) { return (u32)(((unsigned __int128)next() * m) >> 64); } };
static u64 key(u32 a, u32 b) { if (a > b) swap(a, b); return (u64)a << 32 | b; }
struct Set { vector<u64> list; unordered_map<u64, u32> at;
  bool add(u64 k) { if (at.count(k)) return false; at[k] = list.size(); list.push_back(k); return true; }
  bool del(u64 k) { auto i = at.find(k); if (i == at.end()) return false; u32 p = i->second; at.erase(i); u64 l = list.back(); list.pop_back(); if (l != k) { list[p] = l; at[l] = p; } return true; }
  bool has(u64 k) const { return at.count(k); } };
static string out; static u64 updates = 0, batches = 0;
static void num(u64 n) { char b[24]; int i = 24; do b[--i] = '0' + n % 10; while (n /= 10); out.append(b + i, 24 - i); }
static void edge(u32 a, u32 b) { num(a); out += '\t'; num(b); out += '\n'; }
static void up(char c, u32 a, u32 b) { out += c; out += ' '; num(a); out += ' '; num(b); out += '\n'; updates++; }
static void up(char c, u64 k) { up(c, (u32)(k >> 32), (u32)k); }
static void batch() { out += "batch\n"; batches++; }
static u64 N(const string& s) { return strtoull(s.c_str(), 0, 10); }
int main(int c, char** v) {
  vector<string> g, u; bool sep = false;
  for (int i = 1; i < c; i++) { if (!strcmp(v[i], "--")) sep = true; else (sep ? u : g).push_back(v[i]); }
  if (g.empty()) { fputs("see the head of gen.cpp\n", stderr); return 2; }
  auto G = [&](size_t i) { return i < g.size() ? N(g[i]) : 0; }; auto U = [&](size_t i) { return i < u.size() ? N(u[i]) : 0; };
  vector<u64> e; unordered_set<u64> seen; u32 n = 0; bool raw = false; vector<pair<u32, u32>> lines; string k = g[0];
  auto put = [&](u32 a, u32 b) { if (a == b) return false; u64 x = key(a, b); if (!seen.insert(x).second) return false; e.push_back(x); return true; };
  if (k == "er") { n = G(1); Rng r{G(3)}; seen.reserve(G(2) * 2); while (e.size() < G(2)) put(r.below(n), r.below(n)); }
  else if (k == "lines") { n = G(1); Rng r{G(3)}; raw = true; for (u64 i = 0; i < G(2); i++) { u32 a = r.below(n), b = r.below(n); lines.push_back({a, b}); put(a, b); } }
  else if (k == "ba") { n = G(1); u32 d = G(2); Rng r{G(3)}; vector<u32> ends; for (u32 a = 0; a <= d; a++) for (u32 b = 0; b < a; b++) { put(a, b); ends.push_back(a); ends.push_back(b); }
    for (u32 a = d + 1; a < n; a++) { vector<u32> t; while (t.size() < d) { u32 b = ends[r.below(ends.size())]; if (put(a, b)) t.push_back(b); } for (u32 b : t) { ends.push_back(a); ends.push_back(b); } } }
  else if (k == "rmat") { u32 sc = G(1); n = 1u << sc; Rng r{G(3)}; seen.reserve(G(2) * 2); while (e.size() < G(2)) { u32 a = 0, b = 0; for (u32 i = 0; i < sc; i++) { u32 p = r.below(100); a <<= 1; b <<= 1; if (p >= 57) { if (p < 76) b |= 1; else if (p < 95) a |= 1; else { a |= 1; b |= 1; } } } put(a, b); } }
  else if (k == "grid") { u32 w = G(1), h = G(2); n = w * h; Rng r{G(3)}; for (u32 y = 0; y < h; y++) for (u32 x = 0; x < w; x++) { u32 a = y * w + x; if (x + 1 < w && r.below(100) < 85) put(a, a + 1); if (y + 1 < h && r.below(100) < 85) put(a, a + w); if (x + 1 < w && y + 1 < h && r.below(100) < 5) put(a, a + w + 1); } }
  else if (k == "path") { n = G(1); for (u32 i = 1; i < n; i++) put(i - 1, i); }
  else if (k == "clique") { n = G(1); for (u32 i = 0; i < n; i++) for (u32 j = 0; j < i; j++) put(j, i); }
  else if (k == "star") { n = G(1); for (u32 i = 1; i < n; i++) put(0, i); }
  else if (k == "empty") { }
  else if (k == "file") { FILE* f = fopen(g[1].c_str(), "rb"); if (!f) { perror(g[1].c_str()); return 2; } char l[4096]; while (fgets(l, sizeof l, f)) { if (!strncmp(l, "batch", 5)) break; unsigned a, b; if (sscanf(l, "%u %u", &a, &b) == 2) { put(a, b); n = max(n, max(a, b) + 1); } } fclose(f); }
  else { fputs("unknown graph\n", stderr); return 2; }
  string kind = u.empty() ? "" : u[0]; u64 B = U(1), S = U(2); Rng r{U(3) ^ 0x5bd1e995}; vector<u64> start = e, held;
  auto shuffle = [&](vector<u64>& x) { for (size_t i = x.size(); i > 1; i--) swap(x[i - 1], x[r.below(i)]); };
  if (kind == "insertonly" || kind == "window") { vector<u64> x = e; shuffle(x); size_t h = min<u64>(x.size(), kind == "window" ? B * S : B * S); start.assign(x.begin(), x.end() - h); held.assign(x.end() - h, x.end()); }
  if (kind == "flip") for (u32 i = 0; i < n + 1; i++) start.push_back(key(n + i, n + i + 1));
  string head = "# synthetic:"; for (int i = 1; i < c; i++) { head += ' '; string w = v[i]; size_t p = w.rfind('/'); head += p == string::npos ? w : w.substr(p + 1); }
  out += head + "\n# FromNodeId\tToNodeId\n";
  if (raw && kind != "insertonly" && kind != "window") for (auto& p : lines) edge(p.first, p.second); else for (u64 x : start) edge(x >> 32, (u32)x);
  if (kind == "random" || kind == "mixed") { Set s; vector<vector<u32>> adj; for (u64 x : start) s.add(x); bool tri = kind == "mixed"; if (tri) { adj.resize(n); for (u64 x : start) { adj[x >> 32].push_back((u32)x); adj[(u32)x].push_back(x >> 32); } }
    for (u64 b = 0; b < B; b++) { batch(); unordered_set<u64> named; u64 tries = 0; for (u64 i = 0; i < S && tries < 100 * S; tries++) {
      if (r.below(2) == 0) { if (s.list.empty()) continue; u64 x = s.list[r.below(s.list.size())]; if (!named.insert(x).second) continue; s.del(x); up('-', x); i++; }
      else { u32 a = r.below(n), d = r.below(n); if (tri && !adj[a].empty()) { u32 m = adj[a][r.below(adj[a].size())]; if (!adj[m].empty()) d = adj[m][r.below(adj[m].size())]; } u64 x = key(a, d); if (a == d || s.has(x) || !named.insert(x).second) continue; s.add(x); up('+', x); i++; } } } }
  else if (kind == "takeback") { vector<u64> x = e; shuffle(x); size_t t = min<u64>(B * S, x.size()); for (int w = 0; w < 2; w++) for (size_t i = 0; i < t; i++) { if (i % S == 0) batch(); up(w ? '+' : '-', x[i]); } }
  else if (kind == "insertonly") { for (size_t i = 0; i < held.size(); i++) { if (i % S == 0) batch(); up('+', held[i]); } }
  else if (kind == "window") { size_t old = 0; for (size_t i = 0; i < held.size(); i += S) { batch(); for (size_t j = i; j < min<size_t>(i + S, held.size()); j++) { if (old < start.size()) up('-', start[old++]); up('+', held[j]); } } }
  else if (kind == "cycle") { for (u64 b = 0; b < B; b++) { batch(); up(b % 2 ? '-' : '+', 0, n - 1); } }
  else if (kind == "flip") { for (u64 b = 0; b < B; b++) { batch(); up(b % 2 ? '-' : '+', (b / 2) % 2 ? n - 1 : 0, n + n / 2 + 1); } }
  else if (kind == "toggle") { bool there = seen.count(key(S, U(3))); for (u64 b = 0; b < B; b++) { batch(); up(there ? '-' : '+', S, U(3)); there = !there; } }
  else if (kind == "hub") { vector<u32> in; for (u64 b = 0; b < B; b++) { batch(); if (b % 2 == 0) { in.clear(); unordered_set<u32> d; while (in.size() < min<u64>(S, n - 1)) { u32 a = 1 + r.below(n - 1); if (seen.count(key(0, a)) && d.insert(a).second) in.push_back(a); } } for (u32 a : in) up(b % 2 ? '+' : '-', 0, a); } }
  else if (kind == "ladder") { for (u64 b = 0; b < B; b++) { batch(); u64 i = b % (2 * (u64)(n - 2)); if (i < n - 2) up('+', i, i + 2); else up('-', 2 * (u64)(n - 2) - 1 - i, 2 * (u64)(n - 2) + 1 - i); } }
  else if (!kind.empty()) { fputs("unknown updates\n", stderr); return 2; }
  fprintf(stderr, "n=%u edges=%zu batches=%llu updates=%llu bytes=%zu\n", n, start.size(), (unsigned long long)batches, (unsigned long long)updates, out.size());
  if (!getenv("GEN_ANY_SIZE") && (out.size() > 67108864 || updates > 1048576 || batches > 4096)) { fputs("beyond the input limits of kcore; GEN_ANY_SIZE=1 writes it for others\n", stderr); return 3; }
  fwrite(out.data(), 1, out.size(), stdout); return 0; }
