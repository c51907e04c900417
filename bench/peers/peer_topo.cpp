// A topological order that stays right while arcs are added, by Pearce and Kelly (2006) on plain arrays, in one thread and without proofs.
// Draws the arcs of an acyclic graph as bench_topo does, adds them, and writes how many were added, were there, and how many vertices moved.
// usage: peer_topo VERTICES ARCS [SEED]    build: g++ -O2 -std=c++17 peer_topo.cpp -o peer_topo
#include <algorithm>
#include <chrono>
#include <cstdint>
#include <cstdio>
#include <cstdlib>
#include <vector>
typedef uint32_t u32; typedef uint64_t u64;
struct Draws { u64 s; u32 below(u32 m) { s += 0x9e3779b97f4a7c15ull; u64 z = s; z = (z ^ (z >> 30)) * 0xbf58476d1ce4e5b9ull; z = (z ^ (z >> 27)) * 0x94d049bb133111ebull; return (u32)((z ^ (z >> 31)) % m); } };
int main(int c, char** v) {
  u32 n = c > 1 ? atoi(v[1]) : 100000, m = c > 2 ? atoi(v[2]) : 100000; Draws d{c > 3 ? (u64)atoll(v[3]) : 1};
  std::vector<u32> hidden(n); for (u32 i = 0; i < n; i++) hidden[i] = i;
  for (u32 i = 0; i < n; i++) std::swap(hidden[d.below(i + 1)], hidden[i]);
  std::vector<std::pair<u32, u32>> arcs; for (u32 i = 0; i < m; i++) { u32 x = d.below(n), y = d.below(n); if (x != y) arcs.push_back({hidden[std::min(x, y)], hidden[std::max(x, y)]}); }
  std::vector<std::vector<u32>> out(n), in(n); std::vector<u32> place(n), at(n); for (u32 i = 0; i < n; i++) place[i] = at[i] = i;
  std::vector<char> seen(n); std::vector<u32> fwd, bwd, stack, places; u64 added = 0, there = 0, moved = 0;
  auto t = std::chrono::steady_clock::now();
  for (auto& e : arcs) { u32 a = e.first, b = e.second;
    if (std::find(out[a].begin(), out[a].end(), b) != out[a].end()) { there++; continue; }
    if (place[b] < place[a]) { fwd.clear(); bwd.clear();
      stack = {b}; seen[b] = 1; while (!stack.empty()) { u32 x = stack.back(); stack.pop_back(); fwd.push_back(x); for (u32 y : out[x]) { if (y == a) { fprintf(stderr, "cycle\n"); return 1; } if (!seen[y] && place[y] < place[a]) { seen[y] = 1; stack.push_back(y); } } }
      stack = {a}; seen[a] = 1; while (!stack.empty()) { u32 x = stack.back(); stack.pop_back(); bwd.push_back(x); for (u32 y : in[x]) if (!seen[y] && place[y] > place[b]) { seen[y] = 1; stack.push_back(y); } }
      auto by = [&](u32 x, u32 y) { return place[x] < place[y]; }; std::sort(fwd.begin(), fwd.end(), by); std::sort(bwd.begin(), bwd.end(), by);
      places.clear(); for (u32 x : bwd) places.push_back(place[x]); for (u32 x : fwd) places.push_back(place[x]); std::sort(places.begin(), places.end());
      size_t k = 0; for (u32 x : bwd) { seen[x] = 0; place[x] = places[k]; at[places[k++]] = x; } for (u32 x : fwd) { seen[x] = 0; place[x] = places[k]; at[places[k++]] = x; }
      moved += fwd.size() + bwd.size(); }
    out[a].push_back(b); in[b].push_back(a); added++; }
  double ms = std::chrono::duration<double, std::milli>(std::chrono::steady_clock::now() - t).count();
  printf("arcs added: %llu, there already: %llu, %.2f ms; vertices moved: %llu\n", (unsigned long long)added, (unsigned long long)there, ms, (unsigned long long)moved); return 0; }
