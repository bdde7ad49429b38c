// Finds forms of ands for each class of functions of four inputs (NPN) and prints them as words: a letter for each
// literal ('a' is the false constant, 'b' its complement, 'c' the first input ..), three for each step, the first of
// them 'a', and one for the result. All nodes of up to four ands are joined, by an and or by an exclusive or of three
// ands. Forms of up to two ands more than the fewest are kept, since they may share nodes with others; one of ten ands
// at most. Of the first forty of each class, crates/mig_cuts/src/and_lines.rt has those that were used three times or
// more over 45 netlists.
//
//   g++ -O2 -o and_recipes bench/and_recipes.cpp && ./and_recipes
#include <algorithm>
#include <cstdint>
#include <cstdio>
#include <cstring>
#include <map>
#include <set>
#include <string>
#include <vector>
using namespace std;
typedef uint16_t Table;

struct And {
  Table table;
  int x, y, depth;
  vector<int> cone;  // the ands that it needs, itself the last one
};
struct Form {
  int size, depth;
  string word;
};

const int BLOCKS = 4, LONGEST = 10, MORE = 2, LOWER = 60;
// How many nodes of one function are kept, by how many ands they take.
static const int KEPT[] = {1, 1, 4, 6, 4};

static vector<And> nodes;
static vector<int> blocks;
static int class_of[65536], least[222], fewest[65536], kept[65536];
static vector<Form> forms[222];
static set<string> seen[222];

static Table image(Table f, const int *order, int turned, bool flip) {
  Table g = 0;
  for (int row = 0; row < 16; row++) {
    int from = 0;
    for (int k = 0; k < 4; k++) from |= (((row >> order[k]) ^ (turned >> k)) & 1) << k;
    if ((f >> from) & 1) g |= 1 << row;
  }
  return flip ? ~g : g;
}

static int make_classes() {
  int count = 0;
  memset(class_of, -1, sizeof class_of);
  for (int f = 0; f < 65536; f++) {
    if (class_of[f] >= 0) continue;
    int order[4] = {0, 1, 2, 3};
    do
      for (int turned = 0; turned < 16; turned++)
        for (int flip = 0; flip < 2; flip++) class_of[image(f, order, turned, flip)] = count;
    while (next_permutation(order, order + 4));
    count++;
  }
  return count;
}

// A function and its complement have one key.
static Table key(Table t) { return t & 1 ? (Table)~t : t; }
static Table of(int literal) { return literal & 1 ? (Table)~nodes[literal / 2].table : nodes[literal / 2].table; }

static vector<int> joined(const And &x, const And &y) {
  vector<int> both;
  set_union(x.cone.begin(), x.cone.end(), y.cone.begin(), y.cone.end(), back_inserter(both));
  return both;
}

// The word of the ands of a cone and of further ones, whose nodes are those past the last one.
static string word(const vector<int> &cone, const vector<pair<int, int>> &more, int out) {
  map<int, int> number;
  for (int k = 0; k < 5; k++) number[k] = k;
  string said;
  auto letter = [&](int literal) { return (char)('a' + 2 * number[literal / 2] + (literal & 1)); };
  auto step = [&](int node, int x, int y) {
    said += 'a';
    said += letter(x);
    said += letter(y);
    int next = number.size();
    number[node] = next;
  };
  for (int node : cone) step(node, nodes[node].x, nodes[node].y);
  for (size_t k = 0; k < more.size(); k++) step(nodes.size() + k, more[k].first, more[k].second);
  return said + letter(out);
}

static void offer(Table t, int size, int depth, const vector<int> &cone, const vector<pair<int, int>> &more, int out) {
  int c = class_of[t], lower = 0;
  if (size > least[c] + MORE) return;
  for (auto &form : forms[c]) lower += form.size <= size && form.depth <= depth;
  if (lower >= LOWER) return;
  string said = word(cone, more, out);
  if (!seen[c].insert(said).second) return;
  least[c] = min(least[c], size);
  forms[c].push_back({size, depth, said});
}

static void make_nodes(int size) {
  int known = blocks.size();
  for (int i = 0; i < known; i++)
    for (int j = 0; j < i; j++)
      for (int signs = 0; signs < 4; signs++) {
        int x = 2 * blocks[i] + (signs & 1), y = 2 * blocks[j] + (signs >> 1);
        Table t = of(x) & of(y), k = key(t);
        if (fewest[k] < size || kept[k] >= KEPT[size]) continue;
        And a = nodes[x / 2], b = nodes[y / 2];
        vector<int> cone = joined(a, b);
        if ((int)cone.size() + 1 != size) break;
        int node = nodes.size(), depth = 1 + max(a.depth, b.depth);
        cone.push_back(node);
        fewest[k] = size;
        kept[k]++;
        nodes.push_back({t, x, y, depth, cone});
        blocks.push_back(node);
        offer(t, size, depth, cone, {}, 2 * node);
      }
}

static void join(int i, int j) {
  const And &a = nodes[i], &b = nodes[j];
  vector<int> cone = joined(a, b);
  int depth = max(a.depth, b.depth), next = nodes.size(), size = cone.size();
  for (int signs = 0; signs < 4; signs++) {
    int x = 2 * i + (signs & 1), y = 2 * j + (signs >> 1);
    Table t = of(x) & of(y);
    if (key(t)) offer(t, size + 1, depth + 1, cone, {{x, y}}, 2 * next);
  }
  Table t = a.table ^ b.table;
  if (key(t))
    offer(t, size + 3, depth + 2, cone, {{2 * i, 2 * j}, {2 * i + 1, 2 * j + 1}, {2 * next + 1, 2 * next + 3}},
          2 * (next + 2));
}

int main() {
  int classes = make_classes();
  fill(fewest, fewest + 65536, 99);
  fill(least, least + classes, 99);
  const Table inputs[] = {0xAAAA, 0xCCCC, 0xF0F0, 0xFF00};
  nodes.push_back({0, 0, 0, 0, {}});
  fewest[0] = 0;
  for (int k = 0; k < 4; k++) {
    nodes.push_back({inputs[k], 0, 0, 0, {}});
    fewest[key(inputs[k])] = 0;
    blocks.push_back(k + 1);
  }
  offer(0, 0, 0, {}, {}, 0);
  offer(inputs[0], 0, 0, {}, {}, 2);
  for (int size = 1; size <= BLOCKS; size++) make_nodes(size);
  for (size_t i = 0; i < blocks.size(); i++)
    for (size_t j = 0; j < i; j++) join(blocks[i], blocks[j]);
  for (int c = 0; c < classes; c++) {
    stable_sort(forms[c].begin(), forms[c].end(), [](const Form &a, const Form &b) {
      return a.size != b.size ? a.size < b.size : a.depth < b.depth;
    });
    for (auto &form : forms[c])
      if (form.size <= least[c] + MORE && form.size <= LONGEST) puts(form.word.c_str());
  }
}
