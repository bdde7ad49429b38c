// Finds, for each class of functions of four inputs (NPN), majorities of the fewest and of the least depth, and prints
// them as words: a letter for each literal ('a' is the false constant, 'b' its complement, 'c' the first input ..),
// three for each majority and one for the result. It tries all lists of up to six majorities; the one class that needs
// seven gets none.
//
//   g++ -O2 -o recipes bench/recipes.cpp && ./recipes 6
#include <algorithm>
#include <cstdint>
#include <cstdio>
#include <cstdlib>
#include <cstring>
#include <vector>
using namespace std;
typedef uint16_t Table;

struct Recipe {
  int size = 99, depth = 99;
  int steps[8][3];
};

static int class_of[65536], size_now, steps[8][3], depth[16], uses[16];
static Table table[16];
static vector<Recipe> smallest, lowest;

static Table image(Table f, const int *order, int turned, bool flip) {
  Table g = 0;
  for (int row = 0; row < 16; row++) {
    int from = 0;
    for (int k = 0; k < 4; k++) from |= (((row >> order[k]) ^ (turned >> k)) & 1) << k;
    if ((f >> from) & 1) g |= 1 << row;
  }
  return flip ? ~g : g;
}

static int make_classes() {
  int count = 0;
  memset(class_of, -1, sizeof class_of);
  for (int f = 0; f < 65536; f++) {
    if (class_of[f] >= 0) continue;
    int order[4] = {0, 1, 2, 3};
    do
      for (int turned = 0; turned < 16; turned++)
        for (int flip = 0; flip < 2; flip++) class_of[image(f, order, turned, flip)] = count;
    while (next_permutation(order, order + 4));
    count++;
  }
  return count;
}

static void offer(Table f, int level) {
  auto keep = [&](Recipe &to) {
    to.size = size_now;
    to.depth = level;
    memcpy(to.steps, steps, sizeof steps);
  };
  Recipe &a = smallest[class_of[f]], &b = lowest[class_of[f]];
  if (size_now < a.size || (size_now == a.size && level < a.depth)) keep(a);
  if (level < b.depth || (level == b.depth && size_now < b.size)) keep(b);
}

// Steps that don't use the one before them come in rising order, so that each set of steps is tried once.
static bool is_in_order(int placed, int x, int y, int z) {
  if (placed == 0 || z == 4 + placed) return true;
  int now[3] = {z, y, x}, *p = steps[placed - 1], before[3] = {p[2] / 2, p[1] / 2, p[0] / 2};
  return !lexicographical_compare(now, now + 3, before, before + 3);
}

static void extend(int placed) {
  int count = 5 + placed, left = size_now - placed, idle = 0;
  for (int i = 5; i < count; i++) idle += uses[i] == 0;
  if (idle > 1 + 2 * left) return;
  if (left == 0) return offer(table[count - 1], depth[count - 1]);
  for (int z = 2; z < count; z++)
    for (int y = 1; y < z; y++)
      for (int x = 0; x < y; x++) {
        if (!is_in_order(placed, x, y, z)) continue;
        if (placed == 0 && !(z == y + 1 && y == x + 1 && x < 2)) continue;
        // one operand at most is complemented, up to a complement of the result; the first step needs none
        for (int sign = 0; sign < (placed == 0 ? 1 : 4); sign++) {
          Table a = sign == 1 ? ~table[x] : table[x], b = sign == 2 ? ~table[y] : table[y];
          Table c = sign == 3 ? ~table[z] : table[z], f = (a & b) | (a & c) | (b & c);
          bool known = false;
          for (int i = 0; i < count; i++) known |= table[i] == f || table[i] == (Table)~f;
          if (known) continue;
          int step[3] = {2 * x + (sign == 1), 2 * y + (sign == 2), 2 * z + (sign == 3)};
          memcpy(steps[placed], step, sizeof step);
          table[count] = f;
          depth[count] = 1 + max(depth[x], max(depth[y], depth[z]));
          uses[count] = 0;
          uses[x]++, uses[y]++, uses[z]++;
          extend(placed + 1);
          uses[x]--, uses[y]--, uses[z]--;
        }
      }
}

static void print(const Recipe &r) {
  for (int i = 0; i < r.size; i++)
    for (int literal : r.steps[i]) putchar('a' + literal);
  printf("%c\n", 'a' + 2 * (4 + r.size));
}

int main(int count, char **words) {
  int classes = make_classes(), most = count > 1 ? atoi(words[1]) : 6;
  smallest.resize(classes), lowest.resize(classes);
  const Table first[5] = {0, 0xAAAA, 0xCCCC, 0xF0F0, 0xFF00};
  memcpy(table, first, sizeof first);
  for (size_now = 1; size_now <= most; size_now++) extend(0);
  for (int c = 0; c < classes; c++) {
    if (c == class_of[0] || c == class_of[0xAAAA] || smallest[c].size > most) continue;
    print(smallest[c]);
    if (lowest[c].depth < smallest[c].depth) print(lowest[c]);
  }
}
