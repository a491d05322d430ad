// The peer of `bench_parts factors`: the factors of the same matrices by the same method (lu.hh). Last it prints how many stored entries its solves and updates met.
#include <cstdio>
#include <cstring>
#include <initializer_list>
#include <utility>
#include <vector>

#include "lu.hh"

static Frac whole(i128 numer) { return Frac{numer, 1}; }

// ---- what is drawn

struct Draws {
  u64 state = 20260701;

  u64 word() {
    state = state * 6364136223846793005u + 1442695040888963407u;
    return state ^ (state >> 32);
  }

  int below(int bound) { return int(word() % u64(bound)); }
};

constexpr int PERIOD = 50;

enum Shape { DRAWN, STAIR, TRANSPORT };

struct Drawing {
  Draws draws;
  Shape shape;
  int size;

  void put(Vector& items, int row, Frac value) {
    if (row < size && items[row].zero()) items[row] = value;
  }

  // -1, 0 or 1
  Frac sign() { return whole(draws.below(3) - 1); }

  // 3 in row r, and up to two of 1 or -1
  void sparse(Vector& items, int r) {
    bool stair = shape == STAIR;
    int first = stair ? r / PERIOD * PERIOD : 0, second = stair ? first + PERIOD : 0, wide = stair ? PERIOD : size + 1;
    put(items, r, whole(3));
    int row = first + draws.below(wide);
    put(items, row, sign());
    int other = second + draws.below(wide);
    put(items, other, sign());
  }

  void arc(Vector& items, int source, int sink) {
    put(items, source, whole(1));
    put(items, size / 2 + sink, whole(1));
  }

  // the arc by which node c joins the tree
  void joining(Vector& items, int c) {
    if (c == 0) put(items, 0, whole(1));
    else if (c % 2 == 1) arc(items, draws.below(c / 2 + 1), c / 2);
    else arc(items, c / 2, draws.below(c / 2));
  }

  Vector basic(int c) {
    Vector items(size);
    if (shape == TRANSPORT) joining(items, c);
    else if (c % 2 == 0) put(items, c, whole(1));
    else sparse(items, c);
    return items;
  }

  // a column that may enter, with the row that it is drawn for
  std::pair<int, Vector> entering() {
    Vector items(size);
    int row = draws.below(size / 2 + 1) * 2 + 1;
    if (shape == TRANSPORT) arc(items, row / 2, draws.below(size / 2 + 1));
    else sparse(items, row);
    return {row, items};
  }

  Vector costs() {
    Vector items(size);
    for (Frac& item : items) {
      int drawn = draws.below(10);
      item = whole(drawn < 5 ? 0 : drawn);
    }
    return items;
  }
};

static Sparse column_of(const Vector& items) {
  Sparse column;
  for (int i = 0; i < int(items.size()); i++)
    if (!items[i].zero()) column.push_back({i, items[i]});
  return column;
}

struct Checksum {
  u64 sum = 0xcbf29ce484222325;

  void fold_word(u64 word) { sum = (sum ^ word) * 0x100000001b3; }

  void fold(const Vector& items) {
    for (Frac item : items) {
      fold_word(item.negative());
      fold_word(item.size());
      fold_word(item.denom);
    }
  }
};

// ---- the works

enum Work { LOAD, FACTOR, FTRAN, BTRAN, UPDATE, LATE_FTRAN, LATE_BTRAN };

struct Run {
  int size, times;
  std::vector<Sparse> basis;
  std::vector<std::pair<int, Sparse>> entering;
  std::vector<Vector> costs;
  Vector spike, out, work;
  Checksum checksum;

  Run(Shape shape, int size, int times) : size(size), times(times), spike(size), out(size), work(size) {
    Drawing drawing{{}, shape, size};
    for (int c = 0; c < size; c++) basis.push_back(column_of(drawing.basic(c)));
    for (int k = 0; k < 64; k++) {
      auto [row, items] = drawing.entering();
      entering.push_back({row, column_of(items)});
    }
    for (int k = 0; k < 64; k++) costs.push_back(drawing.costs());
  }

  void solve(const Factors& factors, bool for_rows, int rounds) {
    for (int k = 0; k < 64; k++) {
      for (int round = 0; round < rounds; round++) {
        if (for_rows) factors.btran(costs[k], out);
        else factors.ftran(entering[k].second, spike, out, work);
      }
      checksum.fold(out);
    }
  }

  // the first position of x that is not 0, from the row's on, and then from the first on
  int leaving(int row) const {
    for (int p = row; p < size; p++)
      if (!out[p].zero()) return p;
    for (int p = 0; p < size; p++)
      if (!out[p].zero()) return p;
    return -1;
  }

  int exchange(Factors& factors, int rounds) {
    int updates = 0;
    for (int k = 0; k < 64; k++) {
      for (int round = 0; round < rounds; round++) factors.ftran(entering[k].second, spike, out, work);
      int p = leaving(entering[k].first);
      if (p >= 0) {
        factors.ftran(entering[k].second, spike, out, work);
        factors.update(p, spike);
        updates++;
      }
      checksum.fold(out);
    }
    return updates;
  }

  int run(Work what) {
    if (what == LOAD) return 0;
    for (int round = 1; what == FACTOR && round < times; round++) Factors again(basis);
    Factors factors(basis);
    int updates = 0;
    if (what >= UPDATE) updates = exchange(factors, what == UPDATE ? times : 1);
    met = 0;
    if (what == FTRAN || what == LATE_FTRAN) solve(factors, false, times);
    if (what == BTRAN || what == LATE_BTRAN) solve(factors, true, times);
    if (what == FACTOR) solve(factors, true, 1);
    return updates;
  }
};

static int place(const char* word, std::initializer_list<const char*> words) {
  int index = 0;
  for (const char* each : words) {
    if (std::strcmp(word, each) == 0) return index;
    index++;
  }
  return -1;
}

int main(int count, char** words) {
  int what = count == 5 ? place(words[1], {"load", "factor", "ftran", "btran", "update", "late_ftran", "late_btran"}) : -1;
  int shape = count == 5 ? place(words[2], {"drawn", "stair", "transport"}) : -1;
  if (what < 0 || shape < 0) {
    std::fputs("usage: factors_peer load|factor|ftran|btran|update|late_ftran|late_btran drawn|stair|transport SIZE TIMES\n", stderr);
    return 2;
  }
  Run run(Shape(shape), std::atoi(words[3]), std::atoi(words[4]));
  int updates = run.run(Work(what));
  std::printf("%d updates, checksum %016llx\n", updates, (unsigned long long)run.checksum.sum);
  std::fprintf(stderr, "met %llu\n", (unsigned long long)met);
}
