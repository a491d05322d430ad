// Factors of a basis over plain vectors: Gaussian elimination by the pivots of least Markowitz cost (then least row, then least column) over linked entries, with
// the lines in buckets by their counts; the update of Forrest and Tomlin; columns of the triangular form by position, their diagonals apart.
#pragma once
#include <algorithm>
#include <set>
#include <utility>
#include <vector>

#include "frac.hh"

using Sparse = std::vector<std::pair<int, Frac>>;  // row and entry, in rising rows
using Vector = std::vector<Frac>;

// how many stored entries the solves and updates have met
inline u64 met = 0;

// ---- the active part

struct Entry {
  int row, column;
  Frac value;
  int next[2], prev[2];  // in its row, and in its column
};

// lines of one direction in lists, by their counts
struct Buckets {
  std::vector<int> first, next, prev;

  explicit Buckets(int size) : first(size + 1, -1), next(size, -1), prev(size, -1) {}

  void put(int line, int count) {
    next[line] = first[count];
    prev[line] = -1;
    if (first[count] >= 0) prev[first[count]] = line;
    first[count] = line;
  }

  void take(int line, int count) {
    if (prev[line] >= 0) next[prev[line]] = next[line];
    else first[count] = next[line];
    if (next[line] >= 0) prev[next[line]] = prev[line];
  }
};

enum { ROW, COLUMN };

struct Active {
  std::vector<Entry> entries;
  std::vector<int> unused;
  std::vector<int> first[2], last[2], count[2];
  Buckets buckets[2];
  std::set<int> single_rows;                   // with one entry
  std::set<std::pair<int, int>> lone_columns;  // with one entry: its row, and the column

  explicit Active(int size) : buckets{Buckets(size), Buckets(size)} {
    for (int side : {ROW, COLUMN}) {
      first[side].assign(size, -1);
      last[side].assign(size, -1);
      count[side].assign(size, 0);
      for (int line = 0; line < size; line++) buckets[side].put(line, 0);
    }
  }

  int line_of(const Entry& entry, int side) const { return side == ROW ? entry.row : entry.column; }

  void mark(int row, int column, bool is) {
    if (count[ROW][row] == 1) is ? void(single_rows.insert(row)) : void(single_rows.erase(row));
    if (count[COLUMN][column] == 1) {
      std::pair<int, int> lone{entries[first[COLUMN][column]].row, column};
      is ? void(lone_columns.insert(lone)) : void(lone_columns.erase(lone));
    }
  }

  void recount(int side, int line, int more) {
    buckets[side].take(line, count[side][line]);
    count[side][line] += more;
    buckets[side].put(line, count[side][line]);
  }

  void link(int link, int side) {
    Entry& entry = entries[link];
    int line = line_of(entry, side);
    entry.prev[side] = last[side][line];
    entry.next[side] = -1;
    if (last[side][line] >= 0) entries[last[side][line]].next[side] = link;
    else first[side][line] = link;
    last[side][line] = link;
    recount(side, line, 1);
  }

  void unlink(int link, int side) {
    Entry& entry = entries[link];
    int line = line_of(entry, side);
    if (entry.prev[side] >= 0) entries[entry.prev[side]].next[side] = entry.next[side];
    else first[side][line] = entry.next[side];
    if (entry.next[side] >= 0) entries[entry.next[side]].prev[side] = entry.prev[side];
    else last[side][line] = entry.prev[side];
    recount(side, line, -1);
  }

  void fill(int row, int column, Frac value) {
    mark(row, column, false);
    int at;
    if (unused.empty()) {
      at = int(entries.size());
      entries.push_back({});
    } else {
      at = unused.back();
      unused.pop_back();
    }
    entries[at].row = row;
    entries[at].column = column;
    entries[at].value = value;
    link(at, ROW);
    link(at, COLUMN);
    mark(row, column, true);
  }

  void cancel(int at) {
    int row = entries[at].row, column = entries[at].column;
    mark(row, column, false);
    unlink(at, ROW);
    unlink(at, COLUMN);
    unused.push_back(at);
    mark(row, column, true);
  }

  // with its entries
  void remove(int side, int line) {
    while (first[side][line] >= 0) cancel(first[side][line]);
    buckets[side].take(line, 0);
  }

  u64 cost(int at) const { return u64(count[ROW][entries[at].row] - 1) * u64(count[COLUMN][entries[at].column] - 1); }

  bool is_better(int at, int best) const {
    u64 a = cost(at), b = cost(best);
    if (a != b) return a < b;
    const Entry &p = entries[at], &q = entries[best];
    return p.row != q.row ? p.row < q.row : p.column < q.column;
  }

  // the entry of least cost, then least row, then least column; -1 where there is none
  int least() const {
    int lone = lone_columns.empty() ? -1 : lone_columns.begin()->first;
    if (!single_rows.empty() && (lone < 0 || *single_rows.begin() <= lone)) return first[ROW][*single_rows.begin()];
    if (lone >= 0) return first[COLUMN][lone_columns.begin()->second];
    int best = -1;
    for (int lines = 1; lines < int(buckets[ROW].first.size()); lines++) {
      for (int side : {ROW, COLUMN})
        for (int line = buckets[side].first[lines]; line >= 0; line = buckets[side].next[line])
          for (int at = first[side][line]; at >= 0; at = entries[at].next[side])
            if (best < 0 || is_better(at, best)) best = at;
      if (best >= 0 && cost(best) < u64(lines) * u64(lines)) break;
    }
    return best;
  }
};

// ---- factors

struct Op {
  bool by_column;  // takes k_i times item p from each item i; else takes the sum of k_i times item i from item p
  int at;
  Sparse entries;
};

inline void subtract(const Sparse& column, Frac x, Vector& v) {
  if (x.zero()) return;
  for (const auto& [i, e] : column) v[i] = v[i] - e * x;
  met += column.size();
}

inline Frac gather(const Sparse& column, Frac rest, const Vector& v) {
  for (const auto& [i, e] : column)
    if (!v[i].zero()) rest = rest - e * v[i];
  met += column.size();
  return rest;
}

inline void operate(const Op& op, bool by_column, Vector& v) {
  if (by_column) subtract(op.entries, v[op.at], v);
  else v[op.at] = gather(op.entries, v[op.at], v);
}

struct Factors {
  int size;
  std::vector<Op> ops;
  std::vector<Sparse> columns;  // by position, without the diagonals
  Vector diagonals;
  std::vector<int> rows;
  std::vector<int> next, prev;  // the order, a ring through `size`

  explicit Factors(const std::vector<Sparse>& basis) : size(int(basis.size())), columns(size), diagonals(size), rows(size), next(size + 1), prev(size + 1) {
    next[size] = prev[size] = size;
    Active active(size);
    for (int c = 0; c < size; c++)
      for (const auto& [r, e] : basis[c]) active.fill(r, c, e);
    std::vector<int> link_of(size, -1);
    for (int at = active.least(); at >= 0; at = active.least()) pivot(active, at, link_of);
    for (Sparse& column : columns) sort(column);
  }

  static void sort(Sparse& column) {
    std::sort(column.begin(), column.end(), [](const auto& a, const auto& b) { return a.first < b.first; });
  }

  void append(int p) {
    next[prev[size]] = p;
    prev[p] = prev[size];
    next[p] = size;
    prev[size] = p;
  }

  void pivot(Active& active, int at, std::vector<int>& link_of) {
    int r = active.entries[at].row, c = active.entries[at].column;
    Frac value = active.entries[at].value;
    active.cancel(at);
    Sparse in_row, in_column;
    for (int link = active.first[ROW][r]; link >= 0; link = active.entries[link].next[ROW])
      in_row.push_back({active.entries[link].column, active.entries[link].value});
    for (int link = active.first[COLUMN][c]; link >= 0; link = active.entries[link].next[COLUMN])
      in_column.push_back({active.entries[link].row, active.entries[link].value});
    active.remove(ROW, r);
    active.remove(COLUMN, c);
    Op op{true, r, {}};
    for (const auto& [i, entry] : in_column) {
      Frac k = entry / value;
      op.entries.push_back({i, k});
      for (int link = active.first[ROW][i]; link >= 0; link = active.entries[link].next[ROW]) link_of[active.entries[link].column] = link;
      for (const auto& [p, u] : in_row) less(active, i, p, link_of[p], k * u);
      for (int link = active.first[ROW][i]; link >= 0; link = active.entries[link].next[ROW]) link_of[active.entries[link].column] = -1;
      for (const auto& [p, u] : in_row) link_of[p] = -1;
    }
    sort(op.entries);
    ops.push_back(std::move(op));
    for (const auto& [p, u] : in_row) columns[p].push_back({r, u});
    diagonals[c] = value;
    rows[c] = r;
    append(c);
  }

  static void less(Active& active, int i, int p, int link, Frac product) {
    if (link < 0) return active.fill(i, p, -product);
    Frac rest = active.entries[link].value - product;
    if (rest.zero()) active.cancel(link);
    else active.entries[link].value = rest;
  }

  // the solution of B·x = a in `out`, the spike in `spike`
  void ftran(const Sparse& a, Vector& spike, Vector& out, Vector& work) const {
    std::fill(spike.begin(), spike.end(), Frac{});
    for (const auto& [i, e] : a) spike[i] = e;
    for (const Op& op : ops) operate(op, op.by_column, spike);
    work = spike;
    for (int p = prev[size]; p != size; p = prev[p]) {
      Frac item = work[rows[p]];
      out[p] = item.zero() ? item : item / diagonals[p];
      subtract(columns[p], out[p], work);
    }
  }

  // the solution of y·B = c in `out`
  void btran(const Vector& c, Vector& out) const {
    std::fill(out.begin(), out.end(), Frac{});
    for (int p = next[size]; p != size; p = next[p]) {
      Frac rest = gather(columns[p], c[p], out);
      if (!rest.zero()) out[rows[p]] = rest / diagonals[p];
    }
    for (auto op = ops.rbegin(); op != ops.rend(); ++op) operate(*op, !op->by_column, out);
  }

  void update(int p, const Vector& spike) {
    int row = rows[p];
    Vector k(size);
    Op op{false, row, {}};
    Frac diagonal = spike[row];
    for (int s = next[p]; s != size; s = next[s]) {
      Frac rest;
      auto entry = std::lower_bound(columns[s].begin(), columns[s].end(), row, [](const auto& pair, int i) { return pair.first < i; });
      if (entry != columns[s].end() && entry->first == row) {
        rest = entry->second;
        columns[s].erase(entry);
      }
      rest = gather(columns[s], rest, k);
      if (rest.zero()) continue;
      Frac& taken = k[rows[s]] = rest / diagonals[s];
      op.entries.push_back({rows[s], taken});
      diagonal = diagonal - taken * spike[rows[s]];
    }
    sort(op.entries);
    ops.push_back(std::move(op));
    columns[p].clear();
    for (int i = 0; i < size; i++)
      if (i != row && !spike[i].zero()) columns[p].push_back({i, spike[i]});
    diagonals[p] = diagonal;
    next[prev[p]] = next[p];
    prev[next[p]] = prev[p];
    append(p);
  }
};
