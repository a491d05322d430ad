// The peer of `lp`: the same run on a plain table, in C++. It reads a deck in fixed MPS (names without blanks, and no faults) and prints the report that
// `lp solve` prints; with the word `moves` the number of moves on standard error.
// The method: two phases over structurals, logicals and artificials, bounds, Bland's rule, and a table of m rows and n + 2m columns that is changed in place.
#include <cstdio>
#include <cstring>
#include <iostream>
#include <vector>

#include "deck.hh"

struct Table {
  const Deck& deck;
  int m, n, all, phase = 2;
  u64 moves = 0;
  std::vector<End> lower, upper;
  std::vector<std::vector<Frac>> rows;
  std::vector<Frac> values, costs;
  std::vector<int> basis;
  std::vector<Status> status;
  std::vector<bool> needed;

  explicit Table(const Deck& d) : deck(d), m(int(d.rows.size())), n(int(d.columns.size())), all(n + 2 * m) {
    lower.resize(all);
    upper.resize(all);
    status.assign(all, LOWER);
    needed.assign(m, false);
    basis.resize(m);
    values.resize(m);
    rows.assign(m, std::vector<Frac>(all));
    for (int j = 0; j < n; j++) start_structural(j);
    for (int i = 0; i < m; i++) start_row(i);
    work_costs();
  }

  void start_structural(int j) {
    lower[j] = deck.columns[j].lower;
    upper[j] = deck.columns[j].upper;
    status[j] = lower[j].finite ? LOWER : upper[j].finite ? UPPER : ZERO;
    Frac rest = at_rest(j);
    for (auto& [i, a] : deck.columns[j].entries) {
      rows[i][j] = a;
      if (!rest.zero()) values[i] = values[i] - a * rest;
    }
  }

  void bound_logical(int i) {
    const Row& row = deck.rows[i];
    Frac size = row.range.negative() ? -row.range : row.range, zero;
    End& low = lower[n + i];
    End& up = upper[n + i];
    if (row.kind != 'G') low = End{true, zero};
    if (row.kind != 'L') up = End{true, zero};
    if (!row.ranged) return;
    if (row.kind == 'L' || (row.kind == 'E' && row.range.negative())) up = End{true, size};
    if (row.kind == 'G' || (row.kind == 'E' && !row.range.negative())) low = End{true, -size};
  }

  void start_row(int i) {
    bound_logical(i);
    int logical = n + i, artificial = n + m + i;
    Frac rest = deck.rows[i].right + values[i];
    bool below = lower[logical].finite && rest < lower[logical].at, above = upper[logical].finite && upper[logical].at < rest;
    lower[artificial] = upper[artificial] = End{true, Frac{}};
    rows[i][logical] = Frac{1, 1};
    rows[i][artificial] = Frac{1, 1};
    status[logical] = status[artificial] = LOWER;
    basis[i] = logical;
    values[i] = rest;
    if (below || above) {
      phase = 1;
      needed[i] = true;
      upper[artificial].finite = false;
      status[logical] = below ? LOWER : UPPER;
      basis[i] = artificial;
      values[i] = below ? lower[logical].at - rest : rest - upper[logical].at;
      if (below)
        for (int j = 0; j < artificial; j++) rows[i][j] = -rows[i][j];
    }
    status[basis[i]] = BASIC;
  }

  Frac cost(int j) const {
    if (phase == 1) return j >= n + m && needed[j - n - m] ? Frac{1, 1} : Frac{};
    return j < n ? deck.columns[j].cost : Frac{};
  }

  void work_costs() {
    costs.resize(all);
    for (int j = 0; j < all; j++) costs[j] = cost(j);
    for (int p = 0; p < m; p++) {
      Frac basic = cost(basis[p]);
      if (!basic.zero()) subtract(costs, rows[p], basic);
    }
  }

  Frac at_rest(int j) const {
    if (status[j] == LOWER) return lower[j].at;
    if (status[j] == UPPER) return upper[j].at;
    return Frac{};
  }

  void subtract(std::vector<Frac>& line, const std::vector<Frac>& by, Frac factor) const {
    for (int j = 0; j < all; j++)
      if (!by[j].zero()) line[j] = line[j] - factor * by[j];
  }

  bool fixed(int j) const { return lower[j].finite && upper[j].finite && lower[j].at.numer == upper[j].at.numer && lower[j].at.denom == upper[j].at.denom; }

  int entering() const {
    for (int j = 0; j < all; j++) {
      const Frac& d = costs[j];
      bool improves = (status[j] == LOWER && d.negative()) || (status[j] == UPPER && d.numer > 0) || (status[j] == ZERO && !d.zero());
      if (improves && !fixed(j)) return j;
    }
    return -1;
  }

  struct Limit {
    bool found = false;
    Frac ratio;
    int column = 0, position = -1;
    bool up = false;
  };

  void offer(Limit& best, Limit other) const {
    if (!best.found || other.ratio < best.ratio || (!(best.ratio < other.ratio) && other.column < best.column)) best = other;
  }

  Limit ratio_test(int q, bool falls) const {
    Limit best;
    for (int p = 0; p < m; p++) {
      const Frac& element = rows[p][q];
      if (element.zero()) continue;
      bool up = element.negative() != falls;
      int j = basis[p];
      const End& end = up ? upper[j] : lower[j];
      if (!end.finite) continue;
      Frac distance = up ? end.at - values[p] : values[p] - end.at;
      offer(best, Limit{true, distance / (element.negative() ? -element : element), j, p, up});
    }
    if (lower[q].finite && upper[q].finite) offer(best, Limit{true, upper[q].at - lower[q].at, q, -1});
    return best;
  }

  void pivot(int p, int q) {
    std::vector<Frac>& by = rows[p];
    Frac element = by[q];
    for (Frac& x : by)
      if (!x.zero()) x = x / element;
    for (int i = 0; i < m; i++) {
      Frac factor = rows[i][q];
      if (i != p && !factor.zero()) subtract(rows[i], by, factor);
    }
    Frac cost = costs[q];
    subtract(costs, by, cost);
  }

  void move(int q, bool falls, const Limit& limit) {
    moves++;
    Frac step = falls ? -limit.ratio : limit.ratio, rest = at_rest(q);
    for (int p = 0; p < m; p++)
      if (p != limit.position && !rows[p][q].zero() && !step.zero()) values[p] = values[p] - rows[p][q] * step;
    if (limit.position < 0) {
      status[q] = status[q] == LOWER ? UPPER : LOWER;
      return;
    }
    values[limit.position] = rest + step;
    status[basis[limit.position]] = limit.up ? UPPER : LOWER;
    status[q] = BASIC;
    basis[limit.position] = q;
    pivot(limit.position, q);
  }

  bool artificials_are_zero() const {
    for (int p = 0; p < m; p++)
      if (basis[p] >= n + m && !values[p].zero()) return false;
    return true;
  }

  void turn() {
    phase = 2;
    for (int i = 0; i < m; i++) upper[n + m + i] = End{true, Frac{}};
    work_costs();
  }

  // The column of a step without a limit; -1 at an optimum, -2 where there is no feasible point.
  int run() {
    for (;;) {
      int q = entering();
      if (q >= 0) {
        bool falls = !costs[q].negative();
        Limit limit = ratio_test(q, falls);
        if (!limit.found) return q;
        move(q, falls, limit);
      } else if (phase == 2) {
        return -1;
      } else if (artificials_are_zero()) {
        turn();
      } else {
        return -2;
      }
    }
  }

  std::vector<Frac> point() const {
    std::vector<Frac> x(n);
    for (int j = 0; j < n; j++) x[j] = at_rest(j);
    for (int p = 0; p < m; p++)
      if (basis[p] < n) x[basis[p]] = values[p];
    return x;
  }

  void say(const char* word, const std::vector<Frac>& numbers) const {
    for (int j = 0; j < n; j++) std::cout << word << text_of(numbers[j]) << ' ' << deck.columns[j].name << '\n';
  }

  void say_prices(const char* word) const {
    for (int i = 0; i < m; i++) std::cout << word << text_of(-costs[n + i]) << ' ' << deck.rows[i].name << '\n';
  }

  void say_ray(int q) const {
    std::vector<Frac> ray(n);
    bool falls = !costs[q].negative();
    if (q < n) ray[q] = Frac{falls ? -1 : 1, 1};
    for (int p = 0; p < m; p++)
      if (basis[p] < n) ray[basis[p]] = falls ? rows[p][q] : -rows[p][q];
    say("RAY ", ray);
  }

  void report(int end) const {
    std::cout << "LPCERT 1\nDECK " << deck.name << '\n';
    if (end == -2) {
      std::cout << "INFEASIBLE\n";
      say_prices("FARKAS ");
    } else if (end >= 0) {
      std::cout << "UNBOUNDED\n";
      say("VALUE ", point());
      say_ray(end);
    } else {
      std::vector<Frac> x = point();
      Frac objective = deck.constant;
      for (int j = 0; j < n; j++) objective = objective + deck.columns[j].cost * x[j];
      std::cout << "OPTIMAL\nOBJECTIVE " << text_of(objective) << '\n';
      say("VALUE ", x);
      say_prices("PRICE ");
    }
    std::cout << "END\n";
  }
};

int main(int count, char** words) {
  Deck deck = read_deck();
  Table table(deck);
  int end = table.run();
  table.report(end);
  if (count > 1 && std::strcmp(words[1], "moves") == 0) std::fprintf(stderr, "moves %llu\n", static_cast<unsigned long long>(table.moves));
}
