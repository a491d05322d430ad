// The peer of `lp`: the same run over factors of its bases (lu.hh), in C++. It reads a deck in fixed MPS (names without blanks, and no faults) and prints the report
// that `lp solve` prints; with the word `moves` the number of moves on standard error.
// The method: two phases over structurals, logicals and artificials, bounds and Bland's rule. A round solves once for the prices, looks at columns up to the first
// that is eligible, and solves once for that; the factors are updated 64 times, and then made anew.
#include <cstdio>
#include <cstring>
#include <iostream>
#include <vector>

#include "deck.hh"
#include "lu.hh"

constexpr int MOST_UPDATES = 64;

struct Revised {
  const Deck& deck;
  int m, n, all, phase = 2, updates = 0;
  u64 moves = 0;
  std::vector<End> lower, upper;
  std::vector<Frac> values, signs, prices;
  std::vector<int> basis;
  std::vector<Status> status;
  std::vector<bool> needed;
  Factors factors{{}};
  Vector alpha, spike, work, costs;

  explicit Revised(const Deck& d)
      : deck(d), m(int(d.rows.size())), n(int(d.columns.size())), all(n + 2 * m), lower(all), upper(all), values(m), signs(m, Frac{1, 1}), prices(m), basis(m),
        status(all, LOWER), needed(m, false), alpha(m), spike(m), work(m), costs(m) {
    for (int j = 0; j < n; j++) start_structural(j);
    for (int i = 0; i < m; i++) start_row(i);
    make_factors();
  }

  void start_structural(int j) {
    lower[j] = deck.columns[j].lower;
    upper[j] = deck.columns[j].upper;
    status[j] = lower[j].finite ? LOWER : upper[j].finite ? UPPER : ZERO;
    Frac rest = at_rest(j);
    if (rest.zero()) return;
    for (auto& [i, a] : deck.columns[j].entries) values[i] = values[i] - a * rest;
  }

  void bound_logical(int i) {
    const Row& row = deck.rows[i];
    Frac size = row.range.negative() ? -row.range : row.range, zero;
    End& low = lower[n + i];
    End& up = upper[n + i];
    if (row.kind != 'G') low = End{true, zero};
    if (row.kind != 'L') up = End{true, zero};
    if (!row.ranged) return;
    if (row.kind == 'L' || (row.kind == 'E' && row.range.negative())) up = End{true, size};
    if (row.kind == 'G' || (row.kind == 'E' && !row.range.negative())) low = End{true, -size};
  }

  void start_row(int i) {
    bound_logical(i);
    int logical = n + i, artificial = n + m + i;
    Frac rest = deck.rows[i].right + values[i];
    bool below = lower[logical].finite && rest < lower[logical].at, above = upper[logical].finite && upper[logical].at < rest;
    lower[artificial] = upper[artificial] = End{true, Frac{}};
    basis[i] = logical;
    values[i] = rest;
    if (below || above) {
      phase = 1;
      needed[i] = true;
      upper[artificial].finite = false;
      status[logical] = below ? LOWER : UPPER;
      basis[i] = artificial;
      values[i] = below ? lower[logical].at - rest : rest - upper[logical].at;
      if (below) signs[i] = Frac{-1, 1};
    }
    status[basis[i]] = BASIC;
  }

  Sparse column(int j) const {
    if (j < n) {
      Sparse entries(deck.columns[j].entries.begin(), deck.columns[j].entries.end());
      std::sort(entries.begin(), entries.end(), [](const auto& a, const auto& b) { return a.first < b.first; });
      return entries;
    }
    if (j < n + m) return {{j - n, Frac{1, 1}}};
    return {{j - n - m, signs[j - n - m]}};
  }

  void make_factors() {
    std::vector<Sparse> columns;
    for (int j : basis) columns.push_back(column(j));
    factors = Factors(columns);
    updates = 0;
  }

  Frac cost(int j) const {
    if (phase == 1) return j >= n + m && needed[j - n - m] ? Frac{1, 1} : Frac{};
    return j < n ? deck.columns[j].cost : Frac{};
  }

  Frac at_rest(int j) const {
    if (status[j] == LOWER) return lower[j].at;
    if (status[j] == UPPER) return upper[j].at;
    return Frac{};
  }

  void price() {
    for (int p = 0; p < m; p++) costs[p] = cost(basis[p]);
    factors.btran(costs, prices);
  }

  Frac reduced(int j) const {
    Frac d = cost(j);
    if (j >= n) {
      int i = j < n + m ? j - n : j - n - m;
      return prices[i].zero() ? d : d - prices[i] * (j < n + m ? Frac{1, 1} : signs[i]);
    }
    for (auto& [i, a] : deck.columns[j].entries)
      if (!prices[i].zero()) d = d - prices[i] * a;
    return d;
  }

  bool fixed(int j) const { return lower[j].finite && upper[j].finite && lower[j].at.numer == upper[j].at.numer && lower[j].at.denom == upper[j].at.denom; }

  int entering(Frac& d) const {
    for (int j = 0; j < all; j++) {
      if (status[j] == BASIC || fixed(j)) continue;
      d = reduced(j);
      if ((status[j] == LOWER && d.negative()) || (status[j] == UPPER && d.numer > 0) || (status[j] == ZERO && !d.zero())) return j;
    }
    return -1;
  }

  struct Limit {
    bool found = false;
    Frac ratio;
    int column = 0, position = -1;
    bool up = false;
  };

  void offer(Limit& best, Limit other) const {
    if (!best.found || other.ratio < best.ratio || (!(best.ratio < other.ratio) && other.column < best.column)) best = other;
  }

  Limit ratio_test(int q, bool falls) const {
    Limit best;
    for (int p = 0; p < m; p++) {
      const Frac& element = alpha[p];
      if (element.zero()) continue;
      bool up = element.negative() != falls;
      int j = basis[p];
      const End& end = up ? upper[j] : lower[j];
      if (!end.finite) continue;
      Frac distance = up ? end.at - values[p] : values[p] - end.at;
      offer(best, Limit{true, distance / (element.negative() ? -element : element), j, p, up});
    }
    if (lower[q].finite && upper[q].finite) offer(best, Limit{true, upper[q].at - lower[q].at, q, -1});
    return best;
  }

  void move(int q, bool falls, const Limit& limit) {
    moves++;
    Frac step = falls ? -limit.ratio : limit.ratio, rest = at_rest(q);
    for (int p = 0; p < m; p++)
      if (p != limit.position && !alpha[p].zero() && !step.zero()) values[p] = values[p] - alpha[p] * step;
    if (limit.position < 0) {
      status[q] = status[q] == LOWER ? UPPER : LOWER;
      return;
    }
    values[limit.position] = rest + step;
    status[basis[limit.position]] = limit.up ? UPPER : LOWER;
    status[q] = BASIC;
    basis[limit.position] = q;
    if (updates == MOST_UPDATES) return make_factors();
    factors.update(limit.position, spike);
    updates++;
  }

  bool artificials_are_zero() const {
    for (int p = 0; p < m; p++)
      if (basis[p] >= n + m && !values[p].zero()) return false;
    return true;
  }

  void turn() {
    phase = 2;
    for (int i = 0; i < m; i++) upper[n + m + i] = End{true, Frac{}};
  }

  // The column of a step without a limit, and whether it falls; -1 at an optimum, -2 where there is no feasible point.
  std::pair<int, bool> run() {
    for (;;) {
      price();
      Frac d;
      int q = entering(d);
      if (q >= 0) {
        bool falls = !d.negative();
        factors.ftran(column(q), spike, alpha, work);
        Limit limit = ratio_test(q, falls);
        if (!limit.found) return {q, falls};
        move(q, falls, limit);
      } else if (phase == 2) {
        return {-1, false};
      } else if (artificials_are_zero()) {
        turn();
      } else {
        return {-2, false};
      }
    }
  }

  std::vector<Frac> point() const {
    std::vector<Frac> x(n);
    for (int j = 0; j < n; j++) x[j] = at_rest(j);
    for (int p = 0; p < m; p++)
      if (basis[p] < n) x[basis[p]] = values[p];
    return x;
  }

  void say(const char* word, const std::vector<Frac>& numbers) const {
    for (int j = 0; j < n; j++) std::cout << word << text_of(numbers[j]) << ' ' << deck.columns[j].name << '\n';
  }

  void say_prices(const char* word) const {
    for (int i = 0; i < m; i++) std::cout << word << text_of(prices[i]) << ' ' << deck.rows[i].name << '\n';
  }

  void say_ray(int q, bool falls) const {
    std::vector<Frac> ray(n);
    if (q < n) ray[q] = Frac{falls ? -1 : 1, 1};
    for (int p = 0; p < m; p++)
      if (basis[p] < n) ray[basis[p]] = falls ? alpha[p] : -alpha[p];
    say("RAY ", ray);
  }

  void report(std::pair<int, bool> end) const {
    std::cout << "LPCERT 1\nDECK " << deck.name << '\n';
    if (end.first == -2) {
      std::cout << "INFEASIBLE\n";
      say_prices("FARKAS ");
    } else if (end.first >= 0) {
      std::cout << "UNBOUNDED\n";
      say("VALUE ", point());
      say_ray(end.first, end.second);
    } else {
      std::vector<Frac> x = point();
      Frac objective = deck.constant;
      for (int j = 0; j < n; j++) objective = objective + deck.columns[j].cost * x[j];
      std::cout << "OPTIMAL\nOBJECTIVE " << text_of(objective) << '\n';
      say("VALUE ", x);
      say_prices("PRICE ");
    }
    std::cout << "END\n";
  }
};

int main(int count, char** words) {
  Deck deck = read_deck();
  Revised solver(deck);
  solver.report(solver.run());
  if (count > 1 && std::strcmp(words[1], "moves") == 0) std::fprintf(stderr, "moves %llu\n", static_cast<unsigned long long>(solver.moves));
}
