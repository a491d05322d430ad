// Fractions of the peers: in lowest terms over 128-bit integers, each product and sum checked, by the method of `exact_frac` (see `same` in arith_peer.cc).
// A value that does not fit 127 bits ends the program with status 6.
#pragma once
#include <cstdint>
#include <cstdio>
#include <cstdlib>
#include <string>

using u64 = std::uint64_t;
using i128 = __int128;
using u128 = unsigned __int128;

constexpr u128 LIMIT = u128(1) << 127;
constexpr u128 LOW = ~u64(0);

[[noreturn]] inline void overflow() {
  std::fputs("peer: overflow\n", stderr);
  std::exit(6);
}

struct Frac {
  i128 numer = 0;
  u128 denom = 1;

  bool zero() const { return numer == 0; }
  bool negative() const { return numer < 0; }
  u128 size() const { return numer < 0 ? -u128(numer) : u128(numer); }
  Frac operator-() const { return Frac{-numer, denom}; }
};

inline u128 product(u128 a, u128 b) {
  u128 answer;
  if (__builtin_mul_overflow(a, b, &answer)) overflow();
  return answer;
}

inline Frac fitting(bool negative, u128 size, u128 denom) {
  if (size >= LIMIT || denom >= LIMIT) overflow();
  return Frac{negative ? -i128(size) : i128(size), denom};
}

inline u64 odd_low(u64 x, u64 y) {
  while (x != y) {
    u64 rest = x < y ? y - x : x - y;
    y = x < y ? x : y;
    x = rest >> __builtin_ctzll(rest);
  }
  return x;
}

inline u64 positive_low(u64 a, u64 b) {
  int twos_a = __builtin_ctzll(a), twos_b = __builtin_ctzll(b);
  return odd_low(a >> twos_a, b >> twos_b) << (twos_a < twos_b ? twos_a : twos_b);
}

inline int trailing_zeros(u128 a) {
  return u64(a) != 0 ? __builtin_ctzll(u64(a)) : 64 + __builtin_ctzll(u64(a >> 64));
}

inline u128 positive(u128 a, u128 b) {
  int twos_a = trailing_zeros(a), twos_b = trailing_zeros(b);
  u128 x = a >> twos_a, y = b >> twos_b;
  int twos = twos_a < twos_b ? twos_a : twos_b;
  while (x > LOW || y > LOW) {
    if (x == y) return x << twos;
    u128 rest = x < y ? y - x : x - y;
    y = x < y ? x : y;
    x = rest >> trailing_zeros(rest);
  }
  return u128(odd_low(x, y)) << twos;
}

inline u128 divisor(u128 a, u128 b) {
  if (a == 1 || b == 1) return 1;
  if (b == 0) return a;
  if (a == 0) return b;
  if (a > LOW && b > LOW) return positive(a, b);
  if (a > LOW) a %= b;
  if (b > LOW) b %= a;
  if (a == 0 || b == 0) return a + b;
  return positive_low(a, b);
}

inline u128 quotient(u128 a, u128 b) {
  if (b == 1) return a;
  if (a <= LOW && b <= LOW) return u64(a) / u64(b);
  return a / b;
}

inline Frac operator+(Frac a, Frac b) {
  if (a.zero()) return b;
  if (b.zero()) return a;
  bool same = a.denom == b.denom;
  u128 common = same ? a.denom : divisor(a.denom, b.denom);
  u128 over_a = same ? 1 : quotient(a.denom, common);
  u128 over_b = same ? 1 : quotient(b.denom, common);
  u128 apart = product(over_a, over_b), left = product(a.size(), over_b), right = product(b.size(), over_a), sum;
  bool negative = a.negative();
  if (a.negative() == b.negative()) {
    if (__builtin_add_overflow(left, right, &sum)) overflow();
  } else if (left >= right) {
    sum = left - right;
  } else {
    sum = right - left;
    negative = b.negative();
  }
  u128 shared = divisor(sum, common);
  return fitting(negative, quotient(sum, shared), product(apart, quotient(common, shared)));
}

inline Frac operator-(Frac a, Frac b) { return a + -b; }

inline bool is_unit(Frac a) { return a.denom == 1 && a.size() <= 1; }

inline Frac by_unit(Frac a, Frac unit) {
  if (unit.zero()) return Frac{};
  return unit.negative() ? -a : a;
}

inline Frac operator*(Frac a, Frac b) {
  if (is_unit(a)) return by_unit(b, a);
  if (is_unit(b)) return by_unit(a, b);
  u128 left = divisor(a.size(), b.denom), right = divisor(b.size(), a.denom);
  return fitting(a.negative() != b.negative(), product(quotient(a.size(), left), quotient(b.size(), right)),
                 product(quotient(a.denom, right), quotient(b.denom, left)));
}

inline Frac inverse(Frac a) { return Frac{a.negative() ? -i128(a.denom) : i128(a.denom), a.size()}; }

inline Frac operator/(Frac a, Frac b) { return a * inverse(b); }

inline bool operator<(Frac a, Frac b) { return (a - b).negative(); }

inline std::string digits(u128 value) {
  std::string text;
  do text.insert(text.begin(), char('0' + int(value % 10)));
  while ((value /= 10) != 0);
  return text;
}

inline std::string text_of(Frac a) {
  std::string text = (a.negative() ? "-" : "") + digits(a.size());
  return a.denom == 1 ? text : text + "/" + digits(a.denom);
}
