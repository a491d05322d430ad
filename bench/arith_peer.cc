// The peer of `bench_parts arith`: fractions over 128-bit integers on the same streams, in two ways.
// `textbook`: by std::gcd. Sums and products divide by common divisors before they multiply, and each product and sum is checked;
// an order is that of the cross products, in 256 bits where 128 do not hold them.
// `same`: the method of `exact_frac`. A binary divisor in 64 bits as soon as both numbers fit them, no divisor beside 0 and 1 and
// of equal denominators, and no division by 1.
#include <cstdint>
#include <cstdio>
#include <cstring>
#include <initializer_list>
#include <numeric>
#include <optional>

using u64 = std::uint64_t;
using u128 = unsigned __int128;

constexpr u128 LIMIT = u128(1) << 127;
constexpr u128 LOW = ~u64(0);

struct Frac {
  bool negative;
  u128 size;
  u128 denom;
};

struct Pair {
  Frac left;
  Frac right;
};

using Answer = std::optional<Frac>;

static std::optional<u128> product(u128 a, u128 b) {
  u128 answer;
  if (__builtin_mul_overflow(a, b, &answer)) return std::nullopt;
  return answer;
}

static Answer fitting(bool negative, std::optional<u128> size, std::optional<u128> denom) {
  if (!size || !denom || *size >= LIMIT || *denom >= LIMIT) return std::nullopt;
  return Frac{negative && *size != 0, *size, *denom};
}

static Frac fraction_of(u128 size, u128 denom) {
  u128 common = std::gcd(size, denom);
  return Frac{false, size / common, denom / common};
}

namespace textbook {

static Answer add(Frac a, Frac b) {
  u128 common = std::gcd(a.denom, b.denom);
  std::optional<u128> left = product(a.size, b.denom / common);
  std::optional<u128> right = product(b.size, a.denom / common);
  if (!left || !right) return std::nullopt;
  bool negative = a.negative;
  u128 sum;
  if (a.negative == b.negative) {
    if (__builtin_add_overflow(*left, *right, &sum)) return std::nullopt;
  } else if (*left >= *right) {
    sum = *left - *right;
  } else {
    sum = *right - *left;
    negative = b.negative;
  }
  u128 shared = std::gcd(sum, common);
  return fitting(negative, sum / shared, product(a.denom / common, b.denom / shared));
}

static Answer subtract(Frac a, Frac b) {
  return add(a, Frac{!b.negative, b.size, b.denom});
}

static Answer multiply(Frac a, Frac b) {
  u128 left = std::gcd(a.size, b.denom);
  u128 right = std::gcd(b.size, a.denom);
  return fitting(a.negative != b.negative, product(a.size / left, b.size / right), product(a.denom / right, b.denom / left));
}

static Answer divide(Frac a, Frac b) {
  return multiply(a, Frac{b.negative, b.denom, b.size});
}

}  // namespace textbook

namespace same {

static u64 odd_low(u64 x, u64 y) {
  while (x != y) {
    u64 rest = x < y ? y - x : x - y;
    y = x < y ? x : y;
    x = rest >> __builtin_ctzll(rest);
  }
  return x;
}

static u64 positive_low(u64 a, u64 b) {
  int twos_a = __builtin_ctzll(a), twos_b = __builtin_ctzll(b);
  return odd_low(a >> twos_a, b >> twos_b) << (twos_a < twos_b ? twos_a : twos_b);
}

static int trailing_zeros(u128 a) {
  return u64(a) != 0 ? __builtin_ctzll(u64(a)) : 64 + __builtin_ctzll(u64(a >> 64));
}

static u128 positive(u128 a, u128 b) {
  int twos_a = trailing_zeros(a), twos_b = trailing_zeros(b);
  u128 x = a >> twos_a, y = b >> twos_b;
  int twos = twos_a < twos_b ? twos_a : twos_b;
  while (x > LOW || y > LOW) {
    if (x == y) return x << twos;
    u128 rest = x < y ? y - x : x - y;
    y = x < y ? x : y;
    x = rest >> trailing_zeros(rest);
  }
  return u128(odd_low(x, y)) << twos;
}

static u128 divisor(u128 a, u128 b) {
  if (a == 1 || b == 1) return 1;
  if (b == 0) return a;
  if (a == 0) return b;
  if (a > LOW && b > LOW) return positive(a, b);
  if (a > LOW) a %= b;
  if (b > LOW) b %= a;
  if (a == 0 || b == 0) return a + b;
  return positive_low(a, b);
}

static u128 quotient(u128 a, u128 b) {
  if (b == 1) return a;
  if (a <= LOW && b <= LOW) return u64(a) / u64(b);
  return a / b;
}

static bool is_unit(Frac a) {
  return a.denom == 1 && a.size <= 1;
}

static Answer by_unit(Frac a, Frac unit) {
  if (unit.size == 0) return Frac{false, 0, 1};
  return Frac{a.negative != unit.negative, a.size, a.denom};
}

static Answer add(Frac a, Frac b) {
  if (a.size == 0) return b;
  if (b.size == 0) return a;
  u128 common = a.denom == b.denom ? a.denom : divisor(a.denom, b.denom);
  u128 over_a = a.denom == b.denom ? 1 : quotient(a.denom, common);
  u128 over_b = a.denom == b.denom ? 1 : quotient(b.denom, common);
  std::optional<u128> apart = product(over_a, over_b);
  std::optional<u128> left = product(a.size, over_b);
  std::optional<u128> right = product(b.size, over_a);
  if (!apart || !left || !right) return std::nullopt;
  bool negative = a.negative;
  u128 sum;
  if (a.negative == b.negative) {
    if (__builtin_add_overflow(*left, *right, &sum)) return std::nullopt;
  } else if (*left >= *right) {
    sum = *left - *right;
  } else {
    sum = *right - *left;
    negative = b.negative;
  }
  u128 shared = divisor(sum, common);
  return fitting(negative, quotient(sum, shared), product(*apart, quotient(common, shared)));
}

static Answer subtract(Frac a, Frac b) {
  return add(a, Frac{!b.negative, b.size, b.denom});
}

static Answer multiply(Frac a, Frac b) {
  if (is_unit(a)) return by_unit(b, a);
  if (is_unit(b)) return by_unit(a, b);
  u128 left = divisor(a.size, b.denom);
  u128 right = divisor(b.size, a.denom);
  return fitting(a.negative != b.negative, product(quotient(a.size, left), quotient(b.size, right)),
                 product(quotient(a.denom, right), quotient(b.denom, left)));
}

static Answer divide(Frac a, Frac b) {
  return multiply(a, Frac{b.negative, b.denom, b.size});
}

}  // namespace same

struct Double {
  u128 high;
  u128 low;
};

static Double double_product(u128 a, u128 b) {
  u64 a1 = a >> 64, a0 = a, b1 = b >> 64, b0 = b;
  u128 low = u128(a0) * b0;
  u128 middle = u128(a1) * b0 + u64(low >> 64);
  u128 other = u128(a0) * b1 + u64(middle);
  return Double{u128(a1) * b1 + (middle >> 64) + (other >> 64), (other << 64) | u64(low)};
}

static bool size_less(Frac a, Frac b) {
  u128 left, right;
  if (a.denom == b.denom) return a.size < b.size;
  if (!__builtin_mul_overflow(a.size, b.denom, &left) && !__builtin_mul_overflow(b.size, a.denom, &right)) return left < right;
  Double wide_left = double_product(a.size, b.denom), wide_right = double_product(b.size, a.denom);
  return wide_left.high != wide_right.high ? wide_left.high < wide_right.high : wide_left.low < wide_right.low;
}

static bool less(Frac a, Frac b) {
  if (a.negative != b.negative) return a.negative;
  return a.negative ? size_less(b, a) : size_less(a, b);
}

enum Stream { SMALL, WIDE, FULL, MIXED };
enum Operation { ADD, SUB, MUL, DIV, COMPARE, NEITHER };

struct Draws {
  u64 state = 20260701;

  u64 word() {
    state = state * 6364136223846793005u + 1442695040888963407u;
    return state ^ (state >> 32);
  }

  u128 size(Stream stream) {
    if (stream == SMALL) return word() % 1000 + 1;
    if (stream == WIDE) return u128(word() % 0x7fffffffffffffffu) + 1;
    if (stream == MIXED) {
      u64 most = word() >> 2;
      return u128(most >> word() % 62) + 1;
    }
    u128 high = word();
    u128 low = word();
    u128 half = LIMIT / 2;
    return ((high << 64) + low) % half + half;
  }

  u128 shared(u128 left_size, u128 left_denom) {
    switch (word() % 4) {
      case 0: return left_denom;
      case 1: return left_size;
      default: return size(FULL);
    }
  }

  u128 alike(u128 other) {
    switch (word() % 4) {
      case 0: return 1;
      case 1: return other;
      default: return size(MIXED);
    }
  }

  Frac fraction(u128 size, u128 denom) {
    Frac fraction = fraction_of(size, denom);
    fraction.negative = word() % 2 != 0;
    return fraction;
  }

  Pair pair(Stream stream) {
    u128 left_size = size(stream);
    u128 right_size = size(stream);
    u128 left_denom = stream == SMALL ? 1 : stream == MIXED ? alike(left_size) : size(stream);
    u128 right_denom = stream == SMALL ? 1 : stream == WIDE ? size(stream) : stream == MIXED ? alike(left_denom) : shared(left_size, left_denom);
    Frac left = fraction(left_size, left_denom);
    Frac right = fraction(right_size, right_denom);
    return Pair{left, right};
  }
};

struct Checksum {
  u64 sum = 0xcbf29ce484222325;

  void fold_word(u64 word) { sum = (sum ^ word) * 0x100000001b3; }

  void fold_size(u128 size) {
    fold_word(size >> 64);
    fold_word(size);
  }

  void fold(Frac fraction) {
    fold_word(fraction.negative);
    fold_size(fraction.size);
    fold_size(fraction.denom);
  }

  void fold_answer(Answer answer) {
    if (answer) fold(*answer);
    else fold_word(~u64(0));
  }
};

static Answer answer_of(bool alike, Operation operation, Frac left, Frac right) {
  switch (operation) {
    case ADD: return alike ? same::add(left, right) : textbook::add(left, right);
    case SUB: return alike ? same::subtract(left, right) : textbook::subtract(left, right);
    case MUL: return alike ? same::multiply(left, right) : textbook::multiply(left, right);
    case DIV: return alike ? same::divide(left, right) : textbook::divide(left, right);
    case COMPARE: return less(right, left) ? right : left;
    default: return left;
  }
}

static int place(const char *word, std::initializer_list<const char *> words) {
  int index = 0;
  for (const char *each : words) {
    if (std::strcmp(word, each) == 0) return index;
    index++;
  }
  return -1;
}

int main(int count_of_words, char **words) {
  int way = count_of_words == 4 ? place(words[1], {"textbook", "same"}) : -1;
  int stream = count_of_words == 4 ? place(words[2], {"small", "wide", "full", "mixed"}) : -1;
  int operation = count_of_words == 4 ? place(words[3], {"add", "sub", "mul", "div", "compare", "none"}) : -1;
  if (way < 0 || stream < 0 || operation < 0) {
    std::fputs("usage: arith_peer textbook|same small|wide|full|mixed add|sub|mul|div|compare|none\n", stderr);
    return 2;
  }
  const int counts[] = {200000, 200000, 100000, 200000};
  Draws draws;
  Checksum checksum;
  int unfit = 0;
  for (int index = 0; index < counts[stream]; index++) {
    Pair pair = draws.pair(Stream(stream));
    checksum.fold(pair.left);
    checksum.fold(pair.right);
    Answer answer = answer_of(way == 1, Operation(operation), pair.left, pair.right);
    if (!answer) unfit++;
    checksum.fold_answer(answer);
  }
  std::printf("%d pairs, %d unfit, checksum %016llx\n", counts[stream], unfit, (unsigned long long)checksum.sum);
}
