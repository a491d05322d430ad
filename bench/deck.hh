// A deck in fixed MPS as the peers read it: names without blanks, and no faults.
#pragma once
#include <iostream>
#include <map>
#include <sstream>
#include <string>
#include <utility>
#include <vector>

#include "frac.hh"

inline Frac number(const std::string& text) {
  bool negative = text[0] == '-', point = false;
  u128 size = 0, denom = 1;
  for (char c : text) {
    if (c == '.') point = true;
    if (c < '0' || c > '9') continue;
    size = size * 10 + u128(c - '0');
    if (point) denom *= 10;
  }
  u128 common = divisor(size, denom);
  return fitting(negative, size / common, denom / common);
}

struct End {
  bool finite = false;
  Frac at;
};

enum Status { BASIC, LOWER, UPPER, ZERO };

struct Row {
  std::string name;
  char kind;
  Frac right;
  bool ranged = false;
  Frac range;
};

struct Column {
  std::string name;
  Frac cost;
  std::vector<std::pair<int, Frac>> entries;
  End lower{true, Frac{}}, upper;
  bool opened = false;  // by a bound card other than UP
};

struct Deck {
  std::string name, objective;
  Frac constant;
  std::vector<Row> rows;
  std::vector<Column> columns;
  std::map<std::string, int> row_of, column_of;
};

inline void read_pair(Deck& deck, const std::string& section, const std::string& row, Frac value) {
  bool cost = row == deck.objective;
  if (!cost && deck.row_of.count(row) == 0) return;  // of a further N row
  if (section == "COLUMNS") {
    Column& column = deck.columns.back();
    if (cost) column.cost = value;
    else if (!value.zero()) column.entries.push_back({deck.row_of.at(row), value});
  } else if (section == "RHS") {
    if (cost) deck.constant = -value;
    else deck.rows[deck.row_of.at(row)].right = value;
  } else if (!cost) {
    deck.rows[deck.row_of.at(row)].ranged = true;
    deck.rows[deck.row_of.at(row)].range = value;
  }
}

inline void read_bound(Deck& deck, const std::string& kind, const std::string& name, Frac value) {
  Column& column = deck.columns[deck.column_of.at(name)];
  if (kind == "UP") {
    column.upper = End{true, value};
    if (value.negative() && !column.opened) column.lower.finite = false;
    return;
  }
  if (kind == "LO" || kind == "FX") column.lower = End{true, value};
  if (kind == "FX") column.upper = End{true, value};
  if (kind == "FR" || kind == "MI") column.lower.finite = false;
  if (kind == "FR" || kind == "PL") column.upper.finite = false;
  if (kind != "PL") column.opened = true;
}

inline void read_card(Deck& deck, const std::string& section, const std::vector<std::string>& words) {
  if (section == "ROWS") {
    if (words[0] == "N") {
      if (deck.objective.empty()) deck.objective = words[1];
      return;
    }
    deck.row_of[words[1]] = int(deck.rows.size());
    deck.rows.push_back(Row{words[1], words[0][0], Frac{}});
  } else if (section == "BOUNDS") {
    read_bound(deck, words[0], words[2], words.size() > 3 ? number(words[3]) : Frac{});
  } else {
    if (section == "COLUMNS" && (deck.columns.empty() || deck.columns.back().name != words[0])) {
      deck.column_of[words[0]] = int(deck.columns.size());
      deck.columns.push_back(Column{});
      deck.columns.back().name = words[0];
    }
    for (std::size_t k = 1; k + 1 < words.size(); k += 2) read_pair(deck, section, words[k], number(words[k + 1]));
  }
}

inline Deck read_deck() {
  Deck deck;
  std::string line, section;
  while (std::getline(std::cin, line)) {
    std::istringstream parts(line);
    std::vector<std::string> words;
    for (std::string word; parts >> word;) words.push_back(word);
    if (words.empty() || line[0] == '*') continue;
    if (line[0] == ' ') {
      read_card(deck, section, words);
      continue;
    }
    section = words[0];
    if (section == "NAME" && words.size() > 1) deck.name = words[1];
    if (section == "ENDATA") break;
  }
  return deck;
}
