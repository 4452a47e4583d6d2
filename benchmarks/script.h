// Reads a script from standard input and answers its lines over a store, as `replay` does: `m ROW +F:Q:V=VALUE..`, `freeze`, `flushed`,
// `compactall`, `finish`, `scan` and `scan [ROW,ROW]`, with no byte that needs an escape and no delete. Answers to other lines than scans
// are shorter than those of `replay`.
#pragma once
#include <cstdint>
#include <cstdio>
#include <functional>
#include <string>
#include <string_view>

// A column in the order of bytes: row, family, qualifier and visibility, each ended by a zero byte.
using Shown = std::function<void(std::string_view column, uint64_t time, std::string_view value)>;

struct Store {
  virtual ~Store() = default;
  virtual void begin() {}
  // One update of the mutation of a time: a counter is added to, another value takes the place of the older one.
  virtual void put(const std::string& column, uint64_t time, std::string_view value) = 0;
  virtual void end() {}
  virtual void flush() {}
  virtual void compact() {}
  // Shows the columns from `first` up to but not including `behind`, which is empty where there is no end.
  virtual void scan(const std::string& first, const std::string& behind, const Shown& shown) = 0;
};

inline std::string column_of(std::string_view row, std::string_view update) {
  std::string column(row);
  column.push_back('\0');
  for (char byte : update) column.push_back(byte == ':' ? '\0' : byte);
  column.push_back('\0');
  return column;
}

inline void append_column(std::string& out, std::string_view column) {
  const char* between = " ::";
  for (char byte : column.substr(0, column.size() - 1)) out.push_back(byte == '\0' ? *between++ : byte);
}

inline void mutate(Store& store, std::string_view words, uint64_t time) {
  size_t end = words.find(' ');
  std::string_view row = words.substr(0, end);
  store.begin();
  while (end != std::string_view::npos) {
    size_t begin = end + 2;
    end = words.find(' ', begin);
    std::string_view update = words.substr(begin, end == std::string_view::npos ? end : end - begin);
    size_t equals = update.find('=');
    store.put(column_of(row, update.substr(0, equals)), time, update.substr(equals + 1));
  }
  store.end();
}

inline void scan(Store& store, std::string_view range, uint64_t time, std::string& out) {
  std::string first, behind;
  if (!range.empty()) {
    std::string row(range.substr(1, range.find(',') - 1));
    first = row + '\0';
    behind = row + '\1';
  }
  bool any = false;
  store.scan(first, behind, [&](std::string_view column, uint64_t at, std::string_view value) {
    if (!any) out += "at " + std::to_string(time) + "\n";
    any = true;
    append_column(out, column);
    out += " @" + std::to_string(at) + " =";
    out += value;
    out += "\n";
  });
  out += "end " + std::to_string(time) + "\n";
}

inline void answer(Store& store, std::string_view line, uint64_t& time, std::string& out) {
  if (line.substr(0, 2) == "m ") {
    mutate(store, line.substr(2), ++time);
    out += "m " + std::to_string(time) + "\n";
  } else if (line == "flushed") {
    store.flush();
  } else if (line.substr(0, 6) == "finish") {
    store.compact();
  } else if (line.substr(0, 4) == "scan") {
    scan(store, line.size() > 5 ? line.substr(5) : "", time, out);
  }
}

inline void run(Store& store) {
  std::string text, out;
  char bytes[1 << 16];
  for (size_t n; (n = fread(bytes, 1, sizeof bytes, stdin)) > 0;) text.append(bytes, n);
  uint64_t time = 0;
  for (size_t at = 0; at < text.size();) {
    size_t end = text.find('\n', at);
    if (end == std::string::npos) end = text.size();
    answer(store, std::string_view(text).substr(at, end - at), time, out);
    at = end + 1;
    if (out.size() >= 1 << 16) {
      fwrite(out.data(), 1, out.size(), stdout);
      out.clear();
    }
  }
  fwrite(out.data(), 1, out.size(), stdout);
  fflush(stdout);
}
