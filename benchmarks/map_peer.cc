// One ordered map in memory: near the least work that the answers need.
//   map_peer sums|newest <SCRIPT
#include <cstring>
#include <map>
#include <string>
#include "script.h"

class OneMap : public Store {
 public:
  explicit OneMap(bool sums) : sums_(sums) {}

  void put(const std::string& column, uint64_t time, std::string_view value) override {
    Cell& cell = cells_[column];
    cell.time = time;
    if (sums_) {
      cell.sum += std::stoull(std::string(value));
    } else {
      cell.value = value;
    }
  }

  void scan(const std::string& first, const std::string& behind, const Shown& shown) override {
    auto end = behind.empty() ? cells_.end() : cells_.lower_bound(behind);
    for (auto it = cells_.lower_bound(first); it != end; ++it)
      shown(it->first, it->second.time, sums_ ? std::to_string(it->second.sum) : it->second.value);
  }

 private:
  struct Cell {
    uint64_t time = 0;
    uint64_t sum = 0;
    std::string value;
  };
  bool sums_;
  std::map<std::string, Cell> cells_;
};

int main(int argc, char** argv) {
  OneMap store(argc > 1 && !strcmp(argv[1], "sums"));
  run(store);
}
