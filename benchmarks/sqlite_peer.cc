// SQLite with its database in memory, a transaction for each mutation.
//   sqlite_peer sums|newest <SCRIPT
#include <sqlite3.h>
#include <cstring>
#include <string>
#include "script.h"

class Sqlite : public Store {
 public:
  explicit Sqlite(bool sums) {
    if (sqlite3_open(":memory:", &db_) != SQLITE_OK) throw 1;
    sqlite3_exec(db_, "create table cells (col blob primary key, time integer, value) without rowid", nullptr, nullptr, nullptr);
    const char* sum = "insert into cells values (?, ?, cast(? as integer)) on conflict do update set time = excluded.time, value = value + excluded.value";
    const char* newest = "insert or replace into cells values (?, ?, ?)";
    put_ = prepared(sums ? sum : newest);
    scan_ = prepared("select col, time, value from cells where col >= ? and (? is null or col < ?) order by col");
    begin_ = prepared("begin");
    commit_ = prepared("commit");
  }

  void begin() override { step(begin_); }

  void put(const std::string& column, uint64_t time, std::string_view value) override {
    sqlite3_bind_blob(put_, 1, column.data(), column.size(), SQLITE_STATIC);
    sqlite3_bind_int64(put_, 2, time);
    sqlite3_bind_text(put_, 3, value.data(), value.size(), SQLITE_STATIC);
    step(put_);
  }

  void end() override { step(commit_); }

  void scan(const std::string& first, const std::string& behind, const Shown& shown) override {
    sqlite3_bind_blob(scan_, 1, first.data(), first.size(), SQLITE_STATIC);
    for (int at : {2, 3}) {
      if (behind.empty()) {
        sqlite3_bind_null(scan_, at);
      } else {
        sqlite3_bind_blob(scan_, at, behind.data(), behind.size(), SQLITE_STATIC);
      }
    }
    while (sqlite3_step(scan_) == SQLITE_ROW) {
      const char* column = static_cast<const char*>(sqlite3_column_blob(scan_, 0));
      std::string_view key(column, sqlite3_column_bytes(scan_, 0));
      const char* value = reinterpret_cast<const char*>(sqlite3_column_text(scan_, 2));
      shown(key, sqlite3_column_int64(scan_, 1), std::string_view(value, sqlite3_column_bytes(scan_, 2)));
    }
    sqlite3_reset(scan_);
  }

 private:
  sqlite3_stmt* prepared(const char* text) {
    sqlite3_stmt* statement = nullptr;
    if (sqlite3_prepare_v2(db_, text, -1, &statement, nullptr) != SQLITE_OK) throw 1;
    return statement;
  }

  void step(sqlite3_stmt* statement) {
    sqlite3_step(statement);
    sqlite3_reset(statement);
  }

  sqlite3* db_ = nullptr;
  sqlite3_stmt *put_, *scan_, *begin_, *commit_;
};

int main(int argc, char** argv) {
  Sqlite store(argc > 1 && !strcmp(argv[1], "sums"));
  run(store);
}
