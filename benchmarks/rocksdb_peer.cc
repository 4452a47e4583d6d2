// RocksDB with its files in memory, without a log ahead of it, and with a merge operator for sums.
//   rocksdb_peer sums|newest <SCRIPT
#include <rocksdb/db.h>
#include <rocksdb/env.h>
#include <rocksdb/merge_operator.h>
#include <rocksdb/options.h>
#include <unistd.h>
#include <cstring>
#include <memory>
#include <string>
#include "script.h"

static std::string with_time(uint64_t time, std::string_view value) {
  std::string bytes(8, '\0');
  memcpy(bytes.data(), &time, 8);
  return bytes.append(value);
}

static uint64_t number_at(const rocksdb::Slice& bytes, size_t at) {
  uint64_t number;
  memcpy(&number, bytes.data() + at, 8);
  return number;
}

static std::string with_sum(uint64_t time, uint64_t sum) {
  return with_time(time, std::string_view(reinterpret_cast<const char*>(&sum), 8));
}

class Sums : public rocksdb::AssociativeMergeOperator {
 public:
  bool Merge(const rocksdb::Slice&, const rocksdb::Slice* older, const rocksdb::Slice& newer, std::string* out,
             rocksdb::Logger*) const override {
    *out = with_sum(number_at(newer, 0), (older ? number_at(*older, 8) : 0) + number_at(newer, 8));
    return true;
  }
  const char* Name() const override { return "sums"; }
};

class Rocks : public Store {
 public:
  explicit Rocks(bool sums) : sums_(sums), env_(rocksdb::NewMemEnv(rocksdb::Env::Default())) {
    rocksdb::Options options;
    options.create_if_missing = true;
    options.env = env_.get();
    options.compression = rocksdb::kNoCompression;
    options.disable_auto_compactions = true;
    options.write_buffer_size = 1ull << 30;
    if (sums) options.merge_operator = std::make_shared<Sums>();
    if (!rocksdb::DB::Open(options, "/peer", &db_).ok()) _exit(1);
    write_.disableWAL = true;
  }

  void begin() override { batch_.Clear(); }

  void put(const std::string& column, uint64_t time, std::string_view value) override {
    if (sums_) {
      batch_.Merge(column, with_sum(time, std::stoull(std::string(value))));
    } else {
      batch_.Put(column, with_time(time, value));
    }
  }

  void end() override { db_->Write(write_, &batch_); }
  void flush() override { db_->Flush(rocksdb::FlushOptions()); }
  void compact() override { db_->CompactRange(rocksdb::CompactRangeOptions(), nullptr, nullptr); }

  void scan(const std::string& first, const std::string& behind, const Shown& shown) override {
    std::unique_ptr<rocksdb::Iterator> it(db_->NewIterator(rocksdb::ReadOptions()));
    for (it->Seek(first); it->Valid() && (behind.empty() || it->key().compare(behind) < 0); it->Next()) {
      rocksdb::Slice value = it->value();
      if (sums_) {
        shown(it->key().ToStringView(), number_at(value, 0), std::to_string(number_at(value, 8)));
      } else {
        shown(it->key().ToStringView(), number_at(value, 0), value.ToStringView().substr(8));
      }
    }
  }

 private:
  bool sums_;
  std::unique_ptr<rocksdb::Env> env_;
  rocksdb::DB* db_ = nullptr;
  rocksdb::WriteOptions write_;
  rocksdb::WriteBatch batch_;
};

int main(int argc, char** argv) {
  Rocks* store = new Rocks(argc > 1 && !strcmp(argv[1], "sums"));
  run(*store);
  _exit(0);
}
