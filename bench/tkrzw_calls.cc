// Calls per second of Tkrzw's library: Get and Set on a tiny and on a hash database, keys of 8 bytes.
// Usage: tkrzw_calls tiny|hash get|set THREADS CALLS, in an empty directory
#include <chrono>
#include <cstdio>
#include <cstdlib>
#include <cstring>
#include <memory>
#include <string>
#include <thread>
#include <vector>
#include <tkrzw_dbm_hash.h>
#include <tkrzw_dbm_tiny.h>
using namespace tkrzw;

static const int kKeys = 100000;

static std::string KeyOf(uint64_t i) {
  char text[9];
  std::snprintf(text, sizeof text, "%08llu", static_cast<unsigned long long>(i));
  return std::string(text, 8);
}

static uint64_t Next(uint64_t* state) {
  *state = *state * 6364136223846793005ULL + 1442695040888963407ULL;
  return (*state >> 33) % kKeys;
}

static void Run(DBM* dbm, bool set, uint64_t seed, int calls) {
  std::string value;
  for (int i = 0; i < calls; i++) {
    char key[9];
    uint64_t n = Next(&seed);
    for (int d = 7; d >= 0; d--) { key[d] = '0' + n % 10; n /= 10; }
    std::string_view k(key, 8);
    Status s = set ? dbm->Set(k, k) : dbm->Get(k, &value);
    if (s != Status::SUCCESS) { std::fprintf(stderr, "%s\n", ToString(s).c_str()); std::exit(1); }
  }
}

int main(int argc, char** argv) {
  if (argc != 5) return 2;
  std::string engine = argv[1];
  bool set = std::strcmp(argv[2], "set") == 0;
  int threads = std::atoi(argv[3]);
  int calls = std::atoi(argv[4]);
  std::unique_ptr<DBM> dbm;
  if (engine == "tiny") {
    auto t = std::make_unique<TinyDBM>(131072);
    dbm = std::move(t);
    dbm->Open("", true);
  } else {
    auto h = std::make_unique<HashDBM>();
    HashDBM::TuningParameters p;
    p.num_buckets = 131072;
    p.update_mode = HashDBM::UPDATE_APPENDING;
    if (h->OpenAdvanced("bench.tkh", true, File::OPEN_TRUNCATE, p) != Status::SUCCESS) return 1;
    dbm = std::move(h);
  }
  for (int i = 0; i < kKeys; i++) dbm->Set(KeyOf(i), KeyOf(i));
  auto start = std::chrono::steady_clock::now();
  std::vector<std::thread> all;
  for (int t = 0; t < threads; t++) all.emplace_back(Run, dbm.get(), set, t + 1, calls / threads);
  for (auto& t : all) t.join();
  double s = std::chrono::duration<double>(std::chrono::steady_clock::now() - start).count();
  std::printf("%.0f\n", calls / threads * threads / s);
  dbm->Close();
}
