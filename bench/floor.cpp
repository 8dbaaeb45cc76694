// The floor of what a server of strings, lists, sorted sets, sets, hashes and streams costs: it reads requests in RESP2 from its input in
// pieces of 64 KiB, keeps an std::unordered_map of std::string, one of std::deque, one of trees that count ranks, and others of
// std::unordered_set, std::unordered_map and std::map, and writes the replies. No deadline ends, no table grows in steps, and nothing is
// checked that a workload doesn't do wrong.
#include <algorithm>
#include <cstdio>
#include <cstdlib>
#include <cstring>
#include <ctime>
#include <deque>
#include <ext/pb_ds/assoc_container.hpp>
#include <ext/pb_ds/tree_policy.hpp>
#include <map>
#include <string>
#include <string_view>
#include <unistd.h>
#include <unordered_map>
#include <unordered_set>
#include <vector>

using Words = std::vector<std::string_view>;

static std::unordered_map<std::string, std::string> values;
static std::unordered_map<std::string, long long> deadlines;
static std::unordered_map<std::string, std::deque<std::string>> lists;
using Order = __gnu_pbds::tree<std::pair<long long, std::string>, __gnu_pbds::null_type,
  std::less<std::pair<long long, std::string>>, __gnu_pbds::rb_tree_tag, __gnu_pbds::tree_order_statistics_node_update>;
struct Scored {
  std::unordered_map<std::string, long long> scores;
  Order order;
};

static std::unordered_map<std::string, Scored> zsets;
static std::unordered_map<std::string, std::unordered_set<std::string>> sets;

// a small hash is told in the order in which its fields came, which a map of the library doesn't keep
struct Hash {
  std::unordered_map<std::string, std::string> fields;
  std::vector<const std::pair<const std::string, std::string> *> order;
};

static std::unordered_map<std::string, Hash> hashes;
using Id = std::pair<unsigned long long, unsigned long long>;
using Entries = std::map<Id, std::vector<std::string>>;
struct Group {
  Id last;
  std::map<Id, std::string> pending;
};
struct Stream {
  Entries entries;
  std::unordered_map<std::string, Group> groups;
};

static std::unordered_map<std::string, Stream> streams;
static std::string input, replies;

static void put_all() {
  for (size_t at = 0; at < replies.size();) {
    ssize_t put = write(1, replies.data() + at, replies.size() - at);
    if (put < 0) exit(5);
    at += put;
  }
  replies.clear();
}

static void number(long long n) { replies += ':' + std::to_string(n) + "\r\n"; }

static void bulk(std::string_view bytes) {
  replies += '$' + std::to_string(bytes.size()) + "\r\n";
  replies += bytes;
  replies += "\r\n";
}

static void bulk_of(std::string_view key) {
  auto found = values.find(std::string(key));
  if (found == values.end()) replies += "$-1\r\n";
  else bulk(found->second);
}

static void set(std::string_view key, std::string_view value) {
  values[std::string(key)] = value;
  if (!deadlines.empty()) deadlines.erase(std::string(key));
}

static void expire(std::string_view key, std::string_view seconds) {
  deadlines[std::string(key)] = time(nullptr) + atoll(std::string(seconds).c_str());
}

static void push(const Words &words, bool head) {
  std::deque<std::string> &list = lists[std::string(words[1])];
  for (size_t i = 2; i < words.size(); i++) {
    if (head) list.emplace_front(words[i]);
    else list.emplace_back(words[i]);
  }
  number(list.size());
}

static void pop(std::deque<std::string> &list) {
  bulk(list.back());
  list.pop_back();
}

// the elements between two places that count from the head
static void range(const std::deque<std::string> &list, size_t first, size_t last) {
  size_t behind = std::min(last + 1, list.size());
  replies += '*' + std::to_string(behind - first) + "\r\n";
  for (size_t i = first; i < behind; i++) bulk(list[i]);
}

static void position(const std::deque<std::string> &list, std::string_view element) {
  auto found = std::find(list.begin(), list.end(), element);
  if (found == list.end()) replies += "$-1\r\n";
  else number(found - list.begin());
}

static size_t place(std::string_view word) { return atoll(std::string(word).c_str()); }

// A workload asks for no key and no place that isn't there.
static void execute_of_list(const Words &words) {
  std::string_view name = words[0];
  std::deque<std::string> &list = lists[std::string(words[1])];
  if (name == "RPOP") pop(list);
  else if (name == "LRANGE") range(list, place(words[2]), place(words[3]));
  else if (name == "LINDEX") bulk(list[place(words[2])]);
  else position(list, words[2]);
}

static long long whole(std::string_view word) { return atoll(std::string(word).c_str()); }

// a member gets a score; whether it is new
static bool score(Scored &set, const std::string &member, long long score) {
  auto [at, fresh] = set.scores.try_emplace(member, score);
  if (!fresh) {
    set.order.erase({at->second, member});
    at->second = score;
  }
  set.order.insert({score, member});
  return fresh;
}

static void add_scores(Scored &set, const Words &words) {
  long long fresh = 0;
  for (size_t i = 2; i < words.size(); i += 2) fresh += score(set, std::string(words[i + 1]), whole(words[i]));
  number(fresh);
}

static void range_from(const Scored &set, Order::const_iterator at, size_t most) {
  std::string told;
  size_t count = 0;
  std::swap(told, replies);
  for (; at != set.order.end() && count < most; ++at, ++count) bulk(at->second);
  std::swap(told, replies);
  replies += '*' + std::to_string(count) + "\r\n" + told;
}

static void pop_lowest(Scored &set) {
  auto lowest = *set.order.begin();
  set.order.erase(set.order.begin());
  set.scores.erase(lowest.second);
  replies += "*2\r\n";
  bulk(lowest.second);
  bulk(std::to_string(lowest.first));
}

// A workload asks for no member that isn't there.
static void execute_of_zset(const Words &words) {
  std::string_view name = words[0];
  Scored &set = zsets[std::string(words[1])];
  if (name == "ZADD") add_scores(set, words);
  else if (name == "ZPOPMIN") pop_lowest(set);
  else if (name == "ZRANK") {
    std::string member(words[2]);
    number(set.order.order_of_key({set.scores[member], member}));
  } else if (name == "ZINCRBY") {
    std::string member(words[3]);
    long long sum = set.scores[member] + whole(words[2]);
    score(set, member, sum);
    bulk(std::to_string(sum));
  } else if (name == "ZRANGE") range_from(set, set.order.find_by_order(place(words[2])), place(words[3]) + 1 - place(words[2]));
  else range_from(set, set.order.lower_bound({whole(words[2]), ""}), place(words[6]));
}

static void intersect(const std::unordered_set<std::string> &set, const std::unordered_set<std::string> &other) {
  std::string told;
  size_t count = 0;
  std::swap(told, replies);
  for (const std::string &member : set)
    if (other.count(member)) {
      bulk(member);
      count++;
    }
  std::swap(told, replies);
  replies += '*' + std::to_string(count) + "\r\n" + told;
}

// A workload pops from no set that is empty. Which member goes is the map's choice: nothing is drawn.
static void execute_of_set(const Words &words) {
  std::string_view name = words[0];
  std::unordered_set<std::string> &set = sets[std::string(words[1])];
  if (name == "SADD") {
    long long fresh = 0;
    for (size_t i = 2; i < words.size(); i++) fresh += set.emplace(words[i]).second;
    number(fresh);
  } else if (name == "SISMEMBER") number(set.count(std::string(words[2])));
  else if (name == "SPOP") {
    bulk(*set.begin());
    set.erase(set.begin());
  } else intersect(set, sets[std::string(words[2])]);
}

// a field gets a value; whether it is new
static bool field(Hash &hash, std::string_view name, std::string_view value) {
  auto [at, fresh] = hash.fields.try_emplace(std::string(name), value);
  if (fresh) hash.order.push_back(&*at);
  else at->second = value;
  return fresh;
}

// A workload asks for no field that isn't there.
static void execute_of_hash(const Words &words) {
  std::string_view name = words[0];
  Hash &hash = hashes[std::string(words[1])];
  if (name == "HSET") {
    long long fresh = 0;
    for (size_t i = 2; i < words.size(); i += 2) fresh += field(hash, words[i], words[i + 1]);
    number(fresh);
  } else if (name == "HGET") bulk(hash.fields[std::string(words[2])]);
  else if (name == "HGETALL") {
    replies += '*' + std::to_string(2 * hash.order.size()) + "\r\n";
    for (const auto *pair : hash.order) {
      bulk(pair->first);
      bulk(pair->second);
    }
  } else {
    std::string &value = hash.fields[std::string(words[2])];
    long long sum = whole(value) + whole(words[3]);
    value = std::to_string(sum);
    number(sum);
  }
}

static Id id(std::string_view word) {
  size_t dash = word.find('-');
  return {whole(word.substr(0, dash)), whole(word.substr(dash + 1))};
}

// the entries between two places
static void tell(Entries::const_iterator at, Entries::const_iterator behind) {
  replies += '*' + std::to_string(std::distance(at, behind)) + "\r\n";
  for (; at != behind; ++at) {
    replies += "*2\r\n";
    bulk(std::to_string(at->first.first) + '-' + std::to_string(at->first.second));
    replies += '*' + std::to_string(at->second.size()) + "\r\n";
    for (const std::string &word : at->second) bulk(word);
  }
}

// GROUP, the group, the consumer, COUNT, how many, STREAMS, the key and >
static void read_group(const Words &words) {
  Stream &stream = streams[std::string(words[7])];
  Group &group = stream.groups[std::string(words[2])];
  auto first = stream.entries.upper_bound(group.last), behind = first;
  if (first == stream.entries.end()) {
    replies += "*-1\r\n";
    return;
  }
  for (size_t left = place(words[5]); left > 0 && behind != stream.entries.end(); left--, ++behind) {
    group.pending.emplace_hint(group.pending.end(), behind->first, words[3]);
    group.last = behind->first;
  }
  replies += "*1\r\n*2\r\n";
  bulk(words[7]);
  tell(first, behind);
}

static void execute_of_stream(const Words &words) {
  std::string_view name = words[0];
  if (name == "XREADGROUP") return read_group(words);
  Stream &stream = streams[std::string(words[name == "XGROUP" ? 2 : 1])];
  if (name == "XADD") {
    stream.entries.emplace_hint(stream.entries.end(), id(words[2]), std::vector<std::string>(words.begin() + 3, words.end()));
    bulk(words[2]);
  } else if (name == "XRANGE") {
    auto first = stream.entries.lower_bound(id(words[2])), behind = first;
    for (size_t left = place(words[5]); left > 0 && behind != stream.entries.end(); left--) ++behind;
    tell(first, behind);
  } else if (name == "XDEL") {
    number(stream.entries.erase(id(words[2])));
  } else if (name == "XACK") {
    Group &group = stream.groups[std::string(words[2])];
    long long gone = 0;
    for (size_t i = 3; i < words.size(); i++) gone += group.pending.erase(id(words[i]));
    number(gone);
  } else {
    stream.groups[std::string(words[3])];
    replies += "+OK\r\n";
  }
}

static void execute(const Words &words) {
  std::string_view name = words[0];
  if (name == "GET") {
    bulk_of(words[1]);
  } else if (name == "SET") {
    set(words[1], words[2]);
    replies += "+OK\r\n";
  } else if (name == "SETEX") {
    set(words[1], words[3]);
    expire(words[1], words[2]);
    replies += "+OK\r\n";
  } else if (name == "INCR") {
    std::string &value = values[std::string(words[1])];
    long long n = atoll(value.c_str()) + 1;
    value = std::to_string(n);
    number(n);
  } else if (name == "EXPIRE") {
    bool there = values.count(std::string(words[1]));
    if (there) expire(words[1], words[2]);
    number(there);
  } else if (name == "LPUSH" || name == "RPUSH") {
    push(words, name == "LPUSH");
  } else if (name == "RPOP" || name == "LRANGE" || name == "LINDEX" || name == "LPOS") {
    execute_of_list(words);
  } else if (name[0] == 'Z') {
    execute_of_zset(words);
  } else if (name[0] == 'S') {
    execute_of_set(words);
  } else if (name[0] == 'H') {
    execute_of_hash(words);
  } else if (name[0] == 'X') {
    execute_of_stream(words);
  } else if (name == "APPEND") {
    std::string &value = values[std::string(words[1])];
    value += words[2];
    number(value.size());
  } else if (name == "DEL") {
    number(values.erase(std::string(words[1])));
  } else if (name == "MSET") {
    for (size_t i = 1; i < words.size(); i += 2) set(words[i], words[i + 1]);
    replies += "+OK\r\n";
  } else if (name == "MGET") {
    replies += '*' + std::to_string(words.size() - 1) + "\r\n";
    for (size_t i = 1; i < words.size(); i++) bulk_of(words[i]);
  } else {
    bulk(words[1]);
  }
}

// The number behind the byte at a place, up to the end of its line, and the place behind that; false where it isn't all there.
static bool header(size_t &at, size_t &n) {
  size_t end = input.find('\n', at);
  if (end == std::string::npos) return false;
  n = strtoull(input.c_str() + at + 1, nullptr, 10);
  at = end + 1;
  return true;
}

static bool next(size_t &at, Words &words) {
  size_t place = at, count, len;
  words.clear();
  if (place >= input.size() || !header(place, count)) return false;
  for (size_t i = 0; i < count; i++) {
    if (!header(place, len) || place + len + 2 > input.size()) return false;
    words.emplace_back(input.data() + place, len);
    place += len + 2;
  }
  at = place;
  return true;
}

int main() {
  static char piece[65536];
  Words words;
  for (ssize_t got; (got = read(0, piece, sizeof piece)) > 0;) {
    input.append(piece, got);
    size_t at = 0;
    while (next(at, words)) {
      execute(words);
      if (replies.size() > 65536) put_all();
    }
    input.erase(0, at);
    put_all();
  }
}
