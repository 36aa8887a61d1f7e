// What oneTBB's concurrent_map has, for README's table: each line was tried here.
#include "tried.hpp"
#include <oneapi/tbb/concurrent_map.h>
#include <string>
#include <type_traits>
#include <utility>

using Map = tbb::concurrent_map<std::string, int>;

template <class Any, class = void> struct Erases : std::false_type {};
template <class Any> struct Erases<Any, std::void_t<decltype(std::declval<Any &>().erase(std::string()))>> : std::true_type {};

int main() {
    Map map{{"b", 1}, {"d", 1}};
    tried("keys of any type, in order", map.begin()->first == "b" && map.lower_bound("c")->first == "d");

    // Of two keys that come while it is under way a walk meets the later one alone.
    auto at = map.lower_bound("b");
    map.emplace("a", 1);
    map.emplace("e", 1);
    std::string met;
    for (; at != map.end(); ++at) met += at->first;
    tried("a walk over a range, and not of one moment", met == "bde");

    tried("no erase that other calls may stand beside: unsafe_erase alone", !Erases<Map>::value && map.unsafe_erase("a") == 1);

    for (int i = 0; i < 100000; i++) map.emplace(std::to_string(i), i);
    tried("it grows", map.size() == 100003);
}
