// What std::map under std's lock of readers and writers has, for README's table: each line was tried here.
#include "tried.hpp"
#include <map>
#include <mutex>
#include <shared_mutex>
#include <string>
#include <thread>

int main() {
    std::map<std::string, int> map{{"b", 1}, {"d", 1}};
    std::shared_mutex lock;
    const auto others = [&](auto call) {
        bool is_let = false;
        std::thread([&] { is_let = call(); }).join();
        return is_let;
    };
    const auto may_read = [&] { return lock.try_lock_shared() && (lock.unlock_shared(), true); };
    const auto may_write = [&] { return lock.try_lock() && (lock.unlock(), true); };

    tried("keys of any type, in order", map.lower_bound("c")->first == "d");
    {
        const std::shared_lock reading(lock);
        tried("a range of one moment: who reads it keeps each update off", others(may_read) && !others(may_write));
    }
    {
        const std::unique_lock writing(lock);
        tried("a lookup waits for an update", !others(may_read));
        tried("erase", map.erase("b") == 1);
    }
    for (int i = 0; i < 100000; i++) map.emplace(std::to_string(i), i);
    tried("it grows", map.size() == 100001);
}
