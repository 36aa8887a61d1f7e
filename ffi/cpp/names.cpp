#include <citrus_map.hpp>
#include <iostream>
#include <string>
#include <thread>

int main() {
    citrus::map<int, std::string> names(100000, 2);
    std::thread writer([mine = names.share()]() mutable { mine.insert(-5, std::make_unique<std::string>("negative")); });
    writer.join();
    if (auto name = names.get(-5)) std::cout << "-5 is " << *name << "\n";    // the string stays until `name` ends
    std::unique_ptr<std::string> gone = names.remove(-5);                     // it comes when nobody reads it any more
    std::cout << *gone << " is gone\n";
}
