#include <citrus.hpp>
#include <iostream>
#include <thread>

int main() {
    citrus::handle index(100000, 4);
    std::thread writer([mine = index.share()]() mutable { mine.insert(5, 50); });
    writer.join();
    if (auto value = index.get(5)) std::cout << "5 has " << *value << "\n";
}
