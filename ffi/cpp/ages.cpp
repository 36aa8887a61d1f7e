#include <citrus_string_map.hpp>
#include <iostream>

int main() {
    citrus::string_map<int> ages(200000, 2);
    ages.insert("user:7", 70);
    if (auto age = ages.get("user:7")) std::cout << *age << "\n";    // it stays until `age` ends
    ages.each_with("user:", [](std::string_view user, int age) { std::cout << user << " is " << age << "\n"; });
    std::cout << *ages.remove("user:7") << " is gone\n";
}
