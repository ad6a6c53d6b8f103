// What the standard library has names for.
#include <algorithm>
#include <array>
#include <chrono>
#include <functional>
#include <future>
#include <map>
#include <memory>
#include <mutex>
#include <numeric>
#include <optional>
#include <random>
#include <regex>
#include <set>
#include <sstream>
#include <string>
#include <thread>
#include <tuple>
#include <unordered_map>
#include <variant>
#include <vector>

struct Shape { virtual ~Shape() = default; virtual double area() const = 0; };
struct Square : Shape { double side = 1; double area() const override { return side * side; } };

int main() {
    std::map<std::string, std::vector<std::unique_ptr<Shape>>> shapes;
    shapes["a"].push_back(std::make_unique<Square>());
    std::unordered_map<unsigned long, std::pair<const char *, std::function<int(long)>>> functions;
    functions.emplace(1ul, std::make_pair("x", [](long x) { return int(x); }));
    std::variant<int, unsigned long, std::string> variant = 5;
    std::optional<std::tuple<int, char, long long>> tuple = std::make_tuple(1, 'a', 2ll);
    std::set<std::array<unsigned char, 16>, std::greater<>> set;
    std::mt19937_64 generator(1);
    std::uniform_int_distribution<unsigned short> distribution(1, 6);
    std::regex regex("a+b");
    std::future<int> future = std::async(std::launch::deferred, [](int x) { return x; }, distribution(generator));
    std::thread thread([&] { set.insert({}); });
    thread.join();
    std::vector<int> numbers(10);
    std::iota(numbers.begin(), numbers.end(), 0);
    std::sort(numbers.begin(), numbers.end(), [](int a, int b) { return a > b; });
    std::ostringstream out;
    out << std::chrono::duration_cast<std::chrono::milliseconds>(std::chrono::seconds(3)).count() << std::regex_match("aab", regex);
    std::shared_ptr<Shape> shared = std::make_shared<Square>();
    return std::visit([](auto &&it) { return int(sizeof(it)); }, variant) + future.get() + int(std::get<0>(*tuple)) + int(shared->area()) + int(out.str().size())
        + std::accumulate(numbers.begin(), numbers.end(), 0, std::plus<>());
}
