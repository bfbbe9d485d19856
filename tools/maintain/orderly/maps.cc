#include <algorithm>
#include <functional>
#include <iostream>
#include <map>
#include <memory>
#include <sstream>
#include <string>
#include <vector>
struct Shape { virtual ~Shape() = default; virtual double area() const = 0; };
struct Box : Shape { double a, b; Box(double a, double b) : a(a), b(b) {} double area() const override { return a * b; } };
struct Round : Shape { double r; explicit Round(double r) : r(r) {} double area() const override { return 3.0 * r * r; } };
int main() {
    std::map<std::string, std::vector<int>> words; std::ostringstream text;
    for (int i = 0; i < 1500; i++) text << "w" << (i * 37 % 211) << ' ';
    std::istringstream in(text.str()); std::string word; int at = 0;
    while (in >> word) words[word].push_back(at++);
    std::vector<std::pair<std::string, size_t>> all; for (auto &it : words) all.emplace_back(it.first, it.second.size());
    std::sort(all.begin(), all.end(), [](auto &a, auto &b) { return a.second != b.second ? a.second > b.second : a.first < b.first; });
    std::vector<std::unique_ptr<Shape>> shapes; double sum = 0;
    for (int i = 0; i < 400; i++) { if (i % 3) shapes.push_back(std::make_unique<Box>(i, 2)); else shapes.push_back(std::make_unique<Round>(i)); }
    std::vector<std::function<double(double)>> steps{[](double x) { return x + 1; }, [&](double x) { return x / 2; }};
    for (auto &s : shapes) for (auto &f : steps) sum += f(s->area());
    std::cout << all.front().first << ' ' << all.front().second << ' ' << sum << '\n';
}
