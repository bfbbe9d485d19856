#include <cstdlib>
#include <iostream>
#include <stdexcept>
#include <string>
#include <vector>
struct Guard { long &n; explicit Guard(long &n) : n(n) {} ~Guard() { n++; } };
static long cleaned;
__attribute__((noinline)) static int parse(const std::string &text) {
    Guard guard(cleaned);
    if (text.empty()) throw std::invalid_argument("empty");
    if (text.size() > 3) throw std::out_of_range(text);
    return std::stoi(text);
}
__attribute__((noinline)) static int deep(int n, const std::string &text) { std::string kept = text + "!"; Guard guard(cleaned); return n ? deep(n - 1, text) : parse(text) + (int)kept.size(); }
int main() {
    static const char *const given[] = {"1", "22", "", "99999", "abc"}; long sum = 0, bad = 0;
    for (int i = 0; i < 60; i++) {
        try { try { sum += deep(i % 6, given[i % 5]); } catch (const std::out_of_range &e) { bad += 10; throw std::runtime_error(e.what()); } }
        catch (const std::invalid_argument &e) { bad++; }
        catch (const std::exception &e) { bad += 100; }
    }
    std::cout << sum << ' ' << bad << ' ' << cleaned << '\n';
}
