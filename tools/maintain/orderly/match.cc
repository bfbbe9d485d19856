#include <iostream>
#include <regex>
#include <string>
int main() {
    std::regex date(R"((\d{4})-(\d\d)-(\d\d))"), mail(R"([a-z.]+@[a-z]+\.(org|com))"); int hits = 0;
    for (int i = 0; i < 6; i++) for (std::string text : {"on 2024-05-17 it was", "write to some.one@place.org now", "no such thing here"}) {
        std::smatch m; hits += std::regex_search(text, m, date); hits += std::regex_search(text, m, mail);
    }
    std::cout << hits << ' ' << std::regex_replace(std::string("1999-12-31"), date, "$3.$2.$1") << '\n';
}
