// The question of docs/FORMAT.md from C++.
#include "waldumre.hpp"

#include <iostream>

using waldumre::bytes;

static void show(const char *what, const waldumre::result &got)
{
    std::cout << what << ":";
    for (const auto &row : got.rows) {
        const char *before = " (";
        for (std::int64_t cell : row) {
            std::cout << before << cell;
            before = ", ";
        }
        std::cout << (row.size() == 1 ? ",)" : ")");
    }
}

int main()
{
    waldumre::collection shop;
    shop.stored(3, {{7, 1, 250}, {7, 2, 900}, {8, 1, 120}, {8, 2, 120}}); // OFFER: article, brand, price
    shop.stored(2, {{1, 30}, {2, 31}});                                   // SUPPLY: brand, buyer
    const bytes permits = {64, 0, 7, 0, 22, 1, 1, 19, 21, 1, 33, 1, 0, 33, 0, 1, 21, 1, 33, 1, 1, 32, 30, 0, 0, 0};
    const bytes question = {1, 0, 0, 33, 0, 0, 33, 0, 2, 21, 4, 33, 0, 2, 34, 3, 1, 0, 2, 16};

    waldumre::result got = shop.ask(permits, question);
    show("buyer 30", got);
    std::cout << "\nrewritten:";
    for (std::uint8_t byte : got.rewritten)
        std::cout << ' ' << int(byte);
    std::cout << '\n';
    show("evaluated again", shop.evaluate(got.rewritten));
    std::cout << '\n';
    show("over all rows", shop.evaluate(question));
    std::cout << '\n';
    show("no row", shop.ask(permits, {1, 0, 0, 33, 0, 2, 21, 3, 33, 0, 2, 32, 0, 0, 0, 0}));
    std::cout << '\n';
    waldumre::result some = shop.ask(permits, {1, 0, 0, 33, 0, 2, 16}, 1);
    show("room for one row", some);
    std::cout << (some.complete ? " complete\n" : " and more\n");
    waldumre::collection board;
    board.latest(2, {{7, 11}, {7, 12}}); // article, offer: the last row is met first
    show("latest first", board.ask({64, 0, 255, 255, 16}, {1, 0, 0, 33, 0, 1, 16}));
    std::cout << '\n';
    bytes names;
    for (const bytes &record : {waldumre::name_relation(0, "OFFER"), waldumre::name_attribute(0, 0, "ARTICLE"),
                                waldumre::name_attribute(0, 2, "PRICE"), waldumre::name_value(0, "FREE")})
        names.insert(names.end(), record.begin(), record.end());
    const std::string text = "RANGE OFFER(X) RETRIEVE W:X.ARTICLE,X.PRICE:X.PRICE<=AVE(X.PRICE)";
    show("typed", shop.ask_text(permits, text, names));
    std::cout << "\nthe same bytes: " << (waldumre::read_query(text, names) == question ? "True" : "False") << '\n';
    show("free", shop.ask_text(permits, "RANGE OFFER(X) RETRIEVE W:X.ARTICLE:X.PRICE=FREE", names));
    std::cout << '\n';
    try {
        shop.ask_text(permits, "RANGE OFFER(X) RETRIEVE W:X.BRAND", names);
    } catch (const waldumre::refused &refusal) {
        std::cout << "a name that is not listed: refused " << refusal.number << '\n';
    }
    try {
        shop.ask({}, question);
    } catch (const waldumre::refused &refusal) {
        std::cout << "without permits: " << refusal.what() << '\n';
    }
}
