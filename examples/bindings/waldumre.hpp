// Questions to guarded relations from C++17: vectors around the C calls. A refusal is thrown as waldumre::refused.
//
//     waldumre::collection shop;
//     shop.stored(3, {{7, 1, 250}, {8, 1, 120}});            // relation 0, of 3 attributes
//     waldumre::result got = shop.ask(permits, question);    // bytes, as docs/FORMAT.md says
//     got.rows                                               // {{7, 250}, {8, 120}}
//     got = shop.ask_text(permits, "RANGE OFFER(X) RETRIEVE W:X.PRICE", names);    // the question typed as QUEL
#ifndef WALDUMRE_HPP
#define WALDUMRE_HPP

#include <waldumre.h>

#include <cstddef>
#include <cstdint>
#include <stdexcept>
#include <string>
#include <utility>
#include <vector>

namespace waldumre {

using bytes = std::vector<std::uint8_t>;

struct refused : std::runtime_error {
    explicit refused(std::uint64_t n)
        : std::runtime_error("refused " + std::to_string(n) + ": " + waldumre_refusal_text(n)), number(n) {}
    std::uint64_t number;
};

struct result {
    std::vector<std::vector<std::int64_t>> rows;
    bool complete = true; // false: more rows than cells were lent; these are the first
    bytes rewritten;      // for the host's log, not for the asker
};

// Records of a name list; a list is its records, one after the other.
inline bytes named(bytes record, const std::string &name)
{
    if (name.size() > WALDUMRE_NAME_BYTES)
        throw std::length_error("a name of over 12 letters");
    record.insert(record.end(), name.begin(), name.end());
    record.resize(record.size() + WALDUMRE_NAME_BYTES - name.size(), ' ');
    return record;
}
inline bytes name_relation(std::uint8_t relation, const std::string &name) { return named({WALDUMRE_KIND_NAME_RELATION, relation}, name); }
inline bytes name_attribute(std::uint8_t relation, std::uint8_t attribute, const std::string &name)
{
    return named({WALDUMRE_KIND_NAME_ATTRIBUTE, relation, attribute}, name);
}
inline bytes name_value(std::int32_t value, const std::string &name)
{
    const auto low = static_cast<std::uint32_t>(value);
    return named({WALDUMRE_KIND_NAME_VALUE, static_cast<std::uint8_t>(low), static_cast<std::uint8_t>(low >> 8),
                  static_cast<std::uint8_t>(low >> 16), static_cast<std::uint8_t>(low >> 24)},
                 name);
}

// The bytes of a question typed as QUEL; no relation is looked at.
inline bytes read_query(const std::string &text, const bytes &names)
{
    const bytes typed(text.begin(), text.end());
    bytes records(WALDUMRE_RECORDS_BYTES);
    waldumre_reading got =
        waldumre_read_query(typed.data(), typed.size(), names.data(), names.size(), records.data(), records.size());
    if (got.number != 0)
        throw refused(got.number);
    records.resize(got.length);
    return records;
}

class collection {
public:
    using row = std::vector<std::int32_t>;

    // Adds a relation; its number is how many there were before.
    void stored(std::uint8_t columns, const std::vector<row> &rows) { add(WALDUMRE_KIND_STORED, columns, rows); }
    void latest(std::uint8_t columns, const std::vector<row> &rows) { add(WALDUMRE_KIND_LATEST, columns, rows); } // last row first
    void workspace(std::uint8_t columns, const std::vector<row> &rows) { add(WALDUMRE_KIND_WORKSPACE, columns, rows); }

    // The guarded call, for questions from outside. The permits are the host's choice, never the asker's.
    result ask(const bytes &permits, const bytes &question, std::size_t cells = 4096) const
    {
        bytes rewritten(WALDUMRE_REWRITTEN_BYTES);
        std::vector<std::int64_t> answer(cells);
        waldumre_outcome o =
            waldumre_ask(catalogue.data(), catalogue.size(), values.data(), values.size(), permits.data(), permits.size(),
                         question.data(), question.size(), rewritten.data(), rewritten.size(), answer.data(), cells);
        result got = taken(o, answer);
        rewritten.resize(o.length);
        got.rewritten = std::move(rewritten);
        return got;
    }

    // The guarded call for a question typed as QUEL.
    result ask_text(const bytes &permits, const std::string &text, const bytes &names, std::size_t cells = 4096) const
    {
        const bytes typed(text.begin(), text.end());
        bytes records(WALDUMRE_RECORDS_BYTES), rewritten(WALDUMRE_REWRITTEN_BYTES);
        std::vector<std::int64_t> answer(cells);
        waldumre_outcome o = waldumre_ask_text(catalogue.data(), catalogue.size(), values.data(), values.size(),
                                               permits.data(), permits.size(), typed.data(), typed.size(), names.data(),
                                               names.size(), records.data(), records.size(), rewritten.data(),
                                               rewritten.size(), answer.data(), cells);
        result got = taken(o, answer);
        rewritten.resize(o.length);
        got.rewritten = std::move(rewritten);
        return got;
    }

    // Answers over all rows and guards nothing: for questions of your own.
    result evaluate(const bytes &question, std::size_t cells = 4096) const
    {
        std::vector<std::int64_t> answer(cells);
        return taken(waldumre_evaluate(catalogue.data(), catalogue.size(), values.data(), values.size(), question.data(),
                                       question.size(), answer.data(), cells),
                     answer);
    }

private:
    void add(std::uint8_t kind, std::uint8_t columns, const std::vector<row> &rows)
    {
        if (rows.size() > WALDUMRE_MAX_ROWS)
            throw std::length_error("over 1,024 rows");
        for (const row &one : rows)
            if (one.size() != columns)
                throw std::length_error("a row has another number of values");
        catalogue.insert(catalogue.end(), {kind, columns, static_cast<std::uint8_t>(rows.size() % 256),
                                           static_cast<std::uint8_t>(rows.size() / 256)});
        for (const row &one : rows)
            values.insert(values.end(), one.begin(), one.end());
    }

    static result taken(const waldumre_outcome &o, const std::vector<std::int64_t> &answer)
    {
        if (o.number != 0 && o.number != WALDUMRE_ANSWER_BUFFER)
            throw refused(o.number);
        result got;
        got.complete = o.number == 0;
        for (auto at = answer.begin(); got.rows.size() < o.rows; at += static_cast<std::ptrdiff_t>(o.columns))
            got.rows.emplace_back(at, at + static_cast<std::ptrdiff_t>(o.columns));
        return got;
    }

    bytes catalogue;
    std::vector<std::int32_t> values;
};

} // namespace waldumre

#endif
