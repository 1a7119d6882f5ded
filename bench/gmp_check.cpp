// A plain checker of VIPR 1.0 certificates over GMP's rationals, to be timed beside `vipr check`.
//
// usage: gmp_check [FILE]
//
// It follows docs/FORMAT.md with the tools at hand in C++: tokens by a stream, numbers by GMP, rows that constraints
// share. Its numbers have no bound, and of a text that breaks the format it says less. Prints `verified` and ends with
// 0, or `refused`, the item and why, and ends with 1. It proves nothing, and takes no more care than such a program does.
//
// To build it: g++ -std=c++17 -O2 bench/gmp_check.cpp -o gmp_check -lgmpxx -lgmp
#include <algorithm>
#include <cstdint>
#include <fstream>
#include <gmpxx.h>
#include <iostream>
#include <map>
#include <memory>
#include <optional>
#include <set>
#include <stdexcept>
#include <string>
#include <tuple>
#include <vector>

using Number = mpq_class;
using Index = std::uint32_t;
using Row = std::vector<std::pair<Index, Number>>;
using Indices = std::set<Index>;

struct Refused : std::runtime_error {
    using std::runtime_error::runtime_error;
};

enum class Sense { at_most = -1, equal = 0, at_least = 1 };

Sense turned_by(Sense sense, const Number& multiplier)
{
    return Sense(int(sense) * sgn(multiplier));
}

bool is_whole(const Number& number)
{
    return number.get_den() == 1;
}

Number rounded_down(const Number& number)
{
    mpz_class whole;
    mpz_fdiv_q(whole.get_mpz_t(), number.get_num_mpz_t(), number.get_den_mpz_t());
    return whole;
}

Number rounded_up(const Number& number)
{
    mpz_class whole;
    mpz_cdiv_q(whole.get_mpz_t(), number.get_num_mpz_t(), number.get_den_mpz_t());
    return whole;
}

struct Constraint {
    Sense sense = Sense::equal;
    Number rhs;
    std::shared_ptr<const Row> row;
    // an equation without whole solutions, made by rounding
    bool is_gap = false;

    bool is_absurd() const
    {
        if (is_gap)
            return true;
        if (!row->empty())
            return false;
        const int sign = sgn(rhs);
        return sense == Sense::equal ? sign != 0 : sign == int(sense);
    }

    bool has_row_of(const Constraint& other) const
    {
        return row == other.row || *row == *other.row;
    }

    bool dominates(const Constraint& other) const
    {
        if (is_absurd())
            return true;
        if (sense != Sense::equal && sense != other.sense)
            return false;
        if (!has_row_of(other))
            return false;
        switch (other.sense) {
        case Sense::at_least:
            return rhs >= other.rhs;
        case Sense::at_most:
            return rhs <= other.rhs;
        default:
            return rhs == other.rhs;
        }
    }

    bool holds_for(const Number& value) const
    {
        const int order = cmp(value, rhs);
        return sense == Sense::equal ? order == 0 : order * int(sense) >= 0;
    }
};

// What the checker keeps of a constraint of CON or DER until its last reference.
struct Listed {
    Constraint constraint;
    std::shared_ptr<const Indices> rests_on;
    bool is_assumption = false;
};

class Tokens {
public:
    explicit Tokens(std::istream& source) : source(source) {}

    const std::string& next()
    {
        if (!(source >> token))
            throw Refused("the text ends early");
        return token;
    }

    void keyword(const char* wanted)
    {
        if (next() != wanted)
            throw Refused(std::string("instead of ") + wanted + " there is " + token);
    }

    Index count()
    {
        return as_index(next());
    }

    Index index_below(std::size_t bound)
    {
        const Index index = as_index(next());
        if (index >= bound)
            throw Refused("no index: " + token);
        return index;
    }

    Number number()
    {
        return as_number(next());
    }

    std::optional<Number> bound(const char* infinite)
    {
        return next() == infinite ? std::nullopt : std::optional(as_number(token));
    }

    static Index as_index(const std::string& token)
    {
        if (token.empty() || token.size() > 10 || token.find_first_not_of("0123456789") != std::string::npos)
            throw Refused("no count: " + token);
        const auto value = std::stoull(token);
        if (value > UINT32_MAX)
            throw Refused("no count: " + token);
        return Index(value);
    }

    static Number as_number(const std::string& token)
    {
        Number number;
        if (number.set_str(token[0] == '+' ? token.substr(1) : token, 10) != 0 || number.get_den() <= 0)
            throw Refused("no number: " + token);
        number.canonicalize();
        return number;
    }

    Row pairs(Index count, std::size_t variables)
    {
        Row row;
        for (Index n = 0; n < count; ++n) {
            const Index variable = index_below(variables);
            row.emplace_back(variable, number());
        }
        std::sort(row.begin(), row.end(), [](auto& a, auto& b) { return a.first < b.first; });
        const auto repeated = std::adjacent_find(row.begin(), row.end(), [](auto& a, auto& b) { return a.first == b.first; });
        if (repeated != row.end())
            throw Refused("a repeated index");
        row.erase(std::remove_if(row.begin(), row.end(), [](auto& entry) { return entry.second == 0; }), row.end());
        return row;
    }

    // the token that was read last, as an index
    Index last_index() const
    {
        return as_index(token);
    }

    // the comments in front of VER
    void skip_comments()
    {
        std::string line;
        while (source >> std::ws && source.peek() == '%')
            std::getline(source, line);
    }

    bool is_at_end()
    {
        return !(source >> token);
    }

private:
    std::istream& source;
    std::string token;
};

class Checker {
public:
    explicit Checker(std::istream& source) : tokens(source) {}

    void check()
    {
        read_problem();
        read_solutions();
        read_derivations();
        if (!tokens.is_at_end())
            throw Refused("text behind the last derivation");
        if (!is_proved)
            throw Refused("no constraint proves the claim");
    }

private:
    Tokens tokens;
    std::size_t variables = 0;
    std::vector<bool> is_integer;
    bool is_minimized = true;
    std::shared_ptr<const Row> objective;
    bool is_infeasible = false;
    std::optional<Number> lower, upper, best;
    std::vector<std::optional<Listed>> listed;
    std::multimap<Index, Index> last_references;
    Constraint goal;
    bool is_proved = false;

    void read_problem()
    {
        tokens.skip_comments();
        tokens.keyword("VER");
        tokens.keyword("1.0");
        tokens.keyword("VAR");
        variables = tokens.count();
        for (std::size_t n = 0; n < variables; ++n)
            tokens.next();
        is_integer.resize(variables);
        tokens.keyword("INT");
        for (Index n = tokens.count(); n > 0; --n)
            is_integer[tokens.index_below(variables)] = true;
        tokens.keyword("OBJ");
        const std::string& direction = tokens.next();
        if (direction != "min" && direction != "max")
            throw Refused("neither min nor max: " + direction);
        is_minimized = direction == "min";
        objective = std::make_shared<Row>(tokens.pairs(tokens.count(), variables));
        tokens.keyword("CON");
        const Index constraints = tokens.count();
        tokens.count();
        for (Index n = 0; n < constraints; ++n)
            listed.push_back(Listed{read_constraint(), std::make_shared<Indices>()});
        read_claim();
    }

    Constraint read_constraint()
    {
        tokens.next();
        const std::string& word = tokens.next();
        if (word != "E" && word != "L" && word != "G")
            throw Refused("no sense: " + word);
        Constraint read;
        read.sense = word == "E" ? Sense::equal : word == "L" ? Sense::at_most : Sense::at_least;
        read.rhs = tokens.number();
        const std::string& entries = tokens.next();
        read.row = entries == "OBJ" ? objective
            : std::make_shared<Row>(tokens.pairs(Tokens::as_index(entries), variables));
        return read;
    }

    void read_claim()
    {
        tokens.keyword("RTP");
        const std::string& word = tokens.next();
        is_infeasible = word == "infeas";
        if (!is_infeasible && word != "range")
            throw Refused("no claim: " + word);
        if (is_infeasible) {
            goal = Constraint{Sense::at_least, 1, std::make_shared<Row>()};
            return;
        }
        lower = tokens.bound("-inf");
        upper = tokens.bound("inf");
        const auto& dual = is_minimized ? lower : upper;
        is_proved = !dual;
        if (dual)
            goal = Constraint{is_minimized ? Sense::at_least : Sense::at_most, *dual, objective};
    }

    Number value_of(const Row& row, const Row& point) const
    {
        Number sum;
        auto at = point.begin();
        for (const auto& [variable, coefficient] : row) {
            while (at != point.end() && at->first < variable)
                ++at;
            if (at != point.end() && at->first == variable)
                sum += coefficient * at->second;
        }
        return sum;
    }

    void read_solutions()
    {
        tokens.keyword("SOL");
        for (Index n = tokens.count(); n > 0; --n) {
            const std::string name = tokens.next();
            const Row point = tokens.pairs(tokens.count(), variables);
            for (const auto& [variable, value] : point)
                if (is_integer[variable] && !is_whole(value))
                    throw Refused("solution " + name + " isn't whole");
            for (const auto& it : listed)
                if (!it->constraint.holds_for(value_of(*it->constraint.row, point)))
                    throw Refused("solution " + name + " breaks a constraint");
            const Number value = value_of(*objective, point);
            if (!best || (is_minimized ? value < *best : value > *best))
                best = value;
        }
        const auto& primal = is_minimized ? upper : lower;
        if (primal && !(best && (is_minimized ? *best <= *primal : *best >= *primal)))
            throw Refused("no solution reaches the primal bound");
    }

    bool is_whole_at_integers(const Row& row) const
    {
        return std::all_of(row.begin(), row.end(), [this](auto& entry) {
            return is_integer[entry.first] && is_whole(entry.second);
        });
    }

    void round(Constraint& sum) const
    {
        if (!is_whole_at_integers(*sum.row))
            throw Refused("the sum can't be rounded");
        if (sum.sense == Sense::equal)
            sum.is_gap = !is_whole(sum.rhs);
        else
            sum.rhs = sum.sense == Sense::at_least ? rounded_up(sum.rhs) : rounded_down(sum.rhs);
    }

    const Listed& used(Index index) const
    {
        if (!listed[index])
            throw Refused("constraint " + std::to_string(index) + " was dropped");
        return *listed[index];
    }

    // the sum of multiples of constraints, and what it rests on
    Constraint read_sum(Indices& rests_on)
    {
        std::map<Index, Number> sums;
        Constraint sum;
        for (Index n = tokens.count(); n > 0; --n) {
            const Index index = tokens.index_below(listed.size());
            const Number multiplier = tokens.number();
            if (multiplier == 0)
                continue;
            const Listed& term = used(index);
            const Sense sense = turned_by(term.constraint.sense, multiplier);
            if (sense != Sense::equal && sum.sense != Sense::equal && sense != sum.sense)
                throw Refused("mixed signs");
            if (sense != Sense::equal)
                sum.sense = sense;
            for (const auto& [variable, coefficient] : *term.constraint.row)
                sums[variable] += multiplier * coefficient;
            sum.rhs += multiplier * term.constraint.rhs;
            rests_on.insert(term.rests_on->begin(), term.rests_on->end());
        }
        Row row;
        for (auto& [variable, coefficient] : sums)
            if (coefficient != 0)
                row.emplace_back(variable, std::move(coefficient));
        sum.row = std::make_shared<Row>(std::move(row));
        return sum;
    }

    bool is_split(const Constraint& one, const Constraint& other) const
    {
        if (int(one.sense) * int(other.sense) != -1 || !one.has_row_of(other) || !is_whole_at_integers(*one.row))
            return false;
        const auto& [most, least] = one.sense == Sense::at_most ? std::tie(one, other) : std::tie(other, one);
        return is_whole(most.rhs) && least.rhs == most.rhs + 1;
    }

    void read_branches(const Constraint& stated, Indices& rests_on)
    {
        Index at[4];
        for (Index& index : at)
            index = tokens.index_below(listed.size());
        const Listed* of[4];
        std::transform(at, at + 4, of, [this](Index index) { return &used(index); });
        if (!of[1]->is_assumption || !of[3]->is_assumption)
            throw Refused("a branch that isn't an assumption");
        if (!is_split(of[1]->constraint, of[3]->constraint))
            throw Refused("the two branches aren't a split");
        for (int branch : {0, 2}) {
            if (!of[branch]->constraint.dominates(stated))
                throw Refused("a branch doesn't dominate");
            for (Index assumption : *of[branch]->rests_on)
                if (assumption != at[branch + 1])
                    rests_on.insert(assumption);
        }
    }

    void read_reason(const Constraint& stated, Listed& derived)
    {
        const std::string word = tokens.next();
        Indices rests_on;
        if (word == "asm") {
            derived.is_assumption = true;
            rests_on.insert(Index(listed.size()));
        } else if (word == "lin" || word == "rnd") {
            Constraint sum = read_sum(rests_on);
            if (word == "rnd")
                round(sum);
            if (!sum.dominates(stated))
                throw Refused("the sum doesn't dominate");
        } else if (word == "uns") {
            read_branches(stated, rests_on);
        } else if (word == "sol") {
            if (!best)
                throw Refused("no solution is listed");
            if (!Constraint{is_minimized ? Sense::at_most : Sense::at_least, *best, objective}.dominates(stated))
                throw Refused("the cutoff doesn't dominate");
        } else {
            throw Refused("no reason: " + word);
        }
        derived.rests_on = std::make_shared<Indices>(std::move(rests_on));
    }

    // infeasibility needs an absurd constraint, a dual bound one that dominates it
    void look_for_goal(const Listed& it)
    {
        if (!is_proved && it.rests_on->empty())
            is_proved = is_infeasible ? it.constraint.is_absurd() : it.constraint.dominates(goal);
    }

    void read_derivations()
    {
        for (const auto& it : listed)
            look_for_goal(*it);
        tokens.keyword("DER");
        for (Index n = tokens.count(); n > 0; --n) {
            Listed derived;
            derived.constraint = read_constraint();
            tokens.keyword("{");
            read_reason(derived.constraint, derived);
            tokens.keyword("}");
            look_for_goal(derived);
            const auto index = Index(listed.size());
            listed.push_back(std::move(derived));
            const bool is_kept = tokens.next() == "-1" || listed[index]->is_assumption;
            if (!is_kept)
                last_references.emplace(tokens.last_index(), index);
            drop_behind(index);
        }
    }

    // forgets what no derivation behind this one refers to
    void drop_behind(Index index)
    {
        const auto later = last_references.upper_bound(index);
        for (auto it = last_references.begin(); it != later; ++it)
            listed[it->second].reset();
        last_references.erase(last_references.begin(), later);
    }
};

int main(int count, char** words)
{
    std::ios::sync_with_stdio(false);
    std::ifstream file;
    if (count > 1)
        file.open(words[1]);
    if (count > 2 || (count == 2 && !file)) {
        std::cerr << "usage: gmp_check [FILE]\n";
        return 2;
    }
    try {
        Checker(count > 1 ? file : std::cin).check();
    } catch (const Refused& refused) {
        std::cout << "refused: " << refused.what() << "\n";
        return 1;
    }
    std::cout << "verified\n";
}
