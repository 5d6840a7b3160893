// RT0's four rules in C++, by the same letters as the program: one that begins a search, one for each question that a node asks,
// one for each member that such a question is told, each acknowledged by a signal; a search is over once all are. It keeps no
// tenants, limits or proofs, names are numbers, and an allocation that is refused ends it.
//
//   native FACTS            prints each question's number with each member
//   native FACTS letters    prints each question's number with how many letters it takes
#include <cstdint>
#include <deque>
#include <fstream>
#include <iostream>
#include <string>
#include <unordered_map>
#include <vector>

using Number = uint32_t;
const Number NONE = ~0u;

uint64_t pair_of(Number high, Number low) { return uint64_t(high) << 32 | low; }

// Numbers by key, each in the first free place from the one that its hash names. No key is ~0.
struct Table {
    std::vector<uint64_t> keys;
    std::vector<Number> values;
    size_t count = 0;

    size_t place(uint64_t key) const {
        size_t mask = keys.size() - 1, at = ((key ^ key >> 31) * 0x9E3779B97F4A7C15ull >> 20) & mask;
        while (keys[at] != key && keys[at] != ~0ull) at = (at + 1) & mask;
        return at;
    }

    // The key's number, and whether it is new and is NONE.
    std::pair<Number &, bool> add(uint64_t key) {
        if (2 * count >= keys.size()) grow();
        size_t at = place(key);
        bool is_new = keys[at] != key;
        if (is_new) keys[at] = key, count += 1;
        return {values[at], is_new};
    }

    void grow() {
        Table larger;
        larger.keys.assign(keys.empty() ? 8 : 2 * keys.size(), ~0ull);
        larger.values.assign(larger.keys.size(), NONE);
        for (size_t at = 0; at < keys.size(); at++)
            if (keys[at] != ~0ull) {
                size_t to = larger.place(keys[at]);
                larger.keys[to] = keys[at], larger.values[to] = values[at];
            }
        larger.count = count;
        *this = std::move(larger);
    }
};

struct Names {
    std::unordered_map<std::string, Number> numbers;
    std::vector<std::string> texts;

    Number number(const std::string &text) {
        auto [at, is_new] = numbers.emplace(text, texts.size());
        if (is_new) texts.push_back(text);
        return at->second;
    }
};

// What can be asked for its members. Each form's numbers: a role's owner and name, a linked role's owner, base and last name, an
// intersection's own.
enum Form : uint8_t { ENTITY, ROLE, LINKED, MEET };

struct Expression {
    Form form;
    Number first, second, third;
};

struct Credentials {
    Names names;
    std::vector<Expression> expressions;
    Table entities, roles, meets, links;
    std::vector<std::vector<Number>> bodies;  // of each expression: those that a role has, or the parts of an intersection
    std::vector<std::pair<Number, Number>> questions;

    Number found(Number &at, Expression is) {
        if (at == NONE) {
            at = expressions.size();
            expressions.push_back(is);
            bodies.emplace_back();
        }
        return at;
    }
    Number entity(Number name) { return found(entities.add(name).first, {ENTITY, name, 0, 0}); }
    Number role(Number owner, Number name) { return found(roles.add(pair_of(owner, name)).first, {ROLE, owner, name, 0}); }
    Number linked(Number owner, Number base, Number last) {
        return found(links.add(pair_of(role(owner, base), last)).first, {LINKED, owner, base, last});
    }
    Number meet(Number number) { return found(meets.add(number).first, {MEET, number, 0, 0}); }

    void put(Number head, Number body) { bodies[head].push_back(body); }

    void put_part(Number number, Number place, Number part) {
        auto &parts = bodies[meet(number)];
        if (parts.size() <= place) parts.resize(place + 1);
        bodies[meet(number)][place] = part;
    }

    void read(const char *path) {
        std::ifstream in(path);
        std::string line;
        while (std::getline(in, line)) {
            size_t open = line.find('(');
            std::string kind = line.substr(0, open);
            std::vector<Number> v;
            for (size_t at = open + 1; at < line.size() && line[at - 1] != ')';) {
                size_t end = line.find_first_of(",)", at);
                if (line[at] == '"') v.push_back(names.number(line.substr(at + 1, end - at - 2)));
                else v.push_back(std::stoul(line.substr(at, end - at)));
                at = end + 1;
            }
            if (kind == "member") put(role(v[0], v[1]), entity(v[2]));
            else if (kind == "includes") put(role(v[0], v[1]), role(v[2], v[3]));
            else if (kind == "linked") put(role(v[0], v[1]), linked(v[0], v[2], v[3]));
            else if (kind == "meet") put(role(v[0], v[1]), meet(v[2]));
            else if (kind == "part_entity") put_part(v[0], v[1], entity(v[2]));
            else if (kind == "part_role") put_part(v[0], v[1], role(v[2], v[3]));
            else if (kind == "part_linked") put_part(v[0], v[1], linked(v[2], v[3], v[4]));
            else if (kind == "question") {
                if (questions.size() <= v[0]) questions.resize(v[0] + 1);
                questions[v[0]] = {v[1], v[2]};
            }
        }
    }
};

// Where a listener wants what it is told: as a member of its own, as one of a linked role's base, or as one of a part.
const Number MINE = ~0u, BASE = ~0u - 1;

struct Listener {
    Number node, port;
};

// A node of a search is engaged by one letter, which it acknowledges once all that it has sent since are.
struct Node {
    Number expression, parent = NONE, deficit = 0;
    bool is_open = false, is_engaged = false;
    std::vector<Listener> listeners;
    std::vector<Number> members;
    Table has;
    Table told;   // what its base or its parts have told it
    Table parts;  // of an intersection: by entity, in how many parts it is beyond the first
};

struct Letter {
    Number to, from, port, entity;  // a question has no entity
};

struct Search {
    explicit Search(Credentials &all) : all(all) {}

    Credentials &all;
    std::vector<Node> nodes;
    Table of;
    std::deque<Letter> letters;
    std::vector<Number> signals;
    Number outstanding = 0;
    uint64_t count = 0;

    Number node(Number expression) {
        auto [at, is_new] = of.add(expression);
        if (is_new) {
            at = nodes.size();
            nodes.emplace_back().expression = expression;
        }
        return at;
    }

    void send(Number from, Number to, Number port, Number entity) {
        letters.push_back({to, from, port, entity});
        (from == NONE ? outstanding : nodes[from].deficit) += 1;
        count += 1;
    }
    void ask(Number from, Number expression, Number port) {
        Number to = node(expression);
        send(from, to, port, NONE);
    }

    void add(Number at, Number entity) {
        if (!nodes[at].has.add(entity).second) return;
        nodes[at].members.push_back(entity);
        for (size_t i = 0; i < nodes[at].listeners.size(); i++) {
            Listener to = nodes[at].listeners[i];
            if (to.node != NONE) send(at, to.node, to.port, entity);
        }
    }

    void open(Number at) {
        nodes[at].is_open = true;
        Expression is = all.expressions[nodes[at].expression];
        if (is.form == ENTITY) add(at, is.first);
        if (is.form == LINKED) ask(at, all.role(is.first, is.second), BASE);
        auto bodies = all.bodies[nodes[at].expression];
        for (Number place = 0; place < bodies.size(); place++) ask(at, bodies[place], is.form == MEET ? place : MINE);
    }

    void read(const Letter &letter) {
        Number at = letter.to;
        if (letter.entity == NONE) {
            nodes[at].listeners.push_back({letter.from, letter.port});
            if (letter.from != NONE)
                for (size_t i = 0; i < nodes[at].members.size(); i++) send(at, letter.from, letter.port, nodes[at].members[i]);
            if (!nodes[at].is_open) open(at);
        } else if (letter.port == MINE) {
            add(at, letter.entity);
        } else if (letter.port == BASE) {
            if (nodes[at].told.add(letter.entity).second) ask(at, all.role(letter.entity, all.expressions[nodes[at].expression].third), MINE);
        } else if (nodes[at].told.add(pair_of(letter.port, letter.entity)).second) {
            if (++nodes[at].parts.add(letter.entity).first + 1 == all.bodies[nodes[at].expression].size()) add(at, letter.entity);
        }
    }

    void settle(Number at) {
        Node &node = nodes[at];
        if (!node.is_engaged || node.deficit > 0) return;
        node.is_engaged = false;
        signals.push_back(node.parent);
    }

    Number drive(Number expression) {
        ask(NONE, expression, MINE);
        while (!letters.empty() || !signals.empty()) {
            if (!signals.empty()) {
                Number to = signals.back();
                signals.pop_back();
                (to == NONE ? outstanding : nodes[to].deficit) -= 1;
                if (to != NONE) settle(to);
                continue;
            }
            Letter letter = letters.front();
            letters.pop_front();
            bool engages = !nodes[letter.to].is_engaged;
            if (engages) {
                nodes[letter.to].is_engaged = true;
                nodes[letter.to].parent = letter.from;
            }
            read(letter);
            if (!engages) signals.push_back(letter.from);
            else settle(letter.to);
        }
        return node(expression);
    }
};

int main(int, char **words) {
    std::ios::sync_with_stdio(false);
    Credentials all;
    all.read(words[1]);
    for (size_t number = 0; number < all.questions.size(); number++) {
        auto [owner, name] = all.questions[number];
        Search search(all);
        Number node = search.drive(all.role(owner, name));
        if (search.outstanding != 0) return 1;
        if (words[2]) std::cout << number << ' ' << search.count << '\n';
        else
            for (Number member : search.nodes[node].members) std::cout << number << ' ' << all.names.texts[member] << '\n';
    }
}
