/* A harness for libFuzzer. The bytes are a list of calls on a history of at most 32 commits. A model of the history says what each call
 * has to answer under its premises, and that nothing else is written. */
#include "case.h"

#include <algorithm>
#include <cstdlib>
#include <map>
#include <string>
#include <vector>

#define WANT(condition)                                                 \
    do {                                                                \
        if (!(condition)) {                                             \
            fprintf(stderr, "line %d: not so: %s\n", __LINE__, #condition); \
            abort();                                                    \
        }                                                               \
    } while (0)

static inline bool operator==(const gix_id &a, const gix_id &b) { return memcmp(a.bytes, b.bytes, sizeof a.bytes) == 0; }
static inline bool operator<(const gix_id &a, const gix_id &b) { return memcmp(a.bytes, b.bytes, sizeof a.bytes) < 0; }

namespace {

enum { COMMITS = 32 };
typedef uint32_t Set; /* of commits, by their numbers */
typedef std::vector<gix_id> Ids;

struct Input {
    const uint8_t *at;
    size_t left;

    uint8_t byte() { return left ? (left--, *at++) : 0; }
    int number() { return byte() % COMMITS; }
    bool flag() { return byte() & 1; }
};

/* Ids that share digits: none, 5 or 38 of them. */
gix_id numbered(int number) {
    gix_id id = id_of(0xA0);
    id.bytes[0] = (uint8_t)(number & 1 ? 0xC1 : 0x1C);
    id.bytes[2] = (uint8_t)(0x11 * (number >> 1 & 3));
    id.bytes[19] = (uint8_t)number;
    return id;
}

std::string digits_of(const gix_id &id) {
    char digits[41];
    gix_id_write(digits, &id);
    return digits;
}

struct Commit {
    bool is_there;
    std::vector<int> parents;
    int64_t time;
    bool has_generation;
    uint32_t generation;

    uint64_t level() const { return has_generation ? generation : UINT64_MAX; }
};

struct Model {
    Commit commits[COMMITS];
    std::map<std::string, int> names;

    bool has(int number) const { return number >= 0 && commits[number].is_there; }

    /* The commits that one reaches, along first parents alone if that is asked for. */
    Set reach(int number, bool only_first = false) const {
        Set met = 0;
        std::vector<int> next(1, number);
        while (!next.empty()) {
            int at = next.back();
            next.pop_back();
            if (!has(at) || met >> at & 1) continue;
            met |= Set(1) << at;
            const std::vector<int> &parents = commits[at].parents;
            next.insert(next.end(), parents.begin(), parents.begin() + (only_first && !parents.empty() ? 1 : (long)parents.size()));
        }
        return met;
    }

    /* Whether a test holds for each commit of a set and each of its parents that is there. */
    template <typename Test> bool each_edge(Set set, Test test) const {
        for (int child = 0; child < COMMITS; child++)
            for (int parent : commits[child].parents)
                if (set >> child & 1 && has(parent) && !test(child, parent)) return false;
        return true;
    }
    bool is_acyclic(Set set) const {
        return each_edge(set, [this](int child, int parent) { return !(reach(parent) >> child & 1); });
    }
    bool is_ordered(Set set) const {
        return each_edge(set, [this](int child, int parent) { return commits[parent].level() <= commits[child].level(); });
    }
    bool has_older_parents(Set set) const {
        return each_edge(set, [this](int child, int parent) { return commits[parent].time < commits[child].time; });
    }

    /* Those of a set that no other one of it reaches. */
    Set best(Set set) const {
        Set found = set;
        for (int k = 0; k < COMMITS; k++)
            if (set >> k & 1) found &= ~(reach(k) & ~(Set(1) << k));
        return found;
    }

    /* The commits of a set in the order of merge bases. */
    Ids in_order(Set set) const {
        std::vector<int> numbers;
        for (int k = 0; k < COMMITS; k++)
            if (set >> k & 1) numbers.push_back(k);
        std::sort(numbers.begin(), numbers.end(), [this](int a, int b) {
            const Commit &one = commits[a], &two = commits[b];
            if (one.level() != two.level()) return one.level() > two.level();
            if (one.time != two.time) return one.time > two.time;
            return numbered(a) < numbered(b);
        });
        Ids ids;
        for (int k : numbers) ids.push_back(numbered(k));
        return ids;
    }

    /* The commits of a set in rising order of their ids. */
    Ids by_id(Set set) const {
        Ids ids = in_order(set);
        std::sort(ids.begin(), ids.end());
        return ids;
    }
};

/* Room for the ids of an answer, some of which may not fit. What follows it has to stay as it is. */
struct Room {
    size_t len, count;
    Ids ids;

    explicit Room(size_t len) : len(len), count(99), ids(len + 2, id_of(0xEE)) {}
    gix_id *out() { return len ? ids.data() : NULL; }
    bool is_unchanged(size_t from) const {
        return std::all_of(ids.begin() + (long)from, ids.end(), [](const gix_id &it) { return is_id(&it, 0xEE); });
    }
    /* Whether it has the first of these ids, and their count. */
    bool has(const Ids &wanted) const {
        size_t given = std::min(len, wanted.size());
        return count == wanted.size() && std::equal(wanted.begin(), wanted.begin() + (long)given, ids.begin()) && is_unchanged(given);
    }
};

/* How the commits of a history are: parents are older; dates say nothing; commits have levels, but for the newest; or nothing is sure. */
enum Shape { DATED, SKEWED, LEVELLED, WILD };

struct Run {
    gix_history *history;
    Model model;
    Input input;
    Shape shape;

    std::vector<int> numbers() {
        std::vector<int> found(input.byte() % 5);
        for (int &it : found) it = input.number();
        return found;
    }
    static Ids ids_of(const std::vector<int> &numbers) {
        Ids ids;
        for (int it : numbers) ids.push_back(numbered(it));
        return ids;
    }
    Room room() { return Room(input.byte() % 8); }

    /* Parents have smaller numbers than their children, so that there is no cycle, but for some of a wild history. */
    Commit made(int number) {
        int kind = input.byte();
        Commit commit = {true, numbers(), number, shape == LEVELLED && number < 24, (uint32_t)number};
        if (shape == WILD && kind % 8 == 0) commit.has_generation = true, commit.generation = input.byte();
        if (shape == SKEWED || shape == WILD) commit.time = (int8_t)input.byte();
        if (shape == WILD && kind > 250) return commit;
        if (number == 0) commit.parents.clear();
        for (int &it : commit.parents) it %= number;
        return commit;
    }

    /* Fills the history as two bytes say, so that also a short input asks about a long one. */
    void fill() {
        uint32_t state = (uint32_t)input.byte() << 8;
        state |= input.byte();
        std::vector<uint8_t> bytes(state % 512);
        for (uint8_t &it : bytes) state = state * 1664525 + 1013904223, it = (uint8_t)(state >> 24);
        Input rest = input;
        input.at = bytes.data(), input.left = bytes.size();
        while (input.left > 0) insert();
        input = rest;
    }

    void insert() {
        int number = input.number();
        Commit commit = made(number);
        Ids parents = ids_of(commit.parents);
        gix_id id = numbered(number);
        int32_t code = gix_history_insert(history, &id, parents.data(), parents.size(), commit.time, commit.has_generation, commit.generation);
        WANT(code == (model.has(number) ? GIX_ALREADY_THERE : GIX_OK));
        if (code == GIX_OK) model.commits[number] = commit;
        size_t there = (size_t)std::count_if(model.commits, model.commits + COMMITS, [](const Commit &it) { return it.is_there; });
        WANT(gix_history_len(history) == there);
    }

    void commit() {
        int number = input.number();
        gix_id id = numbered(number);
        gix_commit found = {77, 77, true, 77};
        Room parents = room();
        int32_t code = gix_history_commit(history, &id, &found, parents.out(), parents.len);
        WANT(code == (model.has(number) ? GIX_OK : GIX_NONE));
        if (code == GIX_NONE) {
            WANT(found.time == 77 && found.parents_len == 77 && parents.is_unchanged(0));
            return;
        }
        const Commit &wanted = model.commits[number];
        parents.count = found.parents_len;
        WANT(parents.has(ids_of(wanted.parents)) && found.time == wanted.time && found.has_generation == wanted.has_generation);
        WANT(!wanted.has_generation || found.generation == wanted.generation);
    }

    void abbreviate() {
        gix_id id = numbered(input.number());
        std::string digits = digits_of(id);
        size_t least = input.byte(), wanted = std::min<size_t>(std::max<size_t>(least, 4), 40);
        for (int k = 0; k < COMMITS; k++) {
            std::string other = digits_of(numbered(k));
            if (!model.has(k) || other == digits) continue;
            size_t same = (size_t)(std::mismatch(digits.begin(), digits.end(), other.begin()).first - digits.begin());
            wanted = std::max(wanted, same + 1);
        }
        WANT(gix_history_abbreviate(history, &id, least) == wanted);
    }

    void bases() {
        int first = input.number();
        std::vector<int> others = numbers();
        gix_id id = numbered(first);
        Ids ids = ids_of(others), wanted(1, id);
        Set one = model.reach(first), any = 0;
        for (int it : others) any |= model.reach(it);
        if (!others.empty() && std::find(others.begin(), others.end(), first) == others.end()) wanted = model.in_order(model.best(one & any));
        Room found = room();
        int32_t code = gix_history_merge_bases(history, &id, ids.data(), ids.size(), found.out(), found.len, &found.count);
        WANT(code == GIX_OK || code == GIX_NONE);
        if (model.is_acyclic(one | any) && model.is_ordered(one | any)) WANT(found.has(wanted) && code == (wanted.empty() ? GIX_NONE : GIX_OK));
    }

    void octopus() {
        int first = input.number();
        std::vector<int> others = numbers();
        gix_id id = numbered(first), found = id_of(0xEE);
        Ids ids = ids_of(others), wanted(1, id);
        Set any = model.reach(first), each = any;
        for (int it : others) any |= model.reach(it), each &= model.reach(it);
        if (std::count(others.begin(), others.end(), first) != (long)others.size()) wanted = model.in_order(model.best(each));
        int32_t code = gix_history_octopus(history, &id, ids.data(), ids.size(), &found);
        WANT(code == GIX_OK || (code == GIX_NONE && is_id(&found, 0xEE)));
        if (!model.is_acyclic(any) || !model.is_ordered(any)) return;
        WANT(code == (wanted.empty() ? GIX_NONE : GIX_OK));
        WANT(wanted.empty() || found == wanted[0]);
    }

    void ancestor() {
        int one = input.number(), other = input.number();
        gix_id ancestor = numbered(one), of = numbered(other);
        Set set = model.reach(other);
        bool is_one = set >> one & 1;
        int32_t code = gix_history_is_ancestor(history, &ancestor, &of);
        WANT(code == GIX_OK || code == GIX_NONE);
        WANT(gix_history_reaches(history, &of, &ancestor) == (code == GIX_OK));
        WANT(code == GIX_NONE || is_one);
        WANT(!model.is_ordered(set) || (code == GIX_OK) == is_one);
    }

    void independent() {
        std::vector<int> given = numbers();
        Ids ids = ids_of(given), wanted;
        Set all = 0, met = 0;
        for (int it : given) all |= model.reach(it);
        for (int it : given) {
            bool is_reached = std::any_of(given.begin(), given.end(), [&](int other) { return other != it && model.reach(other) >> it & 1; });
            if (!is_reached && !(met >> it & 1)) wanted.push_back(numbered(it));
            met |= Set(1) << it;
        }
        Room found = room();
        WANT(gix_history_independent(history, ids.data(), ids.size(), found.out(), found.len, &found.count) == GIX_OK);
        if (model.is_acyclic(all) && model.is_ordered(all)) WANT(found.has(wanted));
    }

    void newest_first() {
        std::vector<int> given = numbers();
        Ids ids = ids_of(given);
        Set set = 0;
        for (int it : given) set |= model.has(it) ? Set(1) << it : 0;
        Room found = room();
        WANT(gix_history_newest_first(history, ids.data(), ids.size(), found.out(), found.len, &found.count) == GIX_OK);
        WANT(found.has(model.in_order(set)));
    }

    void counts() {
        int one = input.number(), other = input.number();
        gix_id ours = numbered(one), theirs = numbered(other);
        size_t ahead = 99, behind = 99;
        Set a = model.reach(one), b = model.reach(other);
        WANT(gix_history_ahead_behind(history, &ours, &theirs, &ahead, &behind) == GIX_OK);
        size_t wanted[2] = {(size_t)__builtin_popcount(a & ~b), (size_t)__builtin_popcount(b & ~a)};
        WANT(ahead >= wanted[0] && behind >= wanted[1]);
        WANT(!model.is_ordered(a | b) || (ahead == wanted[0] && behind == wanted[1]));
    }

    /* Fetches a list in pages and compares it. Without a set these are the missing parents. */
    void pages(const gix_span *span, const Ids &wanted) {
        size_t len = input.byte() % 8 + 1, at = 0;
        gix_id after = id_of(0);
        bool is_full = true;
        for (size_t passed = 0; is_full; passed = 1) {
            Room page(len);
            WANT((span ? gix_history_list(history, span, &after, passed, page.out(), len, &page.count)
                       : gix_history_missing(history, &after, passed, page.out(), len, &page.count)) == GIX_OK);
            size_t end = std::min(at + len, wanted.size());
            WANT(page.has(Ids(wanted.begin() + (long)at, wanted.begin() + (long)end)));
            at = end;
            is_full = page.count == len;
            after = page.ids[page.count ? page.count - 1 : 0];
        }
        WANT(at == wanted.size());
        whole(span, wanted);
    }

    /* Reads a part of the same list, which is made once. */
    void whole(const gix_span *span, const Ids &wanted) {
        gix_ids *list = NULL;
        WANT((span ? gix_history_list_all(history, span, &list) : gix_history_missing_all(history, &list)) == GIX_OK);
        WANT(gix_ids_len(list) == wanted.size());
        size_t len = input.byte() % 8, from = input.byte() % 8;
        Room part(len);
        part.count = gix_ids_read(list, from, part.out(), len);
        size_t begin = std::min(from, wanted.size()), end = std::min(begin + len, wanted.size());
        WANT(part.has(Ids(wanted.begin() + (long)begin, wanted.begin() + (long)end)));
        gix_ids_free(list);
    }

    void missing() {
        Set set = 0;
        for (int k = 0; k < COMMITS; k++)
            for (int it : model.commits[k].parents)
                if (model.has(k) && !model.has(it)) set |= Set(1) << it;
        pages(NULL, model.by_id(set));
    }

    /* The commits of a set as gitrevisions(7) defines it. */
    Set meant(const gix_span &span) const {
        int one = -1, other = -1;
        for (int k = 0; k < COMMITS; k++) {
            if (numbered(k) == span.first) one = k;
            if (numbered(k) == span.second) other = k;
        }
        Set a = model.reach(one), b = model.reach(other), below = 0;
        if (model.has(one))
            for (int it : model.commits[one].parents) below |= model.reach(it);
        switch (span.kind) {
        case GIX_INCLUDE:
            return a;
        case GIX_RANGE:
            return b & ~a;
        case GIX_MERGE:
            return a ^ b;
        case GIX_ONLY_PARENTS:
            return below;
        case GIX_WITHOUT_PARENTS:
            return model.has(one) ? Set(1) << one : 0;
        default:
            return 0;
        }
    }

    void list(const gix_span &span) {
        size_t count = 99;
        int32_t code = gix_history_count(history, &span, &count);
        if (span.kind > GIX_WITHOUT_PARENTS) {
            gix_id after = id_of(0);
            WANT(code == GIX_NO_KIND && count == 99);
            gix_ids *none = NULL;
            WANT(gix_history_list(history, &span, &after, 0, NULL, 0, &count) == GIX_NO_KIND && count == 99);
            WANT(gix_history_list_all(history, &span, &none) == GIX_NO_KIND && !none);
            return;
        }
        Ids wanted = model.by_id(meant(span));
        WANT(code == GIX_OK && count == wanted.size());
        pages(&span, wanted);
    }

    void span() {
        gix_span span = {(uint32_t)input.byte() % 7, numbered(input.number()), numbered(input.number())};
        list(span);
    }

    /* The beginning of a revision, or of a name, and steps from there. */
    std::string tip() {
        static const char *const steps[] = {"", "~1", "^", "^2", "^0", "~2^2", "^{commit}", "^{}", "^@", "^!", "^-", "@{1}"};
        static const char *const names[] = {"main", "topic", "HEAD", "@"};
        uint8_t kind = input.byte();
        std::string digits = digits_of(numbered(kind % COMMITS)).substr(0, kind < 160 ? 40 : 5);
        return (kind < 192 ? digits : names[kind % 4]) + steps[input.byte() % 12];
    }

    /* Any pieces of revisions, and any bytes. */
    std::string pieces() {
        static const char *const given[] = {"main", "~", "^", "..", "^{", "}", "@{", "commit", ":/", "!", "-", "1", "9999999999", "2 days ago", "+0000", "-1-g"};
        std::string text;
        for (size_t left = input.byte() % 12; left > 0; left--) {
            uint8_t byte = input.byte();
            text += byte < 160 ? std::string(given[byte % 16]) : byte < 192 ? tip() : std::string(1, (char)input.byte());
        }
        return text;
    }

    std::string text() {
        uint8_t kind = input.byte();
        if (kind < 64) return pieces();
        std::string text = (kind % 16 == 0 ? "^" : "") + tip();
        return kind % 4 == 1 ? text + ".." + tip() : kind % 4 == 2 ? text + "..." + tip() : text;
    }

    void revision() {
        std::string given = text();
        gix_span span = {77, id_of(0xEE), id_of(0xEE)};
        gix_fault fault = {77, 77, 77};
        int32_t code = (input.flag() ? gix_history_resolve : gix_history_rev_parse)(history, text_of(given.data()), given.size(), 1600000000, 3600, &span, &fault);
        if (code == GIX_OK) {
            WANT(fault.number == 77 && fault.start == 77 && fault.length == 77 && span.kind <= GIX_WITHOUT_PARENTS);
            WANT(span.kind == GIX_RANGE || span.kind == GIX_MERGE || span.first == span.second);
            list(span);
            return;
        }
        WANT(code > GIX_FAULT && code <= GIX_FAULT + 27 && code == GIX_FAULT + fault.number);
        WANT(fault.start <= given.size() && fault.length <= given.size() - fault.start);
        WANT(span.kind == 77 && is_id(&span.first, 0xEE) && is_id(&span.second, 0xEE));
    }

    void name() {
        std::string given = input.flag() ? "main" : text();
        int number = input.number();
        gix_id id = numbered(number);
        if (input.flag()) {
            WANT(gix_history_name(history, text_of(given.data()), given.size(), &id) == GIX_OK);
            model.names[given] = number;
        } else {
            WANT(gix_history_unname(history, text_of(given.data()), given.size()) == (model.names.erase(given) ? GIX_OK : GIX_NONE));
        }
    }

    void describe();
    void object();
    void file();
    void chain();

    void call() {
        static void (Run::*const calls[])() = {&Run::commit, &Run::abbreviate, &Run::bases, &Run::octopus, &Run::ancestor, &Run::independent, &Run::newest_first, &Run::counts, &Run::missing, &Run::span, &Run::revision, &Run::revision, &Run::name, &Run::describe, &Run::object, &Run::file, &Run::chain};
        size_t kind = input.byte() % 21;
        (this->*(kind < sizeof calls / sizeof *calls ? calls[kind] : &Run::insert))();
    }
};

/* The names that a call of `describe` gets: v for the first, v1 for the second, and so on. */
struct Names {
    std::vector<int> numbers;
    std::vector<std::string> texts;
    std::vector<gix_name> raw;

    explicit Names(const std::vector<int> &numbers) : numbers(numbers) {
        for (size_t k = 0; k < numbers.size(); k++) texts.push_back(k ? "v" + std::to_string(k) : "v");
        for (size_t k = 0; k < numbers.size(); k++) {
            gix_name it = {numbered(numbers[k]), text_of(texts[k].data()), texts[k].size()};
            raw.push_back(it);
        }
    }
};

/* The names that `describe` may choose, each with the least depth that it may have, and the number of ancestors with names. */
struct Choice {
    std::vector<std::pair<std::string, size_t> > names;
    size_t least;
    size_t ancestors;
    bool is_own;

    Choice(const Model &model, int number, const gix_how &how, const Names &given) : least(SIZE_MAX), is_own(false) {
        Set reached = model.reach(number, how.first_parent), met = 0;
        for (size_t k = 0; k < given.numbers.size(); k++) {
            int named = given.numbers[k];
            if ((named != number && !(reached >> named & 1)) || met >> named & 1) continue;
            met |= Set(1) << named;
            size_t depth = (size_t)__builtin_popcount(reached & ~model.reach(named, how.first_parent));
            least = std::min(least, depth);
            if (named == number) names.clear();
            if (named == number || (how.max_candidates > 0 && !is_own)) names.push_back(std::make_pair(given.texts[k], depth));
            is_own = is_own || named == number;
        }
        ancestors = (size_t)__builtin_popcount(met);
    }

    /* Whether a text of this length, of which the beginning is shown, has one of the names and these digits. */
    bool allows(const std::string &shown, size_t len, size_t depth, const gix_how &how, const std::string &digits) const {
        std::string end = "-" + std::to_string(depth) + "-g" + digits.substr(0, how.hex_len);
        if (how.hex_len == 0 || (depth == 0 && !how.long_form)) end.clear();
        std::string all = digits.substr(0, how.hex_len ? how.hex_len : 40);
        if (names.empty()) return depth == 0 && len == all.size() && all.compare(0, shown.size(), shown) == 0;
        return std::any_of(names.begin(), names.end(), [&](const std::pair<std::string, size_t> &it) {
            std::string text = it.first + end;
            return len == text.size() && text.compare(0, shown.size(), shown) == 0 && depth >= it.second;
        });
    }
};

void Run::describe() {
    int number = input.number();
    gix_how how = {GIX_HOW_SIZE + (input.byte() == 0), (size_t)input.byte() % 5, (size_t)input.byte() % 44, input.flag(), input.flag(), input.flag(), input.flag()};
    if (input.flag()) how.hex_len = 0;
    Names names(numbers());
    gix_id id = numbered(number);
    size_t room = input.byte() % 64, len = 99;
    std::string out(room + 2, '.');
    uint32_t depth = 99;
    uint8_t *text = room ? (uint8_t *)&out[0] : NULL;
    int32_t code;
    if (input.flag()) {
        gix_names *table = NULL;
        WANT(gix_names_new(names.raw.data(), names.raw.size(), 5, &table) == GIX_OK);
        code = gix_history_describe_by(history, &id, table, &how, text, room, &len, &depth);
        gix_names_free(table);
    } else {
        code = gix_history_describe(history, &id, names.raw.data(), names.raw.size(), &how, text, room, &len, &depth);
    }
    Choice choice(model, number, how, names);
    bool is_walked = !choice.is_own && !names.raw.empty() && how.max_candidates > 0;
    bool is_none = choice.names.empty() && !how.fallback_to_id;
    WANT(code == (how.size != sizeof how ? GIX_NO_HOW : is_walked && !model.has(number) ? GIX_NO_COMMIT : is_none ? GIX_NONE : GIX_OK));
    size_t shown = code == GIX_OK ? std::min(len, room) : 0;
    WANT(out.find_first_not_of('.', shown) == std::string::npos);
    if (code != GIX_OK) {
        WANT(len == 99 && depth == 99);
        return;
    }
    WANT(choice.allows(out.substr(0, shown), len, depth, how, digits_of(id)));
    bool is_least = choice.ancestors <= how.max_candidates && model.has_older_parents(model.reach(number));
    WANT(!choice.is_own || depth == 0);
    WANT(choice.names.empty() || !is_least || depth == choice.least);
}

uint32_t rotated(uint32_t word, int by) { return word << by | word >> (32 - by); }

/* The SHA-1 of some bytes (RFC 3174). */
gix_id sha1(std::string text) {
    uint32_t state[5] = {0x67452301, 0xEFCDAB89, 0x98BADCFE, 0x10325476, 0xC3D2E1F0}, w[80];
    uint64_t bits = 8 * (uint64_t)text.size();
    text += '\x80';
    while (text.size() % 64 != 56) text += '\0';
    for (int k = 56; k >= 0; k -= 8) text += (char)(bits >> k);
    for (size_t at = 0; at < text.size(); at += 64) {
        for (size_t t = 0; t < 80; t++) {
            const uint8_t *byte = text_of(text.data()) + at + 4 * t;
            w[t] = t < 16 ? (uint32_t)byte[0] << 24 | byte[1] << 16 | byte[2] << 8 | byte[3] : rotated(w[t - 3] ^ w[t - 8] ^ w[t - 14] ^ w[t - 16], 1);
        }
        uint32_t a = state[0], b = state[1], c = state[2], d = state[3], e = state[4];
        for (int t = 0; t < 80; t++) {
            uint32_t f = t < 20 ? (b & c) | (~b & d) : t < 40 || t >= 60 ? b ^ c ^ d : (b & c) | (b & d) | (c & d);
            static const uint32_t k[4] = {0x5A827999, 0x6ED9EBA1, 0x8F1BBCDC, 0xCA62C1D6};
            uint32_t next = rotated(a, 5) + f + e + w[t] + k[t / 20];
            e = d, d = c, c = rotated(b, 30), b = a, a = next;
        }
        state[0] += a, state[1] += b, state[2] += c, state[3] += d, state[4] += e;
    }
    gix_id id;
    for (int k = 0; k < 20; k++) id.bytes[k] = (uint8_t)(state[k / 4] >> (24 - k % 4 * 8));
    return id;
}

/* A commit by its bytes, in a history of its own. */
void Run::object() {
    static const char *const pieces[] = {"tree 4b825dc642cb6eb9a060e54bf8d69288fbee4904\n", "parent 1111111111111111111111111111111111111111\n", "author a <a@b> 5 +0000\n", "committer a <a@b> 7 +0000\n", "committer ", "<a@b>", " ", "\n", "9223372036854775807", "9223372036854775808", "-1", "parent ", "tree ", "gpgsig x\n", "mergetag object", "\n\n"};
    std::string content(input.flag() ? "" : pieces[0]);
    for (size_t left = input.byte() % 16; left > 0; left--) {
        uint8_t byte = input.byte();
        if (byte < 192)
            content += pieces[byte % 16];
        else
            content += (char)input.byte();
    }
    gix_id id = sha1("commit " + std::to_string(content.size()) + std::string(1, '\0') + content), wrong = id;
    wrong.bytes[input.byte() % 20] ^= 1;
    gix_history *alone = NULL;
    gix_commit found;
    WANT(gix_history_new(input.byte(), &alone) == GIX_OK);
    WANT(gix_history_insert_object(alone, &wrong, text_of(content.data()), content.size()) == GIX_ALTERED && gix_history_len(alone) == 0);
    int32_t code = gix_history_insert_object(alone, &id, text_of(content.data()), content.size());
    WANT(code == GIX_OK || code == GIX_MISSHAPEN);
    WANT(code == GIX_MISSHAPEN || content.compare(0, 5, "tree ") == 0);
    WANT(gix_history_len(alone) == (code == GIX_OK));
    WANT(gix_history_commit(alone, &id, &found, NULL, 0) == (code == GIX_OK ? GIX_OK : GIX_NONE));
    WANT(code == GIX_MISSHAPEN || (!found.has_generation && found.time >= 0 && found.parents_len <= content.size() / 48));
    gix_history_free(alone);
}

/* What is known of a history of these ids that was opened. It is freed. */
void levelled(gix_history *opened, const Ids &ids) {
    WANT(gix_history_len(opened) == ids.size());
    for (size_t k = 0; k < ids.size(); k++) {
        gix_id bases[5];
        gix_commit found;
        size_t count = 99;
        WANT(gix_history_commit(opened, &ids[k], &found, NULL, 0) == GIX_OK && found.has_generation && found.parents_len <= 5);
        int32_t answer = gix_history_merge_bases(opened, &ids.back(), &ids[k], 1, bases, 5, &count);
        WANT(answer == (count ? GIX_OK : GIX_NONE) && count <= 5);
        gix_span span = {GIX_INCLUDE, ids[k], ids[k]};
        WANT(gix_history_count(opened, &span, &count) == GIX_OK && count >= 1 && count <= ids.size());
        WANT(gix_history_missing(opened, NULL, 0, bases, 5, &count) == GIX_OK && count == 0);
    }
    gix_history_free(opened);
}

/* Appends the ids in the table of a commit-graph file. */
void add_ids(const uint8_t *table, size_t count, Ids *ids) {
    for (size_t k = 0; k < count; k++) {
        gix_id id;
        memcpy(id.bytes, table + 20 * k, sizeof id.bytes);
        ids->push_back(id);
    }
}

/* The commit-graph file of the criss-cross with other bytes in some places, or cut off. */
void Run::file() {
    uint8_t bytes[FILE_OF_FIVE];
    write_file(bytes);
    size_t changes = input.byte() % 4, len = input.byte() ? (size_t)FILE_OF_FIVE : (size_t)input.byte() << 8 | input.byte();
    for (; changes > 0; changes--) {
        size_t at = (size_t)input.byte() << 8;
        at |= input.byte();
        bytes[at % FILE_OF_FIVE] = input.byte();
    }
    gix_history *opened = NULL;
    len = std::min(len, sizeof bytes);
    int32_t code = gix_history_open(bytes, len, input.byte(), &opened);
    WANT(code == GIX_OK || code == GIX_NO_GRAPH || code == GIX_NO_LEVELS);
    if (code != GIX_OK) {
        WANT(opened == NULL);
        return;
    }
    Ids ids;
    add_ids(bytes + 1080, 5, &ids);
    levelled(opened, ids);
}

/* The first files of the chain of the criss-cross, with other bytes in some places. The files may then name each other again, with the
 * right hashes. */
void Run::chain() {
    chain_of_three chain;
    write_chain(&chain);
    size_t count = input.byte() % 4;
    for (size_t changes = input.byte() % 4; changes > 0; changes--) {
        size_t place = input.byte() % 3, at = (size_t)input.byte() << 8;
        at |= input.byte();
        chain.bytes[place][at % chain.files[place].bytes_len] = input.byte();
    }
    if (input.flag())
        for (size_t i = 1; i < 3; i++) {
            uint8_t *end = chain.bytes[i] + chain.files[i].bytes_len - 20;
            for (size_t k = 0; k < i; k++) memcpy(end - 20 * (i - k), chain.bytes[k] + chain.files[k].bytes_len - 20, 20);
            gix_id hash = sha1(std::string((const char *)chain.bytes[i], (size_t)(end - chain.bytes[i])));
            memcpy(end, hash.bytes, sizeof hash.bytes);
        }
    gix_history *opened = NULL;
    int32_t code = gix_history_open_chain(chain.files, count, input.byte(), &opened);
    WANT(code == GIX_OK || code == GIX_NO_GRAPH || code == GIX_NO_LEVELS);
    if (code != GIX_OK) {
        WANT(opened == NULL);
        return;
    }
    WANT(count > 0);
    Ids ids;
    for (size_t i = 0; i < count; i++) add_ids(chain.bytes[i] + (i ? 68 : 56) + 1024, i ? 2 : 1, &ids);
    levelled(opened, ids);
}

} // namespace

extern "C" size_t LLVMFuzzerMutate(uint8_t *data, size_t size, size_t room);

/* Half of the inputs are random bytes of any length. What libFuzzer makes of nothing is short, and much alike. */
extern "C" size_t LLVMFuzzerCustomMutator(uint8_t *data, size_t size, size_t room, unsigned int seed) {
    if (seed % 2 == 0) return LLVMFuzzerMutate(data, size, room);
    uint64_t state = seed;
    size = seed / 2 % (room + 1);
    for (size_t k = 0; k < size; k++) state = state * 6364136223846793005u + 1442695040888963407u, data[k] = (uint8_t)(state >> 56);
    return size;
}

extern "C" int LLVMFuzzerTestOneInput(const uint8_t *data, size_t size) {
    Run run = {};
    run.input.at = data;
    run.input.left = size;
    WANT(gix_history_new(run.input.byte(), &run.history) == GIX_OK);
    run.shape = (Shape)(run.input.byte() % 4);
    run.fill();
    while (run.input.left > 0) run.call();
    gix_history_free(run.history);
    return failed;
}
