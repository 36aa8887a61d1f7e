// What `citrus` does, written plainly over std::map, to compare times with: `plain run`, `plain check`, `plain load N A B`.
// It reads only good script texts, without looking for bad lines, and nothing of it is proved.
#include <algorithm>
#include <cstdint>
#include <cstdio>
#include <cstdlib>
#include <map>
#include <optional>
#include <string>
#include <string_view>
#include <unordered_map>
#include <vector>

using std::string, std::string_view, std::vector, std::optional;

enum class Kind { put, get, del, set };
struct Op {
    Kind kind;
    uint64_t key, value;
    bool operator==(const Op &other) const { return kind == other.kind && key == other.key && value == other.value; }
};
enum class Answer { added, old, val, none, gone, was };
struct Line { Op op; Answer answer; uint64_t value, number; };
struct Update { uint32_t caller; Op op; };
using Scripts = vector<vector<Op>>;
using Dictionary = std::map<uint64_t, uint64_t>;
struct Account { vector<vector<Line>> lines; vector<Update> history; Dictionary last; };

static const char *const kinds[] = {"put", "get", "del", "set"};
static const char *const answers[] = {"new", "old", "val", "none", "gone", "was"};

static bool has_value(Kind kind) { return kind == Kind::put || kind == Kind::set; }
static bool has_value(Answer answer) { return answer == Answer::val || answer == Answer::was; }
static bool tells_update(Answer answer) { return answer == Answer::added || answer == Answer::gone || answer == Answer::was; }

static string read_all() {
    string text;
    char piece[65536];
    for (size_t n; (n = fread(piece, 1, sizeof piece, stdin)) > 0;) text.append(piece, n);
    return text;
}

// Reads words and numbers from the front of a text; `good` tells whether all of them were there.
struct Reader {
    string_view text;
    bool good = true;

    bool take(string_view word) {
        if (text.substr(0, word.size()) != word) return good = false;
        text.remove_prefix(word.size());
        return true;
    }
    bool has(string_view word) {
        if (text.substr(0, word.size()) != word) return false;
        text.remove_prefix(word.size());
        return true;
    }
    uint64_t number() {
        uint64_t number = 0;
        size_t n = 0;
        for (; n < text.size() && text[n] >= '0' && text[n] <= '9'; n++) number = number * 10 + (text[n] - '0');
        if (n == 0 || (n > 1 && text[0] == '0')) good = false;
        text.remove_prefix(n);
        return number;
    }
    Op op() {
        Op op{Kind::put, 0, 0};
        while (!has(kinds[int(op.kind)]))
            if (op.kind == Kind::set) { good = false; return op; } else op.kind = Kind(int(op.kind) + 1);
        take(" ");
        op.key = number();
        if (has_value(op.kind)) { take(" "); op.value = number(); }
        return op;
    }
};

static Scripts parse(string_view text) {
    Scripts scripts;
    while (!text.empty()) {
        const size_t end = std::min(text.find('\n'), text.size());
        const auto line = text.substr(0, end);
        text.remove_prefix(std::min(end + 1, text.size()));
        if (line.empty() || line[0] == '#') continue;
        if (line == "script") scripts.emplace_back();
        else scripts.back().push_back(Reader{line}.op());
    }
    return scripts;
}

// Runs the scripts one after another. The numbers of lines that tell of no update are still to be found.
static Account run(const Scripts &scripts) {
    Account account;
    Dictionary &map = account.last;
    account.lines.resize(scripts.size());
    for (uint32_t caller = 0; caller < scripts.size(); caller++) {
        for (const Op &op : scripts[caller]) {
            const auto found = map.find(op.key);
            const bool present = found != map.end();
            Line line{op, Answer::none, 0, 0};
            switch (op.kind) {
            case Kind::put:
                line.answer = present ? Answer::old : Answer::added;
                if (!present) map.emplace(op.key, op.value);
                break;
            case Kind::get:
                if (present) { line.answer = Answer::val; line.value = found->second; }
                break;
            case Kind::del:
                if (present) { line.answer = Answer::gone; map.erase(found); }
                break;
            case Kind::set:
                if (present) { line.answer = Answer::was; line.value = found->second; found->second = op.value; }
                break;
            }
            if (tells_update(line.answer)) account.history.push_back({caller, op});
            line.number = account.history.size();
            account.lines[caller].push_back(line);
        }
    }
    return account;
}

// The value of each key from each of these positions of the history on; none where the key is absent.
struct Change { uint64_t position; optional<uint64_t> value; };
using Changes = std::unordered_map<uint64_t, vector<Change>>;

static Changes changes_of(const vector<Update> &history) {
    Changes changes;
    for (size_t i = 0; i < history.size(); i++) {
        const Op &op = history[i].op;
        changes[op.key].push_back({i + 1, op.kind == Kind::del ? std::nullopt : optional(op.value)});
    }
    return changes;
}

// The least front, from this one on, that explains the reply; none where no front does.
static optional<uint64_t> least_front(const Changes &changes, const Line &line, uint64_t from) {
    const auto fits = [&](const optional<uint64_t> &value) {
        return line.answer == Answer::none ? !value : line.answer == Answer::old ? bool(value) : value == line.value;
    };
    const auto found = changes.find(line.op.key);
    if (found == changes.end()) return fits(std::nullopt) ? optional(from) : std::nullopt;
    const auto &list = found->second;
    auto next = std::upper_bound(list.begin(), list.end(), from,
        [](uint64_t front, const Change &change) { return front < change.position; });
    if (fits(next == list.begin() ? std::nullopt : std::prev(next)->value)) return from;
    while (next != list.end() && !fits(next->value)) next++;
    return next == list.end() ? std::nullopt : optional(next->position);
}

static void number_lines(Account &account) {
    const Changes changes = changes_of(account.history);
    for (auto &lines : account.lines) {
        uint64_t before = 0;
        for (Line &line : lines) {
            if (!tells_update(line.answer)) line.number = *least_front(changes, line, before);
            before = line.number;
        }
    }
}

static void push_number(string &out, uint64_t number) {
    char digits[20];
    int n = 0;
    do digits[n++] = char('0' + number % 10); while ((number /= 10) > 0);
    while (n > 0) out.push_back(digits[--n]);
}

static void push_op(string &out, const Op &op) {
    out += kinds[int(op.kind)];
    out += ' ';
    push_number(out, op.key);
    if (has_value(op.kind)) { out += ' '; push_number(out, op.value); }
}

static void push_counted(string &out, const char *word, uint64_t number) {
    out += word;
    out += ' ';
    push_number(out, number);
    out += '\n';
}

static string printed(const Account &account) {
    string out;
    for (size_t caller = 0; caller < account.lines.size(); caller++) {
        push_counted(out, "script", caller);
        for (const Line &line : account.lines[caller]) {
            push_op(out, line.op);
            out += ' ';
            out += answers[int(line.answer)];
            out += ' ';
            if (has_value(line.answer)) { push_number(out, line.value); out += ' '; }
            push_number(out, line.number);
            out += '\n';
        }
    }
    push_counted(out, "history", account.history.size());
    for (size_t i = 0; i < account.history.size(); i++) {
        push_number(out, i + 1);
        out += ' ';
        push_number(out, account.history[i].caller);
        out += ' ';
        push_op(out, account.history[i].op);
        out += '\n';
    }
    push_counted(out, "final", account.last.size());
    for (const auto &[key, value] : account.last) {
        push_number(out, key);
        out += ' ';
        push_number(out, value);
        out += '\n';
    }
    return out += "end\n";
}

// Whether the history is legal and makes this dictionary. The value that each set replaced is put in its place.
static bool replays(const Account &account, vector<uint64_t> &replaced) {
    Dictionary map;
    for (const Update &update : account.history) {
        const Op &op = update.op;
        const auto found = map.find(op.key);
        if ((found == map.end()) != (op.kind == Kind::put) || op.kind == Kind::get) return false;
        replaced.push_back(op.kind == Kind::set ? found->second : 0);
        if (op.kind == Kind::put) map.emplace(op.key, op.value);
        else if (op.kind == Kind::set) found->second = op.value;
        else map.erase(found);
    }
    return map == account.last;
}

static bool is_told(const Account &account) {
    vector<uint64_t> replaced;
    if (!replays(account, replaced)) return false;
    const Changes changes = changes_of(account.history);
    size_t told = 0;
    for (uint32_t caller = 0; caller < account.lines.size(); caller++) {
        uint64_t before = 0;
        for (const Line &line : account.lines[caller]) {
            if (!tells_update(line.answer)) {
                if (least_front(changes, line, before) != line.number) return false;
            } else {
                if (line.number <= before || line.number > account.history.size()) return false;
                const Update &update = account.history[line.number - 1];
                if (update.caller != caller || !(update.op == line.op)) return false;
                if (line.answer == Answer::was && replaced[line.number - 1] != line.value) return false;
                told++;
            }
            before = line.number;
        }
    }
    return told == account.history.size();
}

static Answer read_answer(Reader &in, Kind kind) {
    static const vector<Answer> fitting[] = {{Answer::added, Answer::old}, {Answer::val, Answer::none}, {Answer::gone, Answer::none}, {Answer::was, Answer::none}};
    for (const Answer answer : fitting[int(kind)])
        if (in.has(answers[int(answer)])) return answer;
    in.good = false;
    return Answer::none;
}

static bool is_account(const Scripts &scripts, string_view text) {
    Reader in{text};
    Account account;
    account.lines.resize(scripts.size());
    for (size_t caller = 0; caller < scripts.size() && in.good; caller++) {
        in.take("script "); in.good &= in.number() == caller; in.take("\n");
        for (const Op &op : scripts[caller]) {
            if (!in.good) return false;
            Line line{in.op(), Answer::none, 0, 0};
            in.good &= line.op == op;
            in.take(" "); line.answer = read_answer(in, op.kind); in.take(" ");
            if (has_value(line.answer)) { line.value = in.number(); in.take(" "); }
            line.number = in.number(); in.take("\n");
            account.lines[caller].push_back(line);
        }
    }
    in.take("history ");
    const uint64_t updates = in.number(); in.take("\n");
    for (uint64_t i = 0; i < updates && in.good; i++) {
        in.good &= in.number() == i + 1; in.take(" ");
        const uint64_t caller = in.number(); in.take(" ");
        account.history.push_back({uint32_t(caller), in.op()}); in.take("\n");
    }
    in.take("final ");
    const uint64_t pairs = in.number(); in.take("\n");
    for (uint64_t i = 0; i < pairs && in.good; i++) {
        const uint64_t key = in.number(); in.take(" ");
        if (!account.last.empty() && account.last.rbegin()->first >= key) return false;
        account.last.emplace_hint(account.last.end(), key, in.number()); in.take("\n");
    }
    in.take("end\n");
    return in.good && in.text.empty() && is_told(account);
}

static Scripts made(uint64_t number, uint64_t scripts, uint64_t ops) {
    Scripts all(scripts);
    for (uint64_t i = 0; i < scripts; i++) {
        uint64_t state = number + i;
        const auto draw = [&state] { return (state = state * 6364136223846793005u + 1442695040888963407u) >> 33; };
        for (uint64_t n = 0; n < ops; n++) {
            const uint64_t kind = draw() % 4, key = 64 * (draw() % 4096) + i;
            if (kind < 2) all[i].push_back({Kind::put, key, draw()});
            else all[i].push_back({kind == 2 ? Kind::get : Kind::del, key, 0});
        }
    }
    return all;
}

static string summary_of(const Account &account) {
    uint64_t ops = 0, counts[6] = {}, keys = 0, values = 0;
    for (const auto &lines : account.lines)
        for (const Line &line : lines) { ops++; counts[int(line.answer)]++; }
    for (const auto &[key, value] : account.last) { keys += key; values += value; }
    string out;
    push_counted(out, "scripts", account.lines.size());
    push_counted(out, "ops", ops);
    for (const Answer answer : {Answer::added, Answer::old, Answer::val, Answer::none, Answer::gone})
        push_counted(out, answers[int(answer)], counts[int(answer)]);
    push_counted(out, "size", account.last.size());
    push_counted(out, "keys", keys);
    push_counted(out, "values", values);
    return out += "end\n";
}

int main(int count, char **words) {
    const string_view command = count > 1 ? words[1] : "";
    string out;
    if (command == "run") {
        const string text = read_all();
        const Scripts scripts = parse(text);
        Account account = run(scripts);
        number_lines(account);
        out = printed(account);
    } else if (command == "check") {
        const string text = read_all();
        const size_t at = text.find("\naccount\n");
        if (at == string::npos) return 2;
        const Scripts scripts = parse(string_view(text).substr(0, at + 1));
        out = is_account(scripts, string_view(text).substr(at + 9)) ? "yes\n" : "no\n";
    } else if (command == "load" && count == 5) {
        const auto number = [&](int i) { return strtoull(words[i], nullptr, 10); };
        out = summary_of(run(made(number(2), number(3), number(4))));
    } else {
        return 2;
    }
    fwrite(out.data(), 1, out.size(), stdout);
}
