/* campaign.hpp: cuts the power of a board at every moment of a run at which memory or acknowledgements have changed, boots behind each cut, and
   keeps what the firmware reports. */
#ifndef CAMPAIGN_HPP
#define CAMPAIGN_HPP

#include "board.hpp"

#include <chrono>
#include <csignal>
#include <cstdarg>
#include <sys/prctl.h>
#include <sys/wait.h>
#include <unistd.h>

/* What is tried. */
struct Plan {
    std::string powerloss = "linear";
    std::string cpu = "cortex-m7", table, rows;
    uint64_t cuts = 1000, seed = 1, limit = 10000000, from = 0, to = UINT64_MAX, every = 1, show = 1;
    uint32_t operations = 16, more = 1, bytes = 0;
    unsigned depth = 1; /* so many cuts, each within the boot behind the one before */
    unsigned jobs = 1;  /* processes among which the first cuts are shared */
    bool at_each_access = false;
    Wiring wiring;
    Making making;
};

/* A cut, and those before it, of which each is in the boot behind the one before. */
using Path = std::vector<Point>;

/* What is told of a cut. */
struct Told {
    uint64_t first = 0; /* the number of the first of its cuts */
    std::string row;    /* of the table */
    std::string kind;   /* of what is wrong; "" where nothing is */
    std::string shown;  /* of one that is shown */
    std::string trace;  /* where the rows are kept, of one that is wrong */
};

/* Such words, from one process to another by a file. */
class Tape {
public:
    explicit Tape(FILE *file_) : file(file_) {}
    void put(const Told &it) const
    {
        put_number(it.first);
        for (const std::string *text : {&it.row, &it.kind, &it.shown, &it.trace}) {
            put_number(text->size());
            fwrite(text->data(), 1, text->size(), file);
        }
    }
    /* Whether there was one more, whole. */
    bool get(Told &it) const
    {
        bool is_whole = get_number(it.first);
        for (std::string *text : {&it.row, &it.kind, &it.shown, &it.trace}) {
            uint64_t size = 0;
            is_whole = is_whole && get_number(size);
            text->resize(is_whole ? static_cast<size_t>(size) : 0);
            is_whole = is_whole && fread(&(*text)[0], 1, text->size(), file) == text->size();
        }
        return is_whole;
    }

private:
    FILE *file;
    void put_number(uint64_t number) const { fwrite(&number, sizeof number, 1, file); }
    bool get_number(uint64_t &number) const { return fread(&number, sizeof number, 1, file) == 1; }
};

class Campaign {
public:
    Campaign(const Plan &plan_, const Image &image_) : plan(plan_), image(image_), began(std::chrono::steady_clock::now())
    {
        if (!plan.table.empty() && (table = fopen(plan.table.c_str(), "w")) == nullptr)
            throw Refusal(plan.table + ": " + strerror(errno));
        note("cut,tick,kind,at,value,acked,where,verdict");
    }
    ~Campaign()
    {
        if (table != nullptr)
            fclose(table);
    }
    Campaign(const Campaign &) = delete;

    /* Whether all was right. */
    bool run()
    {
        Module module(plan.making);
        bytes = bytes_of(module);
        Boot whole = boot_of(0, plan.operations);
        whole.on_point = [](const Point &) {};
        Memory memory(module, plan.wiring, bytes);
        Verdict verdict = board(0).boot(memory, whole);
        points = board(0).points;
        printf("%s: %u operations, %llu moments to cut at, %llu accesses, %zu rows, %llu ticks, %llu refused\n", name().c_str(), board(0).acked, count(points),
               count(board(0).accesses), module.sent(), count(module.tick), count(module.refused));
        if (!verdict.is_right()) {
            printf("without a cut: %s\n", verdict.wrong.c_str());
            note("-," + std::to_string(module.tick) + ",,,," + std::to_string(board(0).acked) + ",," + quoted(verdict.wrong));
            wrong++;
        }
        if (plan.powerloss == "random")
            live();
        else if (plan.powerloss != "none" && plan.jobs > 1)
            share();
        else if (plan.powerloss != "none")
            cut_everywhere();
        finish();
        return wrong == 0;
    }
    /* How many cuts a second, on standard error. */
    void tell_speed() const
    {
        double seconds = std::chrono::duration<double>(std::chrono::steady_clock::now() - began).count();
        fprintf(stderr, "%llu cuts, %llu boots in %.2f s: %.0f cuts a second\n", count(cuts), count(boots), seconds, static_cast<double>(cuts) / seconds);
    }

private:
    const Plan &plan;
    const Image &image;
    const std::chrono::steady_clock::time_point began;
    std::vector<std::unique_ptr<Board>> boards; /* one for each depth of boots within boots */
    FILE *table = nullptr;
    uint32_t bytes = 0;
    uint64_t points = 0, cuts = 0, boots = 0, wrong = 0, shown = 0;
    unsigned part = 0;           /* of the jobs this is */
    const Tape *tape = nullptr;  /* where one of several jobs tells its cuts */
    uint64_t wrong_here = 0;     /* cuts that this job found */
    std::map<std::string, uint64_t> kinds; /* of what was wrong behind cuts */

    static unsigned long long count(uint64_t number) { return number; }
    std::string name() const { return image.path.substr(image.path.find_last_of('/') + 1); }

    uint32_t bytes_of(Module &module)
    {
        const struct pcm_shape &shape = module.shape();
        uint64_t all = static_cast<uint64_t>(shape.banks) * shape.regions * shape.lines * shape.line;
        if (shape.line != Module::line_bytes)
            throw Refusal("--line " + std::to_string(shape.line) + ": the board has lines of 64 bytes");
        if (plan.bytes > all)
            throw Refusal("--bytes " + std::to_string(plan.bytes) + ": the module has " + std::to_string(all));
        return plan.bytes != 0 ? plan.bytes : static_cast<uint32_t>(std::min<uint64_t>(all, Board::most_nvm));
    }
    Board &board(size_t depth)
    {
        while (boards.size() <= depth)
            boards.push_back(std::make_unique<Board>(image, plan.cpu, bytes, plan.limit, boards.size() < plan.depth));
        return *boards[depth];
    }
    Boot boot_of(uint32_t done, uint32_t goal) const
    {
        Boot boot;
        boot.done = done;
        boot.goal = goal;
        boot.at_each_access = plan.at_each_access;
        return boot;
    }
    bool is_asked(uint64_t number) const
    {
        return number >= plan.from && number < plan.to && (number - plan.from) % plan.every == 0 && (number - plan.from) / plan.every % plan.jobs == part;
    }

    void cut_everywhere()
    {
        Module module(plan.making);
        Path path;
        explore(module, boot_of(0, plan.operations), path);
    }
    /* Processes share the first cuts; what they found is told in the order of cuts. */
    void share()
    {
        std::vector<FILE *> files;
        std::vector<pid_t> processes;
        fflush(nullptr);
        for (unsigned job = 0; job < plan.jobs; job++) {
            files.push_back(tmpfile());
            processes.push_back(files.back() == nullptr ? -1 : fork());
            if (processes.back() < 0)
                throw Refusal(std::string("a process for each job: ") + strerror(errno));
            if (processes.back() == 0)
                work(job, files.back());
        }
        for (pid_t it : processes)
            while (waitpid(it, nullptr, 0) < 0 && errno == EINTR) {}
        std::vector<Told> all;
        for (FILE *file : files)
            gather(file, all);
        std::stable_sort(all.begin(), all.end(), [](const Told &one, const Told &other) { return one.first < other.first; });
        for (const Told &it : all)
            take(it);
    }
    static constexpr uint64_t behind_all = UINT64_MAX;
    /* One of the processes: its last words are how much it did, or why it couldn't. */
    [[noreturn]] void work(unsigned job, FILE *file)
    {
        prctl(PR_SET_PDEATHSIG, SIGKILL);
        Tape own(file);
        Told ends;
        tape = &own;
        part = job;
        ends.first = behind_all;
        try {
            cut_everywhere();
            ends.row = std::to_string(cuts);
            ends.shown = std::to_string(boots);
        } catch (const std::exception &why) {
            ends.kind = why.what();
        }
        own.put(ends);
        _exit(fflush(file) == 0 ? 0 : 1);
    }
    void gather(FILE *file, std::vector<Told> &all)
    {
        Told it;
        Tape told(file);
        rewind(file);
        while (told.get(it) && it.first != behind_all)
            all.push_back(it);
        fclose(file);
        if (it.first != behind_all)
            throw Refusal("one of the jobs broke off");
        if (!it.kind.empty())
            throw Refusal(it.kind);
        cuts += strtoull(it.row.c_str(), nullptr, 10);
        boots += strtoull(it.shown.c_str(), nullptr, 10);
    }
    /* A boot, and at each of its moments a copy of the module, whose power is cut: what the boot behind that comes to is told, and explored in
       turn. A module of one row or of a million is copied in the same time. */
    Verdict explore(Module &module, Boot boot, Path &path)
    {
        Memory memory(module, plan.wiring, bytes);
        boots++;
        if (path.size() < plan.depth)
            boot.on_point = [&](const Point &point) {
                if (path.empty() && !is_asked(point.number))
                    return;
                path.push_back(point);
                Module copy(module);
                copy.cut();
                cuts++;
                uint32_t done = point.acked;
                tell(path, explore(copy, boot_of(done, std::min(done + plan.more, std::max(done, plan.operations))), path), module);
                path.pop_back();
            };
        return board(path.size()).boot(memory, boot);
    }
    /* One module and one long life: the power goes again and again, each time at another moment. */
    void live()
    {
        Module module(plan.making);
        std::mt19937_64 draw(plan.seed);
        uint32_t done = 0;
        Path path(1);
        for (uint64_t i = 0; i < plan.cuts; i++) {
            Boot boot = boot_of(done, done + plan.operations);
            boot.goes_at = draw() % (points + 1);
            Verdict verdict = lived(module, boot, draw());
            path[0] = last;
            path[0].number = i;
            done = board(0).acked;
            if (!verdict.is_right()) {
                path[0].acked = done;
                tell(path, verdict, module);
                printf("a life of %llu cuts, %u operations acknowledged\n", count(i), done);
                return;
            }
            module.cut();
            cuts++;
        }
        Verdict verdict = lived(module, boot_of(done, done), draw());
        path[0].acked = done;
        path[0].number = plan.cuts;
        tell(path, verdict, module);
        printf("a life of %llu cuts, %u operations acknowledged\n", count(plan.cuts), done);
    }
    Point last; /* of a life: the moment of its last cut */
    Verdict lived(Module &module, const Boot &boot, uint64_t seed)
    {
        Wiring wiring = plan.wiring;
        wiring.seed = seed;
        Memory memory(module, wiring, bytes);
        boots++;
        Verdict verdict = board(0).boot(memory, boot);
        if (verdict.is_off)
            last = board(0).last_point();
        return verdict;
    }

    void note(const std::string &row)
    {
        if (table != nullptr)
            fprintf(table, "%s\n", row.c_str());
    }
    static std::string quoted(const std::string &words)
    {
        std::string text = "\"";
        for (char letter : words)
            text += letter == '"' ? std::string("\"\"") : std::string(1, letter);
        return text + "\"";
    }
    static std::string numbers(const Path &path)
    {
        std::string text;
        for (const Point &it : path)
            text += (text.empty() ? "" : ".") + std::to_string(it.number);
        return text;
    }
    /* The functions and lines at which the processor is, the innermost first. */
    std::string where(const Point &it) const
    {
        std::string text;
        for (size_t i = 0; i < it.calls.size(); i++)
            text += (i ? " < " : "") + image.where(i ? (it.calls[i] & ~1u) - 2 : it.calls[i]);
        return text;
    }
    /* What the power kept from being done. With a cache the module is written to where a line of that is written back. */
    std::string what(const Point &it) const
    {
        bool is_access = it.kind != Kind::acknowledge && it.kind != Kind::end;
        const char *begin = is_access && plan.wiring.cache != 0 && !plan.at_each_access ? "before a cached line is written back, at " : "before ";
        switch (it.kind) {
        case Kind::load: return begin + ("a load at " + hex(it.at, 4));
        case Kind::store: return begin + ("the store of " + hex(it.value, static_cast<int>(2 * it.size)) + " at " + hex(it.at, 4));
        case Kind::clean: return begin + ("a clean at " + hex(it.at, 4));
        case Kind::acknowledge: return "before operation " + std::to_string(it.at) + " is acknowledged";
        default: return "behind the last store";
        }
    }
    void tell(const Path &path, const Verdict &verdict, Module &module)
    {
        const Point &it = path.back();
        Told told;
        told.first = path[0].number;
        told.row = numbers(path) + "," + std::to_string(it.tick) + "," + static_cast<char>(it.kind) + "," + hex(it.at, 1) + ","
                   + (it.kind == Kind::store ? hex(it.value, 1) : "") + "," + std::to_string(it.acked) + "," + quoted(where(it)) + ","
                   + quoted(verdict.is_right() ? "ok" : verdict.wrong);
        if (!verdict.is_right()) {
            told.kind = verdict.kind();
            if (wrong_here < plan.show)
                told.shown = shown_of(path, verdict, module);
            if (wrong_here == 0 && !plan.rows.empty())
                told.trace = module.trace();
            wrong_here++;
        }
        if (tape != nullptr)
            tape->put(told);
        else
            take(told);
    }
    void take(const Told &it)
    {
        note(it.row);
        if (it.kind.empty())
            return;
        if (!it.trace.empty() && kinds.empty())
            keep_rows(it.trace);
        wrong++;
        kinds[it.kind]++;
        if (shown++ < plan.show)
            fputs(it.shown.c_str(), stdout);
    }
    /* The rows up to a cut, as a trace for the program by the same options. */
    void keep_rows(const std::string &trace) const
    {
        FILE *file = fopen(plan.rows.c_str(), "w");
        if (file == nullptr)
            throw Refusal(plan.rows + ": " + strerror(errno));
        bool is_written = fwrite(trace.data(), 1, trace.size(), file) == trace.size();
        if (fclose(file) != 0 || !is_written)
            throw Refusal(plan.rows + ": it can't be written");
    }
    __attribute__((format(printf, 2, 3))) static void add(std::string &text, const char *format, ...)
    {
        char more[4096];
        va_list words;
        va_start(words, format);
        vsnprintf(more, sizeof more, format, words);
        va_end(words);
        text += more;
    }
    /* A cut behind which something is wrong: where it came, and what memory held. */
    std::string shown_of(const Path &path, const Verdict &verdict, Module &module) const
    {
        bool is_life = plan.powerloss == "random";
        std::string text;
        add(text, "cut %s: %s\n", numbers(path).c_str(), verdict.wrong.c_str());
        for (size_t i = 0; i < path.size(); i++)
            add(text, "  %s%s, at tick %llu, %u operations acknowledged\n  %s\n", is_life ? "the last cut before: " : i ? "and in the boot behind it " : "",
                what(path[i]).c_str(), count(path[i].tick), path[i].acked, where(path[i]).c_str());
        add(text, "  memory %s, but for zeros:\n", is_life ? "now holds" : "then held");
        Module copy(module);
        copy.cut();
        uint64_t rows = 0;
        for (uint32_t line = 0; line * Module::line_bytes < bytes; line++)
            add_line(text, copy.read(line), line * Module::line_bytes, path.back(), rows);
        if (rows > most_rows)
            add(text, "    and %llu rows more\n", count(rows - most_rows));
        return text;
    }
    static constexpr uint64_t most_rows = 24;
    /* The rows of a line of which a byte isn't 0, as words; of many only the first, and that by which the power went. */
    void add_line(std::string &text, const uint8_t *from, uint32_t at, const Point &point, uint64_t &rows) const
    {
        for (uint32_t row = 0; row < Module::line_bytes && at + row < bytes; row += 32) {
            bool is_there = point.kind != Kind::end && point.kind != Kind::acknowledge && point.at / 32 == (at + row) / 32;
            bool is_zero = std::all_of(from + row, from + row + 32, [](uint8_t byte) { return byte == 0; });
            if ((is_zero && !is_there) || (rows++ >= most_rows && !is_there))
                continue;
            add(text, "  %c %04x ", is_there ? '>' : ' ', at + row);
            for (uint32_t word = 0; word < 32; word += 4)
                add(text, " %02x%02x%02x%02x", from[row + word + 3], from[row + word + 2], from[row + word + 1], from[row + word]);
            text += "\n";
        }
    }
    void finish()
    {
        if (plan.powerloss != "none") {
            uint64_t all = 0;
            for (const auto &kind : kinds)
                all += kind.second;
            printf("%s: %llu cuts, %llu wrong", plan.powerloss.c_str(), count(cuts), count(all));
            const char *between = ": ";
            for (const auto &kind : kinds) {
                printf("%s%llu %s", between, count(kind.second), kind.first.c_str());
                between = ", ";
            }
            printf("\n");
        }
        fflush(stdout);
        if (ferror(stdout) || (table != nullptr && (fflush(table) != 0 || ferror(table))))
            throw Refusal((ferror(stdout) ? std::string("standard output") : plan.table) + ": it can't be written");
    }
};

#endif
