/* words.hpp: what cut-firmware is asked for. */
#ifndef WORDS_HPP
#define WORDS_HPP

#include "campaign.hpp"

#include <sys/stat.h>

static const char usage[] =
    "usage: cut-firmware IMAGE [--option value ..] [OPTION OF pcm stream ..]\n"
    "\n"
    "Runs a firmware (ELF, for a Cortex-M) over a simulated module, and cuts the power at every moment at which its memory has changed: before\n"
    "each store that reaches the module, each acknowledgement, and behind the last. Processor, RAM and cache are lost, the module stays. Behind\n"
    "each cut the firmware boots, and reports whether all is there that it had acknowledged. examples/firmware/README.md has a recipe.\n"
    "\n"
    "  --powerloss P     linear (default): one cut; exhaustive: and a second one at every moment of the boot behind each; random: one life of\n"
    "                    --cuts cuts (1000), at drawn moments; none: the run alone\n"
    "  --depth N         exhaustive: so many cuts, each in the boot behind the one before (2)\n"
    "  --operations N    of the run (16); in a life up to so many between two cuts\n"
    "  --more N          so many operations more behind each cut (1)\n"
    "  --bytes N         of the non-volatile memory (the module's)\n"
    "  --bus B           stall (default): a store waits while its bank's queue is full; drop: it is dropped, and a register tells\n"
    "  --cache N         a cache of N lines of 32 bytes that writes back stands before the module (0: none)\n"
    "  --evicts N        one of N accesses of the cache writes back any line of it (6; 0: only where room is wanted)\n"
    "  --at A            store (default): moments as above; access: before each load and store\n"
    "  --from N --to N --every N    of the first cuts only those of these numbers\n"
    "  --jobs N          processes that share the first cuts (1)\n"
    "  --seed N          draws the moments of a life, what the cache writes back, and the module's cells (1)\n"
    "  --limit N         instructions of a boot, behind which it hangs (10000000)\n"
    "  --cpu C           cortex-m0, cortex-m3, cortex-m4, cortex-m7 (default) or cortex-m33\n"
    "  --show N          so many wrong cuts are shown, with their lines and what memory held (1)\n"
    "  --table FILE      a row for each cut\n"
    "  --rows FILE       the rows of the module up to the first wrong cut, which pcm stream --end off plays by the same options\n"
    "  --by B            copy (default): the program is forked at each moment; replay: its rows are played into a new one\n"
    "  --library FILE    pcm_copy.so, by which it is forked (beside this program)\n"
    "  --pcm PROGRAM     pcm (the environment's PCM, or that of the checkout or of the installed tree)\n"
    "  --speed           how many cuts a second, on standard error\n"
    "\n"
    "Status: 0: nothing is wrong; 1: something is; 2: it can't be tried, and standard error says why.\n";

class Words {
public:
    Plan plan;
    std::string image;
    bool asks_help = false, tells_speed = false;

    Words(int count, char **given)
    {
        words.assign(given + 1, given + count);
        for (at = 0; at < words.size(); at++)
            take(words[at]);
        asks_help = asks_help || (image.empty() && count == 1);
        if (image.empty() && !asks_help)
            throw Refusal("no image is named; --help tells more");
        plan.depth = plan.powerloss == "exhaustive" ? depth : 1;
    }
    /* Finds the program, and whether it can be copied. */
    void settle()
    {
        plan.wiring.seed = plan.seed;
        plan.making.words = {found_program()};
        std::string name = plan.making.words[0].substr(plan.making.words[0].find_last_of('/') + 1);
        if (name.compare(0, 10, "pcm_stream") != 0)
            plan.making.words.push_back("stream");
        for (const std::string &word : passed_on)
            plan.making.words.push_back(word);
        for (const std::string &word : {std::string("--seed"), std::to_string(plan.seed), std::string("--tell"), std::string("shape")})
            plan.making.words.push_back(word);
        plan.making.keeps_rows = !plan.rows.empty();
        if (by != "copy" || plan.powerloss == "random" || plan.powerloss == "none")
            return;
        plan.making.library = library.empty() ? found_library() : library;
        if (plan.making.library.find_first_of(" :") != std::string::npos) {
            fprintf(stderr, "cut-firmware: %s: the loader takes a blank or a colon for its end: the rows are played again for each cut\n", plan.making.library.c_str());
            plan.making.library.clear();
        }
        int fault = plan.making.library.empty() ? 0 : Module(plan.making).copy_fault();
        if (fault != 0) {
            fprintf(stderr, "cut-firmware: the program can't be copied (%s): its rows are played again for each cut\n", strerror(fault));
            plan.making.library.clear();
        }
    }

private:
    std::vector<std::string> words, passed_on;
    size_t at = 0;
    std::string program, library, by = "copy";
    unsigned depth = 2;

    /* What stands behind a word, in the same one or in the next. */
    std::string value(const std::string &word)
    {
        size_t equals = word.find('=');
        if (equals != std::string::npos)
            return word.substr(equals + 1);
        if (at + 1 >= words.size())
            throw Refusal(word + " lacks its value");
        return words[++at];
    }
    static uint64_t number(const std::string &name, const std::string &text, uint64_t least, uint64_t most)
    {
        char *end = nullptr;
        errno = 0;
        unsigned long long found = strtoull(text.c_str(), &end, 0);
        if (text.empty() || text[0] < '0' || text[0] > '9' || *end != 0 || errno != 0 || found < least || found > most)
            throw Refusal(name + " " + text + ": it may be " + std::to_string(least) + " to " + std::to_string(most));
        return found;
    }
    static std::string one_of(const std::string &name, const std::string &text, const std::vector<std::string> &all)
    {
        std::string may;
        for (const std::string &it : all) {
            if (it == text)
                return text;
            may += (may.empty() ? "" : it == all.back() ? " or " : ", ") + it;
        }
        throw Refusal(name + " " + text + ": it may be " + may);
    }
    void take(const std::string &word)
    {
        if (word == "--help" || word == "-h") {
            asks_help = true;
        } else if (word == "--speed") {
            tells_speed = true;
        } else if (word.empty() || word[0] != '-') {
            if (!image.empty())
                throw Refusal(word + ": one image is tried, and " + image + " was named before");
            image = word;
        } else if (!take_number(word) && !take_text(word)) {
            pass_on(word);
        }
    }
    /* An option that is a number, and where it goes. */
    struct Numbered {
        const char *name;
        uint64_t least, most;
        std::function<void(uint64_t)> put;
    };
    template <class Number> static std::function<void(uint64_t)> into(Number &place)
    {
        return [&place](uint64_t found) { place = static_cast<Number>(found); };
    }
    bool take_number(const std::string &word)
    {
        const uint64_t any = UINT64_MAX, million = 1000000;
        const Numbered all[] = {
            {"--depth", 1, 8, into(depth)},
            {"--jobs", 1, 256, into(plan.jobs)},
            {"--operations", 0, million, into(plan.operations)},
            {"--more", 0, million, into(plan.more)},
            {"--bytes", 4, Board::most_nvm, into(plan.bytes)},
            {"--cache", 0, 65536, into(plan.wiring.cache)},
            {"--evicts", 0, million, into(plan.wiring.evicts)},
            {"--cuts", 1, 1000 * million, into(plan.cuts)},
            {"--seed", 0, any, into(plan.seed)},
            {"--limit", 1, any, into(plan.limit)},
            {"--from", 0, any, into(plan.from)},
            {"--to", 0, any, into(plan.to)},
            {"--every", 1, any, into(plan.every)},
            {"--show", 0, any, into(plan.show)},
        };
        std::string name = word.substr(0, word.find('='));
        for (const Numbered &it : all)
            if (name == it.name) {
                it.put(number(name, value(word), it.least, it.most));
                return true;
            }
        return false;
    }
    bool take_text(const std::string &word)
    {
        std::string name = word.substr(0, word.find('='));
        if (name == "--powerloss")
            plan.powerloss = one_of(name, value(word), {"none", "linear", "exhaustive", "random"});
        else if (name == "--bus")
            plan.wiring.drops = one_of(name, value(word), {"stall", "drop"}) == "drop";
        else if (name == "--at")
            plan.at_each_access = one_of(name, value(word), {"store", "access"}) == "access";
        else if (name == "--by")
            by = one_of(name, value(word), {"copy", "replay"});
        else if (name == "--cpu")
            Board::model_of(plan.cpu = value(word));
        else if (name == "--table")
            plan.table = value(word);
        else if (name == "--rows")
            plan.rows = value(word);
        else if (name == "--library")
            library = value(word);
        else if (name == "--pcm")
            program = value(word);
        else
            return false;
        return true;
    }
    /* An option of the program, which has a value. */
    void pass_on(const std::string &word)
    {
        std::string name = word.substr(0, word.find('='));
        for (const char *own : {"--print", "--end", "--input", "--tell", "--until"})
            if (name == own)
                throw Refusal(name + " isn't asked for: it is this program's");
        passed_on.push_back(word);
        if (word.find('=') == std::string::npos)
            passed_on.push_back(value(word));
    }
    static std::string own_folder()
    {
        char path[4096];
        ssize_t size = readlink("/proc/self/exe", path, sizeof path);
        std::string all = size > 0 ? std::string(path, static_cast<size_t>(size)) : "./cut-firmware";
        return all.substr(0, all.find_last_of('/'));
    }
    std::string found_program() const
    {
        const char *named = getenv("PCM");
        if (!program.empty() || (named != nullptr && *named != 0))
            return !program.empty() ? program : named;
        for (const char *place : {"/pcm", "/../../pcm", "/../../../pcm"}) {
            std::string path = own_folder() + place;
            struct stat it;
            if (stat(path.c_str(), &it) == 0 && S_ISREG(it.st_mode) && access(path.c_str(), X_OK) == 0)
                return path;
        }
        return "pcm";
    }
    static std::string found_library()
    {
        for (const std::string &path : {own_folder() + "/pcm_copy.so", own_folder() + "/../lib/pcm/pcm_copy.so"})
            if (access(path.c_str(), R_OK) == 0)
                return path;
        fprintf(stderr, "cut-firmware: pcm_copy.so isn't beside it: the rows are played again for each cut\n");
        return "";
    }
};

#endif
