// A small cache in front of a phase-change memory, over c/pcm_stream.h: the same as cache.py, which tells what it does.
//
//     clang++ -std=c++17 -O2 -o cache examples/live/cache.cpp
//     cache PROGRAM [POLICY] [ACCESSES]      PROGRAM is ./pcm, by default the policy is pause and there are 20000 accesses
#include "../../c/pcm_stream.h"

#include <array>
#include <cstdint>
#include <iomanip>
#include <iostream>
#include <algorithm>
#include <list>
#include <stdexcept>
#include <string>
#include <tuple>
#include <utility>
#include <vector>

namespace {

constexpr std::uint32_t LINES = 256, SETS = 8, WAYS = 4, WORDS = 8;
constexpr std::uint64_t READ_TICKS = 5;
using Line = std::array<std::uint8_t, 64>;

// Which word is accessed next, and whether it is written: runs of neighbours, and one in four of a hot line. (xorshift64)
class Accesses {
public:
    struct Access {
        std::uint32_t line, word;
        bool is_write;
    };
    Access next()
    {
        state ^= state << 13;
        state ^= state >> 7;
        state ^= state << 17;
        if ((state >> 8 & 3) == 0)
            word = (state >> 20) % (8 * WORDS);
        else if ((state >> 10 & 15) == 0)
            word = (state >> 20) % (LINES * WORDS);
        else
            word = (word + 1) % (LINES * WORDS);
        return {static_cast<std::uint32_t>(word / WORDS), static_cast<std::uint32_t>(word % WORDS), (state >> 40 & 3) == 0};
    }

private:
    std::uint64_t state = 88172645463325252ull, word = 0;
};

void must(pcm_result result)
{
    if (result != PCM_OK)
        throw std::runtime_error("the module answers " + std::to_string(result));
}

// The memory, as the cache sees it: a line is read or written at a tick, and the call answers when that was done.
class Memory {
public:
    explicit Memory(const std::vector<const char *> &words) { must(pcm_open(&pcm, words.data())); }
    ~Memory() { pcm_close(&pcm); }
    Memory(const Memory &) = delete;
    Memory &operator=(const Memory &) = delete;

    std::pair<Line, std::uint64_t> read(std::uint64_t tick, std::uint32_t line)
    {
        must(pcm_read(&pcm, tick, line));
        Answer answer{pcm.rows, {}, 0};
        must(pcm_settle_until(&pcm, answer.row, PCM_LAST_TICK, keep, &answer));
        return {answer.bytes, answer.tick};
    }
    std::uint64_t write(std::uint64_t tick, std::uint32_t line, const Line &bytes)
    {
        for (;; tick += READ_TICKS) {
            const auto answer = pcm_write_sure(&pcm, tick, line, bytes.data(), nullptr, bytes.size(), nullptr, nullptr);
            if (answer != PCM_DECLINED) {
                must(answer);
                newest[line] = bytes;
                return tick;
            }
            // (a full queue is tried again; a bank without a spare, or one that has halted, takes nothing any more)
            std::array<pcm_bank, 4> banks;
            must(pcm_ask(&pcm, tick, banks.data(), banks.size(), nullptr, nullptr));
            for (const auto &bank : banks)
                if (bank.mark != PCM_GOING)
                    throw std::runtime_error("a bank takes no more writes");
        }
    }
    void cut(std::uint64_t tick) { must(pcm_cut(&pcm, tick)); }
    bool is_newest(std::uint32_t line, const Line &bytes) const { return newest[line] == bytes; }

private:
    // What a read is answered, among the outcomes that are told.
    struct Answer {
        std::uint32_t row;
        Line bytes;
        std::uint64_t tick;
    };
    static void keep(void *context, const pcm_outcome *outcome)
    {
        const auto answer = static_cast<Answer *>(context);
        if (outcome->row != answer->row)
            return;
        std::copy_n(outcome->bytes, answer->bytes.size(), answer->bytes.begin());
        answer->tick = outcome->tick;
    }

    struct pcm pcm;
    std::vector<Line> newest = std::vector<Line>(LINES, Line{});
};

class Cache {
public:
    explicit Cache(Memory &behind) : memory(behind) {}
    void access(std::uint32_t line, std::uint32_t word, bool is_write, std::uint64_t value)
    {
        auto &lines = sets[line % SETS];
        auto found = lines.begin();
        while (found != lines.end() && found->line != line)
            ++found;
        if (found != lines.end()) {
            hits++;
            tick++;
            lines.splice(lines.end(), lines, found);
        } else {
            misses++;
            const std::uint64_t begun = tick;
            if (lines.size() == WAYS) {
                const Held old = lines.front();
                lines.pop_front();
                if (old.is_written) {
                    write_backs++;
                    tick = memory.write(tick, old.line, old.bytes);
                }
            }
            Held held{line, {}, false};
            std::tie(held.bytes, tick) = memory.read(tick, line);
            lines.push_back(held);
            waited += tick - begun;
        }
        if (is_write) {
            for (std::uint32_t i = 0; i < 8; i++)
                lines.back().bytes[8 * word + i] = static_cast<std::uint8_t>(value >> 8 * i);
            lines.back().is_written = true;
        }
    }
    std::uint64_t tick = 0, hits = 0, misses = 0, write_backs = 0, waited = 0;

private:
    struct Held {
        std::uint32_t line;
        Line bytes;
        bool is_written;
    };
    Memory &memory;
    std::array<std::list<Held>, SETS> sets; // the one that was used last stands last
};

} // namespace

int main(int count, char **words)
try {
    const std::string program = count > 1 ? words[1] : "./pcm", policy = count > 2 ? words[2] : "pause";
    const std::uint64_t accesses = count > 3 ? std::stoull(words[3]) : 20000;
    Memory memory({program.c_str(), "stream", "--banks", "4", "--regions", "1", "--lines", "64", "--write-queue", "8", "--policy", policy.c_str(),
                   "--misses", "2", "--lo", "2000", "--hi", "9000", nullptr});
    Cache cache(memory);
    Accesses all;
    for (std::uint64_t number = 0; number < accesses; number++) {
        const auto access = all.next();
        cache.access(access.line, access.word, access.is_write, number);
    }
    memory.cut(cache.tick);
    std::uint64_t tick = cache.tick, wrong = 0;
    for (std::uint32_t line = 0; line < LINES; line++) {
        Line bytes;
        std::tie(bytes, tick) = memory.read(tick, line);
        wrong += !memory.is_newest(line, bytes);
    }
    std::cout << "policy,accesses,hits,misses,write_backs,mean_latency_of_a_miss,read_again,wrong\n"
              << policy << ',' << accesses << ',' << cache.hits << ',' << cache.misses << ',' << cache.write_backs << ',' << std::fixed
              << std::setprecision(2) << static_cast<double>(cache.waited) / static_cast<double>(cache.misses ? cache.misses : 1) << ',' << LINES << ','
              << wrong << '\n';
    return wrong != 0;
} catch (const std::exception &error) {
    std::cerr << "cache: " << error.what() << '\n';
    return 2;
}
