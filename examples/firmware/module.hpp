/* module.hpp: a module over pcm_stream.h that can be copied where it stands: by a fork of its program (pcm_copy.h), or by its rows, which are
   kept for that and played into a new one. */
#ifndef MODULE_HPP
#define MODULE_HPP

#include "elf.hpp"
#include "pcm_copy.h"

#include <memory>
#include <set>
#include <unistd.h>

/* How modules are made. */
struct Making {
    std::vector<std::string> words; /* of the program */
    std::string library;            /* pcm_copy.so; "" where a copy plays the rows again */
    bool keeps_rows = false;        /* whatever copies want */
};

class Module {
public:
    static constexpr uint32_t line_bytes = 64;
    uint64_t tick = 0;     /* the caller's clock: it goes on between rows */
    uint64_t accepted = 0; /* writes */
    uint64_t refused = 0;  /* writes that found their bank's queue full */

    explicit Module(const Making &how) : making(how)
    {
        open();
    }
    /* It stands as `from` does, and goes on by itself. */
    explicit Module(Module &from) : tick(from.tick), accepted(from.accepted), making(from.making), rows(from.rows), ends(from.ends), standing(from.standing)
    {
        if (!making.library.empty()) {
            must(pcm_copy(&from.pcm, &pcm, take, &from), "a copy");
            standing = from.standing;
            begin();
            return;
        }
        open();
        play(from);
        settle();
    }
    Module &operator=(const Module &) = delete;

    /* What the module is; it waits for that. */
    const struct pcm_shape &shape()
    {
        must(pcm_learn(&pcm, nullptr), "its shape");
        return pcm.shape;
    }
    /* 0 where its program can be copied, or else the number of the error. */
    int copy_fault()
    {
        auto copy = std::make_unique<struct pcm>();
        enum pcm_result result = pcm_copy(&pcm, copy.get(), take, this);
        int fault = errno;
        if (result == PCM_OK)
            pcm_close(copy.get());
        else if (result != PCM_FAILED)
            must(result, "a copy");
        return result == PCM_OK ? 0 : fault;
    }
    /* A trace of its life so far, and a cut behind it, where its rows are kept. */
    std::string trace() const
    {
        return "tick,op,arg,data\n" + rows + std::to_string(tick) + ",C,,\n";
    }
    /* How many of the rows that were sent have a number. */
    size_t sent() const { return pcm.rows; }

    /* The newest bytes of a line; the clock goes on until they are there. */
    const uint8_t *read(uint32_t line)
    {
        must(settled(pcm_read(&pcm, tick, line), [&] { return pcm_read(&pcm, tick, line); }), "a read");
        wait(pcm.rows);
        if (answered != pcm.rows)
            throw Refusal("the module didn't answer a read of line " + std::to_string(line));
        return answer.bytes;
    }
    /* A write of the bytes that are given arrives; whether it is accepted. The module is asked only where its bank's queue may be full: where as
       many writes may stand as one queue holds. */
    bool write(uint32_t line, const uint8_t *bytes, const uint8_t *given)
    {
        uint32_t queue = shape().write_queue;
        if (standing.size() >= queue)
            settle();
        bool is_sure = standing.size() < queue;
        auto send = [&] { return pcm_write_masked(&pcm, tick, line, bytes, given, line_bytes); };
        must(settled(send(), send), "a write");
        standing.insert(pcm.rows);
        is_declined = false;
        if (!is_sure)
            settle();
        refused += is_declined;
        accepted += !is_declined;
        return !is_declined;
    }
    /* Time passes until a write that stands doesn't any more. */
    void wait_for_room()
    {
        if (standing.empty())
            return;
        uint32_t oldest = *standing.begin();
        wait(oldest);
        if (standing.count(oldest))
            throw Refusal("a bank of the module has halted: it takes no write any more");
    }
    void cut()
    {
        must(settled(pcm_cut(&pcm, tick), [&] { return pcm_cut(&pcm, tick); }), "a power cut");
        settle();
    }

private:
    static constexpr uint64_t long_enough = 1000000;
    const Making &making;
    struct Held {
        struct pcm pcm = {};
        bool is_finished = false; /* before it is closed, so that a program that isn't copied ends without a word */
        ~Held()
        {
            if (is_finished)
                pcm_finish(&pcm);
            pcm_close(&pcm);
        }
    } held;
    struct pcm &pcm = held.pcm;
    std::string rows;         /* that were sent, each a line, where they are kept */
    std::vector<size_t> ends; /* of each of them */
    std::set<uint32_t> standing; /* writes that aren't known to be stored, merged or refused */
    uint32_t answered = 0;
    struct pcm_outcome answer = {};
    bool is_declined = false;

    void open()
    {
        std::vector<const char *> lent;
        for (const std::string &word : making.words)
            lent.push_back(word.c_str());
        lent.push_back(nullptr);
        enum pcm_result result = making.library.empty() ? pcm_open(&pcm, lent.data()) : pcm_open_copied(&pcm, lent.data(), making.library.c_str());
        if (result == PCM_FAILED && !making.library.empty() && access(making.library.c_str(), R_OK) != 0)
            throw Refusal(making.library + ": " + strerror(errno));
        if (result != PCM_OK)
            throw Refusal(making.words[0] + ": " + strerror(errno));
        begin();
    }
    void begin()
    {
        held.is_finished = making.library.empty();
        if (making.library.empty() || making.keeps_rows) {
            pcm.log = keep;
            pcm.context = this;
        }
    }
    static void keep(void *context, char op, const char *row, size_t size)
    {
        Module &me = *static_cast<Module *>(context);
        if (strchr("RWMC", op) == nullptr)
            return;
        me.rows.append(row, size);
        me.ends.push_back(me.rows.size());
    }
    void play(const Module &from)
    {
        pcm.log = nullptr; /* (the rows are kept already) */
        for (size_t i = 0, at = 0; i < from.ends.size(); at = from.ends[i++]) {
            std::string row = from.rows.substr(at, from.ends[i] - at);
            must(pcm_replay(&pcm, row.c_str(), take, this), "a row that is played again");
        }
        pcm.log = keep;
    }
    static void take(void *context, const struct pcm_outcome *it)
    {
        Module &me = *static_cast<Module *>(context);
        if (it->kind == PCM_WORN)
            me.is_worn = true;
        if (it->kind == PCM_STORED || it->kind == PCM_MERGED || it->kind == PCM_FULL_QUEUE || it->kind == PCM_WORN)
            me.standing.erase(it->row);
        me.is_declined = me.is_declined || (it->kind == PCM_FULL_QUEUE && it->row == me.pcm.rows);
        if (it->row == me.pcm.rows && (it->kind == PCM_READ || it->kind == PCM_FORWARDED)) {
            me.answer = *it;
            me.answered = it->row;
        }
    }
    bool is_worn = false;

    void settle()
    {
        must(pcm_settle_all(&pcm, tick, take, this), "a settle");
    }
    void wait(uint32_t row)
    {
        must(pcm_settle_until(&pcm, row, std::min(tick + long_enough, PCM_LAST_TICK), take, this), "a settle");
        tick = pcm.tick;
    }
    /* A row that found too many answers waiting is sent again behind them. */
    template <class Send> enum pcm_result settled(enum pcm_result result, Send send)
    {
        while (result == PCM_FULL) {
            settle();
            result = send();
        }
        return result;
    }
    void must(enum pcm_result result, const char *what)
    {
        int fault = errno;
        if (is_worn)
            throw Refusal("the module is worn out: a worn line found no spare");
        if (result == PCM_OK)
            return;
        if (result == PCM_ENDED)
            throw Refusal("the module's program ended with status " + std::to_string(pcm_close(&pcm)));
        if (result == PCM_REFUSED && tick > PCM_LAST_TICK)
            throw Refusal("the module's last tick is past");
        throw Refusal(std::string("the module: ") + what + ": "
                      + (result == PCM_FAILED ? strerror(fault) : result == PCM_GARBLED ? "its program says what no stream does" : "refused, result " + std::to_string(result)));
    }
};

#endif
