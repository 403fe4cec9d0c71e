/* pcm_tlm_device.h: transactions of TLM-2.0 as rows of a module (pcm_stream.h): what pcm_tlm.h and pcm_tlm_at.h stand on. It knows the module's
   ticks, and no simulated time: none of its calls waits for the kernel. */
#ifndef PCM_TLM_DEVICE_H
#define PCM_TLM_DEVICE_H

#if __cplusplus < 201703L
#error "pcm_tlm.h is C++17, as Debian's library of SystemC is"
#endif
#if defined(SYSTEMC_INCLUDED) && !defined(SC_INCLUDE_DYNAMIC_PROCESSES)
#error "include pcm_tlm.h before systemc, or define SC_INCLUDE_DYNAMIC_PROCESSES before it: the sockets of tlm_utils need that"
#endif
#ifndef SC_INCLUDE_DYNAMIC_PROCESSES
#define SC_INCLUDE_DYNAMIC_PROCESSES
#endif

#include "pcm_stream.h"

#include <algorithm>
#include <array>
#include <map>
#include <memory>
#include <string>
#include <systemc>
#include <tlm>
#include <unordered_map>
#include <vector>

namespace pcm_tlm {

/* Why a transaction was answered TLM_GENERIC_ERROR_RESPONSE. It may be ignored: only an initiator that adds it to a transaction is told. */
struct failure : tlm::tlm_extension<failure> {
    enum reason {
        none,
        power, /* it went before the answer, or was off */
        worn,  /* a bank takes no writes any more */
        ended  /* the program of streams has ended */
    };
    reason why = none;
    tlm::tlm_extension_base *clone() const override { return new failure(*this); }
    void copy_from(const tlm::tlm_extension_base &other) override { why = static_cast<const failure &>(other).why; }
};

/* How often what came. */
struct counts {
    uint64_t transactions = 0;
    uint64_t kinds[PCM_SETTLED] = {}; /* outcomes of rows, by enum pcm_kind; each line of a transaction is a row */
    uint64_t ended = 0;               /* transactions that a cut ended */
    uint64_t settles = 0;             /* how often the program was waited for */
    uint64_t late = 0;                /* requests, cuts and answers of exact timing, and planned cuts, behind their own tick: none */
};

/* What a transaction has in one line. */
struct part {
    uint32_t line, at, size; /* its bytes there are `size` from `at` on */
    size_t from;             /* the first of them in the transaction's data */
    uint32_t row;            /* its number, once it was sent */
    bool is_refused;
};

/* A transaction under way. Its lines are sent in their order. */
struct request {
    tlm::tlm_generic_payload *trans = nullptr;
    std::vector<part> parts;
    size_t sent = 0, answered = 0;
    uint64_t end = 0;    /* the tick of its last answer, or at which it failed */
    uint64_t looked = 0; /* the tick at which it was looked whether its bank goes on */
    failure::reason why = failure::none;
    bool is_blocking = true, is_end_told = false, is_told = false; /* whether its initiator knows that it was taken, and answered */
    sc_core::sc_event done;

    bool is_write() const { return trans->is_write(); }
    bool is_taken() const { return why != failure::none || sent == parts.size(); }
    bool is_done() const { return why != failure::none || answered == parts.size(); }
    /* Whether a byte of the data is asked for. */
    bool gives(size_t i) const
    {
        const unsigned char *enables = trans->get_byte_enable_ptr();
        return enables == nullptr || enables[i % trans->get_byte_enable_length()] != TLM_BYTE_DISABLED;
    }
};

/* The module behind a target, and the transactions that it serves. */
class device {
public:
    /* `words` start the program of streams. */
    explicit device(std::vector<std::string> words) : pcm_(new struct pcm)
    {
        std::vector<const char *> lent;
        words.push_back("--tell=shape");
        for (const std::string &word : words)
            lent.push_back(word.c_str());
        lent.push_back(nullptr);
        if (pcm_open(pcm_.get(), lent.data()) != PCM_OK || pcm_learn(pcm_.get(), nullptr) != PCM_OK)
            SC_REPORT_FATAL("/pcm_tlm/open", ("the program of streams can't be started, or refuses its words:" + joined(words)).c_str());
        read_ticks_ = strtoull(pcm__value(lent.data(), "--read-ticks", "5"), nullptr, 10);
        line_ = pcm_->shape.line;
        size_ = static_cast<uint64_t>(pcm_->shape.banks) * pcm_->shape.regions * pcm_->shape.lines * line_;
    }
    ~device() { pcm_close(pcm_.get()); }
    device(const device &) = delete;
    device &operator=(const device &) = delete;

    struct pcm &stream() { return *pcm_; }
    uint64_t size() const { return size_; }
    uint64_t tick() const { return pcm_->tick; }
    bool has_ended() const { return has_ended_; }
    const std::vector<std::shared_ptr<request>> &under_way() const { return under_way_; }

    /* The status of a transaction that can't be served, or needn't be; TLM_INCOMPLETE_RESPONSE where it can. */
    tlm::tlm_response_status judged(const tlm::tlm_generic_payload &trans) const
    {
        if (trans.get_command() == tlm::TLM_IGNORE_COMMAND)
            return tlm::TLM_OK_RESPONSE;
        if (trans.get_address() >= size_ || trans.get_data_length() > size_ - trans.get_address())
            return tlm::TLM_ADDRESS_ERROR_RESPONSE;
        if (trans.get_data_length() == 0 || trans.get_data_ptr() == nullptr || trans.get_streaming_width() < trans.get_data_length())
            return tlm::TLM_BURST_ERROR_RESPONSE;
        if (trans.get_byte_enable_ptr() != nullptr && trans.get_byte_enable_length() == 0)
            return tlm::TLM_BYTE_ENABLE_ERROR_RESPONSE;
        return tlm::TLM_INCOMPLETE_RESPONSE;
    }

    /* A transaction is under way, in lines; those of which it asks no byte are left out. */
    std::shared_ptr<request> open(tlm::tlm_generic_payload &trans, failure::reason why)
    {
        std::shared_ptr<request> it = std::make_shared<request>();
        it->trans = &trans;
        it->why = has_ended_ ? failure::ended : why;
        it->looked = pcm_->tick;
        for (size_t from = 0; from < trans.get_data_length();) {
            uint64_t address = trans.get_address() + from;
            uint32_t at = static_cast<uint32_t>(address % line_);
            uint32_t size = static_cast<uint32_t>(std::min<uint64_t>(line_ - at, trans.get_data_length() - from));
            size_t given = from;
            while (given < from + size && !it->gives(given))
                given++;
            if (given < from + size)
                it->parts.push_back({static_cast<uint32_t>(address / line_), at, size, from, 0, false});
            from += size;
        }
        under_way_.push_back(it);
        return it;
    }
    /* It is no more: nobody waits for its rows. */
    void close(const request &it)
    {
        for (const part &mine : it.parts)
            forget(mine.row);
        under_way_.erase(std::find_if(under_way_.begin(), under_way_.end(), [&it](const auto &other) { return other.get() == &it; }));
    }

    /* What is held back of a request is sent, up to the first line whose bank has no room. A write that isn't refused is accepted. */
    void put(request &it, uint64_t tick)
    {
        size_t first = it.sent;
        /* (where there is no room by what is known, it is learned whether there is by now) */
        while (!it.is_taken() && (send(it, tick) || (pcm_->tick < tick && settle(tick))))
            ;
        if (!it.is_write() || it.sent == first || !settle(tick))
            return;
        for (size_t i = first; i < it.sent; i++)
            if (!it.parts[i].is_refused)
                accept(it, it.parts[i], tick);
    }
    /* The same at the module's tick. Of a write that waits for long it is looked whether its bank still stores any. */
    void put_more(request &it)
    {
        if (!it.is_taken())
            put(it, pcm_->tick);
        if (it.is_taken() || !it.is_write() || pcm_->tick - it.looked < patience)
            return;
        struct pcm_bank banks[most_banks] = {};
        enum pcm_result result = pcm_ask(pcm_.get(), it.looked = pcm_->tick, banks, most_banks, taken, this);
        if (result != PCM_OK)
            died(result);
        else if (banks[bank_of(it.parts[it.sent])].mark != PCM_GOING)
            fail(it, failure::worn);
    }
    /* Every bank goes on to a tick, or until a row (not 0) has its outcome, at most to a tick. */
    bool settle(uint64_t tick, uint32_t until = 0)
    {
        count.settles++;
        enum pcm_result result = until == 0 ? pcm_settle_all(pcm_.get(), tick, taken, this) : pcm_settle_until(pcm_.get(), until, tick, taken, this);
        if (result != PCM_OK)
            died(result);
        settled_ = pcm_->tick;
        settled_row_ = pcm_->rows;
        return result == PCM_OK;
    }
    /* The power is cut: what is under way and not done has failed. */
    void cut(uint64_t tick)
    {
        enum pcm_result result;
        while ((result = pcm_cut(pcm_.get(), tick)) == PCM_FULL && settle(pcm_->tick))
            ;
        if (result != PCM_OK)
            died(result);
        else
            settle(tick);
        fail_all(failure::power);
    }

    /* The row that a request waits for: one that leaves room for what is held back, or else its own; 0 where there is none. */
    uint32_t awaited(const request &it) const
    {
        if (it.is_taken()) {
            auto own = std::find_if(it.parts.begin(), it.parts.end(), [this](const part &mine) { return rows_.count(mine.row) != 0; });
            return own == it.parts.end() ? 0 : own->row;
        }
        uint32_t bank = bank_of(it.parts[it.sent]);
        auto is_ahead = [&](const auto &other) { return other.second.bank == bank && other.second.is_write == it.is_write(); };
        auto ahead = std::find_if(rows_.begin(), rows_.end(), is_ahead);
        return ahead == rows_.end() ? 0 : ahead->first;
    }
    /* A request isn't answered, nor more of it sent, before this tick. (A read takes a sense, unless it is forwarded as it arrives.) */
    uint64_t soonest(const request &it) const
    {
        uint64_t soonest = it.is_taken() ? 0 : settled_ + 1;
        for (const part &mine : it.parts) {
            auto found = it.is_taken() ? rows_.find(mine.row) : rows_.end();
            if (found != rows_.end())
                soonest = std::max(soonest, mine.row > settled_row_ ? found->second.tick : std::max(settled_ + 1, found->second.tick + read_ticks_));
        }
        return soonest;
    }

    /* The newest bytes, of the accepted writes. */
    void peek(uint64_t address, unsigned char *data, unsigned size) const
    {
        for (unsigned i = 0; i < size; i++) {
            auto found = newest_.find(static_cast<uint32_t>((address + i) / line_));
            data[i] = found == newest_.end() ? 0 : found->second[(address + i) % line_];
        }
    }

    counts count;
    static const uint64_t patience = 4096; /* so many ticks are waited until a bank that has no room is asked whether it goes on */

private:
    static const size_t most_banks = 64;
    static std::string joined(const std::vector<std::string> &words)
    {
        std::string all;
        for (const std::string &word : words)
            all += " " + word;
        return all;
    }
    /* A row without an outcome. */
    struct row {
        uint32_t bank;
        bool is_write;
        request *by;      /* who waits for it, with which part; nullptr: nobody */
        part *mine;
        uint64_t tick;    /* its own */
    };

    /* The module didn't do what it was asked for. */
    void died(enum pcm_result result)
    {
        has_ended_ = true;
        fail_all(failure::ended);
        SC_REPORT_ERROR("/pcm_tlm/stream", ("the program of streams answers " + std::to_string(result)).c_str());
    }
    /* A request has failed, at the module's tick; and so have all that aren't done. */
    void fail(request &it, failure::reason why)
    {
        count.ended += why == failure::power;
        it.why = why;
        it.end = pcm_->tick;
    }
    void fail_all(failure::reason why)
    {
        for (const auto &it : under_way_)
            if (!it->is_done())
                fail(*it, why);
    }
    static void taken(void *context, const struct pcm_outcome *it) { static_cast<device *>(context)->take(*it); }
    /* What became of a row. */
    void take(const struct pcm_outcome &it)
    {
        count.kinds[it.kind]++;
        auto found = rows_.find(it.row);
        if (found == rows_.end())
            return;
        row was = found->second;
        rows_.erase(found);
        (was.is_write ? writes_ : reads_)[was.bank]--;
        if (was.by != nullptr)
            answer(*was.by, *was.mine, it);
    }
    /* A row that somebody waits for has its outcome. (A write that is stored or merged by now was accepted; of a lost read `cut` tells.) */
    void answer(request &by, part &mine, const struct pcm_outcome &it)
    {
        if (it.kind == PCM_READ || it.kind == PCM_FORWARDED) {
            for (uint32_t i = 0; i < mine.size; i++)
                if (by.gives(mine.from + i))
                    by.trans->get_data_ptr()[mine.from + i] = it.bytes[mine.at + i];
            by.answered++;
            by.end = std::max(by.end, it.tick);
        } else if (it.kind == PCM_WORN) {
            mine.is_refused = true;
            fail(by, failure::worn);
        }
    }
    void forget(uint32_t number)
    {
        auto found = rows_.find(number);
        if (found != rows_.end())
            found->second.by = nullptr;
    }
    uint32_t bank_of(const part &mine) const { return pcm_bank_of(pcm_.get(), mine.line); }
    /* The next line of a request is sent, where its bank has room: so no row is `full` or `busy`. */
    bool send(request &it, uint64_t tick)
    {
        part &mine = it.parts[it.sent];
        uint32_t bank = bank_of(mine), &waiting = (it.is_write() ? writes_ : reads_)[bank];
        if (waiting >= (it.is_write() ? pcm_->shape.write_queue : pcm_->shape.read_queue))
            return false;
        enum pcm_result result;
        while ((result = sent(it, mine, tick)) == PCM_FULL && settle(pcm_->tick))
            ;
        if (result != PCM_OK) {
            died(result);
            return false;
        }
        mine.row = pcm_->rows;
        rows_[mine.row] = {bank, it.is_write(), &it, &mine, tick};
        it.sent++;
        waiting++;
        return true;
    }
    /* Its row: of a write that of a whole line, or of the bytes that are given. */
    enum pcm_result sent(const request &it, const part &mine, uint64_t tick)
    {
        if (!it.is_write())
            return pcm_read(pcm_.get(), tick, mine.line);
        std::array<uint8_t, PCM_MOST_BYTES> bytes{}, given{};
        for (uint32_t i = 0; i < mine.size; i++)
            if (it.gives(mine.from + i)) {
                given[mine.at + i] = 1;
                bytes[mine.at + i] = it.trans->get_data_ptr()[mine.from + i];
            }
        bool is_whole = std::count(given.begin(), given.begin() + line_, 1) == line_;
        return is_whole ? pcm_write(pcm_.get(), tick, mine.line, bytes.data(), line_)
                        : pcm_write_masked(pcm_.get(), tick, mine.line, bytes.data(), given.data(), line_);
    }
    /* A part of a write is durable. */
    void accept(request &it, const part &mine, uint64_t tick)
    {
        forget(mine.row);
        it.answered++;
        it.end = tick;
        std::array<uint8_t, PCM_MOST_BYTES> &line = newest_[mine.line];
        for (uint32_t i = 0; i < mine.size; i++)
            if (it.gives(mine.from + i))
                line[mine.at + i] = it.trans->get_data_ptr()[mine.from + i];
    }

    std::unique_ptr<struct pcm> pcm_;
    uint64_t size_ = 0, read_ticks_ = 5;
    uint64_t settled_ = 0;     /* all up to this tick is known, of all rows up to this one */
    uint32_t settled_row_ = 0;
    uint32_t line_ = 64;
    bool has_ended_ = false;
    std::map<uint32_t, row> rows_;
    uint32_t writes_[most_banks] = {}, reads_[most_banks] = {}; /* how many of them each bank has */
    std::vector<std::shared_ptr<request>> under_way_;
    std::unordered_map<uint32_t, std::array<uint8_t, PCM_MOST_BYTES>> newest_; /* of lines that were written: no row of a stream asks for them */
};

} // namespace pcm_tlm

#endif
