/* pcm_tlm.h: a proved phase-change memory module as a TLM-2.0 target, over pcm_stream.h. Headers alone, C++17, SystemC 2.3.

       pcm_tlm::memory<> memory("memory", {"./pcm", "stream", "--banks", "4"}, sc_core::sc_time(5, sc_core::SC_NS));
       initiator.socket.bind(memory.socket);
       memory.power.bind(power_good);      // optional: its falling edge cuts the power, whatever is under way

   Address a is byte a % B of the module's line a / B, where a line has B bytes. A tick of the module is the time that the constructor is given.

   What is kept of TLM-2.0 (IEEE 1666, the base protocol):
     - any length, over lines, too, and byte enables of any length. TLM_BURST_ERROR_RESPONSE where the length is 0, or above the streaming width;
       TLM_ADDRESS_ERROR_RESPONSE where not all bytes are in the module; TLM_IGNORE_COMMAND is answered TLM_OK_RESPONSE.
     - TLM_GENERIC_ERROR_RESPONSE where the power went before the answer, or is off, and where a bank takes no writes any more. TLM-2.0 has one
       status for both: an initiator that wants to know adds the extension `failure`.
     - no DMI: a pointer would pass by the queue, the array and the cuts. Debug transport reads the newest bytes and senses nothing; what it writes
       is written as by others, but takes no simulated time. It writes nothing while requests are under way, or the power is off.

   A write that is answered TLM_OK_RESPONSE is accepted, so it outlives every cut (tested). One that a cut ends is there up to one of its lines,
   and not from there on. Where a bank's queue is full, or too many reads wait, b_transport doesn't return: no row is `full` or `busy`.

   Two ways of a loosely timed target to keep time:
     exact    b_transport waits, and returns as the module answers. Requests of any number of initiators, and cuts, meet at their own ticks: the
              module never goes further than the kernel's next event.
     quantum  b_transport doesn't wait, and adds what it takes to `delay`, for initiators with a quantum keeper. One request is served at a time:
              one that comes earlier than the end of the last one begins there. A cut that wasn't told ahead (cut_at) comes behind that.
   A request reaches the module `accept` behind its call (one tick, unless more is given), at the next tick. pcm_tlm_at.h has four phases. */
#ifndef PCM_TLM_H
#define PCM_TLM_H

#include "pcm_tlm_device.h"

#include <deque>
#include <set>
#include <tlm_utils/simple_target_socket.h>

namespace pcm_tlm {

enum class timing { exact, quantum };

/* What all targets have: the module, its clock and its power. */
class target : public sc_core::sc_module {
public:
    sc_core::sc_port<sc_core::sc_signal_in_if<bool>, 1, sc_core::SC_ZERO_OR_MORE_BOUND> power;

    /* The power is cut now, and is there again at once: what is under way is answered by an error. */
    void cut() { cut_by(last_tick(sc_core::sc_time_stamp())); }
    /* The same at a time to come. Told ahead, it is exact for a quantum, too. */
    void cut_at(sc_core::sc_time when)
    {
        when = std::max(when, sc_core::sc_time_stamp());
        planned_.insert(when);
        due_.notify(when - sc_core::sc_time_stamp());
    }
    uint64_t size() const { return device_.size(); }
    const counts &count() const { return device_.count; }
    /* The module itself: to keep a log (`log`, `context`), or to look at its wear. */
    struct pcm &stream() { return device_.stream(); }

protected:
    using payload = tlm::tlm_generic_payload;
    using time = sc_core::sc_time;

    SC_HAS_PROCESS(target);
    target(sc_core::sc_module_name name, std::vector<std::string> words, time tick, timing keeps, time accept)
        : sc_module(name), power("power"), device_(std::move(words)), tick_(tick), accept_(std::max(accept, tick)), keeps_(keeps)
    {
        if (tick == sc_core::SC_ZERO_TIME)
            SC_REPORT_FATAL("/pcm_tlm/open", "a tick takes no time");
        SC_THREAD(engine);
        SC_METHOD(cut_when_planned);
        dont_initialize();
        sensitive << due_;
        SC_METHOD(switch_power);
    }
    void start_of_simulation() override { is_off_ = power.size() != 0 && !power->read(); }

    void b_transport(payload &trans, time &delay)
    {
        if (!is_served(trans))
            return;
        if (keeps_ == timing::quantum)
            return serve(trans, delay);
        wait(arrival(delay));
        delay = sc_core::SC_ZERO_TIME;
        std::shared_ptr<request> it = begin(trans, true);
        if (!it->is_done())
            wait(it->done);
        close(*it);
    }
    unsigned transport_dbg(payload &trans)
    {
        uint64_t left = size() - std::min<uint64_t>(size(), trans.get_address());
        unsigned length = static_cast<unsigned>(std::min<uint64_t>(trans.get_data_length(), left));
        if (trans.is_write())
            return length != 0 && device_.under_way().empty() && !is_off_ ? poke(trans, length) : 0;
        if (!trans.is_read())
            return 0;
        device_.peek(trans.get_address(), trans.get_data_ptr(), length);
        return length;
    }
    bool get_direct_mem_ptr(payload &, tlm::tlm_dmi &dmi)
    {
        dmi.allow_none();
        dmi.set_start_address(0);
        dmi.set_end_address(UINT64_MAX);
        return false;
    }

    /* Whether a transaction is one for the module; if it isn't, its response is set. */
    bool is_served(payload &trans)
    {
        device_.count.transactions++;
        trans.set_dmi_allowed(false);
        trans.set_response_status(device_.judged(trans));
        if (failure *told = trans.get_extension<failure>())
            told->why = failure::none;
        return trans.get_response_status() == tlm::TLM_INCOMPLETE_RESPONSE;
    }
    /* How long a request takes from now until it is at the module, up to a tick. */
    time arrival(time delay) const { return from_now(first_tick(sc_core::sc_time_stamp() + delay + accept_)); }
    /* A request arrives: what can be sent is sent. */
    std::shared_ptr<request> begin(payload &trans, bool is_blocking)
    {
        std::shared_ptr<request> it = device_.open(trans, is_off_ ? failure::power : failure::none);
        it->is_blocking = is_blocking;
        device_.put(*it, at_module(first_tick(sc_core::sc_time_stamp())));
        changed_.notify(sc_core::SC_ZERO_TIME);
        return it;
    }
    /* A request is answered: its response is set. */
    void close(const request &it)
    {
        bool is_late = it.why != failure::power && !it.parts.empty() && sc_core::sc_time_stamp() > time_of(it.end);
        device_.count.late += keeps_ == timing::exact && is_late;
        it.trans->set_response_status(it.why == failure::none ? tlm::TLM_OK_RESPONSE : tlm::TLM_GENERIC_ERROR_RESPONSE);
        if (failure *told = it.trans->get_extension<failure>())
            told->why = it.why;
        device_.close(it);
    }
    /* Where four phases are: a request that doesn't block was taken, or has its answer, so long from now. */
    virtual void is_taken(const request &, time) {}
    virtual void is_answered(const request &, time) {}

private:
    /* The first tick of the module that isn't before a time, the last one that isn't behind it, and the time of a tick. */
    uint64_t first_tick(time when) const { return last_tick(time::from_value(when.value() + tick_.value() - 1)); }
    uint64_t last_tick(time when) const { return static_cast<uint64_t>(static_cast<int64_t>(when.value() / tick_.value()) + base_); }
    time time_of(uint64_t tick) const { return time::from_value(static_cast<uint64_t>(static_cast<int64_t>(tick) - base_) * tick_.value()); }
    /* A tick, or the module's where that has gone further: never with exact timing. */
    uint64_t at_module(uint64_t tick)
    {
        device_.count.late += keeps_ == timing::exact && device_.tick() > tick;
        return std::max(tick, device_.tick());
    }
    /* How long it is from now to a tick; no time where it has come. */
    time from_now(uint64_t tick) const
    {
        time now = sc_core::sc_time_stamp();
        return tick <= last_tick(now) ? sc_core::SC_ZERO_TIME : time_of(tick) - now;
    }

    /* Exact: while requests wait the module goes on, until something may be known, and never beyond the kernel's next event. */
    void engine()
    {
        for (;;) {
            time ahead = rest();
            std::vector<request *> waiting = all_waiting(); /* (no process runs up to the next wait, so none of them ends) */
            uint64_t soonest = UINT64_MAX, most = std::min(device_.tick() + device::patience, last_tick(sc_core::sc_time_stamp() + ahead));
            for (const request *it : waiting)
                soonest = std::min(soonest, device_.soonest(*it));
            if (waiting.empty()) {
                wait(changed_);
            } else if (soonest > most) {
                wait(ahead, changed_);
            } else {
                go_on(waiting, std::max(soonest, device_.tick()), most);
                tell();
                if (from_now(device_.tick()) != sc_core::SC_ZERO_TIME)
                    wait(from_now(device_.tick())); /* (nobody acts before) */
            }
        }
    }
    /* The module goes on until something may be known: where one request waits, until that is answered or has room, at most to a tick. */
    void go_on(const std::vector<request *> &waiting, uint64_t soonest, uint64_t most)
    {
        uint32_t only = waiting.size() == 1 ? device_.awaited(*waiting.front()) : 0;
        device_.settle(only != 0 ? std::max(most, device_.tick()) : soonest, only);
        for (request *it : waiting)
            device_.put_more(*it);
    }
    /* All that act at this time act first, and one engine rests at a time, so that none takes another for one that acts. It answers how long nobody
       acts then. */
    time rest()
    {
        resting_.push_back(this);
        if (resting_.front() != this)
            wait(turn_);
        for (tell(); sc_core::sc_pending_activity_at_current_time(); tell())
            wait(sc_core::SC_ZERO_TIME);
        time ahead = sc_core::sc_time_to_pending_activity();
        resting_.pop_front();
        if (!resting_.empty())
            resting_.front()->turn_.notify(sc_core::SC_ZERO_TIME);
        return ahead;
    }
    std::vector<request *> all_waiting() const
    {
        std::vector<request *> waiting;
        for (const auto &it : device_.under_way())
            if (!it->is_done())
                waiting.push_back(it.get());
        return waiting;
    }
    /* Initiators are told what was taken and what is answered, at their ticks. */
    void tell()
    {
        for (const auto &it : device_.under_way()) {
            if (it->is_taken() && !it->is_blocking && !it->is_end_told) {
                it->is_end_told = true;
                is_taken(*it, from_now(device_.tick()));
            }
            if (!it->is_done() || it->is_told)
                continue;
            it->is_told = true;
            if (it->is_blocking)
                it->done.notify(from_now(it->end));
            else
                is_answered(*it, from_now(it->end));
        }
    }

    /* Quantum: a transaction is served at its initiator's own time, and what it takes is added to `delay`. */
    void serve(payload &trans, time &delay)
    {
        uint64_t tick = at_module(first_tick(sc_core::sc_time_stamp() + delay + accept_));
        while (next_cut() <= tick)
            cut_as_planned();
        std::shared_ptr<request> it = device_.open(trans, is_off_ ? failure::power : failure::none);
        device_.put(*it, tick);
        run(*it, true);
        delay = from_now(std::max(tick, it->end));
        close(*it);
    }
    /* The module goes on, without the kernel, until a request is done. */
    void run(request &it, bool meets_cuts)
    {
        while (!it.is_done()) {
            uint64_t next = meets_cuts ? next_cut() : UINT64_MAX;
            device_.settle(std::min(next, device_.tick() + device::patience), device_.awaited(it));
            if (device_.tick() >= next)
                cut_as_planned();
            else
                device_.put_more(it);
        }
    }
    /* Debug transport writes: the module's clock goes on for it, and the simulation's doesn't. */
    unsigned poke(const payload &trans, unsigned length)
    {
        payload whole;
        whole.set_write();
        whole.set_address(trans.get_address());
        whole.set_data_ptr(trans.get_data_ptr());
        whole.set_data_length(length);
        uint64_t began = std::max(first_tick(sc_core::sc_time_stamp()), device_.tick());
        std::shared_ptr<request> it = device_.open(whole, failure::none);
        device_.put(*it, began);
        run(*it, false);
        base_ += static_cast<int64_t>(device_.tick() - began);
        device_.close(*it);
        return it->why == failure::none ? length : 0;
    }

    void cut_by(uint64_t tick)
    {
        device_.cut(at_module(tick));
        tell();
        changed_.notify(sc_core::SC_ZERO_TIME);
    }
    uint64_t next_cut() const { return planned_.empty() ? UINT64_MAX : last_tick(*planned_.begin()); }
    void cut_as_planned()
    {
        uint64_t tick = next_cut();
        planned_.erase(planned_.begin());
        device_.count.late += keeps_ == timing::quantum && device_.tick() > tick;
        if (!is_off_)
            cut_by(tick);
    }
    void cut_when_planned()
    {
        while (!planned_.empty() && *planned_.begin() <= sc_core::sc_time_stamp())
            cut_as_planned();
    }
    /* While the power is off no tick passes. (It runs as the simulation begins, and then where the port changes.) */
    void switch_power()
    {
        if (power.size() == 0)
            return;
        next_trigger(power->value_changed_event());
        uint64_t tick = last_tick(sc_core::sc_time_stamp());
        bool is_on = power->read();
        if (!is_on && !is_off_) {
            cut();
            off_at_ = tick;
        } else if (is_on && is_off_) {
            base_ -= static_cast<int64_t>(tick - off_at_);
        }
        is_off_ = !is_on;
    }

    device device_;
    time tick_, accept_;
    timing keeps_;
    int64_t base_ = 0; /* the tick at time 0, as if no dark time and no debug writes had come */
    bool is_off_ = false;
    uint64_t off_at_ = 0;
    std::multiset<time> planned_; /* cuts to come */
    sc_core::sc_event_queue due_;
    sc_core::sc_event changed_, turn_;
    inline static std::deque<target *> resting_; /* the engines that rest: the first one does, and the others wait for their turn */
};

/* A loosely timed memory. `words` start the program of streams. */
template <unsigned BUSWIDTH = 32> class memory : public target {
public:
    tlm_utils::simple_target_socket<memory, BUSWIDTH> socket;

    memory(sc_core::sc_module_name name, std::vector<std::string> words, sc_core::sc_time tick, timing keeps = timing::exact,
           sc_core::sc_time accept = sc_core::SC_ZERO_TIME)
        : target(name, std::move(words), tick, keeps, accept), socket("socket")
    {
        socket.register_b_transport(this, &memory::b_transport);
        socket.register_transport_dbg(this, &memory::transport_dbg);
        socket.register_get_direct_mem_ptr(this, &memory::get_direct_mem_ptr);
    }
};

} // namespace pcm_tlm

#endif
