/* test_tlm_traffic.hpp: initiators that draw transactions, and a scoreboard that says what they may read. Of test_tlm.cpp. */
#ifndef TEST_TLM_TRAFFIC_HPP
#define TEST_TLM_TRAFFIC_HPP

#include "pcm_tlm_at.h"

#include <cstdio>
#include <cstring>
#include <random>
#include <tlm_utils/simple_initiator_socket.h>
#include <tlm_utils/tlm_quantumkeeper.h>

using namespace sc_core;

/* What was counted, of all initiators together. */
struct tally {
    uint64_t done = 0, ok = 0, power = 0, worn = 0, checked = 0, wrong = 0, breaches = 0;
};
static tally all;
static int running;

static void check(bool holds, const char *what)
{
    if (!holds && all.breaches++ < 5)
        fprintf(stderr, "%s: %s\n", sc_time_stamp().to_string().c_str(), what);
}

/* Of each byte the newest acknowledged value, and those of writes that are under way, or that ended without an answer since. */
class scoreboard {
public:
    explicit scoreboard(size_t size) : newest(size), others(size) {}
    void begin(uint64_t at, unsigned char byte) { others[at].insert(byte); }
    void acknowledge(uint64_t at, unsigned char byte)
    {
        newest[at] = byte;
        others[at].clear();
    }
    /* (What is seen once stays.) */
    void see(uint64_t at, unsigned char byte)
    {
        all.checked++;
        if (byte == newest[at])
            return;
        if (others[at].erase(byte) != 0)
            newest[at] = byte;
        else if (all.wrong++ < 5)
            fprintf(stderr, "%s: byte %ld is %02x, not %02x\n", sc_time_stamp().to_string().c_str(), static_cast<long>(at), byte, newest[at]);
    }

private:
    std::vector<unsigned char> newest;
    std::vector<std::set<unsigned char>> others;
};

struct options {
    uint64_t transactions = 20000, initiators = 1, memories = 1, cuts = 0, longest = 200, idle = 200, draw = 1;
    uint64_t plan = 0; /* cuts are told ahead */
};

/* A transaction that was drawn, with its memory. */
struct job {
    tlm::tlm_generic_payload *trans;
    std::vector<unsigned char> data, enables;
    pcm_tlm::failure why;
    bool is_given(size_t i) const { return enables.empty() || enables[i % enables.size()] == TLM_BYTE_ENABLED; }
};

/* Draws transactions at the addresses from `low` on, and judges what becomes of them. */
class traffic {
public:
    traffic(const options &drawn, uint64_t first, uint64_t bytes, uint64_t seed) : asked(drawn), low(first), size(bytes), draw(seed), board(bytes) {}
    uint64_t number(uint64_t below) { return draw() % below; }
    sc_time pause() { return sc_time(static_cast<double>(number(asked.idle + 1)), SC_NS); }
    void make(job &it)
    {
        size_t length = number(3) == 0 ? std::min<uint64_t>(64, asked.longest) : 1 + number(asked.longest);
        uint64_t at = number(size - length);
        if (number(3) == 0)
            at -= at % 64;
        it.data.resize(length);
        it.enables.resize(number(4) == 0 ? 1 + number(8) : 0);
        for (unsigned char &byte : it.data)
            byte = static_cast<unsigned char>(draw());
        for (unsigned char &enable : it.enables)
            enable = number(2) ? TLM_BYTE_ENABLED : TLM_BYTE_DISABLED;
        set(it, number(2) ? tlm::TLM_WRITE_COMMAND : tlm::TLM_READ_COMMAND, at);
    }
    void set(job &it, tlm::tlm_command command, uint64_t at)
    {
        it.trans->set_command(command);
        it.trans->set_address(low + at);
        it.trans->set_data_ptr(it.data.data());
        it.trans->set_data_length(static_cast<unsigned>(it.data.size()));
        it.trans->set_streaming_width(static_cast<unsigned>(it.data.size()));
        it.trans->set_byte_enable_ptr(it.enables.empty() ? nullptr : it.enables.data());
        it.trans->set_byte_enable_length(static_cast<unsigned>(it.enables.size()));
        it.trans->set_dmi_allowed(false);
        it.trans->set_response_status(tlm::TLM_INCOMPLETE_RESPONSE);
        it.trans->set_extension(&it.why);
        for (size_t i = 0; command == tlm::TLM_WRITE_COMMAND && i < it.data.size(); i++)
            if (it.is_given(i))
                board.begin(at + i, it.data[i]);
    }
    /* Whether it was served. */
    bool judge(job &it)
    {
        bool is_ok = it.trans->is_response_ok();
        check(is_ok || it.trans->get_response_status() == tlm::TLM_GENERIC_ERROR_RESPONSE, "another response");
        check(is_ok == (it.why.why == pcm_tlm::failure::none), "a response without its reason");
        check(!it.trans->is_dmi_allowed(), "a hint of direct access");
        all.done++;
        all.ok += is_ok;
        all.power += it.why.why == pcm_tlm::failure::power;
        all.worn += it.why.why == pcm_tlm::failure::worn;
        uint64_t at = it.trans->get_address() - low;
        for (size_t i = 0; is_ok && i < it.data.size(); i++)
            if (it.is_given(i) && it.trans->is_write())
                board.acknowledge(at + i, it.data[i]);
            else if (it.is_given(i))
                board.see(at + i, it.data[i]);
        it.trans->clear_extension(&it.why);
        return is_ok;
    }

    const options &asked;
    const uint64_t low, size;

private:
    std::mt19937_64 draw;
    scoreboard board;
};

/* An initiator that calls b_transport: with a quantum keeper, or from its own time to the next. */
class caller : public sc_module, public traffic {
public:
    tlm_utils::simple_initiator_socket<caller> socket;
    SC_HAS_PROCESS(caller);
    caller(sc_module_name name, const options &drawn, uint64_t first, uint64_t bytes, uint64_t seed, bool by_quantum)
        : sc_module(name), traffic(drawn, first, bytes, seed), socket("socket"), keeps_quantum(by_quantum)
    {
        running++;
        keeper.reset();
        SC_THREAD(run);
    }

private:
    void run()
    {
        for (uint64_t i = 0; i < asked.transactions; i++) {
            keeper.inc(pause());
            job it{&trans, {}, {}, {}};
            make(it);
            call(it);
        }
        for (uint64_t at = 0; at < size; at += 256) { /* in the end all of it, by a real read and by debug transport */
            job it{&trans, {}, {}, {}};
            do {
                it.data.assign(std::min<uint64_t>(256, size - at), 0);
                keeper.inc(sc_time(100, SC_NS));
                set(it, tlm::TLM_READ_COMMAND, at);
            } while (!call(it));
            std::vector<unsigned char> seen(it.data);
            it.data.assign(it.data.size(), 0);
            set(it, tlm::TLM_READ_COMMAND, at);
            check(socket->transport_dbg(trans) == it.data.size() && it.data == seen, "debug transport reads other bytes");
            trans.clear_extension(&it.why);
        }
        if (--running == 0)
            sc_stop();
    }
    bool call(job &it)
    {
        sc_time delay = keeper.get_local_time();
        socket->b_transport(trans, delay);
        check(keeps_quantum || delay == SC_ZERO_TIME, "a delay that wasn't waited for");
        keeper.set(delay);
        if (keeper.need_sync() || !keeps_quantum)
            keeper.sync();
        bool is_ok = judge(it);
        if (!is_ok && trans.is_write())
            look_for_gaps(it);
        return is_ok;
    }
    /* A write that wasn't served is there up to one of its lines, and not from there on. */
    void look_for_gaps(const job &it)
    {
        std::vector<unsigned char> seen(it.data.size());
        tlm::tlm_generic_payload look;
        look.set_read();
        look.set_address(trans.get_address());
        look.set_data_ptr(seen.data());
        look.set_data_length(static_cast<unsigned>(seen.size()));
        check(socket->transport_dbg(look) == seen.size(), "debug transport of a write");
        bool has_ended = false;
        for (size_t i = 0; i < seen.size();) {
            size_t end = i + std::min<size_t>(seen.size() - i, 64 - (trans.get_address() + i) % 64), given = 0;
            bool is_there = true;
            for (; i < end; i++) {
                given += it.is_given(i);
                is_there = is_there && (!it.is_given(i) || seen[i] == it.data[i]);
            }
            check(given < 8 || !is_there || !has_ended, "a write has a gap");
            has_ended = has_ended || !is_there;
        }
    }
    bool keeps_quantum;
    tlm::tlm_generic_payload trans;
    tlm_utils::tlm_quantumkeeper keeper;
};

/* A pool of transactions. */
class pool : public tlm::tlm_mm_interface {
public:
    tlm::tlm_generic_payload *take()
    {
        if (free_ones.empty())
            return new tlm::tlm_generic_payload(this);
        tlm::tlm_generic_payload *it = free_ones.back();
        free_ones.pop_back();
        return it;
    }
    void free(tlm::tlm_generic_payload *it) override
    {
        it->reset();
        free_ones.push_back(it);
    }
    ~pool() override
    {
        for (tlm::tlm_generic_payload *it : free_ones)
            delete it;
    }

private:
    std::vector<tlm::tlm_generic_payload *> free_ones;
};

/* An initiator of four phases, with up to eight transactions under way, no two of them in one block of 256 bytes, and a judge of the phases. */
class phaser : public sc_module, public traffic {
public:
    tlm_utils::simple_initiator_socket<phaser> socket;
    SC_HAS_PROCESS(phaser);
    phaser(sc_module_name name, const options &drawn, uint64_t first, uint64_t bytes, uint64_t seed, bool has_all_phases)
        : sc_module(name), traffic(drawn, first, bytes, seed), socket("socket"), has_end_req(has_all_phases)
    {
        running++;
        socket.register_nb_transport_bw(this, &phaser::nb_transport_bw);
        SC_THREAD(run);
    }

private:
    void run()
    {
        for (uint64_t i = 0; i < asked.transactions; i++) {
            wait(pause());
            std::unique_ptr<job> it(new job{memory.take(), {}, {}, {}});
            it->trans->acquire();
            make(*it);
            while (jobs.size() >= 8 || !is_free(*it))
                wait(answered);
            use(*it, 1);
            send(std::move(it));
        }
        while (!jobs.empty())
            wait(answered);
        wait(sc_time(1, SC_US)); /* (the memory lets the last one go) */
        if (--running == 0)
            sc_stop();
    }
    void send(std::unique_ptr<job> it)
    {
        tlm::tlm_phase phase = tlm::BEGIN_REQ;
        sc_time delay(static_cast<double>(number(8)), SC_NS);
        requesting = it->trans;
        jobs[requesting] = std::move(it);
        check(socket->nb_transport_fw(*requesting, phase, delay) == tlm::TLM_ACCEPTED, "BEGIN_REQ isn't accepted");
        while (requesting != nullptr)
            wait(request_ended);
    }
    tlm::tlm_sync_enum nb_transport_bw(tlm::tlm_generic_payload &trans, tlm::tlm_phase &phase, sc_time &)
    {
        check(jobs.count(&trans) == 1, "a phase of another transaction");
        check(phase == tlm::END_REQ || phase == tlm::BEGIN_RESP, "another phase");
        if (phase == tlm::END_REQ) {
            check(requesting == &trans, "END_REQ of a request that has ended");
            requesting = nullptr;
            request_ended.notify(SC_ZERO_TIME);
            return tlm::TLM_ACCEPTED;
        }
        check(!has_end_req || requesting != &trans, "BEGIN_RESP before END_REQ");
        check(responding == nullptr, "two responses at once");
        if (requesting == &trans) { /* (without END_REQ it ends the request, too) */
            requesting = nullptr;
            request_ended.notify(SC_ZERO_TIME);
        }
        judge(*jobs[&trans]);
        use(*jobs[&trans], -1);
        if (number(2)) {
            end(trans);
            return tlm::TLM_COMPLETED;
        }
        responding = &trans;
        sc_spawn([this] { end_later(); });
        return tlm::TLM_ACCEPTED;
    }
    void end_later()
    {
        wait(sc_time(static_cast<double>(number(20)), SC_NS));
        tlm::tlm_phase phase = tlm::END_RESP;
        sc_time none;
        tlm::tlm_generic_payload &trans = *responding;
        responding = nullptr;
        socket->nb_transport_fw(trans, phase, none);
        end(trans);
    }
    void end(tlm::tlm_generic_payload &trans)
    {
        jobs.erase(&trans);
        trans.release();
        answered.notify(SC_ZERO_TIME);
    }
    template <class Each> static void for_blocks(const job &it, Each each)
    {
        uint64_t last = it.trans->get_address() + it.data.size() - 1;
        for (uint64_t block = it.trans->get_address() / 256; block <= last / 256; block++)
            each(block);
    }
    bool is_free(const job &it)
    {
        bool holds = true;
        for_blocks(it, [&](uint64_t block) { holds = holds && busy[block] == 0; });
        return holds;
    }
    void use(const job &it, int change)
    {
        for_blocks(it, [&](uint64_t block) { busy[block] += change; });
    }
    bool has_end_req;
    pool memory;
    std::map<tlm::tlm_generic_payload *, std::unique_ptr<job>> jobs;
    std::map<uint64_t, int> busy;
    tlm::tlm_generic_payload *requesting = nullptr, *responding = nullptr;
    sc_event request_ended, answered;
};

/* A bus: it passes blocking calls of several initiators on, and phases of one. */
class bus : public sc_module {
public:
    tlm_utils::simple_initiator_socket<bus> out;
    std::vector<std::unique_ptr<tlm_utils::simple_target_socket<bus>>> in;
    bus(sc_module_name name, uint64_t count) : sc_module(name), out("out")
    {
        out.register_nb_transport_bw(this, &bus::nb_transport_bw);
        for (uint64_t i = 0; i < count; i++) {
            in.emplace_back(new tlm_utils::simple_target_socket<bus>(sc_gen_unique_name("in")));
            in.back()->register_b_transport(this, &bus::b_transport);
            in.back()->register_nb_transport_fw(this, &bus::nb_transport_fw);
            in.back()->register_transport_dbg(this, &bus::transport_dbg);
        }
    }

private:
    void b_transport(tlm::tlm_generic_payload &trans, sc_time &delay) { out->b_transport(trans, delay); }
    tlm::tlm_sync_enum nb_transport_fw(tlm::tlm_generic_payload &trans, tlm::tlm_phase &phase, sc_time &delay)
    {
        return out->nb_transport_fw(trans, phase, delay);
    }
    tlm::tlm_sync_enum nb_transport_bw(tlm::tlm_generic_payload &trans, tlm::tlm_phase &phase, sc_time &delay)
    {
        return (*in[0])->nb_transport_bw(trans, phase, delay);
    }
    unsigned transport_dbg(tlm::tlm_generic_payload &trans) { return out->transport_dbg(trans); }
};

#endif
