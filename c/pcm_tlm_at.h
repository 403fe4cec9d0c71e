/* pcm_tlm_at.h: the memory of pcm_tlm.h with the four phases of the base protocol (approximately timed).

       pcm_tlm::memory_at<> memory("memory", {"./pcm", "stream"}, sc_core::sc_time(5, sc_core::SC_NS));

   BEGIN_REQ is accepted, and arrives `accept` later, at the next tick. END_REQ comes once all its lines are sent: it is withheld while a bank's queue
   is full or too many reads wait there, which is back-pressure. BEGIN_RESP comes at the tick at which the module answers, one response at a time: the
   next waits for END_RESP. So responses may come in another order than requests. Transactions need a memory manager. b_transport is served, too,
   with exact timing; the power, debug transport and what is answered are as in pcm_tlm.h. */
#ifndef PCM_TLM_AT_H
#define PCM_TLM_AT_H

#include "pcm_tlm.h"

#include <tlm_utils/peq_with_cb_and_phase.h>

namespace pcm_tlm {

template <unsigned BUSWIDTH = 32> class memory_at : public target {
public:
    tlm_utils::simple_target_socket<memory_at, BUSWIDTH> socket;

    memory_at(sc_core::sc_module_name name, std::vector<std::string> words, sc_core::sc_time tick, sc_core::sc_time accept = sc_core::SC_ZERO_TIME)
        : target(name, std::move(words), tick, timing::exact, accept), socket("socket"), phases_(this, &memory_at::on_phase)
    {
        socket.register_nb_transport_fw(this, &memory_at::nb_transport_fw);
        socket.register_b_transport(this, &memory_at::b_transport);
        socket.register_transport_dbg(this, &memory_at::transport_dbg);
        socket.register_get_direct_mem_ptr(this, &memory_at::get_direct_mem_ptr);
    }

private:
    /* (Phases that aren't known are ignored.) */
    tlm::tlm_sync_enum nb_transport_fw(payload &trans, tlm::tlm_phase &phase, time &delay)
    {
        if (phase == tlm::BEGIN_REQ) {
            if (!trans.has_mm())
                SC_REPORT_ERROR("/pcm_tlm/at", "a transaction has no memory manager");
            trans.acquire();
            phases_.notify(trans, phase, arrival(delay));
        } else if (phase == tlm::END_RESP) {
            phases_.notify(trans, phase, delay);
        }
        return tlm::TLM_ACCEPTED;
    }
    void on_phase(payload &trans, const tlm::tlm_phase &phase)
    {
        if (phase == tlm::BEGIN_REQ)
            begin_request(trans);
        else if (phase == tlm::END_REQ)
            end_request(trans);
        else if (phase == tlm::BEGIN_RESP)
            begin_response(trans);
        else
            end_response(trans);
    }
    /* (target's engine, which begin wakes, says what was taken and what is answered.) */
    void begin_request(payload &trans)
    {
        if (is_served(trans)) {
            requests_[&trans] = begin(trans, false);
        } else {
            phases_.notify(trans, tlm::END_REQ, sc_core::SC_ZERO_TIME);
            phases_.notify(trans, tlm::BEGIN_RESP, sc_core::SC_ZERO_TIME);
        }
    }
    void end_request(payload &trans)
    {
        tlm::tlm_phase phase = tlm::END_REQ;
        time none = sc_core::SC_ZERO_TIME;
        socket->nb_transport_bw(trans, phase, none);
    }
    /* A request is done: its response waits for its turn. */
    void begin_response(payload &trans)
    {
        auto found = requests_.find(&trans);
        if (found != requests_.end()) {
            close(*found->second);
            requests_.erase(found);
        }
        responses_.push_back(&trans);
        if (responses_.size() == 1)
            respond();
    }
    /* The first response that waits has its turn. */
    void respond()
    {
        tlm::tlm_phase phase = tlm::BEGIN_RESP;
        time delay = sc_core::SC_ZERO_TIME;
        tlm::tlm_sync_enum said = socket->nb_transport_bw(*responses_.front(), phase, delay);
        if (said == tlm::TLM_COMPLETED || (said == tlm::TLM_UPDATED && phase == tlm::END_RESP))
            phases_.notify(*responses_.front(), tlm::END_RESP, delay);
    }
    void end_response(payload &trans)
    {
        if (responses_.empty() || responses_.front() != &trans) {
            SC_REPORT_ERROR("/pcm_tlm/at", "END_RESP of a transaction that isn't being answered");
            return;
        }
        responses_.pop_front();
        trans.release();
        if (!responses_.empty())
            respond();
    }
    void is_taken(const request &it, time after) override { phases_.notify(*it.trans, tlm::END_REQ, after); }
    void is_answered(const request &it, time after) override { phases_.notify(*it.trans, tlm::BEGIN_RESP, after); }

    tlm_utils::peq_with_cb_and_phase<memory_at> phases_;
    std::map<payload *, std::shared_ptr<request>> requests_;
    std::deque<payload *> responses_; /* the first one is under way */
};

} // namespace pcm_tlm

#endif
