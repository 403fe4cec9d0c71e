/* An initiator with a quantum keeper writes eight records to a module of one bank, whose queue holds two writes, and the power goes meanwhile. Then it
   reads what is there: each record that was acknowledged.
       records PROGRAM */
#include "pcm_tlm.h"

#include <cstdio>
#include <tlm_utils/simple_initiator_socket.h>
#include <tlm_utils/tlm_quantumkeeper.h>

using namespace sc_core;

class writer : public sc_module {
public:
    tlm_utils::simple_initiator_socket<writer> socket;
    SC_HAS_PROCESS(writer);
    explicit writer(sc_module_name name) : sc_module(name), socket("socket")
    {
        keeper.reset();
        SC_THREAD(run);
    }

private:
    void run()
    {
        for (uint32_t i = 0; i < 8; i++) {
            uint32_t record = 100 + i;
            access(tlm::TLM_WRITE_COMMAND, i, record);
        }
        for (uint32_t i = 0, record = 0; i < 8; i++, record = 0)
            access(tlm::TLM_READ_COMMAND, i, record);
        keeper.sync();
    }
    /* One transaction of four bytes in a line of its own; the local time goes on by what it takes. */
    void access(tlm::tlm_command command, uint32_t line, uint32_t &record)
    {
        tlm::tlm_generic_payload trans;
        pcm_tlm::failure failure; /* it tells a cut from a worn-out bank; who leaves it out gets the standard's status alone */
        sc_time delay = keeper.get_local_time();
        trans.set_command(command);
        trans.set_address(64 * line);
        trans.set_data_ptr(reinterpret_cast<unsigned char *>(&record));
        trans.set_data_length(4);
        trans.set_streaming_width(4);
        trans.set_extension(&failure);
        socket->b_transport(trans, delay);
        trans.clear_extension(&failure);
        keeper.set(delay);
        const char *is = trans.is_response_ok() ? "ok" : failure.why == pcm_tlm::failure::power ? "the power went" : "worn";
        printf("%6s  %s %u: %s\n", keeper.get_current_time().to_string().c_str(), trans.is_write() ? "write" : "read ", record, is);
        if (keeper.need_sync())
            keeper.sync();
    }
    tlm_utils::tlm_quantumkeeper keeper;
};

int sc_main(int count, char **words)
{
    const char *program = count > 1 ? words[1] : "./pcm";
    tlm_utils::tlm_quantumkeeper::set_global_quantum(sc_time(1, SC_US));
    pcm_tlm::memory<> memory("memory", {program, "stream", "--banks", "1", "--write-queue", "2"}, sc_time(5, SC_NS), pcm_tlm::timing::quantum);
    writer initiator("initiator");
    initiator.socket.bind(memory.socket);
    memory.cut_at(sc_time(200, SC_NS));
    sc_start();
    return 0;
}
