/* Tests of pcm_tlm.h and pcm_tlm_at.h: initiators draw transactions, the power goes at drawn times, and a scoreboard says what may be read.
       test_tlm PROGRAM exact|quantum|at|converted|errors [--transactions N] [--initiators N] [--memories N] [--cuts N] [--longest BYTES] [--idle NS]
                [--draw N] [--plan 1] [OPTION ..]
   Each initiator has addresses of its own, at which a byte that was answered TLM_OK_RESPONSE must be read ever after. Other options are the module's.
   It prints what came; status 1 where a byte was wrong, the base protocol was broken, an answer wasn't at its tick, or a row was full or busy. */
#include "test_tlm_traffic.hpp"

/* Pulls the plug at drawn times, for up to 60 ns each. */
class plug : public sc_module {
public:
    sc_signal<bool> power_good;
    SC_HAS_PROCESS(plug);
    plug(sc_module_name name, const options &drawn, uint64_t mean)
        : sc_module(name), power_good("power_good", true), left(drawn.cuts), apart(mean), draw(drawn.draw)
    {
        SC_THREAD(run);
    }

private:
    void run()
    {
        for (; left > 0; left--) {
            wait(sc_time(static_cast<double>(1 + draw() % (2 * apart)), SC_NS));
            power_good.write(false);
            wait(sc_time(static_cast<double>(draw() % 60), SC_NS));
            power_good.write(true);
        }
    }
    uint64_t left, apart;
    std::mt19937_64 draw;
};

/* What the standard says of odd transactions, one by one. */
class asker : public sc_module {
public:
    tlm_utils::simple_initiator_socket<asker, 64> socket;
    sc_signal<bool> power_good;
    SC_HAS_PROCESS(asker);
    asker(sc_module_name name, pcm_tlm::memory<64> &asked)
        : sc_module(name), socket("socket"), power_good("power_good", true), memory(asked), size(asked.size())
    {
        SC_THREAD(run);
    }

private:
    tlm::tlm_response_status ask(tlm::tlm_command command, uint64_t at, unsigned length, unsigned width, bool has_enables = false)
    {
        sc_time delay = SC_ZERO_TIME;
        trans.set_command(command);
        trans.set_address(at);
        trans.set_data_ptr(bytes);
        trans.set_data_length(length);
        trans.set_streaming_width(width);
        trans.set_byte_enable_ptr(has_enables ? bytes : nullptr);
        trans.set_byte_enable_length(0);
        trans.set_extension(&why);
        trans.set_response_status(tlm::TLM_INCOMPLETE_RESPONSE);
        socket->b_transport(trans, delay);
        trans.clear_extension(&why);
        return trans.get_response_status();
    }
    void run()
    {
        const tlm::tlm_command write = tlm::TLM_WRITE_COMMAND, read = tlm::TLM_READ_COMMAND;
        check(ask(read, size, 1, 1) == tlm::TLM_ADDRESS_ERROR_RESPONSE, "a read behind the end");
        check(ask(write, size - 1, 2, 2) == tlm::TLM_ADDRESS_ERROR_RESPONSE, "a write over the end");
        check(ask(write, 0, 0, 1) == tlm::TLM_BURST_ERROR_RESPONSE, "no bytes");
        check(ask(write, 0, 8, 4) == tlm::TLM_BURST_ERROR_RESPONSE, "a stream");
        check(ask(read, 0, 8, 8, true) == tlm::TLM_BYTE_ENABLE_ERROR_RESPONSE, "byte enables without a length");
        check(ask(tlm::TLM_IGNORE_COMMAND, size, 8, 8) == tlm::TLM_OK_RESPONSE && why.why == pcm_tlm::failure::none, "a command to ignore");
        tlm::tlm_dmi direct;
        check(!socket->get_direct_mem_ptr(trans, direct) && direct.is_none_allowed(), "direct access");
        debug();
        power();
        sc_stop();
    }
    void debug()
    {
        std::vector<unsigned char> image(size), seen(size);
        for (size_t i = 0; i < size; i++)
            image[i] = static_cast<unsigned char>(i * 7 + i / 64);
        tlm::tlm_generic_payload whole;
        sc_time now = sc_time_stamp();
        whole.set_write();
        whole.set_address(0);
        whole.set_data_ptr(image.data());
        whole.set_data_length(static_cast<unsigned>(size));
        check(socket->transport_dbg(whole) == size && sc_time_stamp() == now, "debug transport writes all, and no time passes");
        whole.set_read();
        whole.set_data_ptr(seen.data());
        check(socket->transport_dbg(whole) == size && seen == image, "and reads it");
        whole.set_address(size - 3);
        check(socket->transport_dbg(whole) == 3, "up to the end");
        for (uint64_t at = 0; at < size; at += sizeof bytes) {
            check(ask(tlm::TLM_READ_COMMAND, at, sizeof bytes, sizeof bytes) == tlm::TLM_OK_RESPONSE, "a read");
            check(memcmp(bytes, image.data() + at, sizeof bytes) == 0, "of what was written so");
        }
    }
    void power()
    {
        power_good.write(false);
        wait(1, SC_NS);
        uint64_t tick = memory.stream().tick;
        check(ask(tlm::TLM_READ_COMMAND, 0, 1, 1) == tlm::TLM_GENERIC_ERROR_RESPONSE && why.why == pcm_tlm::failure::power, "a read in the dark");
        trans.set_write();
        check(socket->transport_dbg(trans) == 0, "debug transport in the dark");
        wait(1, SC_MS);
        power_good.write(true);
        wait(1, SC_NS);
        sc_time begun = sc_time_stamp();
        check(ask(tlm::TLM_READ_COMMAND, 0, 1, 1) == tlm::TLM_OK_RESPONSE && sc_time_stamp() - begun < sc_time(1, SC_US), "a read behind it");
        check(memory.stream().tick - tick < 50, "no tick passes in the dark");
    }
    pcm_tlm::memory<64> &memory;
    uint64_t size;
    tlm::tlm_generic_payload trans;
    pcm_tlm::failure why;
    unsigned char bytes[128] = {};
};

/* Draws the times of cuts, so many nanoseconds apart, and tells them ahead. */
static void plan_cuts(pcm_tlm::target &memory, const options &asked, uint64_t apart)
{
    std::mt19937_64 draw(asked.draw);
    sc_time when;
    for (uint64_t i = 0; i < asked.cuts; i++)
        memory.cut_at(when += sc_time(static_cast<double>(1 + draw() % (2 * apart)), SC_NS));
}

static void add(pcm_tlm::counts &sum, const pcm_tlm::counts &more)
{
    sum.settles += more.settles;
    sum.late += more.late;
    sum.ended += more.ended;
    for (int i = 0; i < PCM_SETTLED; i++)
        sum.kinds[i] += more.kinds[i];
}

/* So many memories, each with its initiators and its plug, from the beginning to the end. */
template <class Initiator, class Make, class... More> static pcm_tlm::counts simulate(const options &asked, Make make, More... more)
{
    std::vector<decltype(make())> memories;
    std::vector<std::unique_ptr<Initiator>> initiators;
    std::vector<std::unique_ptr<bus>> buses;
    std::vector<std::unique_ptr<plug>> plugs;
    pcm_tlm::counts sum;
    uint64_t apart = 1 + asked.transactions * (asked.idle / 2 + 40) / (asked.cuts + 1) / 2;
    for (uint64_t m = 0; m < asked.memories; m++) {
        memories.push_back(make());
        uint64_t share = memories[m]->size() / asked.initiators;
        buses.emplace_back(new bus(sc_gen_unique_name("bus"), asked.initiators));
        buses[m]->out.bind(memories[m]->socket);
        for (uint64_t i = 0; i < asked.initiators; i++) {
            initiators.emplace_back(new Initiator(sc_gen_unique_name("initiator"), asked, i * share, share, 100 * asked.draw + 10 * m + i, more...));
            initiators.back()->socket.bind(*buses[m]->in[i]);
        }
        if (asked.plan)
            plan_cuts(*memories[m], asked, apart);
        else
            plugs.emplace_back(new plug(sc_gen_unique_name("plug"), asked, apart)), memories[m]->power.bind(plugs[m]->power_good);
    }
    sc_start();
    for (const auto &it : memories)
        add(sum, it->count());
    return sum;
}

static pcm_tlm::counts simulate_by(const std::string &mode, const options &asked, const std::vector<std::string> &words)
{
    const sc_time tick(5, SC_NS);
    const pcm_tlm::timing keeps = mode == "quantum" ? pcm_tlm::timing::quantum : pcm_tlm::timing::exact;
    auto make = [&] { return std::make_unique<pcm_tlm::memory<>>(sc_gen_unique_name("memory"), words, tick, keeps); };
    auto make_at = [&] { return std::make_unique<pcm_tlm::memory_at<>>(sc_gen_unique_name("memory"), words, tick); };
    tlm_utils::tlm_quantumkeeper::set_global_quantum(sc_time(1, SC_US));
    if (mode == "at")
        return simulate<phaser>(asked, make_at, true);
    if (mode == "converted") /* (by the loosely timed memory's socket) */
        return simulate<phaser>(asked, make, false);
    if (mode != "errors")
        return simulate<caller>(asked, make, mode == "quantum");
    pcm_tlm::memory<64> memory("memory", words, tick);
    asker it("asker", memory);
    it.socket.bind(memory.socket);
    memory.power.bind(it.power_good);
    sc_start();
    return memory.count();
}

int sc_main(int count, char **given)
{
    options asked;
    std::map<std::string, uint64_t *> numbers = {
        {"--transactions", &asked.transactions}, {"--initiators", &asked.initiators}, {"--memories", &asked.memories}, {"--cuts", &asked.cuts},
        {"--longest", &asked.longest}, {"--idle", &asked.idle}, {"--draw", &asked.draw}, {"--plan", &asked.plan}};
    const std::string mode = count > 2 ? given[2] : "";
    if (mode != "exact" && mode != "quantum" && mode != "at" && mode != "converted" && mode != "errors") {
        fprintf(stderr, "usage: test_tlm PROGRAM exact|quantum|at|converted|errors [option ..]\n");
        return 2;
    }
    std::vector<std::string> words = {given[1], "stream"};
    for (int i = 3; i < count; i++) {
        auto found = numbers.find(given[i]);
        if (found == numbers.end())
            words.push_back(given[i]);
        else if (i + 1 < count)
            *found->second = strtoull(given[++i], nullptr, 10);
    }
    sc_report_handler::set_actions("/OSCI/SystemC", SC_DO_NOTHING);
    pcm_tlm::counts sum = simulate_by(mode, asked, words);
    auto print = [](const char *form, uint64_t number) { printf(form, static_cast<unsigned long long>(number)); };
    uint64_t refused = sum.kinds[PCM_FULL_QUEUE] + sum.kinds[PCM_BUSY];
    print("%llu transactions", all.done);
    print(", %llu ok", all.ok);
    print(", %llu without power", all.power);
    print(", %llu worn", all.worn);
    print("; %llu cuts", sum.kinds[PCM_CUT]);
    print(", which ended %llu", sum.ended);
    print(", %llu reads lost", sum.kinds[PCM_LOST]);
    print("; %llu bytes", all.checked);
    print(", %llu wrong", all.wrong);
    print(", %llu breaches", all.breaches);
    print(", %llu late", sum.late);
    print(", %llu refused", refused);
    print("; %llu settles", sum.settles);
    printf(", %s\n", sc_time_stamp().to_string().c_str());
    return all.wrong + all.breaches + sum.late + refused != 0;
}
