/* board.hpp: a Cortex-M (Unicorn) whose non-volatile memory is a module. Processor, RAM and cache are lost with the power; flash and the module
   stay. board/board.h says what the firmware sees of it. */
#ifndef BOARD_HPP
#define BOARD_HPP

#include "memory.hpp"

#include <exception>
#include <unicorn/unicorn.h>
#include <utility>

/* An access to the non-volatile memory, or a moment of the firmware. */
enum class Kind : char { load = 'L', store = 'S', clean = 'C', acknowledge = 'A', end = 'E' };

/* A moment of a boot at which the power may go. */
struct Point {
    uint64_t number = 0; /* of the boot's points, from 0 */
    uint64_t tick = 0;
    Kind kind = Kind::end;
    uint32_t at = 0, size = 0; /* of an access; of an acknowledgement its operation */
    uint64_t value = 0;        /* of a store */
    uint32_t acked = 0;        /* operations */
    std::vector<uint32_t> calls; /* where the processor is, and the addresses to which its calls return, the innermost first */
};

/* What a boot came to. */
struct Verdict {
    std::string wrong; /* "" where all is right */
    bool is_off = false; /* the power went before the end */

    bool is_right() const { return wrong.empty(); }
    /* Its first word or words, up to the colon. */
    std::string kind() const { return wrong.substr(0, wrong.find(':')); }
};

/* A boot: what the host tells the firmware, and where the power goes. */
struct Boot {
    uint32_t done = 0, goal = 0;        /* operations that were acknowledged before; those after which it ends */
    uint64_t goes_at = UINT64_MAX;      /* the power goes at the point of this number */
    bool at_each_access = false;        /* or only where an acknowledgement or an accepted write came since the point before */
    std::function<void(const Point &)> on_point; /* the caller's */
};

class Board {
public:
    static constexpr uint32_t ram = 0x20000000, ram_bytes = 0x40000, host = 0x40000000, system = 0xe000e000, nvm = 0x60000000, page = 0x1000;
    static constexpr uint32_t most_nvm = 0x40000000;

    uint64_t points = 0;   /* of the last boot */
    uint64_t accesses = 0; /* of the last boot, to the non-volatile memory */
    uint32_t acked = 0;    /* operations, by the end of the last boot */

    /* Of one that is traced each point says where the processor is, which takes a call for each instruction. */
    Board(const Image &image_, const std::string &cpu, uint32_t nvm_bytes, uint64_t limit_, bool is_traced) : image(image_), limit(limit_)
    {
        /* (with the mode of its class Unicorn 2.0 takes a Cortex-M33, whatever model is asked for) */
        must(uc_open(UC_ARCH_ARM, UC_MODE_THUMB, &engine.uc), "a Cortex-M");
        uc = engine.uc;
        must(uc_ctl_set_cpu_model(uc, model_of(cpu)), "its model");
        map_flash();
        must(uc_mem_map(uc, ram, ram_bytes, UC_PROT_READ | UC_PROT_WRITE | UC_PROT_EXEC), "RAM");
        must(uc_mmio_map(uc, host, page, on_host_read, this, on_host_write, this), "the host's registers");
        must(uc_mmio_map(uc, system, page, on_system_read, this, on_system_write, this), "the system's registers");
        must(uc_mmio_map(uc, nvm, (nvm_bytes + page - 1) / page * page, on_load, this, on_store, this), "the non-volatile memory");
        uc_hook hook;
        must(uc_hook_add(uc, &hook, UC_HOOK_BLOCK, reinterpret_cast<void *>(on_block), this, 1, 0), "its blocks");
        if (is_traced)
            must(uc_hook_add(uc, &hook, UC_HOOK_CODE, reinterpret_cast<void *>(on_instruction), this, 1, 0), "its instructions");
        must(uc_hook_add(uc, &hook, UC_HOOK_MEM_INVALID, reinterpret_cast<void *>(on_invalid), this, 1, 0), "its faults");
        must(uc_context_alloc(uc, &engine.fresh), "its registers");
        must(uc_context_save(uc, engine.fresh), "its registers");
    }
    Board(const Board &) = delete;

    static uc_cpu_arm model_of(const std::string &cpu)
    {
        static const std::map<std::string, uc_cpu_arm> models = {
            {"cortex-m0", UC_CPU_ARM_CORTEX_M0}, {"cortex-m3", UC_CPU_ARM_CORTEX_M3},   {"cortex-m4", UC_CPU_ARM_CORTEX_M4},
            {"cortex-m7", UC_CPU_ARM_CORTEX_M7}, {"cortex-m33", UC_CPU_ARM_CORTEX_M33},
        };
        auto found = models.find(cpu);
        if (found == models.end())
            throw Refusal("--cpu " + cpu + ": it may be cortex-m0, cortex-m3, cortex-m4, cortex-m7 or cortex-m33");
        return found->second;
    }

    /* The power comes: the firmware runs until it ends, fails, or the power goes. */
    Verdict boot(Memory &memory_, const Boot &how_)
    {
        begin(memory_, how_);
        uint32_t stack = image.vector(0), entry = image.vector(1);
        must(uc_reg_write(uc, UC_ARM_REG_SP, &stack), "its stack");
        uc_err fault = uc_emu_start(uc, entry | 1, 0xfffffffe, 0, 0);
        memory = nullptr;
        if (failure)
            std::rethrow_exception(failure);
        return verdict(fault);
    }

    /* The last moment at which the power might go, or went. */
    const Point &last_point() const { return current; }

private:
    const Image &image;
    const uint64_t limit; /* of instructions of a boot */
    struct Engine {
        uc_engine *uc = nullptr;
        uc_context *fresh = nullptr; /* the registers at power-up */
        ~Engine()
        {
            if (fresh != nullptr)
                uc_context_free(fresh);
            if (uc != nullptr)
                uc_close(uc);
        }
    } engine;
    uc_engine *uc = nullptr; /* the engine's */
    Memory *memory = nullptr; /* of the boot that runs */
    const Boot *how = nullptr;
    std::exception_ptr failure;
    Point current;
    std::vector<uint32_t> calls; /* addresses to which they return */
    uint32_t block_end = 0, pc = 0; /* (pc: where it is traced) */
    uint64_t executed = 0; /* instructions, about: of four bytes, or two of them in three */
    uint64_t seen_accepted = 0;
    uint32_t seen_acked = 0;
    bool is_off = false, is_ended = false;
    uint32_t status = 0;
    std::string said, stopped;

    static void must(uc_err fault, const char *what)
    {
        if (fault != UC_ERR_OK)
            throw Refusal(std::string("unicorn: ") + what + ": " + uc_strerror(fault));
    }
    void map_flash()
    {
        std::set<uint32_t> pages;
        for (const auto &it : image.segments)
            for (uint64_t at = it.address / page; at <= (it.address + it.bytes.size() - 1) / page; at++)
                pages.insert(static_cast<uint32_t>(at));
        for (auto first = pages.begin(); first != pages.end();) {
            auto behind = first;
            uint32_t count = 0;
            while (behind != pages.end() && *behind == *first + count)
                ++behind, count++;
            must(uc_mem_map(uc, static_cast<uint64_t>(*first) * page, static_cast<size_t>(count) * page, UC_PROT_READ | UC_PROT_EXEC), "flash");
            first = behind;
        }
        for (const auto &it : image.segments)
            must(uc_mem_write(uc, it.address, it.bytes.data(), it.bytes.size()), "flash");
        uint32_t stack = image.vector(0), entry = image.vector(1);
        if (stack <= ram || stack > ram + ram_bytes || stack % 4 != 0)
            image.refuse("its first word, " + hex(stack) + ", is no stack in RAM (" + hex(ram) + " to " + hex(ram + ram_bytes) + "): it has no vectors of a Cortex-M at "
                         + hex(image.vectors()));
        if (entry % 2 == 0 || !pages.count(entry / page))
            image.refuse("its reset vector, " + hex(entry) + ", is no Thumb code in flash");
    }
    void begin(Memory &memory_, const Boot &how_)
    {
        static const std::vector<uint8_t> garbage(ram_bytes, 0xa5); /* (what RAM held is lost) */
        must(uc_context_restore(uc, engine.fresh), "its registers");
        must(uc_mem_write(uc, ram, garbage.data(), garbage.size()), "RAM");
        memory = &memory_;
        how = &how_;
        memory->before_write = [this] {
            meet(false);
            if (is_off)
                throw PowerGone();
        };
        failure = nullptr;
        calls.clear();
        said.clear();
        stopped.clear();
        block_end = pc = 0;
        executed = points = accesses = 0;
        acked = seen_acked = how->done;
        seen_accepted = memory->module.accepted;
        is_off = is_ended = false;
    }
    Verdict verdict(uc_err fault) const
    {
        Verdict found;
        found.is_off = is_off;
        if (is_off)
            return found;
        if (!stopped.empty())
            found.wrong = stopped;
        else if (fault != UC_ERR_OK)
            found.wrong = std::string("crashes: ") + uc_strerror(fault) + place();
        else if (!is_ended)
            found.wrong = "no report: the processor sleeps" + place();
        else if (status != 0)
            found.wrong = said.empty() ? "wrong: the firmware ends with " + std::to_string(status) : said;
        return found;
    }
    std::string place() const
    {
        uint32_t at = pc; /* (else, amidst a block, where that begins) */
        if (at == 0)
            uc_reg_read(uc, UC_ARM_REG_PC, &at);
        return ", at " + image.where(at);
    }
    void stop()
    {
        uc_emu_stop(uc);
    }
    /* The firmware runs no further. */
    void stop_as(const std::string &why)
    {
        if (stopped.empty() && !is_off)
            stopped = why + place();
        stop();
    }
    bool is_running() const { return memory != nullptr && !is_off && !is_ended && stopped.empty() && !failure; }

    /* No exception passes through the emulator. */
    struct PowerGone {};
    template <class Act> void guarded(Act act)
    {
        try {
            act();
        } catch (const PowerGone &) {
        } catch (...) {
            failure = std::current_exception();
            stop();
        }
    }
    /* A moment at which the power may go. */
    void meet(bool is_access)
    {
        Module &module = memory->module;
        bool is_new = module.accepted != seen_accepted || acked != seen_acked;
        if (is_access != how->at_each_access && current.kind != Kind::acknowledge && current.kind != Kind::end)
            return;
        if (!how->at_each_access && !is_new)
            return;
        seen_accepted = module.accepted;
        seen_acked = acked;
        current.number = points;
        current.tick = module.tick;
        current.acked = acked;
        if (points++ == how->goes_at) {
            is_off = true;
            stop();
        } else if (how->on_point) {
            how->on_point(current);
        }
    }
    void set_current(Kind kind, uint32_t at, uint32_t size, uint64_t value)
    {
        current.kind = kind;
        current.at = at;
        current.size = size;
        current.value = value;
        current.calls.clear();
        if (pc == 0)
            return;
        current.calls.push_back(pc);
        current.calls.insert(current.calls.end(), calls.rbegin(), calls.rend());
    }
    /* An access to the non-volatile memory; where the power goes before it, nothing is done. */
    template <class Act> void access(Kind kind, uint64_t at, unsigned size, uint64_t value, Act act)
    {
        if (!is_running())
            return;
        guarded([&] {
            if (at + size > memory->bytes) {
                stop_as("crashes: it " + std::string(kind == Kind::load ? "reads" : "stores") + " at " + hex(nvm + at) + ", behind the non-volatile memory");
                return;
            }
            set_current(kind, static_cast<uint32_t>(at), size, value);
            meet(true);
            accesses++;
            if (is_running())
                act();
        });
    }

    static void on_instruction(uc_engine *, uint64_t address, uint32_t, void *user)
    {
        static_cast<Board *>(user)->pc = static_cast<uint32_t>(address);
    }
    static void on_block(uc_engine *uc, uint64_t address, uint32_t size, void *user)
    {
        Board &me = *static_cast<Board *>(user);
        if (!me.is_running())
            return;
        uint32_t at = static_cast<uint32_t>(address), link = 0;
        uc_reg_read(uc, UC_ARM_REG_LR, &link);
        while (!me.calls.empty() && at == (me.calls.back() & ~1u))
            me.calls.pop_back();
        if (link == (me.block_end | 1) && at != me.block_end && me.calls.size() < 256)
            me.calls.push_back(link);
        me.block_end = at + size;
        me.memory->module.tick += (size + 3) / 4; /* two short instructions a tick */
        if ((me.executed += (size + 2) / 3) > me.limit)
            me.stop_as("hangs: no end within " + std::to_string(me.limit) + " instructions");
    }
    static bool on_invalid(uc_engine *, uc_mem_type type, uint64_t at, int, int64_t, void *user)
    {
        Board &me = *static_cast<Board *>(user);
        const char *does = type == UC_MEM_WRITE_UNMAPPED || type == UC_MEM_WRITE_PROT ? "stores" : type == UC_MEM_FETCH_UNMAPPED || type == UC_MEM_FETCH_PROT ? "runs" : "reads";
        if (me.is_running())
            me.stop_as(std::string("crashes: it ") + does + " at " + hex(at) + ", where the board has nothing");
        return false;
    }
    static uint64_t on_load(uc_engine *, uint64_t at, unsigned size, void *user)
    {
        Board &me = *static_cast<Board *>(user);
        uint64_t value = 0;
        me.access(Kind::load, at, size, 0, [&] { value = me.memory->load(static_cast<uint32_t>(at), size); });
        return value;
    }
    static void on_store(uc_engine *, uint64_t at, unsigned size, uint64_t value, void *user)
    {
        Board &me = *static_cast<Board *>(user);
        me.access(Kind::store, at, size, value, [&] { me.memory->store(static_cast<uint32_t>(at), size, value); });
    }
    static uint64_t on_system_read(uc_engine *, uint64_t, unsigned, void *) { return 0; }
    /* The cache is cleaned by address (DCCMVAU, DCCMVAC), and given up besides (DCCIMVAC, DCIMVAC, which writes nothing back), or as a whole by
       any set and way (DCCSW, DCCISW). */
    static void on_system_write(uc_engine *, uint64_t at, unsigned, uint64_t value, void *user)
    {
        Board &me = *static_cast<Board *>(user);
        if (!me.is_running() || !me.memory->has_cache())
            return;
        uint64_t from = value - nvm;
        bool is_by_set = at == 0xf6c || at == 0xf74;
        bool is_by_address = (at == 0xf5c || at == 0xf64 || at == 0xf68 || at == 0xf70) && value >= nvm && from < me.memory->bytes;
        if (is_by_set)
            me.access(Kind::clean, 0, 0, 0, [&] { me.memory->clean_all(at == 0xf74); });
        else if (is_by_address)
            me.access(Kind::clean, from, 0, 0, [&] { me.memory->clean(static_cast<uint32_t>(from), at != 0xf5c, at == 0xf5c || at == 0xf70); });
    }
    static uint64_t on_host_read(uc_engine *, uint64_t at, unsigned, void *user)
    {
        Board &me = *static_cast<Board *>(user);
        if (!me.is_running())
            return 0;
        switch (at) {
        case 0x00: return me.memory->bytes;
        case 0x04: return me.how->done;
        case 0x08: return me.how->goal;
        case 0x18: return std::exchange(me.memory->is_dropped, false);
        default: return 0;
        }
    }
    static void on_host_write(uc_engine *, uint64_t at, unsigned, uint64_t value, void *user)
    {
        Board &me = *static_cast<Board *>(user);
        uint32_t word = static_cast<uint32_t>(value);
        if (!me.is_running())
            return;
        me.guarded([&] {
            switch (at) {
            case 0x0c: me.acknowledge(word); break;
            case 0x10: me.hear(static_cast<char>(word)); break;
            case 0x14: me.end(word); break;
            default: break;
            }
        });
    }
    void acknowledge(uint32_t operation)
    {
        if (operation != acked || acked >= how->goal) {
            stop_as("out of turn: it acknowledges operation " + std::to_string(operation) + ", where "
                    + (acked >= how->goal ? "none was asked for" : std::to_string(acked) + " is next"));
            return;
        }
        set_current(Kind::acknowledge, operation, 0, 0);
        meet(false);
        acked += is_running();
    }
    void hear(char letter)
    {
        if (said.size() < 200)
            said += letter >= ' ' && letter < 127 ? letter : '?';
    }
    void end(uint32_t with)
    {
        set_current(Kind::end, 0, 0, 0);
        meet(false);
        if (!is_running())
            return;
        is_ended = true;
        status = with;
        if (with == 0 && acked < how->goal) {
            status = 1;
            said = "unfinished: it ends behind " + std::to_string(acked) + " of " + std::to_string(how->goal) + " operations";
        }
        stop();
    }
};

#endif
