/* memory.hpp: what lies between the processor and the module, and is lost with the power: nothing but a buffer of one line that was read, or a
   cache that writes back. */
#ifndef MEMORY_HPP
#define MEMORY_HPP

#include "module.hpp"

#include <functional>
#include <list>
#include <random>

/* What a platform is like. */
struct Wiring {
    bool drops = false;  /* a store that finds its bank's queue full is dropped, and a register tells; else the bus waits */
    uint32_t cache = 0;  /* lines of 32 bytes of a cache that writes back; 0: none, each store goes to the module */
    uint32_t evicts = 6; /* one of so many accesses of the cache writes back any line of it; 0: only where room is wanted */
    uint64_t seed = 1;   /* by which that is drawn */
};

class Memory {
public:
    Module &module;
    const uint32_t bytes;
    bool is_dropped = false; /* a store was, since this was cleared */
    /* The caller's: called before a write goes to the module. */
    std::function<void()> before_write = [] {};

    Memory(Module &module_, const Wiring &how_, uint32_t bytes_) : module(module_), bytes(bytes_), how(how_), draw(how_.seed) {}
    bool has_cache() const { return how.cache != 0; }

    /* The bytes of an access may lie in two lines. */
    uint64_t load(uint32_t at, unsigned size)
    {
        uint64_t value = 0;
        for (unsigned done = 0; done < size;) {
            unsigned piece = within(at + done, size - done);
            const uint8_t *from = how.cache ? cached(at + done).bytes + (at + done) % cached_bytes : line(at + done) + (at + done) % Module::line_bytes;
            memcpy(reinterpret_cast<uint8_t *>(&value) + done, from, piece);
            done += piece;
        }
        return value;
    }
    void store(uint32_t at, unsigned size, uint64_t value)
    {
        for (unsigned done = 0; done < size;) {
            unsigned piece = within(at + done, size - done);
            store_piece(at + done, piece, reinterpret_cast<const uint8_t *>(&value) + done);
            done += piece;
        }
    }
    /* The cached line of an address is written back; where it is given up, what it holds is forgotten, written back or not. */
    void clean(uint32_t at, bool writes_back, bool gives_up)
    {
        for (auto it = entries.begin(); it != entries.end(); ++it)
            if (it->tag == at / cached_bytes) {
                if (writes_back)
                    write_back(*it);
                if (gives_up)
                    entries.erase(it);
                return;
            }
    }
    void clean_all(bool gives_up)
    {
        for (Entry &it : entries)
            write_back(it);
        if (gives_up)
            entries.clear();
    }

private:
    static constexpr uint32_t cached_bytes = 32;
    struct Entry {
        uint32_t tag, dirty; /* a bit for each byte */
        uint8_t bytes[cached_bytes];
    };
    const Wiring &how;
    std::mt19937_64 draw;
    std::list<Entry> entries; /* the one that was used last first */
    uint32_t buffered = UINT32_MAX;
    uint8_t buffer[Module::line_bytes] = {};

    /* How many of so many bytes lie in the line of the first. */
    unsigned within(uint32_t at, unsigned size) const
    {
        uint32_t unit = how.cache ? cached_bytes : Module::line_bytes;
        return std::min(size, unit - at % unit);
    }
    const uint8_t *line(uint32_t at)
    {
        uint32_t number = at / Module::line_bytes;
        if (buffered != number)
            memcpy(buffer, module.read(number), sizeof buffer);
        buffered = number;
        return buffer;
    }
    void store_piece(uint32_t at, unsigned size, const uint8_t *value)
    {
        if (how.cache) {
            Entry &it = cached(at);
            memcpy(it.bytes + at % cached_bytes, value, size);
            for (unsigned i = 0; i < size; i++)
                it.dirty |= UINT32_C(1) << (at % cached_bytes + i);
            return;
        }
        uint8_t line_of[Module::line_bytes] = {}, given[Module::line_bytes] = {};
        memcpy(line_of + at % Module::line_bytes, value, size);
        memset(given + at % Module::line_bytes, 1, size);
        send(at / Module::line_bytes, line_of, given);
    }
    void send(uint32_t number, const uint8_t *line_of, const uint8_t *given)
    {
        before_write();
        bool is_taken = module.write(number, line_of, given);
        while (!is_taken && !how.drops) {
            module.wait_for_room();
            is_taken = module.write(number, line_of, given);
        }
        is_dropped = is_dropped || !is_taken;
        for (uint32_t i = 0; is_taken && buffered == number && i < Module::line_bytes; i++)
            if (given[i])
                buffer[i] = line_of[i];
    }
    void write_back(Entry &it)
    {
        uint8_t line_of[Module::line_bytes] = {}, given[Module::line_bytes] = {};
        uint32_t at = it.tag * cached_bytes % Module::line_bytes;
        if (it.dirty == 0)
            return;
        memcpy(line_of + at, it.bytes, cached_bytes);
        for (uint32_t i = 0; i < cached_bytes; i++)
            given[at + i] = it.dirty >> i & 1;
        send(it.tag * cached_bytes / Module::line_bytes, line_of, given);
        it.dirty = 0;
    }
    /* The cached line of an address, which is brought in where it isn't there. */
    Entry &cached(uint32_t at)
    {
        if (how.evicts != 0 && draw() % how.evicts == 0 && !entries.empty()) {
            auto any = entries.begin();
            std::advance(any, static_cast<long>(draw() % entries.size()));
            write_back(*any);
        }
        for (auto it = entries.begin(); it != entries.end(); ++it)
            if (it->tag == at / cached_bytes) {
                entries.splice(entries.begin(), entries, it);
                return entries.front();
            }
        if (entries.size() >= how.cache) {
            write_back(entries.back());
            entries.pop_back();
        }
        Entry fresh = {at / cached_bytes, 0, {}};
        memcpy(fresh.bytes, module.read(at / Module::line_bytes) + at / cached_bytes * cached_bytes % Module::line_bytes, cached_bytes);
        entries.push_front(fresh);
        return entries.front();
    }
};

#endif
