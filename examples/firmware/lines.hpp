/* lines.hpp: which line of a source an address is of, by the section .debug_line of DWARF 2 to 5, of 32 bits. */
#ifndef LINES_HPP
#define LINES_HPP

#include <algorithm>
#include <cstdint>
#include <string>
#include <utility>
#include <vector>

/* Bytes of a file; what isn't there ends the reading of all that asked for it. */
struct Bytes {
    const uint8_t *at = nullptr;
    size_t size = 0;
};
struct TooShort {};

/* Reads bytes from front to back, as numbers of little endian. */
class Cursor {
public:
    explicit Cursor(Bytes bytes, size_t from = 0) : at(bytes.at), left(bytes.size)
    {
        skip(from);
    }
    size_t rest() const { return left; }
    void skip(uint64_t count)
    {
        if (count > left)
            throw TooShort();
        at += count;
        left -= static_cast<size_t>(count);
    }
    uint64_t number(unsigned width)
    {
        const uint8_t *from = at;
        uint64_t value = 0;
        skip(width);
        for (unsigned i = 0; i < width && i < 8; i++)
            value |= static_cast<uint64_t>(from[i]) << 8 * i;
        return value;
    }
    uint32_t word() { return static_cast<uint32_t>(number(4)); }
    uint32_t half() { return static_cast<uint32_t>(number(2)); }
    uint8_t byte() { return static_cast<uint8_t>(number(1)); }
    /* A number of any length (LEB128): its low 64 bits. */
    uint64_t leb(bool is_signed = false)
    {
        uint64_t value = 0;
        unsigned shift = 0;
        uint8_t it;
        do {
            it = byte();
            if (shift < 64)
                value |= static_cast<uint64_t>(it & 0x7f) << shift;
            shift += 7;
        } while (it & 0x80);
        if (is_signed && (it & 0x40) && shift < 64)
            value |= ~UINT64_C(0) << shift;
        return value;
    }
    std::string text()
    {
        const uint8_t *from = at;
        while (byte() != 0) {}
        return std::string(reinterpret_cast<const char *>(from), static_cast<size_t>(at - from) - 1);
    }
    /* So many bytes from here on, which are passed over. */
    Bytes piece(uint64_t count)
    {
        Bytes found = {at, static_cast<size_t>(count)};
        skip(count);
        return found;
    }

private:
    const uint8_t *at;
    size_t left;
};

/* The sections that lines are in. */
struct LineSections {
    Bytes line, line_str, str;
};

/* Lines of sources by the addresses of their code. */
class Lines {
public:
    Lines() = default;
    /* Of sections that end amidst something, or aren't as they should be, it has what stands before that. */
    explicit Lines(const LineSections &from) : sections(from)
    {
        try {
            for (Cursor units(sections.line); units.rest() > 0;)
                read_unit(units);
        } catch (const TooShort &) {
        }
        std::stable_sort(rows.begin(), rows.end(), [](const Row &one, const Row &other) {
            return one.address != other.address ? one.address < other.address : one.is_end > other.is_end;
        });
        sections = LineSections();
    }
    /* `FILE:LINE`, without the file's folders; "" where none is known. */
    std::string where(uint32_t address) const
    {
        auto behind = std::upper_bound(rows.begin(), rows.end(), address, [](uint32_t wanted, const Row &row) { return wanted < row.address; });
        if (behind == rows.begin() || (--behind)->is_end || behind->file >= files.size())
            return "";
        return files[behind->file] + ":" + std::to_string(behind->line);
    }

private:
    struct Row {
        uint32_t address;
        bool is_end; /* the code ends here */
        size_t file; /* in `files` */
        uint32_t line;
    };
    static constexpr size_t most_rows = 4000000;
    LineSections sections;
    std::vector<Row> rows;
    std::vector<std::string> files; /* of all units */

    /* What the head of a unit says of its program. */
    struct Unit {
        uint32_t version = 0;
        uint8_t least = 1, base = 0, range = 1, first_special = 1;
        std::vector<uint8_t> counts; /* of the words of each standard operation */
        size_t first_file = 0;       /* in `files` */
    };
    /* Where a unit's program stands. */
    struct State {
        uint32_t address = 0, line = 1;
        uint64_t file = 1;
    };

    void read_unit(Cursor &units)
    {
        uint32_t size = units.word();
        if (size >= 0xfffffff0)
            throw TooShort(); /* (of 64 bits) */
        Cursor in(units.piece(size));
        Unit unit;
        unit.version = in.half();
        if (unit.version < 2 || unit.version > 5)
            return;
        if (unit.version == 5)
            in.skip(2);
        Cursor head(in.piece(in.word()));
        read_head(head, unit);
        if (unit.range != 0)
            run(in, unit);
    }
    void read_head(Cursor &head, Unit &unit)
    {
        unit.least = head.byte();
        if (unit.version >= 4)
            head.skip(1);
        head.skip(1);
        unit.base = head.byte();
        unit.range = head.byte();
        unit.first_special = head.byte();
        for (unsigned operation = 1; operation < unit.first_special; operation++)
            unit.counts.push_back(head.byte());
        unit.first_file = files.size();
        if (unit.version == 5) {
            read_names(head, false);
            read_names(head, true);
            return;
        }
        while (!head.text().empty()) {} /* (folders) */
        files.push_back("?");           /* (files have numbers from 1) */
        for (std::string name; !(name = head.text()).empty();) {
            files.push_back(last_part(name));
            for (int i = 0; i < 3; i++)
                head.leb();
        }
    }
    /* Folders or files of version 5. */
    void read_names(Cursor &head, bool are_files)
    {
        std::vector<std::pair<uint64_t, uint64_t>> forms(head.byte());
        for (auto &form : forms)
            form.first = head.leb(), form.second = head.leb();
        uint64_t count = head.leb();
        for (uint64_t i = 0; i < count && !forms.empty(); i++) {
            std::string name = "?";
            for (const auto &form : forms) {
                std::string value = field(head, form.second);
                if (form.first == 1)
                    name = last_part(value);
            }
            if (are_files)
                files.push_back(name);
        }
    }
    /* A field of a form of DWARF; its text, where it has one. */
    std::string field(Cursor &head, uint64_t form)
    {
        switch (form) {
        case 0x08: return head.text();
        case 0x1f: return Cursor(sections.line_str, head.word()).text();
        case 0x0e: return Cursor(sections.str, head.word()).text();
        case 0x0b: head.skip(1); return "";
        case 0x05: head.skip(2); return "";
        case 0x06: head.skip(4); return "";
        case 0x07: head.skip(8); return "";
        case 0x1e: head.skip(16); return "";
        case 0x0f: head.leb(); return "";
        case 0x09: head.skip(head.leb()); return "";
        default: throw TooShort();
        }
    }
    static std::string last_part(const std::string &path)
    {
        return path.substr(path.find_last_of("/\\") == std::string::npos ? 0 : path.find_last_of("/\\") + 1);
    }
    void put(const Unit &unit, const State &state, bool is_end)
    {
        if (rows.size() >= most_rows)
            throw TooShort();
        size_t file = state.file < files.size() - unit.first_file ? unit.first_file + static_cast<size_t>(state.file) : files.size();
        rows.push_back({state.address, is_end, file, state.line});
    }
    void run(Cursor &in, const Unit &unit)
    {
        State state;
        while (in.rest() > 0) {
            uint8_t operation = in.byte();
            if (operation >= unit.first_special) {
                uint32_t step = static_cast<uint32_t>(operation - unit.first_special);
                state.address += step / unit.range * unit.least;
                state.line += static_cast<uint32_t>(static_cast<int8_t>(unit.base)) + step % unit.range;
                put(unit, state, false);
            } else if (operation == 0) {
                extended(in, unit, state);
            } else {
                standard(in, unit, state, operation);
            }
        }
    }
    void extended(Cursor &in, const Unit &unit, State &state)
    {
        Cursor words(in.piece(in.leb()));
        uint8_t operation = words.rest() > 0 ? words.byte() : 0;
        if (operation == 1) {
            put(unit, state, true);
            state = State();
        } else if (operation == 2) {
            state.address = static_cast<uint32_t>(words.number(static_cast<unsigned>(std::min<size_t>(words.rest(), 8))));
        }
    }
    void standard(Cursor &in, const Unit &unit, State &state, uint8_t operation)
    {
        switch (operation) {
        case 1: put(unit, state, false); break;
        case 2: state.address += static_cast<uint32_t>(in.leb()) * unit.least; break;
        case 3: state.line += static_cast<uint32_t>(in.leb(true)); break;
        case 4: state.file = in.leb(); break;
        case 8: state.address += (255u - unit.first_special) / unit.range * unit.least; break;
        case 9: state.address += in.half(); break;
        default:
            for (uint8_t i = 0; i < unit.counts[operation - 1u]; i++)
                in.leb();
        }
    }
};

#endif
