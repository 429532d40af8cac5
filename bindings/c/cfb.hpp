// cfb.hpp: the same for C++17. A file closes itself; a call that fails throws cfb::error.
#ifndef CFB_HPP
#define CFB_HPP
#include "cfb.h"
#include <stdexcept>
#include <string>
#include <string_view>
#include <utility>
#include <vector>

namespace cfb {
struct error : std::runtime_error {
    uint8_t number;
    error(uint8_t number, const std::string &reason)
        : std::runtime_error(reason.empty() ? std::string(cfb_error_text(number)) : cfb_error_text(number) + (": " + reason)), number(number) {}
};

struct entry {
    std::string path, name;
    cfb_entry_info info;
    bool is_stream() const { return info.kind == CFB_STREAM; }
};

class file {
    cfb_file at = CFB_CLOSED;
    void done(uint8_t number) {
        if (number == CFB_DONE) return;
        std::string reason(256, 0);
        size_t len = 0;
        if (cfb_reason(&at, &reason[0], reason.size(), &len) != CFB_DONE) len = 0;
        reason.resize(len);
        throw error(number, reason);
    }
    static const uint8_t *some(std::string_view bytes) { return reinterpret_cast<const uint8_t *>(bytes.data() ? bytes.data() : ""); }
    template <uint8_t (*call)(cfb_file *, const char *, size_t, cfb_entries *)> std::vector<entry> listed(std::string_view path) {
        cfb_entries list = CFB_CLOSED;
        std::vector<entry> out;
        done(call(&at, path.data(), path.size(), &list));
        size_t count = 0, len = 0;
        cfb_entries_len(&list, &count);
        try {
            for (size_t i = 0; i < count; i++) {
                entry e;
                cfb_entries_get(&list, i, &e.info);
                e.name.assign(e.info.name, e.info.name_len);
                e.path.resize(256);
                if (cfb_entries_path(&list, i, &e.path[0], e.path.size(), &len) == CFB_TOO_SMALL) {
                    e.path.resize(len);
                    cfb_entries_path(&list, i, &e.path[0], e.path.size(), &len);
                }
                e.path.resize(len);
                out.push_back(std::move(e));
            }
        } catch (...) { cfb_entries_close(&list); throw; }
        cfb_entries_close(&list);
        return out;
    }

  public:
    file() = default;
    file(const file &) = delete;
    file &operator=(const file &) = delete;
    file(file &&other) noexcept { std::swap(at, other.at); }
    file &operator=(file &&other) noexcept { std::swap(at, other.at); return *this; }
    ~file() { cfb_close(&at); }
    static file open(const std::string &path, bool is_strict = false) { file f; f.done(cfb_open(&f.at, path.c_str(), is_strict)); return f; }
    static file open_bytes(std::string_view bytes, bool is_strict = false) { file f; f.done(cfb_open_bytes(&f.at, some(bytes), bytes.size(), is_strict)); return f; }
    // the bytes must stay as they are as long as the file is open, so they are no temporary value
    static file open_lent(std::string &&, bool = false) = delete;
    static file open_lent(std::string_view bytes, bool is_strict = false) { file f; f.done(cfb_open_lent(&f.at, some(bytes), bytes.size(), is_strict)); return f; }
    static file create(uint32_t version = 4) { file f; f.done(cfb_create_bytes(&f.at, version)); return f; }
    uint32_t version() { uint32_t v = 0; done(cfb_version(&at, &v)); return v; }
    bool is_sound() { bool is = false; done(cfb_is_sound(&at, &is)); return is; }
    bool is_failed() { bool is = false; done(cfb_is_failed(&at, &is)); return is; }
    bool is_stream(std::string_view path) { bool is = false; done(cfb_is_stream_n(&at, path.data(), path.size(), &is)); return is; }
    bool is_storage(std::string_view path) { bool is = false; done(cfb_is_storage_n(&at, path.data(), path.size(), &is)); return is; }
    bool exists(std::string_view path) { bool is = false; done(cfb_exists_n(&at, path.data(), path.size(), &is)); return is; }
    std::vector<entry> list(std::string_view path = "/") { return listed<cfb_list_n>(path); }
    std::vector<entry> walk(std::string_view path = "/") { return listed<cfb_walk_n>(path); }
    cfb_entry_info info(std::string_view path) { cfb_entry_info i; done(cfb_entry_n(&at, path.data(), path.size(), &i)); return i; }
    std::string get(std::string_view path) {
        std::string bytes(info(path).len, 0);
        size_t len = 0;
        done(cfb_read_n(&at, path.data(), path.size(), 0, reinterpret_cast<uint8_t *>(&bytes[0]), bytes.size(), &len));
        bytes.resize(len);
        return bytes;
    }
    void put(std::string_view path, std::string_view bytes) { done(cfb_put_n(&at, path.data(), path.size(), some(bytes), bytes.size())); }
    void write(std::string_view path, uint64_t place, std::string_view bytes) { done(cfb_write_n(&at, path.data(), path.size(), place, some(bytes), bytes.size())); }
    void set_len(std::string_view path, uint64_t len) { done(cfb_set_len_n(&at, path.data(), path.size(), len)); }
    void create_stream(std::string_view path, bool is_new = false) { done(cfb_create_stream_n(&at, path.data(), path.size(), is_new)); }
    void create_storage_all(std::string_view path, uint64_t moment = 0) { done(cfb_create_storage_all_n(&at, path.data(), path.size(), moment)); }
    void remove_storage(std::string_view path) { done(cfb_remove_storage_n(&at, path.data(), path.size())); }
    void set_clsid(std::string_view path, const uint8_t (&clsid)[16]) { done(cfb_set_clsid_n(&at, path.data(), path.size(), clsid)); }
    void set_state_bits(std::string_view path, uint32_t bits) { done(cfb_set_state_bits_n(&at, path.data(), path.size(), bits)); }
    void set_created(std::string_view path, uint64_t moment) { done(cfb_set_created_n(&at, path.data(), path.size(), moment)); }
    void set_modified(std::string_view path, uint64_t moment) { done(cfb_set_modified_n(&at, path.data(), path.size(), moment)); }
    void create_storage(std::string_view path, uint64_t moment = 0) { done(cfb_create_storage_n(&at, path.data(), path.size(), moment)); }
    void remove_stream(std::string_view path) { done(cfb_remove_stream_n(&at, path.data(), path.size())); }
    void remove_storage_all(std::string_view path) { done(cfb_remove_storage_all_n(&at, path.data(), path.size())); }
    void save(const std::string &path) { done(cfb_save(&at, path.c_str())); }
    std::string into_bytes() {
        size_t len = 0;
        done(cfb_into_bytes(&at, &len));
        std::string bytes(len, 0);
        done(cfb_bytes(&at, reinterpret_cast<uint8_t *>(&bytes[0]), len, &len));
        return bytes;
    }
};
} // namespace cfb
#endif
