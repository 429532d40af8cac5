// The C++ classes. Status 0 if all is as it should be.
#include "cfb.hpp"
#include <cstdio>
#include <functional>

// Each call by path fails with this number.
static bool all_fail(cfb::file &f, std::string_view path, uint8_t number) {
    const uint8_t clsid[16] = { 1 };
    const std::function<void()> calls[] = {
        [&] { f.is_stream(path); }, [&] { f.is_storage(path); }, [&] { f.exists(path); }, [&] { f.list(path); }, [&] { f.walk(path); },
        [&] { f.info(path); }, [&] { f.get(path); }, [&] { f.put(path, "x"); }, [&] { f.write(path, 0, "x"); }, [&] { f.set_len(path, 1); },
        [&] { f.create_stream(path); }, [&] { f.create_stream(path, true); }, [&] { f.create_storage(path); }, [&] { f.create_storage_all(path); },
        [&] { f.remove_stream(path); }, [&] { f.remove_storage(path); }, [&] { f.remove_storage_all(path); }, [&] { f.set_clsid(path, clsid); },
        [&] { f.set_state_bits(path, 1); }, [&] { f.set_created(path, 1); }, [&] { f.set_modified(path, 1); },
    };
    for (auto &call : calls) {
        try { call(); return false; } catch (const cfb::error &e) { if (e.number != number) return false; }
    }
    return true;
}

// Each other call of a file that is closed fails, and a file can be moved.
static bool closed_fails() {
    cfb::file closed;
    const std::function<void()> calls[] = { [&] { closed.version(); }, [&] { closed.is_sound(); }, [&] { closed.is_failed(); }, [&] { closed.into_bytes(); }, [&] { closed.save("/x"); } };
    for (auto &call : calls) {
        try { call(); return false; } catch (const cfb::error &e) { if (e.number != CFB_NOT_OPEN) return false; }
    }
    auto f = cfb::file::create();
    closed = std::move(f);
    return closed.version() == 4 && all_fail(f, "/a", CFB_NOT_OPEN);
}

int main() {
    using namespace std::string_view_literals;
    auto empty = cfb::file::create(3);
    if (!all_fail(empty, "/a\0b"sv, CFB_INVALID_INPUT) || !all_fail(empty, "/\xff"sv, CFB_INVALID_INPUT) || !closed_fails()) return 13;
    if (empty.walk().size() != 1 || !empty.is_sound()) return 14;
    try { cfb::file::create(5); return 15; } catch (const cfb::error &e) { if (e.number != CFB_INVALID_INPUT) return 16; }
    try { cfb::file::open_bytes("short"); return 17; } catch (const cfb::error &e) { if (e.number != CFB_INVALID_DATA) return 18; }
    std::string deep;
    for (int i = 0; i < 40; i++) deep += "/" + std::string(31, 'x');
    empty.create_storage_all(deep);
    if (empty.walk().back().path != deep || empty.walk().size() != 41 || empty.list(deep).size() != 0) return 19;
    auto f = cfb::file::create(3);
    f.create_storage("/s");
    f.put("/s/x", "abc");
    f.write("/s/x", 3, "def");
    if (f.get("/S/X") != "abcdef" || f.version() != 3 || !f.is_sound()) return 1;
    const uint8_t clsid[16] = { 1 };
    f.create_storage_all("/t/u", 5);
    f.set_clsid("/t", clsid);
    f.set_state_bits("/t", 6);
    f.set_created("/t", 7);
    f.set_modified("/t", 8);
    auto info = f.info("/t");
    if (info.created != 7 || info.modified != 8 || info.state_bits != 6 || info.clsid[0] != 1) return 7;
    try { f.remove_storage("/t"); return 8; } catch (const cfb::error &e) { if (e.number != CFB_INVALID_INPUT) return 9; }
    f.create_stream("/t/v");
    try { f.create_stream("/t/v", true); return 10; } catch (const cfb::error &e) { if (e.number != CFB_ALREADY_EXISTS) return 11; }
    f.set_len("/t/v", 3);
    if (!f.is_stream("/t/v") || f.is_storage("/t/v") || !f.exists("/t") || f.is_failed() || f.list("/t").size() != 2) return 12;
    f.remove_stream("/t/v");
    f.remove_storage_all("/t");
    const std::string bytes = f.into_bytes();
    auto g = cfb::file::open_lent(bytes, true);
    if (g.get("/s/x") != "abcdef" || cfb::file::open_bytes(bytes).get("/s/x") != "abcdef") return 20;
    std::string seen;
    for (auto &e : g.walk()) seen += e.path + (e.is_stream() ? "=" + std::to_string(e.info.len) : "") + " ";
    if (seen != "/ /s /s/x=6 ") return 2;
    try { g.get("/none"); return 3; } catch (const cfb::error &e) { if (e.number != CFB_NOT_FOUND) return 4; std::puts(e.what()); }
    try { cfb::file::open("/nowhere/x"); return 5; } catch (const cfb::error &e) { if (e.number != CFB_MEDIUM) return 6; std::puts(e.what()); }
    std::puts("ok");
    return 0;
}
