/* smap for C++17: owners of the handles of smap.h, which free them, and its texts as std::string_view. All else is called as smap.h says:
 * an owner gives the handle to its calls, and knows by their status whether it is full.
 *
 *     smap::map map;
 *     smap_refusal why{};
 *     map.fill([&](smap_map *to) { return smap_map_read(bytes, length, base, 0, 64, to, &why); }, why.code);
 *     smap_found found{};
 *     smap_look_up(map.get(), 64, 79, &found);
 *
 * An owner may be moved, also to another thread, and not copied: smap_map_share makes another owner of the same map. */
#ifndef SMAP_HPP
#define SMAP_HPP

#include <smap.h>

#include <new>
#include <stdexcept>
#include <string>
#include <string_view>
#include <utility>

namespace smap {

/* A text that is lent, as long as smap_text says. */
inline std::string_view view(const smap_text &text) noexcept {
    return {reinterpret_cast<const char *>(text.bytes), text.length};
}

/* The bytes of a text, for a call. */
inline const uint8_t *bytes(std::string_view text) noexcept {
    return reinterpret_cast<const uint8_t *>(text.empty() ? "" : text.data());
}

/* What was given is refused: `what` is the program's text of the code, as "M2 NotJson". */
class refused : public std::runtime_error {
public:
    explicit refused(smap_code code) : std::runtime_error(text_of(code)), code_(code) {}
    smap_code code() const noexcept { return code_; }

private:
    static std::string text_of(smap_code code) {
        smap_text text = SMAP_TEXT;
        return smap_code_text(code, &text) == SMAP_DONE ? std::string(view(text)) : std::string("refused");
    }
    smap_code code_;
};

/* Gives a status back, where there was enough memory, and throws std::bad_alloc where not. */
inline uint32_t with_memory(uint32_t status) {
    if (status == SMAP_NO_MEMORY) throw std::bad_alloc();
    return status;
}

/* A handle of its own, full or empty. */
template <typename Handle, void (*free_handle)(Handle *)>
class owner {
public:
    owner() noexcept = default;
    owner(owner &&other) noexcept : handle_(other.handle_), full_(std::exchange(other.full_, false)) {}
    owner &operator=(owner &&other) noexcept {
        if (this != &other) {
            reset();
            handle_ = other.handle_;
            full_ = std::exchange(other.full_, false);
        }
        return *this;
    }
    ~owner() { reset(); }

    /* Whether the handle is full. */
    explicit operator bool() const noexcept { return full_; }

    /* The handle, for calls that want it full and leave it so. */
    Handle *get() noexcept { return &handle_; }
    const Handle *get() const noexcept { return &handle_; }

    /* Frees what it holds. */
    void reset() noexcept {
        if (std::exchange(full_, false)) free_handle(&handle_);
    }

    /* Has a call fill the handle, which is emptied before, and gives its status: 0, 1 or 2. Throws std::bad_alloc. */
    template <typename Call>
    uint32_t fill(Call &&call) {
        reset();
        const uint32_t status = call(&handle_);
        full_ = status == SMAP_DONE;
        return with_memory(status);
    }

    /* The same, and throws `refused` with the code that the call has written, where it refuses. */
    template <typename Call>
    void fill(Call &&call, const smap_code &code) {
        if (fill(std::forward<Call>(call)) != SMAP_DONE) throw refused(code);
    }

    /* Has smap_table_add or smap_inners_put take the handle over, and gives its status: after 1 the handle is as it was, and else what
     * it held is the table's or the place's, or was freed. Throws std::bad_alloc. */
    template <typename Call>
    uint32_t hand_over(Call &&call) {
        const uint32_t status = call(&handle_);
        full_ = status == SMAP_REFUSED;
        return with_memory(status);
    }

private:
    Handle handle_{};
    bool full_ = false;
};

using map = owner<smap_map, smap_map_free>;
using table = owner<smap_table, smap_table_free>;
using store = owner<smap_store, smap_store_free>;
using rewriting = owner<smap_rewriting, smap_rewriting_free>;
using inners = owner<smap_inners, smap_inners_free>;
using originals = owner<smap_originals, smap_originals_free>;
using names = owner<smap_names, smap_names_free>;
using url_finder = owner<smap_url_finder, smap_url_finder_free>;
using byte_text = owner<smap_bytes, smap_bytes_free>;

/* Has smap_map_read_with_id fill `to`, and `id` where the map has a debug id, and gives its status. */
inline uint32_t read_with_id(std::string_view text, std::string_view base, uint32_t interval, uint64_t most_names, map &to, byte_text &id,
                             smap_refusal &why) {
    return to.fill([&](smap_map *handle) {
        uint32_t status = SMAP_DONE, has_id = 0;
        id.fill([&](smap_bytes *handed_out) {
            status = smap_map_read_with_id(bytes(text), text.size(), bytes(base), base.size(), interval, most_names, handle, handed_out,
                                           &has_id, &why);
            return has_id ? SMAP_DONE : SMAP_REFUSED;
        });
        return status;
    });
}

/* What handed out bytes are, as long as their owner holds them. */
inline std::string_view view(byte_text &handed_out) noexcept {
    smap_text text = SMAP_TEXT;
    smap_bytes_text(handed_out.get(), &text);
    return view(text);
}

}  // namespace smap

#endif
