// simdutf, as Debian's libnode.so.108 exports it. Debian 12 has no header of it, so the few declarations are here. It converts
// whole texts, so each call is given a text that ends with a whole character. It uses the processor's best instructions.
#include "peer.h"
#include <cstring>

namespace simdutf {
bool validate_utf8(const char *, size_t) noexcept;
bool validate_utf16le(const char16_t *, size_t) noexcept;
bool validate_utf16be(const char16_t *, size_t) noexcept;
void change_endianness_utf16(const char16_t *, size_t, char16_t *) noexcept;
size_t trim_partial_utf8(const char *, size_t);
size_t trim_partial_utf16le(const char16_t *, size_t);
size_t trim_partial_utf16be(const char16_t *, size_t);
size_t convert_utf8_to_utf16le(const char *, size_t, char16_t *) noexcept;
size_t convert_utf8_to_utf16be(const char *, size_t, char16_t *) noexcept;
size_t convert_utf8_to_utf32(const char *, size_t, char32_t *) noexcept;
size_t convert_utf8_to_latin1(const char *, size_t, char *) noexcept;
size_t convert_latin1_to_utf8(const char *, size_t, char *) noexcept;
size_t convert_latin1_to_utf16le(const char *, size_t, char16_t *) noexcept;
size_t convert_utf16le_to_utf8(const char16_t *, size_t, char *) noexcept;
size_t convert_utf16be_to_utf8(const char16_t *, size_t, char *) noexcept;
size_t convert_utf16le_to_latin1(const char16_t *, size_t, char *) noexcept;
size_t convert_utf16le_to_utf32(const char16_t *, size_t, char32_t *) noexcept;
size_t convert_utf32_to_utf16le(const char32_t *, size_t, char16_t *) noexcept;
size_t convert_utf32_to_utf8(const char32_t *, size_t, char *) noexcept;
}

namespace {

// One conversion: the length of the prefix of whole characters, and the converter, which returns how many bytes it wrote.
struct Conversion {
    const char *to, *from;
    size_t (*whole)(const char *, size_t);
    size_t (*convert)(const char *, size_t, char *);
};

size_t whole_bytes(const char *, size_t length) { return length; }
size_t whole_utf8(const char *text, size_t length) { return simdutf::trim_partial_utf8(text, length); }
size_t whole_utf32(const char *, size_t length) { return length / 4 * 4; }

size_t whole_utf16(const char *text, size_t length)
{
    return 2 * simdutf::trim_partial_utf16le(reinterpret_cast<const char16_t *>(text), length / 2);
}

size_t whole_utf16be(const char *text, size_t length)
{
    return 2 * simdutf::trim_partial_utf16be(reinterpret_cast<const char16_t *>(text), length / 2);
}

// The other byte order, of a text that is well-formed.
template <bool (*validate)(const char16_t *, size_t) noexcept>
size_t swapped(const char *text, size_t length, char *out)
{
    const auto *units = reinterpret_cast<const char16_t *>(text);
    if (!validate(units, length / 2))
        return 0;
    simdutf::change_endianness_utf16(units, length / 2, reinterpret_cast<char16_t *>(out));
    return length;
}

size_t copy_utf8(const char *text, size_t length, char *out)
{
    if (!simdutf::validate_utf8(text, length))
        return 0;
    std::memcpy(out, text, length);
    return length;
}

// A call between units of any two sizes, in bytes.
template <typename From, typename To, size_t (*call)(const From *, size_t, To *) noexcept>
size_t bytes(const char *text, size_t length, char *out)
{
    return sizeof(To) * call(reinterpret_cast<const From *>(text), length / sizeof(From), reinterpret_cast<To *>(out));
}

const Conversion CONVERSIONS[] = {
    {"UTF-8", "UTF-8", whole_utf8, copy_utf8},
    {"UTF-16LE", "UTF-8", whole_utf8, bytes<char, char16_t, simdutf::convert_utf8_to_utf16le>},
    {"UTF-16BE", "UTF-8", whole_utf8, bytes<char, char16_t, simdutf::convert_utf8_to_utf16be>},
    {"UTF-32LE", "UTF-8", whole_utf8, bytes<char, char32_t, simdutf::convert_utf8_to_utf32>},
    {"ISO-8859-1", "UTF-8", whole_utf8, bytes<char, char, simdutf::convert_utf8_to_latin1>},
    {"UTF-8", "ISO-8859-1", whole_bytes, bytes<char, char, simdutf::convert_latin1_to_utf8>},
    {"UTF-16LE", "ISO-8859-1", whole_bytes, bytes<char, char16_t, simdutf::convert_latin1_to_utf16le>},
    {"UTF-8", "UTF-16LE", whole_utf16, bytes<char16_t, char, simdutf::convert_utf16le_to_utf8>},
    {"UTF-8", "UTF-16BE", whole_utf16be, bytes<char16_t, char, simdutf::convert_utf16be_to_utf8>},
    {"UTF-16BE", "UTF-16LE", whole_utf16, swapped<simdutf::validate_utf16le>},
    {"UTF-16LE", "UTF-16BE", whole_utf16be, swapped<simdutf::validate_utf16be>},
    {"UTF-32LE", "UTF-16LE", whole_utf16, bytes<char16_t, char32_t, simdutf::convert_utf16le_to_utf32>},
    {"UTF-16LE", "UTF-32LE", whole_utf32, bytes<char32_t, char16_t, simdutf::convert_utf32_to_utf16le>},
    {"ISO-8859-1", "UTF-16LE", whole_utf16, bytes<char16_t, char, simdutf::convert_utf16le_to_latin1>},
    {"UTF-8", "UTF-32LE", whole_utf32, bytes<char32_t, char, simdutf::convert_utf32_to_utf8>},
};

}

const char *peer_version()
{
    return "simdutf 5.2 of libnode108";
}

void *peer_open(const char *to, const char *from)
{
    for (const Conversion &conversion : CONVERSIONS)
        if (std::strcmp(conversion.to, to) == 0 && std::strcmp(conversion.from, from) == 0)
            return const_cast<Conversion *>(&conversion);
    return nullptr;
}

size_t peer_convert(void *peer, const char *text, size_t length, char *out, size_t, size_t *written)
{
    const auto *conversion = static_cast<const Conversion *>(peer);
    size_t used = conversion->whole(text, length), wrote = conversion->convert(text, used, out);
    *written += wrote;
    return wrote > 0 ? used : 0;
}

void peer_close(void *) {}
