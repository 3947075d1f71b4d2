// A first use from C++: lists a compound file, adds a line to its stream Site/log, and prints the end of it: first FILE.
#include <cstddef>
#include <cstdint>
#include <cstdlib>
#include <fstream>
#include <iostream>
#include <iterator>
#include <stdexcept>
#include <string>
#include <vector>

#include "cfb.h"

namespace {

// What every call is given: the whole file, and a work buffer that may hold anything.
struct File {
    std::vector<std::uint8_t> image;
    std::vector<std::uint32_t> work;
};

void expect_done(const char *call, std::uint32_t answer) {
    if (answer != CFB_DONE)
        throw std::runtime_error(std::string(call) + ": refused " + std::to_string(answer));
}

File read_file(const char *name) {
    std::ifstream stream(name, std::ios::binary);
    if (!stream)
        throw std::runtime_error(std::string(name) + ": cannot be opened");
    File file;
    file.image.assign(std::istreambuf_iterator<char>(stream), std::istreambuf_iterator<char>());
    if (stream.bad())
        throw std::runtime_error(std::string(name) + ": cannot be read");
    file.image.reserve(1); // no pointer may be null, also that of no bytes
    file.work.resize(CFB_WORK_NEED(file.image.size()) + 1);
    return file;
}

// A path in the units that the calls take, without a zero behind them.
std::vector<std::uint16_t> units(const std::u16string &path) {
    return {path.begin(), path.end()};
}

// The listing, in an out buffer that is made longer until it fits.
std::string listing(File &file) {
    for (std::vector<std::uint8_t> out(1024);; out.resize(2 * out.size())) {
        std::uint64_t count;
        const std::uint32_t answer = cfb_list(file.image.data(), file.image.size(), file.work.data(), file.work.size(),
                                              out.data(), out.size(), &count);
        if (answer == CFB_DONE)
            return {out.begin(), out.begin() + static_cast<std::ptrdiff_t>(count)};
        if (answer != CFB_OUT_TOO_SHORT || out.size() >= CFB_GREATEST_IMAGE)
            expect_done("list", answer);
    }
}

std::uint64_t length_of(File &file, const std::vector<std::uint16_t> &path) {
    std::uint32_t entry, type;
    std::uint64_t size;
    expect_done("find", cfb_find(file.image.data(), file.image.size(), file.work.data(), file.work.size(), path.data(),
                                 path.size(), &entry, &type, &size));
    return size;
}

// Adds text at the end of a stream.
void append(File &file, const std::vector<std::uint16_t> &path, const std::string &text) {
    const std::vector<std::uint8_t> bytes(text.begin(), text.end());
    const std::uint64_t end = length_of(file, path);
    expect_done("set_len", cfb_set_len(file.image.data(), file.image.size(), file.work.data(), file.work.size(), path.data(),
                                       path.size(), end + bytes.size()));
    expect_done("overwrite", cfb_overwrite(file.image.data(), file.image.size(), file.work.data(), file.work.size(),
                                           path.data(), path.size(), end, bytes.data(), bytes.size()));
}

// The bytes of a stream from an offset on.
std::string read_from(File &file, const std::vector<std::uint16_t> &path, std::uint64_t offset) {
    std::vector<std::uint8_t> out(static_cast<std::size_t>(length_of(file, path) - offset) + 1);
    std::uint64_t count;
    expect_done("read", cfb_read(file.image.data(), file.image.size(), file.work.data(), file.work.size(), path.data(),
                                 path.size(), offset, out.data(), out.size(), &count));
    return {out.begin(), out.begin() + static_cast<std::ptrdiff_t>(count)};
}

} // namespace

int main(int argc, char **argv) {
    if (argc != 2) {
        std::cerr << "usage: first FILE\n";
        return EXIT_FAILURE;
    }
    try {
        File file = read_file(argv[1]);
        std::cout << listing(file);
        const std::vector<std::uint16_t> log = units(u"Site/log");
        const std::uint64_t before = length_of(file, log);
        append(file, log, "end\n");
        std::cout << before << " bytes, then " << length_of(file, log) << ":\n"
                  << read_from(file, log, before < 25 ? 0 : before - 25);
    } catch (const std::exception &error) {
        std::cerr << error.what() << '\n';
        return EXIT_FAILURE;
    }
    return EXIT_SUCCESS;
}
