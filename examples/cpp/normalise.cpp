// Writes the normal form of a file to standard output.
//
//     c++ normalise.cpp $(pkg-config --cflags --libs mp4norm) -o normalise && ./normalise movie.mp4 > normal.mp4
#include <mp4norm.h>

#include <fstream>
#include <iostream>
#include <iterator>
#include <stdexcept>
#include <string>
#include <vector>

using Bytes = std::vector<char>;

// The normal form of what is left of a file without these words; each try has room for more.
Bytes normal_form(const Bytes &file, uint32_t words = 0) {
    for (Bytes form(2 * file.size() + 4096);; form.resize(2 * form.size())) {
        mp4norm_answer answer;
        mp4norm_normal_range(reinterpret_cast<const uint8_t *>(file.data()), file.size(), words, 0,
                             reinterpret_cast<uint8_t *>(form.data()), form.size(), &answer);
        if (answer.status != MP4NORM_DONE)
            throw std::runtime_error("status " + std::to_string(answer.status) + ", kind " +
                                     std::to_string(answer.kind) + " at " + std::to_string(answer.offset));
        if (answer.len < form.size()) return form.resize(answer.len), form;
    }
}

int main(int count, char **names) try {
    std::ifstream in(count > 1 ? names[1] : "", std::ios::binary);
    if (!in) throw std::runtime_error("no file can be read");
    Bytes file((std::istreambuf_iterator<char>(in)), std::istreambuf_iterator<char>());
    file.reserve(1);  // the pointer to no bytes is not null either
    const Bytes form = normal_form(file);
    std::cout.write(form.data(), static_cast<std::streamsize>(form.size()));
    return std::cout.flush() ? 0 : 3;
} catch (const std::exception &error) {
    std::cerr << error.what() << '\n';
    return 1;
}
