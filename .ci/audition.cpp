// Prints, from C++, what the desk prints for standard input.
#include <hallanupp.h>

#include <iostream>
#include <iterator>
#include <vector>

int main()
{
    const std::vector<char> read((std::istreambuf_iterator<char>(std::cin)), std::istreambuf_iterator<char>());
    const std::vector<uint8_t> input(read.begin(), read.end());
    std::vector<uint8_t> text(HALLANUPP_TEXT_ROOM);
    const size_t length = hallanupp_desk_text(input.data(), input.size(), text.data(), text.size());
    std::cout.write(reinterpret_cast<const char *>(text.data()), static_cast<std::streamsize>(length));
}
