// The same driver, tested in C++.
#include <cstdint>
#include <cstdlib>
#include <exception>
#include <iostream>
#include <stdexcept>
#include <string>
#include <vector>

#include "board.h"
#include "flash.h"
#include "yawlspar.h"

namespace {

void expect(bool holds, const std::string &what)
{
    if (!holds)
        throw std::runtime_error(what);
}

std::vector<std::uint8_t> read(std::uint32_t address, std::size_t length)
{
    std::vector<std::uint8_t> bytes(length);

    flash_read(address, bytes.data(), bytes.size());
    return bytes;
}

void write_a_table()
{
    std::vector<std::uint8_t> table;
    unsigned programs = 0;

    for (unsigned i = 0; i < 1000; i++)
        table.push_back(static_cast<std::uint8_t>(7 * i + 3));
    expect(flash_erase_sector(0x010000) == FLASH_DONE, "the erase of sector 010000h");
    expect(flash_write(0x010080, table.data(), table.size(), &programs) == FLASH_DONE, "the write at 010080h");
    expect(read(0x010080, table.size()) == table, "the table read back");
    std::cout << "C++: " << table.size() << " bytes at 010080h: " << programs << " programs, read back\n";
    expect(programs == 5, "five pages are five programs");
    expect(board_ignored() == 0, "the driver sends nothing that the part ignores");
}

// Status 1Ch protects all of the blocks.
void write_where_it_is_protected()
{
    expect(flash_write_status(0x1C) == FLASH_DONE, "the write of the status");
    expect(flash_erase_sector(0x010000) == FLASH_REFUSED, "an erase that is refused");
    std::cout << "C++: an erase under protection is refused, number " << board_ignored_why() << "\n";
    expect(board_ignored() == 1 && board_ignored_why() == YAWLSPAR_PROTECTED, "28: protected");
    expect(read(0x010080, 1).at(0) == 3, "nothing was erased");
    expect(flash_read_status() == 0x1C, "the part is neither busy nor write-enabled");
}

} // namespace

int main()
{
    try {
        board_new_part(0x00);
        write_a_table();
        write_where_it_is_protected();
    } catch (const std::exception &wrong) {
        std::cout << "WRONG: " << wrong.what() << "\n";
        return EXIT_FAILURE;
    }
    std::cout << "C++: all is as it should be\n";
    return EXIT_SUCCESS;
}
