// A file of a program of several files: its own header, and those of the C++ library.
#include "words.h"

#include <algorithm>
#include <cassert>
#include <cstdlib>
#include <cstring>
#include <sstream>
#include <string>
#include <vector>

size_t words_of(const char *text, char *words[MOST])
{
    std::istringstream stream(text);
    std::vector<std::string> all;

    for (std::string word; stream >> word;)
        all.push_back(word);
    assert(all.size() <= MOST);
    std::sort(all.begin(), all.end());
    for (size_t k = 0; k < all.size(); k++) {
        words[k] = static_cast<char *>(std::malloc(all[k].size() + 1));
        assert(words[k] != nullptr);
        std::strcpy(words[k], all[k].c_str());
    }
    return all.size();
}
