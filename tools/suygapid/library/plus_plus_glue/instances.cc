// The facets of char that streams and regular expressions take, the functions that find these, and streams' buffers over C's files.
#include <ext/stdio_filebuf.h>
#include <ext/stdio_sync_filebuf.h>
#include <locale>

namespace std {

template class __codecvt_abstract_base<char, char, mbstate_t>;
template class numpunct<char>;
template class num_get<char>;
template class num_put<char>;
template class collate<char>;

#define FOUND(facet) \
    template const facet &use_facet<facet>(const locale &); \
    template bool has_facet<facet>(const locale &);

FOUND(ctype<char>)
FOUND(numpunct<char>)
FOUND(num_get<char>)
FOUND(num_put<char>)
FOUND(collate<char>)

// In locale_facets.cc, which has the next for another kind of std::string.
bool __verify_grouping_impl(const char *grouping, size_t grouping_size, const char *found, size_t found_size);

bool __verify_grouping(const char *grouping, size_t grouping_size, const string &found) throw() {
    return __verify_grouping_impl(grouping, grouping_size, found.data(), found.size());
}

template const codecvt<char, char, mbstate_t> &use_facet<codecvt<char, char, mbstate_t>>(const locale &);
template bool has_facet<codecvt<char, char, mbstate_t>>(const locale &);

} // namespace std

namespace __gnu_cxx {

template class stdio_filebuf<char>;
template class stdio_sync_filebuf<char>;

} // namespace __gnu_cxx
