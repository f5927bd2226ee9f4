// The locale "C", which is the only one that is there by a name, with the facets of char that streams and regular expressions take.
#include <clocale>
#include <cstring>
#include <locale>
#include <new>

namespace {

// Classes whose plain names are members of std::locale, too.
using Classes = std::ctype<char>;
using Collation = std::collate<char>;

using Conversion = std::codecvt<char, char, std::mbstate_t>;

constexpr std::size_t FACETS = 6;

// Room for the one object of a type that lasts, and that is never destroyed.
template <typename Type>
void *room() {
    alignas(Type) static unsigned char bytes[sizeof(Type)];
    return bytes;
}

} // namespace

namespace std {

const locale::id *const locale::_Impl::_S_id_ctype[] = {&Classes::id, &Conversion::id, nullptr};
const locale::id *const locale::_Impl::_S_id_numeric[] = {&num_get<char>::id, &num_put<char>::id, &numpunct<char>::id, nullptr};
const locale::id *const locale::_Impl::_S_id_collate[] = {&Collation::id, nullptr};
const locale::id *const locale::_Impl::_S_id_time[] = {nullptr};
const locale::id *const locale::_Impl::_S_id_monetary[] = {nullptr};
const locale::id *const locale::_Impl::_S_id_messages[] = {nullptr};
const locale::id *const *const locale::_Impl::_S_facet_categories[] = {
    _S_id_ctype, _S_id_numeric, _S_id_collate, _S_id_time, _S_id_monetary, _S_id_messages, nullptr};

// No facet has a twin for another kind of std::string, so that the functions that make one are never called.

const locale::id *const locale::_S_twinned_facets[] = {nullptr, nullptr};

const locale::facet *locale::facet::_M_sso_shim(const id *) const {
    return this;
}

const locale::facet *locale::facet::_M_cow_shim(const id *) const {
    return this;
}

locale::_Impl::_Impl(size_t references) throw()
    : _M_refcount(references), _M_facets(nullptr), _M_facets_size(FACETS), _M_caches(nullptr), _M_names(nullptr) {
    static const facet *facets[FACETS], *caches[FACETS];
    static char name[] = "C", *names[_S_categories_size] = {name};
    _M_facets = facets;
    _M_caches = caches;
    _M_names = names;
    auto *numbers = new (room<__numpunct_cache<char>>()) __numpunct_cache<char>(2);
    _M_init_facet(new (room<Classes>()) Classes(nullptr, false, 1));
    _M_init_facet(new (room<Conversion>()) Conversion(1));
    _M_init_facet(new (room<numpunct<char>>()) numpunct<char>(numbers, 1));
    _M_init_facet(new (room<num_get<char>>()) num_get<char>(1));
    _M_init_facet(new (room<num_put<char>>()) num_put<char>(1));
    _M_init_facet(new (room<Collation>()) Collation(1));
    _M_caches[numpunct<char>::id._M_id()] = numbers;
}

void locale::_S_initialize_once() throw() {
    _S_global = _S_classic = new (room<_Impl>()) _Impl(2); // for the classic locale, and for the global one
}

void locale::_S_initialize() {
    if (!_S_classic)
        _S_initialize_once();
}

const locale &locale::classic() {
    static const locale *const made = [] { _S_initialize(); return new (room<locale>()) locale(_S_classic); }();
    return *made;
}

locale::locale() throw() : _M_impl(nullptr) {
    _S_initialize();
    _M_impl = _S_global;
    if (_M_impl != _S_classic)
        _M_impl->_M_add_reference();
}

locale::locale(const char *name) : _M_impl(nullptr) {
    if (!name)
        __throw_logic_error("locale::locale null not valid");
    if (strcmp(name, "") != 0 && strcmp(name, "C") != 0 && strcmp(name, "POSIX") != 0)
        __throw_runtime_error("locale::facet::_S_create_c_locale name not valid");
    _S_initialize();
    _M_impl = _S_classic;
}

locale locale::global(const locale &other) {
    _S_initialize();
    _Impl *before = _S_global;
    if (other._M_impl != _S_classic)
        other._M_impl->_M_add_reference();
    _S_global = other._M_impl;
    return locale(before);
}

} // namespace std
