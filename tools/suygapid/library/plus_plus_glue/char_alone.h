// What libstdc++'s streams are compiled with: those of char alone.
#include <bits/c++config.h>
#undef _GLIBCXX_USE_WCHAR_T
