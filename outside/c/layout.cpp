// Compiled as C++17, not run: the headers with the layout that their assertions hold, and each call with the hub that it asks for, const where it only reads.
#include "copperyarn.h"
#include "copperyarn_bytes.h"

#include <type_traits>

static_assert(std::is_standard_layout<copperyarn_hub>::value && std::is_trivially_copyable<copperyarn_hub>::value, "a hub is plain bytes");
static_assert(std::is_invocable<decltype(copperyarn_is_pressed), const copperyarn_hub *, uint8_t, uint8_t>::value, "a query reads");
static_assert(!std::is_invocable<decltype(copperyarn_inc), const copperyarn_hub *>::value, "a call that changes the hub does not take a const one");
