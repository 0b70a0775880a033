// A program and a shared object, built of this text with hidden symbols (-DSHARED_OBJECT), have one default domain.
#include <robiniagolf/rcu.hpp>

extern "C" [[gnu::visibility("default")]] const void* domain_of_shared_object() noexcept;

#ifdef SHARED_OBJECT
const void* domain_of_shared_object() noexcept { return &robiniagolf::rcu_default_domain(); }
#else
int main() { return domain_of_shared_object() == &robiniagolf::rcu_default_domain() ? 0 : 1; }
#endif
