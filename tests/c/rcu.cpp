// <robiniagolf/rcu.hpp> on one thread: what the compiler knows of each member, every deleter, memory refused.
//
// Each run of deleters ends at rcu_barrier, after which all that was retired has been reclaimed.
#include "checks.hpp"

#include <cstdint>
#include <functional>
#include <memory>
#include <mutex>
#include <new>
#include <string>
#include <type_traits>
#include <utility>
#include <vector>

using robiniagolf::rcu_barrier;
using robiniagolf::rcu_default_domain;
using robiniagolf::rcu_domain;
using robiniagolf::rcu_obj_base;
using robiniagolf::rcu_retire;
using robiniagolf::rcu_synchronize;

namespace {

using checks::counted;
using counter = std::atomic<int>;

// [saferecl.rcu.base], as the compiler sees it.

struct plain : rcu_obj_base<plain> {
    int value = 0;
};
struct bare : rcu_obj_base<bare> {};
struct last final : rcu_obj_base<last> {};
struct by_function : rcu_obj_base<by_function, void (*)(by_function*)> {};

template <class T>
struct final_deleter final {
    void operator()(T* object) const { delete object; }
};
struct by_final : rcu_obj_base<by_final, final_deleter<by_final>> {};
struct by_std_function : rcu_obj_base<by_std_function, std::function<void(by_std_function*)>> {};

// T is not complete where the base is named.
class incomplete;
struct holder {
    rcu_obj_base<incomplete>* base = nullptr;
};

static_assert(std::is_same_v<rcu_obj_base<plain>, rcu_obj_base<plain, std::default_delete<plain>>>);
static_assert(std::is_same_v<decltype(&plain::retire),
                             void (rcu_obj_base<plain>::*)(std::default_delete<plain>, rcu_domain&) noexcept>);
static_assert(noexcept(std::declval<plain&>().retire()));
static_assert(!std::is_default_constructible_v<rcu_obj_base<plain>>);
static_assert(!std::is_copy_constructible_v<rcu_obj_base<plain>>);
static_assert(!std::is_destructible_v<rcu_obj_base<plain>>);
static_assert(std::is_copy_constructible_v<plain> && std::is_copy_assignable_v<plain>);
static_assert(std::is_trivially_copyable_v<rcu_obj_base<plain>> && std::is_trivially_copyable_v<plain>);
static_assert(std::is_trivially_copyable_v<by_function>);
static_assert(!std::is_trivially_copyable_v<by_std_function>);
static_assert(sizeof(bare) == sizeof(robiniagolf_head));
static_assert(sizeof(last) == sizeof(robiniagolf_head));
static_assert(sizeof(by_final) == sizeof(robiniagolf_head));
static_assert(sizeof(by_function) == sizeof(robiniagolf_head) + sizeof(void*));

// [saferecl.rcu.domain] and [saferecl.rcu.domain.func].

static_assert(!std::is_default_constructible_v<rcu_domain>);
static_assert(!std::is_copy_constructible_v<rcu_domain> && !std::is_copy_assignable_v<rcu_domain>);
static_assert(!std::is_move_constructible_v<rcu_domain> && !std::is_move_assignable_v<rcu_domain>);
static_assert(std::is_same_v<decltype(&rcu_domain::lock), void (rcu_domain::*)() noexcept>);
static_assert(std::is_same_v<decltype(&rcu_domain::try_lock), bool (rcu_domain::*)() noexcept>);
static_assert(std::is_same_v<decltype(&rcu_domain::unlock), void (rcu_domain::*)() noexcept>);
static_assert(std::is_same_v<decltype(&rcu_default_domain), rcu_domain& (*)() noexcept>);
static_assert(std::is_same_v<decltype(&rcu_synchronize), void (*)(rcu_domain&) noexcept>);
static_assert(std::is_same_v<decltype(&rcu_barrier), void (*)(rcu_domain&) noexcept>);
static_assert(noexcept(rcu_synchronize()) && noexcept(rcu_barrier()));
static_assert(std::is_same_v<decltype(&rcu_retire<int>), void (*)(int*, std::default_delete<int>, rcu_domain&)>);
static_assert(!noexcept(rcu_retire(std::declval<int*>())));

// [saferecl.rcu.domain.func]: the same object every time, in each translation unit.
void there_is_one_default_domain() {
    rcu_domain* const domain = &rcu_default_domain();
    CHECK(domain == &rcu_default_domain());
    CHECK(domain == checks::domain_of_threads());
}

// [thread.req.lockable]: each lock of the standard library takes the domain.
void the_domain_is_lockable() {
    rcu_domain& domain = rcu_default_domain();
    std::mutex other;
    {
        std::scoped_lock<rcu_domain> region(domain);
        std::lock_guard<rcu_domain> inner(domain);
        std::scoped_lock both(other, domain);
        CHECK(domain.try_lock());
        domain.unlock();
    }
    std::unique_lock<rcu_domain> later(domain, std::defer_lock);
    CHECK(!later.owns_lock());
    later.lock();
    std::unique_lock<rcu_domain> moved(std::move(later));
    CHECK(moved.owns_lock() && moved.mutex() == &domain);
    moved.unlock();
    CHECK(moved.try_lock());
    std::unique_lock<rcu_domain> tried(domain, std::try_to_lock);
    CHECK(tried.owns_lock());
    tried.unlock();
    moved.unlock();
    std::unique_lock<std::mutex> first(other, std::defer_lock);
    CHECK(std::try_lock(first, domain) == -1);
    domain.unlock();
    first.unlock();
    std::lock(domain, first);
    domain.unlock();
    rcu_synchronize(domain);
    rcu_synchronize();
}

// Deleters of rcu_obj_base.

struct simple : rcu_obj_base<simple>, counted {
    using counted::counted;
};

void an_object_is_retired_by_default() {
    counter destroyed{0};
    auto* const object = new simple(destroyed);
    const unsigned long before = checks::requests();
    object->retire();
    CHECK(checks::requests() == before);
    (new simple(destroyed))->retire({}, rcu_default_domain());
    rcu_barrier(rcu_default_domain());
    CHECK(destroyed == 2);
}

struct pointed : rcu_obj_base<pointed, void (*)(pointed*)>, counted {
    using counted::counted;
};

void a_function_deletes() {
    counter destroyed{0};
    (new pointed(destroyed))->retire([](pointed* object) { delete object; });
    rcu_barrier();
    CHECK(destroyed == 1);
}

struct wrapped : rcu_obj_base<wrapped, std::function<void(wrapped*)>>, counted {
    using counted::counted;
};

void a_std_function_deletes() {
    counter destroyed{0};
    const std::string text(100, 'x');
    std::atomic<std::size_t> length{0};
    (new wrapped(destroyed))->retire([text, &length](wrapped* object) {
        delete object;
        length = text.size();
    });
    rcu_barrier();
    CHECK(destroyed == 1 && length == text.size());
}

// Uses its state after it has destroyed the object that it lay in. It can only be moved.
struct moved_deleter {
    std::unique_ptr<counter*> told;
    template <class T>
    void operator()(T* object) {
        delete object;
        ++**told;
    }
};
struct by_moved : rcu_obj_base<by_moved, moved_deleter>, counted {
    using counted::counted;
};
static_assert(!std::is_copy_constructible_v<by_moved>);

void a_deleter_has_state_and_only_moves() {
    counter destroyed{0}, told{0};
    (new by_moved(destroyed))->retire(moved_deleter{std::make_unique<counter*>(&told)});
    rcu_retire(new counted(destroyed), moved_deleter{std::make_unique<counter*>(&told)});
    rcu_barrier();
    CHECK(destroyed == 2 && told == 2);
}

// Cpp17DefaultConstructible and Cpp17MoveAssignable, and no more.
struct assigned_deleter {
    assigned_deleter() = default;
    explicit assigned_deleter(counter& count) : told(&count) {}
    assigned_deleter(assigned_deleter&&) = delete;
    assigned_deleter& operator=(assigned_deleter&&) = default;
    ~assigned_deleter() = default;
    template <class T>
    void operator()(T* object) {
        counter* const count = told;
        delete object;
        ++*count;
    }
    counter* told = nullptr;
};
struct by_assigned : rcu_obj_base<by_assigned, assigned_deleter>, counted {
    using counted::counted;
};

void a_deleter_is_only_assigned() {
    counter destroyed{0}, told{0};
    (new by_assigned(destroyed))->retire(assigned_deleter(told));
    rcu_barrier();
    CHECK(destroyed == 1 && told == 1);
}

// Its last bytes are padding, into which a member of the object may be laid.
class padded_deleter {
public:
    padded_deleter() = default;
    explicit padded_deleter(counter& count) : told(&count), step(3) {}
    template <class T>
    void operator()(T* object) const {
        CHECK(object->neighbour == 'n');
        delete object;
        *told += step;
    }

private:
    counter* told = nullptr;
    char step = 0;
};
struct by_padded : rcu_obj_base<by_padded, padded_deleter> {
    char neighbour = 'n';
};

struct alignas(64) aligned_deleter {
    std::shared_ptr<counter*> told;
    template <class T>
    void operator()(T* object) const {
        CHECK(reinterpret_cast<std::uintptr_t>(this) % 64 == 0);
        delete object;
        ++**told;
    }
};
struct by_aligned : rcu_obj_base<by_aligned, aligned_deleter> {};

void layout_is_kept() {
    counter told{0};
    auto* const object = new by_padded;
    object->retire(padded_deleter(told));
    const auto shared = std::make_shared<counter*>(&told);
    (new by_aligned)->retire(aligned_deleter{shared});
    rcu_retire(new int(1), aligned_deleter{shared});
    rcu_barrier();
    CHECK(told == 5);
}

// The base is not the first, T has a virtual table and an operator &, and a class derives from T.
struct front {
    virtual ~front() = default;
    std::int64_t head = 7;     // names that a base of the library must not make ambiguous
    front* next = nullptr;
    int deleter = 0;
};
struct middle : front, rcu_obj_base<middle>, counted {
    using counted::counted;
    middle* operator&() = delete;
    bool is_whole() const { return head == 7 && next == nullptr && deleter == 0; }
};
struct derived : middle {
    using middle::middle;
    std::string text = std::string(50, 'd');
};
// T may have a virtual base, and may derive from the base by way of another class.
struct rooted : virtual front, rcu_obj_base<rooted>, counted {
    using counted::counted;
};
struct below;
struct above : rcu_obj_base<below> {};
struct below : front, above, counted {
    using counted::counted;
};
struct witness {
    std::atomic<const void*>* seen = nullptr;
    template <class T>
    void operator()(T* object) const {
        *seen = object;
        delete object;
    }
};
struct witnessed : front, rcu_obj_base<witnessed, witness> {};

void the_base_is_not_the_first() {
    counter destroyed{0};
    std::atomic<const void*> seen{nullptr};
    auto* const object = new witnessed;
    const void* const address = object;
    object->retire(witness{&seen});
    auto* const of_middle = new middle(destroyed);
    CHECK(of_middle->is_whole());
    of_middle->retire();
    (new derived(destroyed))->retire();
    (new rooted(destroyed))->retire();
    (new below(destroyed))->retire();
    rcu_barrier();
    CHECK(seen == address && destroyed == 4);
}

// A copy may be retired like any other object, also if the original was.
void copies_are_objects_of_their_own() {
    counter destroyed{0};
    auto* const original = new simple(destroyed);
    auto* const before = new simple(*original);
    {
        std::scoped_lock region(rcu_default_domain());
        before->retire();
        auto* const after = new simple(destroyed);
        *after = *original;
        original->retire();
        after->retire();
        CHECK(destroyed == 0);
    }
    rcu_barrier();
    CHECK(destroyed == 3);
}

// Deleters that call the library.

struct chain : rcu_obj_base<chain, void (*)(chain*)>, counted {
    using counted::counted;
    chain* below = nullptr;
};

void delete_chain(chain* object) {
    if (object->below != nullptr) {
        object->below->retire(delete_chain);
    }
    delete object;
}

void a_deleter_retires() {
    counter destroyed{0};
    constexpr int length = 20;
    chain* top = nullptr;
    for (int link = 0; link < length; link++) {
        auto* const object = new chain(destroyed);
        object->below = std::exchange(top, object);
    }
    top->retire(delete_chain);
    for (int link = 0; link < length; link++) {
        rcu_barrier(); // waits for what was scheduled before, and so for one more of the chain
        CHECK(destroyed > link);
    }
    CHECK(destroyed == length);
}

void a_deleter_reads_waits_and_retires() {
    counter destroyed{0};
    rcu_retire(new counted(destroyed), [](counted* object) {
        {
            std::scoped_lock region(rcu_default_domain());
            CHECK(*object->destroyed == 0);
        }
        rcu_synchronize();
        rcu_retire(object);
    });
    rcu_barrier();
    rcu_barrier();
    CHECK(destroyed == 1);
}

// Its storage is used again by the next object.
struct pooled;
struct pool {
    std::mutex lock;
    std::vector<void*> free;
};
struct back_to_pool {
    pool* from = nullptr;
    void operator()(pooled* object) const;
};
struct pooled : rcu_obj_base<pooled, back_to_pool>, counted {
    using counted::counted;
};
void back_to_pool::operator()(pooled* object) const {
    object->~pooled();
    std::scoped_lock guard(from->lock);
    from->free.push_back(object);
}

void storage_is_used_again() {
    pool store;
    counter destroyed{0};
    void* const storage = ::operator new(sizeof(pooled));
    store.free.push_back(storage);
    for (int round = 0; round < 10; round++) {
        CHECK(store.free.size() == 1 && store.free[0] == storage);
        auto* const object = new (store.free[0]) pooled(destroyed);
        store.free.clear();
        object->retire(back_to_pool{&store});
        rcu_barrier();
    }
    CHECK(destroyed == 10);
    ::operator delete(storage);
}

// [saferecl.rcu.domain.func]: rcu_retire, of any type and deleter.

void any_type_is_retired() {
    counter told{0};
    rcu_retire(new int(1));
    rcu_retire(new const std::string(40, 's'));
    rcu_retire(new int[4], std::default_delete<int[]>());
    rcu_retire(new simple(told));
    rcu_retire(static_cast<void*>(new char), [&told](void* object) {
        delete static_cast<char*>(object);
        told++;
    });
    rcu_retire(new std::string, [&told](std::string*& lvalue) { // d1(p), where p is an lvalue
        delete std::exchange(lvalue, nullptr);
        told++;
    });
    rcu_retire<front>(new witnessed);
    const auto tell = [&told](int* none) { told += none == nullptr ? 1 : 0; };
    rcu_retire(static_cast<int*>(nullptr), tell, rcu_default_domain());
    rcu_barrier();
    CHECK(told == 4);
}

// Where rcu_retire throws, nothing was scheduled: the object is still the caller's.
void refused_memory_retires_nothing() {
    counter destroyed{0};
    std::unique_ptr<counted> object(new counted(destroyed));
    bool refused = false;
    checks::refuse_memory(true);
    try {
        rcu_retire(object.get());
    } catch (const std::bad_alloc&) {
        refused = true;
    }
    checks::refuse_memory(false);
    rcu_barrier();
    CHECK(refused && destroyed == 0);
    const unsigned long before = checks::requests();
    rcu_retire(object.release());
    CHECK(checks::requests() == before + 1);
    rcu_barrier();
    CHECK(destroyed == 1);
}

struct throwing_deleter {
    throwing_deleter() = default;
    throwing_deleter(throwing_deleter&&) { throw std::string("moved"); } // NOLINT
    void operator()(counted* object) const { delete object; }
};

void a_deleter_that_throws_retires_nothing() {
    counter destroyed{0};
    counted* const object = new counted(destroyed);
    std::string thrown;
    try {
        rcu_retire(object, throwing_deleter());
    } catch (const std::string& text) {
        thrown = text;
    }
    rcu_barrier();
    CHECK(thrown == "moved" && destroyed == 0);
    delete object;
}

void units_share_objects() {
    counter destroyed{0};
    checks::retire_there(new checks::shared_object(destroyed));
    (new checks::shared_object(destroyed))->retire();
    rcu_barrier();
    CHECK(destroyed == 2);
}

void run_here() {
    there_is_one_default_domain();
    the_domain_is_lockable();
    an_object_is_retired_by_default();
    a_function_deletes();
    a_std_function_deletes();
    a_deleter_has_state_and_only_moves();
    a_deleter_is_only_assigned();
    layout_is_kept();
    the_base_is_not_the_first();
    copies_are_objects_of_their_own();
    a_deleter_retires();
    a_deleter_reads_waits_and_retires();
    storage_is_used_again();
    any_type_is_retired();
    refused_memory_retires_nothing();
    a_deleter_that_throws_retires_nothing();
    units_share_objects();
}

} // namespace

int main() {
    CHECK(holder().base == nullptr);
    run_here();
    checks::run_threads();
    return checks::failed == 0 ? 0 : 1;
}
