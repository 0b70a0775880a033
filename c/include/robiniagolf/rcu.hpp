// Read-copy-update for C++17 and later. It is the clause [saferecl.rcu] of the C++26 draft, whole, in namespace
// `robiniagolf`.
//
//     struct config : robiniagolf::rcu_obj_base<config> { .. };
//
//     std::scoped_lock region(robiniagolf::rcu_default_domain());       the reader: what it loads in the region
//     use(*current.load());                                             stays until the region ends
//
//     current.exchange(new config(..))->retire();                       the updater: deleted when no region has it
//
// There is one domain, the default one: the general-purpose flavour ("memb") of <robiniagolf/rcu.h>, which is linked.
// Beside each function stands what the draft asks for (Mandates, Preconditions), what it does (Effects, Returns,
// Throws) and which evaluations it orders (Synchronization). "Here" marks what this library adds or chooses.
//
// [saferecl.rcu.general], in short:
//   A region of RCU protection on a domain begins with a `lock` L and ends with the `unlock` U that corresponds to it.
//   U corresponds to L as a closing bracket to its opening one, in each thread: regions nest.
//   If an evaluation that schedules F does not strongly happen before the start of a region R on the same domain, then
//   the end of R strongly happens before the evaluation of F. So no region meets what F has reclaimed.
//   Each scheduled evaluation is evaluated at most once, and may run concurrently with any other.
//   Here: exactly once, unless the process ends first. A thread of the library evaluates, in the order in which one
//   thread scheduled. No call of `retire`, `rcu_retire` or `unlock` evaluates anything. So a deleter may take a lock
//   that a caller of those holds. It may itself open regions, retire, and call `rcu_synchronize`.
#ifndef ROBINIAGOLF_RCU_HPP
#define ROBINIAGOLF_RCU_HPP

#if !defined(__cplusplus) || __cplusplus < 201703L
#error "<robiniagolf/rcu.hpp> needs C++17 or later"
#endif

#include <robiniagolf/rcu.h>

#include <memory>
#include <type_traits>
#include <utility>

// The attribute lays a class out alike in each language mode, so units of different modes may share an object.
#if defined(__clang__)
#pragma clang diagnostic push
#if __has_warning("-Wc++20-extensions")
#pragma clang diagnostic ignored "-Wc++20-extensions"
#endif
#endif
#if defined(__has_cpp_attribute)
#if __has_cpp_attribute(no_unique_address)
#define ROBINIAGOLF_NO_UNIQUE_ADDRESS [[no_unique_address]]
#endif
#endif
#ifndef ROBINIAGOLF_NO_UNIQUE_ADDRESS
#define ROBINIAGOLF_NO_UNIQUE_ADDRESS
#endif

// Visible, so that all shared objects of a process have one default domain.
namespace [[gnu::visibility("default")]] robiniagolf {

/// [saferecl.rcu.domain]: opens and closes regions of RCU protection. It meets the Cpp17Lockable requirements, so
/// `std::scoped_lock`, `std::unique_lock` and `std::lock_guard` take it.
///
/// A program has the default domain alone, and makes no other.
class rcu_domain {
public:
    rcu_domain(const rcu_domain&) = delete;
    rcu_domain& operator=(const rcu_domain&) = delete;

    /// Effects: opens a region of RCU protection in this thread. Calls introduce no data race on `*this`.
    ///
    /// Here: a thread's first call registers it, which may take a lock and memory, and its end unregisters it. Other
    /// calls do neither. Where there is no memory, or 2,147,483,647 regions are open, the library says so and aborts.
    void lock() noexcept { ::robiniagolf_memb_read_lock(); }

    /// Effects: equivalent to `lock()`. Returns: true, always.
    bool try_lock() noexcept {
        lock();
        return true;
    }

    /// Preconditions: a call of `lock` whose region is still open is sequenced before this call.
    /// Effects: closes the region that this thread opened most recently. Calls introduce no data race on `*this`.
    ///
    /// Here: invokes no scheduled evaluation, though the draft would allow it.
    void unlock() noexcept { ::robiniagolf_memb_read_unlock(); }

private:
    // Not defaulted: C++17 would take the class for an aggregate, and anyone could make one by braces.
    constexpr rcu_domain() noexcept {}
    friend rcu_domain& rcu_default_domain() noexcept;
};

/// [saferecl.rcu.domain.func]. Returns: a reference to an object of static storage duration, the same at each call.
inline rcu_domain& rcu_default_domain() noexcept {
    static rcu_domain domain;
    return domain;
}

/// Effects: for each region R on `dom` whose `lock` this call does not strongly happen before, blocks until the
/// `unlock` that closes R happens. Synchronization: that `unlock` strongly happens before the return.
///
/// Here: within a region of the caller's own it could never return, so the library says so and aborts.
inline void rcu_synchronize(rcu_domain& dom = rcu_default_domain()) noexcept {
    static_cast<void>(dom);
    ::robiniagolf_memb_synchronize_rcu();
}

/// Effects: blocks until each E has been evaluated that an evaluation which happens before this call scheduled in
/// `dom`. Synchronization: the evaluation of each such E strongly happens before the return.
///
/// A call implies no `rcu_synchronize`, nor the other way about.
///
/// Here: within a region of the caller's own, or in a scheduled evaluation, it might wait for itself. So it says on
/// standard error that it does not wait. At the end of `main` it lets all deleters run before statics are destroyed.
inline void rcu_barrier(rcu_domain& dom = rcu_default_domain()) noexcept {
    static_cast<void>(dom);
    ::robiniagolf_memb_barrier();
}

template <class T, class D = std::default_delete<T>>
class rcu_obj_base;

// Not for users. Names that a derived class could meet in a lookup have the library's prefix.
namespace detail {

// A head at offset 0 of a standard-layout class: pointers to the two are interconvertible.
struct robiniagolf_link {
    ::robiniagolf_head robiniagolf_link_head{};
};
static_assert(std::is_standard_layout_v<robiniagolf_link> && std::is_trivially_copyable_v<robiniagolf_link>);

inline robiniagolf_link* link_of(::robiniagolf_head* head) noexcept {
    return reinterpret_cast<robiniagolf_link*>(head);
}

// Schedules `evaluate(&link)` in the domain. Allocates nothing.
inline void schedule(rcu_domain& dom, robiniagolf_link& link, void (*evaluate)(::robiniagolf_head*)) noexcept {
    static_cast<void>(dom);
    ::robiniagolf_memb_call_rcu(std::addressof(link.robiniagolf_link_head), evaluate);
}

// Whether the expression f(p) is valid.
template <class F, class P, class = void>
struct can_call : std::false_type {};
template <class F, class P>
struct can_call<F, P, std::void_t<decltype(std::declval<F>()(std::declval<P>()))>> : std::true_type {};

// Whether a pointer to the base can be cast to one to T: not so of a virtual base.
template <class T, class B, class = void>
struct can_downcast : std::false_type {};
template <class T, class B>
struct can_downcast<T, B, std::void_t<decltype(static_cast<T*>(std::declval<B*>()))>> : std::true_type {};

// Whether B is the only specialization of rcu_obj_base among the bases of T: deduction fails where there are more.
template <class X, class Y>
rcu_obj_base<X, Y>* deduced_base(rcu_obj_base<X, Y>*);
template <class T, class B, class = void>
struct has_only_base : std::false_type {};
template <class T, class B>
struct has_only_base<T, B, std::void_t<decltype(detail::deduced_base(std::declval<T*>()))>>
    : std::is_same<decltype(detail::deduced_base(std::declval<T*>())), B*> {};

// What rcu_retire allocates.
template <class T, class D>
class retirement : private robiniagolf_link {
public:
    retirement(T* p, D&& d) : object(p), deleter(std::move(d)) {}

    static void schedule_in(rcu_domain& dom, retirement* node) noexcept { detail::schedule(dom, *node, &evaluate); }

private:
    static void evaluate(::robiniagolf_head* head) noexcept {
        const std::unique_ptr<retirement> node(static_cast<retirement*>(detail::link_of(head)));
        node->deleter(node->object);
    }

    T* object;
    ROBINIAGOLF_NO_UNIQUE_ADDRESS D deleter;
};

} // namespace detail

/// [saferecl.rcu.base]: a class T whose objects are retired without allocation derives from `rcu_obj_base<T, D>`.
///
/// T may be incomplete here, and is complete before a member is named. D is a function object type that is
/// Cpp17DefaultConstructible and Cpp17MoveAssignable. `d(p)` is valid for a `d` of type D and a `p` of type `T*`. If D
/// is trivially copyable, so is this class. A specialization that a program adds is undefined behavior.
///
/// Here: an object is larger by two pointers and a D; an empty D takes no room. A copy of an object may be retired
/// like any other, also if the original was. To copy a whole object while another thread retires it is a data race, for
/// the base is copied too: a reader copies members.
template <class T, class D>
class rcu_obj_base : private detail::robiniagolf_link {
    static_assert(std::is_default_constructible_v<D>, "rcu_obj_base<T, D>: D must be default constructible");
    static_assert(std::is_move_assignable_v<D>, "rcu_obj_base<T, D>: D must be move assignable");

public:
    /// Mandates: T is rcu-protectable. It has one base that is a specialization of `rcu_obj_base`, public and not
    /// virtual, and this is `rcu_obj_base<T, D>`.
    /// Preconditions: `*this` is a base class subobject of an object x of type T, and `retire` was not called on x
    /// before. The assignment to `deleter` does not exit via an exception.
    /// Effects: evaluates `deleter = std::move(d)`, and schedules `deleter(addressof(x))` in `dom`. If that exits via
    /// an exception, the behavior is undefined.
    ///
    /// Here: allocates nothing and waits for no grace period. An exception of the assignment or of the deleter calls
    /// std::terminate. Where D moves without an exception, `deleter` is moved out of x and then called. So it may use
    /// its state after it has destroyed x.
    void retire(D d = D(), rcu_domain& dom = rcu_default_domain()) noexcept {
        static_assert(std::is_base_of_v<rcu_obj_base, T>, "retire: T must derive from rcu_obj_base<T, D>");
        static_assert(std::is_convertible_v<T*, rcu_obj_base*>,
                      "retire: rcu_obj_base<T, D> must be a public base of T, and not twice");
        static_assert(detail::can_downcast<T, rcu_obj_base>::value,
                      "retire: rcu_obj_base<T, D> must not be a virtual base of T");
        static_assert(detail::has_only_base<T, rcu_obj_base>::value,
                      "retire: T must have no second base that is an rcu_obj_base");
        static_assert(detail::can_call<D&, T*>::value, "retire: a D must be callable with a T*");
        robiniagolf_deleter = std::move(d);
        detail::schedule(dom, *this, &robiniagolf_evaluate);
    }

protected:
    rcu_obj_base() = default;
    rcu_obj_base(const rcu_obj_base&) = default;
    rcu_obj_base(rcu_obj_base&&) = default;
    rcu_obj_base& operator=(const rcu_obj_base&) = default;
    rcu_obj_base& operator=(rcu_obj_base&&) = default;
    ~rcu_obj_base() = default;

private:
    static void robiniagolf_evaluate(::robiniagolf_head* head) noexcept {
        auto* const base = static_cast<rcu_obj_base*>(detail::link_of(head));
        T* const object = static_cast<T*>(base);
        if constexpr (std::is_nothrow_move_constructible_v<D>) {
            D deleter(std::move(base->robiniagolf_deleter));
            deleter(object);
        } else {
            base->robiniagolf_deleter(object);
        }
    }

    ROBINIAGOLF_NO_UNIQUE_ADDRESS D robiniagolf_deleter{};
};

/// Mandates: `is_move_constructible_v<D>` is true, and the expression `d(p)` is well-formed.
/// Preconditions: D meets the Cpp17MoveConstructible and Cpp17Destructible requirements.
/// Effects: initializes an object d1 of type D from `std::move(d)`, and schedules `d1(p)` in `dom`. If that exits via
/// an exception, the behavior is undefined. Throws: bad_alloc, or what the initialization of d1 throws; then nothing is
/// scheduled.
///
/// Here: allocates one node by operator new, and waits for no grace period. T is any type. An exception of `d1(p)`
/// calls std::terminate.
template <class T, class D = std::default_delete<T>>
void rcu_retire(T* p, D d = D(), rcu_domain& dom = rcu_default_domain()) {
    static_assert(std::is_move_constructible_v<D>, "rcu_retire: D must be move constructible");
    static_assert(detail::can_call<D&, T*&>::value, "rcu_retire: d(p) must be well-formed");
    using node = detail::retirement<T, D>;
    node::schedule_in(dom, new node(p, std::move(d)));
}

} // namespace robiniagolf

#undef ROBINIAGOLF_NO_UNIQUE_ADDRESS
#if defined(__clang__)
#pragma clang diagnostic pop
#endif

#endif
