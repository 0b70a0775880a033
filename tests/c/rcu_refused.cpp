// What <robiniagolf/rcu.hpp> refuses. Each part is compiled alone, by -DREFUSED=N, and must fail with the text that
// stands behind its number. Part 0 makes each call rightly, and must compile with every warning that a compiler has.
#include <robiniagolf/rcu.hpp>

using robiniagolf::rcu_default_domain;
using robiniagolf::rcu_domain;
using robiniagolf::rcu_obj_base;
using robiniagolf::rcu_retire;

struct nothing {
    template <class T>
    void operator()(T* object) const {
        delete object;
    }
};
struct other : rcu_obj_base<other> {};

void use();

#if REFUSED == 0
#include <mutex>
struct node final : rcu_obj_base<node, nothing> {};
struct plain : rcu_obj_base<plain, void (*)(plain*)> {};
void use() {
    std::scoped_lock<rcu_domain> region(rcu_default_domain());
    if (rcu_default_domain().try_lock()) {
        rcu_default_domain().unlock();
    }
    (new node)->retire();
    (new plain)->retire([](plain* object) { delete object; }, rcu_default_domain());
    (new other)->retire();
    rcu_retire(new int, nothing());
    rcu_retire(new int);
    robiniagolf::rcu_synchronize();
    robiniagolf::rcu_barrier();
}
#elif REFUSED == 1 // retire: a D must be callable with a T*
struct unrelated {
    void operator()(int*) const {}
};
struct node : rcu_obj_base<node, unrelated> {};
void use() { (new node)->retire(); }
#elif REFUSED == 2 // retire: a D must be callable with a T*
struct node : rcu_obj_base<node, int node::*> {};
void use() { (new node)->retire(); }
#elif REFUSED == 3 // retire: T must derive from rcu_obj_base<T, D>
struct stranger {};
struct node : rcu_obj_base<stranger> {};
void use() { (new node)->retire(); }
#elif REFUSED == 4 // retire: rcu_obj_base<T, D> must be a public base of T, and not twice
struct node : private rcu_obj_base<node> {
    void use() { retire(); }
};
void use() { (new node)->use(); }
#elif REFUSED == 5 // retire: rcu_obj_base<T, D> must be a public base of T, and not twice
struct node;
struct left : rcu_obj_base<node> {};
struct right : rcu_obj_base<node> {};
struct node : left, right {};
void use() { (new node)->left::retire(); }
#elif REFUSED == 6 // retire: rcu_obj_base<T, D> must not be a virtual base of T
struct node : virtual rcu_obj_base<node> {};
void use() { (new node)->retire(); }
#elif REFUSED == 7 // retire: T must have no second base that is an rcu_obj_base
struct node : rcu_obj_base<node>, rcu_obj_base<node, nothing> {};
void use() { static_cast<rcu_obj_base<node>*>(new node)->retire(); }
#elif REFUSED == 8 // retire: T must have no second base that is an rcu_obj_base
struct node : rcu_obj_base<node>, other {};
void use() { static_cast<rcu_obj_base<node>*>(new node)->retire(); }
#elif REFUSED == 9 // rcu_obj_base<T, D>: D must be default constructible
struct made : nothing {
    explicit made(int) {}
};
struct node : rcu_obj_base<node, made> {
    node();
};
#elif REFUSED == 10 // rcu_obj_base<T, D>: D must be move assignable
struct constant : nothing {
    const int number = 1;
};
struct node : rcu_obj_base<node, constant> {};
#elif REFUSED == 11 // rcu_retire: d(p) must be well-formed
void use() { rcu_retire(new int, [](char*) {}); }
#elif REFUSED == 12 // rcu_retire: D must be move constructible
struct pinned : nothing {
    pinned() = default;
    pinned(pinned&&) = delete;
};
void use() { rcu_retire<int, pinned>(new int); }
#elif REFUSED == 13 // deleted
rcu_domain copy = rcu_default_domain();
#elif REFUSED == 14 // deleted
void use() { rcu_default_domain() = rcu_default_domain(); }
#elif REFUSED == 15 // private
rcu_domain own{};
#elif REFUSED == 16 // protected
void use() { delete static_cast<rcu_obj_base<other>*>(new other); }
#elif REFUSED == 17 // protected
rcu_obj_base<other> base;
#endif
