// <robiniagolf/rcu.hpp> between threads: regions, grace periods, barriers. It is the second unit of the test program.
//
// No test goes by time. A reader checks each object that it meets in a region; counts must hold after rcu_barrier.
#include "checks.hpp"

#include <array>
#include <cstdint>
#include <memory>
#include <mutex>
#include <string>
#include <thread>
#include <utility>
#include <vector>

using robiniagolf::rcu_barrier;
using robiniagolf::rcu_default_domain;
using robiniagolf::rcu_domain;
using robiniagolf::rcu_obj_base;
using robiniagolf::rcu_retire;
using robiniagolf::rcu_synchronize;

robiniagolf::rcu_domain* checks::domain_of_threads() noexcept { return &rcu_default_domain(); }

void checks::retire_there(shared_object* object) noexcept { object->retire(); }

namespace {

using counter = std::atomic<int>;
constexpr int readers = 3;
constexpr int rounds = 1500; // of each writer
constexpr std::uint64_t poison = 0xdead'dead'dead'dead;

// Starts threads, and joins them at its end.
class team {
public:
    template <class F>
    void start(F work) {
        threads.emplace_back(std::move(work));
    }
    ~team() {
        for (std::thread& thread : threads) {
            thread.join();
        }
    }

private:
    std::vector<std::thread> threads;
};

void wait_for(const counter& count, int least) {
    while (count < least) {
        std::this_thread::yield();
    }
}

// Its words say the same, until its end poisons them.
class words {
public:
    explicit words(std::uint64_t number) {
        for (auto& word : all) {
            word.store(number, std::memory_order_relaxed);
        }
    }
    words(const words&) = delete;
    words& operator=(const words&) = delete;
    ~words() {
        for (auto& word : all) {
            word.store(poison, std::memory_order_relaxed);
        }
    }
    // The number, or poison where a word says something else.
    std::uint64_t read() const {
        const std::uint64_t number = all[0].load(std::memory_order_relaxed);
        for (const auto& word : all) {
            std::this_thread::yield();
            if (word.load(std::memory_order_relaxed) != number) {
                return poison;
            }
        }
        return number;
    }

private:
    std::array<std::atomic<std::uint64_t>, 4> all;
};

// Three ways to be rid of an old version. The first two are reclaimed later, the third by the writer itself.

// Destroys an object and leaves its storage, so that a reader that came too late would meet poison.
struct bury {
    counter* buried = nullptr;
    template <class T>
    void operator()(T* object) const {
        object->~T();
        ++*buried;
    }
};
struct intrusive : rcu_obj_base<intrusive, bury>, words {
    using words::words;
};

// Reads the current version, in regions of its own, until all writers are done. Versions of one writer only rise.
template <class T>
void read_versions(const std::atomic<T*>& current, counter& began, const counter& writing, bool they_rise) {
    std::uint64_t seen = 0;
    for (bool first = true; writing > 0; first = false) {
        std::scoped_lock region(rcu_default_domain());
        const std::uint64_t number = current.load(std::memory_order_acquire)->read();
        CHECK(number != poison && (number >= seen || !they_rise));
        seen = number;
        began += first ? 1 : 0;
    }
}

// Readers read the current version while writers replace it: each rids itself of what it replaced.
template <class T, class Make, class Rid>
void replace_beside_readers(int writers, Make make, Rid rid) {
    std::atomic<T*> current{make(0)};
    counter reading{0}, writing{writers};
    {
        team all;
        for (int reader = 0; reader < readers; reader++) {
            all.start([&] { read_versions(current, reading, writing, writers == 1); });
        }
        for (int writer = 0; writer < writers; writer++) {
            all.start([&] {
                wait_for(reading, readers);
                for (std::uint64_t round = 1; round <= rounds; round++) {
                    rid(current.exchange(make(round), std::memory_order_acq_rel));
                }
                writing--;
            });
        }
    }
    rid(current.load());
    rcu_barrier();
}

void versions_are_retired_intrusively() {
    counter buried{0};
    std::vector<std::unique_ptr<std::array<unsigned char, sizeof(intrusive)>>> storage;
    auto make = [&storage](std::uint64_t number) {
        storage.push_back(std::make_unique<std::array<unsigned char, sizeof(intrusive)>>());
        return new (storage.back()->data()) intrusive(number);
    };
    replace_beside_readers<intrusive>(1, make, [&buried](intrusive* old) { old->retire(bury{&buried}); });
    CHECK(buried == rounds + 1);
}

void versions_are_retired_from_outside() {
    constexpr int writers = 2;
    counter deleted{0};
    auto make = [](std::uint64_t number) { return new words(number); };
    replace_beside_readers<words>(writers, make, [&deleted](words* old) {
        rcu_retire(old, [&deleted](words* object) {
            delete object;
            deleted++;
        });
    });
    CHECK(deleted == writers * rounds + 1);
}

void versions_are_deleted_after_a_wait() {
    auto make = [](std::uint64_t number) { return new words(number); };
    replace_beside_readers<words>(3, make, [](words* old) {
        rcu_synchronize();
        delete old;
    });
}

// The draft's example: a name that is printed often and in parallel, and updated rarely.
std::atomic<std::string*> name{nullptr};

std::size_t print_name() {
    std::scoped_lock<rcu_domain> rlock(rcu_default_domain());
    const std::string* s = name.load(std::memory_order_acquire);
    return s->size();
}

void update_name(std::string* new_name) {
    std::string* s = name.exchange(new_name, std::memory_order_acq_rel);
    rcu_retire(s);
}

void names_are_printed_and_updated() {
    name = new std::string(100, 'n');
    std::atomic<bool> over{false};
    {
        team all;
        for (int reader = 0; reader < readers; reader++) {
            all.start([&over] {
                while (!over) {
                    CHECK(print_name() >= 100);
                }
            });
        }
        for (std::size_t round = 0; round < 500; round++) {
            update_name(new std::string(100 + round, 'n'));
        }
        over = true;
    }
    update_name(nullptr);
    rcu_barrier();
}

// Regions nest: what is retired while the outer one is open, stays until that one ends.
void the_outer_region_protects() {
    counter destroyed{0}, steps{0};
    team all;
    auto* const object = new checks::counted(destroyed);
    all.start([&] {
        std::unique_lock<rcu_domain> outer(rcu_default_domain());
        {
            std::scoped_lock inner(rcu_default_domain());
            steps++;
        }
        wait_for(steps, 2);
        for (int turn = 0; turn < 1000; turn++) {
            std::this_thread::yield();
            CHECK(destroyed == 0);
        }
    });
    wait_for(steps, 1);
    rcu_retire(object);
    steps++;
    rcu_barrier();
    CHECK(destroyed == 1);
}

// A region of one's own protects as well: nothing that is retired in it is reclaimed before its end.
void a_region_may_retire() {
    counter destroyed{0};
    {
        std::lock_guard<rcu_domain> region(rcu_default_domain());
        for (int object = 0; object < 100; object++) {
            rcu_retire(new checks::counted(destroyed));
            std::this_thread::yield();
            CHECK(destroyed == 0);
        }
    }
    rcu_barrier();
    CHECK(destroyed == 100);
}

// A barrier waits for what happens before it: its own thread's retirements, and those of threads that were joined.
void barriers_wait_for_what_was_scheduled() {
    counter of_all{0};
    {
        team all;
        for (int thread = 0; thread < 4; thread++) {
            all.start([&of_all] {
                counter own{0};
                for (int object = 1; object <= 200; object++) {
                    rcu_retire(new checks::counted(of_all));
                    rcu_retire(new checks::counted(own));
                    if (object % 20 == 0) {
                        rcu_barrier();
                        CHECK(own == object);
                    }
                }
            });
        }
    }
    {
        team others;
        others.start([&of_all] { rcu_retire(new checks::counted(of_all)); });
    }
    rcu_barrier();
    CHECK(of_all == 801);
}

// A mutex and the domain in one scoped_lock, in either order: no thread waits for ever.
void a_mutex_and_the_domain_are_locked_together() {
    std::mutex writers;
    std::atomic<words*> current{new words(0)};
    {
        team all;
        for (int thread = 0; thread < 4; thread++) {
            all.start([&writers, &current, thread] {
                for (int round = 0; round < 300; round++) {
                    const auto replace = [&current] {
                        words* const old = current.load();
                        current = new words(old->read() + 1);
                        rcu_retire(old);
                    };
                    if (thread % 2 == 0) {
                        std::scoped_lock both(writers, rcu_default_domain());
                        replace();
                    } else {
                        std::scoped_lock both(rcu_default_domain(), writers);
                        replace();
                    }
                }
            });
        }
    }
    CHECK(current.load()->read() == 1200);
    rcu_retire(current.load());
    rcu_barrier();
}

// A thread's first lock registers it. What it has of its own may still lock when it is destroyed.
struct locks_at_the_end {
    counter* destroyed = nullptr;
    locks_at_the_end() = default;
    locks_at_the_end(const locks_at_the_end&) = delete;
    locks_at_the_end& operator=(const locks_at_the_end&) = delete;
    ~locks_at_the_end() {
        std::scoped_lock region(rcu_default_domain());
        rcu_retire(new checks::counted(*destroyed));
    }
};
thread_local locks_at_the_end at_the_end;

void threads_come_and_go() {
    counter destroyed{0};
    for (int round = 0; round < 100; round++) {
        team all;
        for (int thread = 0; thread < 4; thread++) {
            all.start([&destroyed] {
                at_the_end.destroyed = &destroyed;
                std::scoped_lock region(rcu_default_domain());
            });
        }
    }
    rcu_barrier();
    CHECK(destroyed == 400);
}

} // namespace

void checks::run_threads() {
    versions_are_retired_intrusively();
    versions_are_retired_from_outside();
    versions_are_deleted_after_a_wait();
    names_are_printed_and_updated();
    the_outer_region_protects();
    a_region_may_retire();
    barriers_wait_for_what_was_scheduled();
    a_mutex_and_the_domain_are_locked_together();
    threads_come_and_go();
}
