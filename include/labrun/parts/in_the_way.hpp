// Who is in a bay, and who is in somebody's way.
#pragma once
#include "names.hpp"

namespace labrun::detail {

// How all asks stand that aren't over, in the order of asking.
inline std::vector<lab_standing> standings(lab_bay *bay) {
    std::vector<lab_standing> all;
    lab_standing it{};
    std::uint64_t next = 0;
    for (std::size_t place = 0; is_there(lab_bay_look(bay, place, &it, &next)); place++)
        if (it.what == LAB_HOLDS || it.what == LAB_WAITS) all.push_back(it);
    return all;
}

// All as it is at one moment: so one who is named twice has held for as long.
struct in_the_way {
    lab_bay *bay;
    const lab_names &names;
    std::uint64_t moment;

    // Who keeps an ask waiting, for each instrument that it wants; if nobody does, whoever has the places of its class.
    std::vector<keeper> of(std::uint64_t number, std::uint64_t wants, std::uint32_t kind) const {
        std::vector<keeper> found;
        each_kept(number, wants, [&](std::uint32_t at, const lab_standing &by) { found.push_back(named(at, by)); });
        return found.empty() ? seated(kind) : found;
    }

    template <class Act> void each_kept(std::uint64_t number, std::uint64_t instruments, Act act) const {
        each(instruments, [&](std::uint32_t at) {
            lab_standing by{};
            if (is_there(lab_bay_keeper(bay, number, at, &by))) act(at, by);
        });
    }

    keeper named(std::uint32_t at, const lab_standing &by) const {
        const bool holds = by.what == LAB_HOLDS;
        const std::chrono::milliseconds held_for(holds ? moment - std::min(moment, by.since) : 0);
        return {names.instruments[at], names.who(by.kind), by.number, holds, held_for, holds ? nullptr : behind(by.number)};
    }

    // Who keeps one that waits: of several one that holds, or else the one that asked first. That one asked before whom it keeps, so the
    // chain ends.
    std::shared_ptr<const keeper> behind(std::uint64_t number) const {
        std::optional<std::pair<std::uint32_t, lab_standing>> first;
        const auto place = [](const lab_standing &it) { return it.what == LAB_HOLDS ? 0 : it.number; };
        each_kept(number, wanted_by(number), [&](std::uint32_t at, const lab_standing &by) {
            if (!first || place(by) < place(first->second)) first.emplace(at, by);
        });
        return first ? std::make_shared<const keeper>(named(first->first, first->second)) : nullptr;
    }

    // The instruments of all sets that an ask waits for.
    std::uint64_t wanted_by(std::uint64_t number) const {
        std::uint64_t all = 0, needs = 0;
        std::uint32_t passed = 0;
        for (std::size_t set = 0; is_there(lab_bay_waits(bay, number, set, &needs, &passed)); set++) all |= needs;
        return all;
    }

    std::vector<keeper> seated(std::uint32_t kind) const {
        std::vector<keeper> found;
        std::uint32_t free = names.classes[kind].places;
        for (const lab_standing &it : standings(bay)) {
            if (it.what != LAB_HOLDS || it.kind != kind) continue;
            free--;
            each(it.needs, [&](std::uint32_t at) { found.push_back(named(at, it)); });
        }
        return free ? std::vector<keeper>() : found;
    }
};

} // namespace labrun::detail
