// What people call the instruments and stations of a lab, of which the bay knows numbers alone.
#pragma once
#include "../asking.hpp"

namespace labrun::detail {

struct lab_names {
    lab_names(const std::vector<std::string> &those, const lab_options &options) : instruments(those) {
        are_sound("instrument", instruments, 64);
        for (const auto &[name, uses] : options.stations) {
            stations.push_back(name);
            classes.push_back({bits(uses), 1, 0});
        }
        are_sound("station", stations, 31);
        classes.push_back({bits(options.guests.value_or(instruments)), options.places, 0});
    }

    // The classes of places: each station's own, and then the guests'.
    std::vector<lab_class> classes;
    std::vector<std::string> instruments, stations;

    std::uint32_t guests() const { return static_cast<std::uint32_t>(stations.size()); }
    std::uint32_t station(const std::string &name) const { return place("station", stations, name); }
    std::string station(std::uint32_t kind, const char *of_guests = "") const { return kind < guests() ? stations[kind] : of_guests; }
    std::string who(std::uint32_t kind) const { return station(kind, "a guest"); }

    std::uint64_t bits(const std::vector<std::string> &those) const {
        std::uint64_t set = 0;
        for (const std::string &it : those) set |= std::uint64_t(1) << place("instrument", instruments, it);
        return set;
    }
    std::vector<std::string> names(std::uint64_t set) const { return those_in(set, instruments); }

    // Why a class may not use one of these.
    may_not_use may_not(std::uint32_t kind, std::uint64_t those) const {
        const std::uint64_t may = classes[kind].uses;
        return may_not_use(who(kind) + " may not use " + names(those & ~may).at(0) + ": it may use " +
                           (may ? joined(names(may), ", ") : "nothing"));
    }

    // Which lab it is, by its names: 32 bytes for the head of its journal. They keep one lab from another's file by mistake, and not from
    // somebody who means it: so any hash will do, here four of FNV-1a, each with a beginning of its own.
    void hashes(std::uint8_t (&bytes)[32]) const {
        std::string all;
        for (const auto *those : {&instruments, &stations}) {
            for (const std::string &it : *those) all += std::to_string(it.size()) + " " + it + "\n";
            all += "\n";
        }
        for (std::uint64_t part = 0; part < 4; part++) {
            std::uint64_t hash = 0xcbf29ce484222325 + part;
            for (const char it : all) hash = (hash ^ static_cast<std::uint8_t>(it)) * 0x100000001b3;
            for (unsigned at = 0; at < 8; at++) bytes[8 * part + at] = static_cast<std::uint8_t>(hash >> (56 - 8 * at));
        }
    }

    static std::uint32_t place(const std::string &what, const std::vector<std::string> &those, const std::string &name) {
        const auto at = std::find(those.begin(), those.end(), name);
        if (at == those.end()) throw invalid("there is no " + what + " " + name);
        return static_cast<std::uint32_t>(at - those.begin());
    }
    static void are_sound(const std::string &what, const std::vector<std::string> &those, std::size_t most) {
        if (those.size() > most) throw invalid("a lab has at most " + std::to_string(most) + " " + what + "s");
        for (auto it = those.begin(); it != those.end(); ++it)
            if (std::find(those.begin(), it, *it) != it) throw invalid(what + " " + *it + " is there twice");
    }
};

} // namespace labrun::detail
