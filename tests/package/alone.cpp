// A session of one concentrator in C++, from its opening to its set in force.
#include <array>
#include <iostream>
#include <vector>

#include "pack_agreement.h"

namespace {

// A concentrator that hears nobody but itself.
class Alone {
public:
    Alone() : state_(PACK_STATE_WORDS) {}

    bool open(std::uint64_t pack)
    {
        const std::array<std::uint32_t, 1> coins{{1}};
        const std::array<std::uint8_t, 1> weights{{1}};
        const auto opening =
            pack_open(state_.data(), state_.size(), PACK_VERSION_1, 1, 0, 0, 1, 7, pack, coins.data(), coins.size(),
                      weights.data(), weights.size(), PACK_COINS_PRINTED, line_.data(), line_.size());
        return pack_refusal_of(opening) == PACK_ACCEPTED;
    }

    // Takes turns until one sends nothing, and delivers what they send. Whether all was accepted.
    bool run()
    {
        for (;;) {
            const auto turn = pack_turn(state_.data(), state_.size(), message_.data(), message_.size(), line_.data(), line_.size());
            if (pack_refusal_of(turn) != PACK_ACCEPTED)
                return false;
            const auto length = pack_length_of(turn);
            if (length == 0)
                return true;
            const auto delivery =
                pack_deliver(state_.data(), state_.size(), 1, message_.data(), length, line_.data(), line_.size());
            if (pack_refusal_of(delivery) != PACK_ACCEPTED)
                return false;
        }
    }

    std::vector<std::uint64_t> in_force() const
    {
        std::vector<std::uint64_t> named(16), set(16);
        const auto report = pack_report(state_.data(), state_.size(), named.data(), named.size(), set.data(), set.size());
        set.resize(pack_refusal_of(report) == PACK_ACCEPTED ? pack_in_force_of(report) : 0);
        return set;
    }

private:
    std::vector<std::uint64_t> state_;
    std::array<std::uint8_t, PACK_LINE_BYTES> line_{};
    std::array<std::uint8_t, PACK_MESSAGE_BYTES> message_{};
};

} // namespace

int main()
{
    Alone alone;
    if (!alone.open(8) || !alone.run())
        return 1;
    for (const auto pack : alone.in_force())
        std::cout << "in force " << pack << '\n';
}
