// The same line on ns-3's core (Debian's libns3-dev): each event is scheduled on its Simulator, runs, and writes the 24 bytes that a commit would.
//
//     line_ns3 STATIONS FAN NOISE READERS EVENTS
//
// prints how many events ran and the nanoseconds of each. ns-3 runs events of one time in the order in which they were scheduled, not by station, so the log is
// not byte for byte the engine's; the work is the same.
#include "ns3/core-module.h"
#include <chrono>
#include <cstdint>
#include <cstdio>
#include <cstdlib>
#include <cstring>
#include <vector>

using namespace ns3;

struct Numbers {
    uint16_t parent;
    uint32_t calm, spring, threshold, hop, noise;
};

struct State {
    uint64_t draw;
    uint32_t level, heard, lost, sent;
    uint64_t last;
    bool reached;
};

static std::vector<Numbers> plan;
static std::vector<State> states;
static std::vector<uint8_t> output;
static uint64_t ran, wanted;

static void Run(uint32_t station, uint32_t source, uint32_t number, uint32_t kind, uint32_t value);

static void Send(uint64_t delay, uint32_t to, uint32_t from, uint32_t kind, uint32_t value) {
    Simulator::Schedule(MilliSeconds(delay), &Run, to, from, states[from].sent++, kind, value);
}

static void Log(uint32_t station, uint32_t source, uint32_t number, uint32_t kind, uint32_t value) {
    if (output.size() > 24 * 100000) output.clear();
    uint64_t time = Simulator::Now().GetMilliSeconds();
    uint16_t target = station, from = source;
    uint8_t entry[24];
    std::memcpy(entry, &time, 8);
    std::memcpy(entry + 8, &number, 4);
    std::memcpy(entry + 12, &value, 4);
    std::memcpy(entry + 16, &target, 2);
    std::memcpy(entry + 18, &from, 2);
    std::memcpy(entry + 20, &kind, 4);
    output.insert(output.end(), entry, entry + 24);
}

static void Run(uint32_t station, uint32_t source, uint32_t number, uint32_t kind, uint32_t value) {
    const Numbers &c = plan[station];
    State &s = states[station];
    if (kind == 1 && station > 0) {
        Send(s.level >= c.threshold ? c.spring : c.calm, station, station, 1, 0);
        Send(c.hop, c.parent, station, 2, station);
    } else if (kind == 2) {
        s.draw = 16807 * s.draw % 2147483647;
        if (s.draw <= c.noise) {
            s.lost++;
            if (value / 256 < 3) Send(c.hop, station, station, 2, value + 256);
        } else {
            s.heard++;
            s.last = Simulator::Now().GetMilliSeconds();
            s.reached = true;
            if (station > 0) Send(c.hop, c.parent, station, 2, value % 256);
        }
    } else if (kind == 3) {
        s.level = value;
    }
    Log(station, source, number, kind, value);
    if (++ran == wanted) Simulator::Stop();
}

int main(int argc, char **argv) {
    if (argc != 6) return 2;
    uint32_t n = std::atoi(argv[1]), fan = std::atoi(argv[2]), noise = std::atoi(argv[3]), readers = std::atoi(argv[4]);
    wanted = std::atoll(argv[5]);
    for (uint32_t s = 0; s < n; s++) {
        plan.push_back({uint16_t((s ? s - 1 : 0) / fan), 300000, 60000, 5000, 250 + s % 50, noise});
        states.push_back({1000 + 7 * s, 0, 0, 0, 0, 0, false});
    }
    for (uint32_t k = 0; k < readers; k++) Simulator::Schedule(MilliSeconds(uint64_t(k) * 300000 / readers), &Run, n - 1 - k, 65535u, k, 1u, 0u);
    output.reserve(24 * 100001);
    auto start = std::chrono::steady_clock::now();
    Simulator::Run();
    auto took = std::chrono::steady_clock::now() - start;
    std::printf("%llu %.1f\n", (unsigned long long)ran, double(std::chrono::duration_cast<std::chrono::nanoseconds>(took).count()) / ran);
    Simulator::Destroy();
}
