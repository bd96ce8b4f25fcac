// life A B FRAME OUT: a player's life in C++17, written from seek.h and seek_file.h alone. It loads two list files, merges them, plans a jump and asks for a
// hint; then it records a simulated disc, absorbs the reading and saves its list.
#include <array>
#include <cstdint>
#include <iostream>
#include <stdexcept>
#include <string>

#include "seek_file.h"

namespace {

constexpr std::uint64_t start = 1000, end = 1400;

void accept(const std::string &what, std::uint32_t no)
{
    if (no != 0)
        throw std::runtime_error(what + ": refused with " + std::to_string(no) + ": " + seek_file_text(no));
}

struct List {
    seek_list list = SEEK_ABSENT;
    explicit List(const std::string &name) { accept(name, seek_open(SEEK_WORKSHOP, name.c_str(), nullptr, UINT64_MAX, &list)); }
    explicit List(const seek_area &area) { accept("begin", seek_begin(&area, 50, 1048576, 8, 2048, &list)); }
    List(const List &) = delete;
    List &operator=(const List &) = delete;
    ~List() { seek_close(&list); }
};

struct Recorder {
    seek_recorder recorder = {};
    explicit Recorder(const seek_list &l) { accept("recorder", seek_begin_recorder(&l, start, &recorder)); }
    Recorder(const Recorder &) = delete;
    Recorder &operator=(const Recorder &) = delete;
    ~Recorder() { seek_close_recorder(&recorder); }
};

struct HintRecorder {
    seek_hint_recorder recorder = {};
    explicit HintRecorder(const seek_list &l)
    {
        int made = 0;
        accept("hint recorder", seek_begin_hint_recorder(&l, &recorder, &made));
        if (made == 0)
            throw std::runtime_error("no hint recorder");
    }
    HintRecorder(const HintRecorder &) = delete;
    HintRecorder &operator=(const HintRecorder &) = delete;
    ~HintRecorder() { seek_close_hint_recorder(&recorder); }
};

void jump(const seek_list &l, std::uint32_t frame)
{
    seek_jump j;
    seek_hinted h;
    accept("plan", seek_plan(&l, frame, &j));
    accept("hint", seek_hint(&l, frame, frame + 75, 600, &h));
    if (j.where == SEEK_AT_CHECKPOINT)
        std::cout << "frame " << frame << ": sector " << j.lsn << ", " << j.length << " bytes held\n";
    std::cout << "frontier " << seek_frontier(&l) << ", hint " << (h.found != 0 ? "found" : "none") << '\n';
}

std::array<std::uint8_t, 2048> sector_of(std::uint64_t lsn)
{
    const std::uint64_t n = lsn - start;
    std::array<std::uint8_t, 2048> sector{};
    sector[0] = 0x24;
    sector[3] = static_cast<std::uint8_t>(n / 75 / 60);
    sector[4] = static_cast<std::uint8_t>(n / 75 % 60);
    sector[5] = static_cast<std::uint8_t>(n % 75);
    return sector;
}

void record(const std::string &name)
{
    const seek_area area = {0, 2, start, end - 1, end + 150, start, end};
    const std::array<std::uint8_t, 400> bytes{};
    const std::uint64_t image = 1;
    List list(area);
    Recorder r(list.list);
    HintRecorder h(list.list);
    std::uint64_t due = 0;
    std::size_t length = 0;
    for (std::uint64_t lsn = start; lsn < end; lsn++) {
        const auto sector = sector_of(lsn);
        if (seek_due(&r.recorder, &due) != 0 && due == lsn) {
            const auto number = static_cast<std::uint32_t>(lsn - start);
            const seek_frame f = {lsn - 40, number, SEEK_DST, 3, bytes.data(), bytes.size()};
            accept("record", seek_record(&r.recorder, lsn, number, 0, lsn == start ? nullptr : &f, sector.data(), sector.size()));
        }
        accept("see", seek_see(&h.recorder, lsn, sector.data(), sector.size(), nullptr));
    }
    accept("finish", seek_finish(&r.recorder, end - start, 0));
    accept("flush", seek_flush(&h.recorder));
    accept("absorb", seek_absorb(&list.list, &r.recorder, &image, nullptr, 0));
    accept("take", seek_take(&h.recorder, &length));
    accept("add hints", seek_add_hints(&list.list, h.recorder.list.at, length));
    accept("save", seek_save_file(SEEK_WORKSHOP, &list.list, name.c_str()));
    std::cout << seek_checkpoint_count(&list.list) << " checkpoints, " << seek_hint_count(&list.list) << " hints, "
              << (seek_is_complete(&list.list) != 0 ? "complete" : "open") << '\n';
}

} // namespace

int main(int argc, char **argv)
{
    if (argc != 5 || seek_version() < SEEK_VERSION)
        return 2;
    try {
        List own{std::string(argv[1])}, other{std::string(argv[2])};
        accept("merge", seek_merge(SEEK_WORKSHOP, &own.list, &other.list));
        jump(own.list, static_cast<std::uint32_t>(std::stoul(argv[3])));
        record(argv[4]);
    } catch (const std::exception &e) {
        std::cout << e.what() << '\n';
        return 1;
    }
    return 0;
}
