// A host in C++ whose sources act by a native of the host: what scale.c is in C. The handle is closed by its owner, and a
// call that fails throws. Its status is 0, or 1 if a call failed.
//
//     scale examples/c/scale.bb < examples/c/scale.parcels
#include "bb.h"

#include <cstdint>
#include <exception>
#include <fstream>
#include <iostream>
#include <iterator>
#include <memory>
#include <stdexcept>
#include <string>
#include <utility>
#include <vector>

namespace {

// A call that failed, with its status.
class Fault : public std::runtime_error {
public:
    Fault(const char *call, std::uint8_t status)
        : std::runtime_error(std::string(call) + " returned " + std::to_string(status)), status_(status) {}

    std::uint8_t status() const { return status_; }

private:
    std::uint8_t status_;
};

const std::uint8_t *bytes(const std::string &text) { return reinterpret_cast<const std::uint8_t *>(text.data()); }

// A held run. It can be moved, and is closed once.
class Run {
public:
    Run(const std::string &input, const std::string &natives, std::int64_t floor)
        : run_(new bb_run BB_RUN_NONE)
    {
        stands_ = bb_open(run_.get(), bytes(input), input.size(), bytes(natives), natives.size(), floor);
        if (stands_ == BB_REFUSED)
            throw std::runtime_error(text("bb_explain", [&](std::uint8_t *to, std::size_t room, std::size_t *len) {
                return bb_explain(bytes(input), input.size(), bytes(natives), natives.size(), floor, to, room, len);
            }));
        if (stands_ != BB_GOING && stands_ != BB_FULL)
            throw Fault("bb_open", stands_);
    }

    // How the last move left the run.
    std::uint8_t stands() const { return stands_; }

    void turn() { moved("bb_turn", bb_turn(run_.get())); }
    void post() { moved("bb_post", bb_post(run_.get())); }
    void answer() { moved("bb_answer", bb_answer(run_.get())); }

    // Returns the number that the unit will have, if it is the first that is asked for.
    std::uint64_t ask_new(const std::string &class_name)
    {
        made("bb_ask_new", bb_ask_new(run_.get(), bytes(class_name), class_name.size()));
        return bb_next(run_.get());
    }

    void ask(std::uint64_t unit, const std::string &slot, std::int64_t value)
    {
        made("bb_ask_int", bb_ask_int(run_.get(), unit, bytes(slot), slot.size(), value));
    }

    void ask(std::uint64_t unit, const std::string &slot, const std::string &value)
    {
        made("bb_ask_text", bb_ask_text(run_.get(), unit, bytes(slot), slot.size(), bytes(value), value.size()));
    }

    // The unit on which a native is due, and its name.
    std::pair<std::uint64_t, std::string> due()
    {
        std::uint64_t unit = 0;
        const std::string name = text("bb_due", [&](std::uint8_t *to, std::size_t room, std::size_t *len) {
            return bb_due(run_.get(), &unit, to, room, len);
        });
        return {unit, name};
    }

    std::int64_t number(std::uint64_t unit, const std::string &slot)
    {
        std::int64_t value = 0;
        made("bb_int", bb_int(run_.get(), unit, bytes(slot), slot.size(), &value));
        return value;
    }

    std::string text(std::uint64_t unit, const std::string &slot)
    {
        return text("bb_text", [&](std::uint8_t *to, std::size_t room, std::size_t *len) {
            return bb_text(run_.get(), unit, bytes(slot), slot.size(), to, room, len);
        });
    }

    std::string label(std::uint64_t unit, const std::string &slot)
    {
        return text("bb_label", [&](std::uint8_t *to, std::size_t room, std::size_t *len) {
            return bb_label(run_.get(), unit, bytes(slot), slot.size(), to, room, len);
        });
    }

    std::string document()
    {
        return text("bb_document", [&](std::uint8_t *to, std::size_t room, std::size_t *len) {
            return bb_document(run_.get(), to, room, len);
        });
    }

    // What the run told since it was read last.
    std::string read()
    {
        std::string told;
        std::uint8_t piece[4096];
        for (std::size_t len = 1; len > 0;) {
            made("bb_read", bb_read(run_.get(), piece, sizeof piece, &len));
            told.append(piece, piece + len);
        }
        return told;
    }

    void finish()
    {
        const std::uint8_t ended = bb_finish(run_.get());
        if (ended != BB_DONE && ended != BB_LIMIT)
            throw Fault("bb_finish", ended);
    }

private:
    struct Closer {
        void operator()(bb_run *run) const
        {
            bb_close(run);
            delete run;
        }
    };

    static void made(const char *call, std::uint8_t status)
    {
        if (status != BB_OK)
            throw Fault(call, status);
    }

    void moved(const char *call, std::uint8_t stands)
    {
        stands_ = stands;
        if (stands != BB_RESTING && stands != BB_GOING && stands != BB_DUE)
            throw Fault(call, stands);
    }

    // What a call writes, with as much room as that takes.
    template <typename Call> static std::string text(const char *name, Call call)
    {
        std::vector<std::uint8_t> room(64);
        std::size_t len = 0;
        made(name, call(room.data(), room.size(), &len));
        if (len > room.size()) {
            room.resize(len);
            made(name, call(room.data(), room.size(), &len));
        }
        return std::string(room.begin(), room.begin() + static_cast<std::ptrdiff_t>(len));
    }

    std::unique_ptr<bb_run, Closer> run_;
    std::uint8_t stands_ = BB_MISUSE;
};

std::string read_file(const char *path)
{
    std::ifstream file(path, std::ios::binary);
    if (!file)
        throw std::runtime_error("the input can't be read");
    return std::string(std::istreambuf_iterator<char>(file), std::istreambuf_iterator<char>());
}

// Makes turns until the run rests, and weighs what is on the scale if that is due.
void come_to_rest(Run &run, std::int64_t grams)
{
    while (run.stands() != BB_RESTING) {
        if (run.stands() == BB_DUE) {
            run.ask(run.due().first, "grams", grams);
            run.answer();
        } else {
            run.turn();
        }
    }
}

void work(Run run)
{
    come_to_rest(run, 0);
    std::string name;
    for (std::int64_t grams; std::cin >> name >> grams;) {
        const std::uint64_t parcel = run.ask_new("parcel");
        run.ask(parcel, "name", name);
        run.post();
        come_to_rest(run, grams);
        run.read();
        std::cout << run.text(parcel, "name") << ": " << run.label(parcel, "belt") << ", " << run.number(parcel, "grams") << " g\n";
    }
    std::cout << run.document() << '\n';
    run.finish();
}

} // namespace

int main(int count, char **words)
{
    try {
        if (bb_version() != BB_VERSION)
            throw std::runtime_error("the library is of another version than its header");
        if (count != 2)
            throw std::runtime_error("usage: scale INPUT < PARCELS");
        work(Run(read_file(words[1]), "weigh", 0));
        std::cout.flush();
        return std::cout ? 0 : 1;
    } catch (const std::exception &fault) {
        std::cerr << "scale: " << fault.what() << '\n';
        return 1;
    }
}
