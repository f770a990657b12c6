// The library called from C++ with its containers, exceptions and threads: for every piece of a file it holds the seven calls to each
// other and to the promises of the header, and prints the line that `fleet` prints for such a block, then the one that `speeds` prints.
// Last it asks about all pieces again, from four threads at once.
//   caller FILE   pieces one after another, each its length in four bytes, the lowest first, and then so many bytes
//   caller        prints size and alignment of each struct and the places of its parts
#include "yagmurzol.h"

#include <array>
#include <atomic>
#include <cstddef>
#include <cstdint>
#include <cstring>
#include <fstream>
#include <initializer_list>
#include <iostream>
#include <stdexcept>
#include <string>
#include <thread>
#include <type_traits>
#include <utility>
#include <vector>

using Bytes = std::vector<std::uint8_t>;
using Answer = yagmurzol_answer;
using Speed = yagmurzol_speed_answer;
using Knots = yagmurzol_knots;
// The bounds of a speed: the most favourable ship's lower and upper one, then the least favourable's.
using Figures = std::array<std::uint64_t, 4>;
// So many pieces have all other speeds handed in, each later one a single one, in turn.
const std::size_t few = 256;

static_assert(std::is_standard_layout<Answer>::value && std::is_trivially_copyable<Answer>::value, "the structs are C's own");
static_assert(std::is_standard_layout<Speed>::value && std::is_trivially_copyable<Speed>::value, "those of a speed too");

// What the library says of a piece: its index and its speed.
struct Answers {
    Answer index;
    Speed speed;
};

// A ship to be asked about in between.
struct Other {
    Bytes block;
    Speed speed;
};

const std::uint64_t two_to_the_53rd = std::uint64_t{1} << 53;

void hold(bool kept, const char *promise)
{
    if (!kept)
        throw std::runtime_error(promise);
}

std::uint64_t bits(double figure)
{
    std::uint64_t all;
    std::memcpy(&all, &figure, sizeof all);
    return all;
}

bool operator==(const yagmurzol_pair &one, const yagmurzol_pair &other)
{
    return bits(one.lower) == bits(other.lower) && bits(one.upper) == bits(other.upper);
}

bool operator==(const Answer &one, const Answer &other)
{
    return one.refusal == other.refusal && one.lower == other.lower && one.upper == other.upper && one.pair == other.pair;
}

Figures figures(const Speed &speed)
{
    return {{speed.most.lower, speed.most.upper, speed.least.lower, speed.least.upper}};
}

bool operator==(const Speed &one, const Speed &other)
{
    return one.refusal == other.refusal && figures(one) == figures(other);
}

bool operator==(const Answers &one, const Answers &other)
{
    return one.index == other.index && one.speed == other.speed;
}

void hold_promises(const Answer &answer, std::size_t length)
{
    hold((answer.refusal == YAGMURZOL_LENGTH) == (length != YAGMURZOL_BLOCK), "refusal 1 goes with every length but 512");
    hold((answer.refusal == YAGMURZOL_NONE) == (answer.upper > 0), "there are bounds exactly where there is no refusal");
    hold(answer.refusal == YAGMURZOL_NONE || answer.lower == 0, "no lower bound goes with a refusal");
    hold(answer.lower <= answer.upper, "the lower bound is at most the upper one");
    hold(answer.upper < two_to_the_53rd, "the bounds are below 2 to the 53rd");
    for (auto side : {std::make_pair(answer.pair.lower, answer.lower), std::make_pair(answer.pair.upper, answer.upper)}) {
        hold(side.first >= 0 && side.first < static_cast<double>(two_to_the_53rd), "a double lies between 0 and 2 to the 53rd");
        hold(static_cast<std::uint64_t>(side.first) == side.second, "a double is the whole bound");
        hold(bits(static_cast<double>(side.second)) == bits(side.first), "a double is the whole bound bit for bit");
    }
}

void hold_speed(const Speed &speed, const Answer &answer)
{
    hold(speed.refusal == answer.refusal, "yagmurzol_speeds gives the answer's refusal");
    for (const Knots &knots : {speed.most, speed.least}) {
        hold((speed.refusal == YAGMURZOL_NONE) == (knots.upper > 0), "there is a speed exactly where there is no refusal");
        hold(knots.lower <= knots.upper, "a speed's lower bound is at most its upper one");
        hold(knots.upper < two_to_the_53rd, "a speed's bounds are below 2 to the 53rd");
        hold(knots.upper - knots.lower <= knots.upper / 1000000 + 2, "a speed's bounds are a millionth and 2 apart, or less");
    }
}

Answer index_from(const std::uint8_t *block, std::size_t length, const Figures &speed)
{
    return yagmurzol_index(block, length, Knots{speed[0], speed[1]}, Knots{speed[2], speed[3]});
}

// Each figure a little and far off, the ships exchanged, the bounds exchanged, another ship's, none, and the greatest.
std::vector<Figures> others(const Figures &own, const Figures &another)
{
    std::vector<Figures> all{{{own[2], own[3], own[0], own[1]}}, {{own[1], own[0], own[3], own[2]}}, another, {{0, 0, 0, 0}}};
    all.push_back({{UINT64_MAX, UINT64_MAX, UINT64_MAX, UINT64_MAX}});
    for (std::uint64_t move : {std::uint64_t{1}, std::uint64_t{UINT64_MAX}, std::uint64_t{1} << 32}) {
        for (std::size_t place = 0; place < own.size(); place++) {
            all.push_back(own);
            all.back()[place] += move;
        }
    }
    return all;
}

// After another ship's speed the ship's own still gives her index: nothing is kept from one call to the next. Pairs that aren't her own
// are refusal 13, after every refusal of the block itself.
void ask_with_others(const Bytes &piece, std::size_t number, const Answers &right, const Other &another)
{
    const Answer refused{YAGMURZOL_SPEED, 0, 0, {0, 0}};
    const Figures own = figures(right.speed);
    const std::vector<Figures> all = others(own, figures(another.speed));
    hold(yagmurzol_speeds(another.block.data(), another.block.size()) == another.speed, "another ship's speed is what it was");
    hold(index_from(piece.data(), piece.size(), own) == right.index, "another ship's speed in between changes no index");
    for (std::size_t each = number < few ? 0 : number % all.size(); each < all.size(); each += number < few ? 1 : all.size()) {
        const Answer &answer = right.index.refusal == YAGMURZOL_NONE && all[each] != own ? refused : right.index;
        hold(index_from(piece.data(), piece.size(), all[each]) == answer, "any other speed is refusal 13, after the block's own");
    }
}

// All seven calls, and the first one again.
Answers ask_at(const std::uint8_t *block, std::size_t length)
{
    const Answer answer = yagmurzol_ask(block, length);
    hold_promises(answer, length);
    hold(yagmurzol_refusal(block, length) == answer.refusal, "yagmurzol_refusal gives the answer's refusal");
    hold(yagmurzol_lower(block, length) == answer.lower, "yagmurzol_lower gives the answer's lower bound");
    hold(yagmurzol_upper(block, length) == answer.upper, "yagmurzol_upper gives the answer's upper bound");
    hold(yagmurzol_doubles(block, length) == answer.pair, "yagmurzol_doubles gives the answer's pair");
    const Speed speed = yagmurzol_speeds(block, length);
    hold_speed(speed, answer);
    hold(index_from(block, length, figures(speed)) == answer, "the index from the ship's own speed is the answer");
    hold(yagmurzol_ask(block, length) == answer, "asked again it answers the same");
    return {answer, speed};
}

Answers ask(const Bytes &piece)
{
    const Bytes copy = piece;
    const Answers answer = ask_at(piece.data(), piece.size());
    hold(piece == copy, "the lent bytes are unchanged");
    if (piece.empty())
        hold(ask_at(nullptr, 0) == answer, "the answer is the same of no bytes at a null pointer");
    return answer;
}

// Any single byte changed on the way is refusal 2, at the same address too; put right again, the answer is the old one.
void ask_changed(Bytes &piece, std::size_t place, const Answers &right)
{
    if (piece.size() != YAGMURZOL_BLOCK || right.index.refusal == YAGMURZOL_CHECK)
        return;
    piece[place] ^= 1;
    hold(ask(piece).index.refusal == YAGMURZOL_CHECK, "a changed byte is refusal 2");
    piece[place] ^= 1;
    hold(ask(piece) == right, "the byte put right, the answer is the old one");
}

std::vector<Bytes> read_pieces(const char *path)
{
    std::ifstream file(path, std::ios::binary);
    hold(file.is_open(), "the file of pieces can be read");
    std::vector<Bytes> pieces;
    unsigned char head[4];
    while (file.read(reinterpret_cast<char *>(head), sizeof head)) {
        Bytes piece(head[0] | std::size_t{head[1]} << 8 | std::size_t{head[2]} << 16 | std::size_t{head[3]} << 24);
        file.read(reinterpret_cast<char *>(piece.data()), static_cast<std::streamsize>(piece.size()));
        hold(!file.fail(), "the piece is whole");
        pieces.push_back(std::move(piece));
    }
    return pieces;
}

std::string lines(const std::string &number, const Bytes &piece, const Answers &answer)
{
    const Answer &index = answer.index;
    if (index.refusal != YAGMURZOL_NONE)
        return number + " refused " + std::to_string(index.refusal) + "\n" + number + " refused " + std::to_string(answer.speed.refusal) + "\n";
    const std::uint32_t imo = piece[4] | std::uint32_t{piece[5]} << 8 | std::uint32_t{piece[6]} << 16 | std::uint32_t{piece[7]} << 24;
    const std::string ship = number + " " + std::to_string(imo);
    std::string text = ship + " " + std::to_string(index.lower) + " " + std::to_string(index.upper) + "\n" + ship;
    for (std::uint64_t figure : figures(answer.speed))
        text += " " + std::to_string(figure);
    return text + "\n";
}

// Each thread begins with another piece, so that they ask of different ones at the same time.
void ask_from_threads(const std::vector<Bytes> &pieces, const std::vector<Answers> &answers)
{
    const std::size_t count = 4;
    std::atomic<bool> kept{true};
    std::vector<std::thread> threads;
    for (std::size_t thread = 0; thread < count; thread++) {
        threads.emplace_back([&pieces, &answers, &kept, thread, count] {
            for (std::size_t each = 0; each < pieces.size(); each++) {
                const std::size_t at = (each + thread * pieces.size() / count) % pieces.size();
                const Bytes &piece = pieces[at];
                const Answer index = yagmurzol_ask(piece.data(), piece.size());
                const Speed speed = yagmurzol_speeds(piece.data(), piece.size());
                const Answer later = index_from(piece.data(), piece.size(), figures(answers[at].speed));
                if (!(Answers{index, speed} == answers[at]) || !(later == index))
                    kept = false;
            }
        });
    }
    for (auto &thread : threads)
        thread.join();
    hold(kept, "four threads at once get the same answers");
}

template <typename Shape> void print_shape(const char *name, std::initializer_list<std::size_t> parts)
{
    std::cout << name << " " << sizeof(Shape) << " by " << alignof(Shape) << ":";
    for (std::size_t part : parts)
        std::cout << " " << part;
    std::cout << "\n";
}

void print_shapes()
{
    print_shape<Answer>("answer", {offsetof(Answer, refusal), offsetof(Answer, lower), offsetof(Answer, upper), offsetof(Answer, pair)});
    print_shape<yagmurzol_pair>("pair", {offsetof(yagmurzol_pair, lower), offsetof(yagmurzol_pair, upper)});
    print_shape<Speed>("speed_answer", {offsetof(Speed, refusal), offsetof(Speed, most), offsetof(Speed, least)});
    print_shape<Knots>("knots", {offsetof(Knots, lower), offsetof(Knots, upper)});
}

// All pieces, each with the ship before as another one; the first with a block of zeros, which is refused.
void answer_pieces(std::vector<Bytes> &pieces, std::vector<Answers> &answers)
{
    Other before{Bytes(YAGMURZOL_BLOCK), Speed{YAGMURZOL_CHECK, {0, 0}, {0, 0}}};
    for (auto &piece : pieces) {
        answers.push_back(ask(piece));
        ask_with_others(piece, answers.size() - 1, answers.back(), before);
        ask_changed(piece, answers.size() % YAGMURZOL_BLOCK, answers.back());
        std::cout << lines(std::to_string(answers.size() - 1), piece, answers.back());
        if (answers.back().index.refusal == YAGMURZOL_NONE)
            before = {piece, answers.back().speed};
    }
}

int main(int count, char **arguments)
{
    if (count < 2) {
        print_shapes();
        return 0;
    }
    std::vector<Answers> answers;
    try {
        std::vector<Bytes> pieces = read_pieces(arguments[1]);
        answer_pieces(pieces, answers);
        ask_from_threads(pieces, answers);
    } catch (const std::exception &broken) {
        std::cerr << "after " << answers.size() << " pieces: " << broken.what() << "\n";
        return 1;
    }
    return 0;
}
