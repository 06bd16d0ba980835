// Lines on standard input by the automaton of samples/ec.card in OpenFst: each line composed
// with it, then the shortest distance; prints the weight of each line or `none`, and no spans.
//   weights marked   a line is the acceptor of all its valid markings, as in tests/outsiders
//   weights plain    the card without its markers: every reading by this card marks each
//                    variable once, so the weights are the same
// bench/lines.sh runs it.
#include <fst/fstlib.h>
#include <cmath>
#include <iostream>
#include <string>

using namespace fst;
using Arc = ArcTpl<TropicalWeightTpl<double>>;
using Weight = Arc::Weight;
using Machine = VectorFst<Arc>;

static const int SETTINGS = 27, VARIABLES = 3, MARKERS = 300;
static bool marked;

// One step by any label from low to high; 0 reads nothing, so a byte's label is one more.
static Machine step(int low, int high, double weight = 0) {
    Machine m;
    m.AddState();
    m.AddState();
    m.SetStart(0);
    m.SetFinal(1, Weight::One());
    for (int label = low; label <= high; label++)
        m.AddArc(0, Arc(label, label, weight, 1));
    return m;
}

static Machine range(unsigned char low, unsigned char high) { return step(low + 1, high + 1); }

static Machine cat(Machine m) { return m; }

template <class... More>
static Machine cat(Machine first, More... more) {
    Concat(&first, cat(more...));
    return first;
}

static Machine star(Machine m) {
    Closure(&m, CLOSURE_STAR);
    return m;
}

static Machine either(Machine m, Machine other) {
    Union(&m, other);
    return m;
}

static Machine text(const std::string &bytes) {
    Machine m = step(0, 0);
    for (unsigned char byte : bytes)
        Concat(&m, range(byte, byte));
    return m;
}

static Machine part(int v, Machine m) {
    int open = marked ? MARKERS + 2 * v : 0, close = marked ? MARKERS + 2 * v + 1 : 0;
    return cat(step(open, open), m, step(close, close));
}

static Machine card() {
    Machine any = star(range(0, 255)), digit = range('.', '9');
    Machine mark = either(either(text("TC"), text("nLF")), either(text("@25C"), step(0, 0, 5)));
    Machine m = cat(any, text("EC="), part(1, cat(digit, star(digit))), text(" "),
                    part(2, cat(range(0, 255), text("S/cm"))), star(text(" ")), part(3, mark), any);
    RmEpsilon(&m);
    Machine least;
    Determinize(m, &least);
    Minimize(&least);
    ArcSort(&least, ILabelCompare<Arc>());
    return least;
}

// A state is a position or, with markers, a position with a setting of the variables.
static Machine acceptor(const std::string &line) {
    Machine m;
    int settings = marked ? SETTINGS : 1, states = (line.size() + 1) * settings;
    m.ReserveStates(states);
    for (int s = 0; s < states; s++)
        m.AddState();
    m.SetStart(0);
    m.SetFinal(states - 1, Weight::One());
    for (int s = 0; s < states; s++) {
        if (s / settings < static_cast<int>(line.size())) {
            int label = static_cast<unsigned char>(line[s / settings]) + 1;
            m.AddArc(s, Arc(label, label, Weight::One(), s + settings));
        }
        for (int v = 1, place = 1; marked && v <= VARIABLES; v++, place *= 3) {
            int digit = s % settings / place % 3; // 0 untouched, 1 open, 2 shut
            if (digit < 2)
                m.AddArc(s, Arc(MARKERS + 2 * v + digit, MARKERS + 2 * v + digit, Weight::One(), s + place));
        }
    }
    return m;
}

int main(int, char **arguments) {
    std::ios::sync_with_stdio(false);
    marked = arguments[1] == std::string("marked");
    Machine ec = card();
    std::string line;
    while (std::getline(std::cin, line)) {
        Machine both;
        Compose(acceptor(line), ec, &both);
        Weight least = ShortestDistance(both);
        if (least == Weight::Zero())
            std::cout << "none\n";
        else
            std::cout << std::llround(least.Value()) << "\n"; // Minimize rounds to a millionth
    }
}
