// OpenFst's shortest distance. Reads words: a pattern in postfix order on a stack, then
// lines, each an acceptor; writes the distance of each line, or `none`.
//   step N LABEL..   a choice of N labels      charge W   reads nothing, costs W
//   cat  union  star  on what is on the stack
//   line ARCS (FROM TO LABEL).. END            start is state 0; composed with the pattern
#include <fst/fstlib.h>
#include <iostream>
#include <string>
#include <vector>

using namespace fst;

// Double and not single floats: whole numbers are exact.
using Arc = ArcTpl<TropicalWeightTpl<double>>;
using Weight = Arc::Weight;
using Machine = VectorFst<Arc>;

static int number() {
    int n;
    std::cin >> n;
    return n;
}

static void states(Machine &m, int count) {
    while (m.NumStates() < count)
        m.AddState();
    m.SetStart(0);
}

static void arc(Machine &m, int from, int to, int label) {
    states(m, std::max(from, to) + 1);
    m.AddArc(from, Arc(label, label, Weight::One(), to));
}

static void answer(const Machine &pattern, const Machine &line) {
    Machine both;
    Compose(pattern, line, &both);
    Weight least = ShortestDistance(both);
    if (least == Weight::Zero())
        std::cout << "none\n";
    else
        std::cout << static_cast<long long>(least.Value()) << "\n";
}

int main() {
    std::vector<Machine> stack;
    std::string word;
    while (std::cin >> word) {
        Machine m;
        if (word == "step") {
            states(m, 2);
            for (int n = number(); n > 0; n--)
                arc(m, 0, 1, number());
            m.SetFinal(1, Weight::One());
            stack.push_back(m);
        } else if (word == "charge") {
            states(m, 1);
            m.SetFinal(0, Weight(number()));
            stack.push_back(m);
        } else if (word == "line") {
            states(m, 1);
            for (int n = number(); n > 0; n--) {
                int from = number(), to = number();
                arc(m, from, to, number());
            }
            m.SetFinal(number(), Weight::One());
            ArcSort(&m, ILabelCompare<Arc>());
            answer(stack.back(), m);
        } else if (word == "star") {
            Closure(&stack.back(), CLOSURE_STAR);
        } else {
            Machine right = stack.back();
            stack.pop_back();
            if (word == "cat")
                Concat(&stack.back(), right);
            else
                Union(&stack.back(), right);
        }
    }
}
