// Gecode at a node of a search: gecode ROOT.book NODE.book. The root's rows are posted and propagated once; then a copy of the
// root gets the bounds of the node, is propagated and removed. `measured` is that last part; the box after it is printed.
#include <gecode/int.hh>

#include "book.hpp"

using namespace Gecode;

class Model : public Space {
  public:
    IntVarArray x;

    explicit Model(const Book &book) : x(*this, book.n) {
        for (int k = 0; k < book.n; k++) x[k] = IntVar(*this, book.bounds[2 * k], book.bounds[2 * k + 1]);
        for (int r = 0; r < book.m; r++) {
            IntArgs coefs;
            IntVarArgs variables;
            for (int k = 0; k < book.n; k++) {
                if (int a = book.coefs[r * book.n + k]) {
                    coefs << a;
                    variables << x[k];
                }
            }
            linear(*this, coefs, variables, IRT_LQ, book.rhs[r]);
        }
    }
    Model(Model &other) : Space(other) { x.update(*this, other.x); }
    Space *copy() override { return new Model(*this); }
};

// The box of the node, propagated; the empty box where it has no point.
static void node(Model &root, const Book &book, std::vector<int> &after) {
    Model *space = static_cast<Model *>(root.clone());
    for (int k = 0; k < book.n; k++) {
        if (book.bounds[2 * k] > space->x[k].min()) rel(*space, space->x[k], IRT_GQ, book.bounds[2 * k]);
        if (book.bounds[2 * k + 1] < space->x[k].max()) rel(*space, space->x[k], IRT_LQ, book.bounds[2 * k + 1]);
    }
    bool feasible = space->status() != SS_FAILED;
    for (int k = 0; k < book.n; k++) {
        after[2 * k] = feasible ? space->x[k].min() : 1;
        after[2 * k + 1] = feasible ? space->x[k].max() : 0;
    }
    delete space;
}

extern "C" __attribute__((noinline)) void measured(Model &root, const Book &book, std::vector<int> &after) {
    node(root, book, after);
}

int main(int, char **arguments) {
    Book root_book(arguments[1]), node_book(arguments[2]);
    Model root(root_book);
    root.status();
    std::vector<int> after(2 * node_book.n);
    node(root, node_book, after); // once before, so that memory is there
    measured(root, node_book, after);
    print_box(after);
}
