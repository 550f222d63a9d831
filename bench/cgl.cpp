// CglProbing on a model: cgl NAME.book. One call of generateCuts that probes every integer variable once, on both sides, and makes
// no cut of a row; no linear program is solved. `measured` is that call; the box that its column cuts give is printed.
#include <CglProbing.hpp>
#include <CoinPackedMatrix.hpp>
#include <OsiClpSolverInterface.hpp>

#include "book.hpp"

extern "C" __attribute__((noinline)) void measured(CglProbing &probing, OsiClpSolverInterface &solver, OsiCuts &cuts) {
    probing.generateCuts(solver, cuts, CglTreeInfo());
}

int main(int, char **arguments) {
    Book book(arguments[1]);
    CoinPackedMatrix matrix(false, 0, 0);
    matrix.setDimensions(0, book.n);
    for (int r = 0; r < book.m; r++) {
        std::vector<int> places;
        std::vector<double> coefs;
        for (int k = 0; k < book.n; k++) {
            if (int a = book.coefs[r * book.n + k]) {
                places.push_back(k);
                coefs.push_back(a);
            }
        }
        matrix.appendRow(static_cast<int>(places.size()), places.data(), coefs.data());
    }
    std::vector<double> low(book.n), high(book.n), objective(book.n, 0.0), rhs(book.rhs.begin(), book.rhs.end());
    for (int k = 0; k < book.n; k++) {
        low[k] = book.bounds[2 * k];
        high[k] = book.bounds[2 * k + 1];
    }
    OsiClpSolverInterface solver;
    solver.messageHandler()->setLogLevel(0);
    std::vector<double> row_low(book.m, -solver.getInfinity());
    solver.loadProblem(matrix, low.data(), high.data(), objective.data(), row_low.data(), rhs.data());
    for (int k = 0; k < book.n; k++) solver.setInteger(k);

    CglProbing probing;
    probing.setLogLevel(0);
    probing.setUsingObjective(0);
    probing.setMode(2);         // all integer variables
    probing.setRowCuts(0);      // bounds only
    probing.setMaxPass(1);
    probing.setMaxPassRoot(1);
    probing.setMaxProbe(book.n);
    probing.setMaxProbeRoot(book.n);
    probing.setMaxLook(book.n);
    probing.setMaxLookRoot(book.n);
    probing.setMaxElements(book.n);
    probing.setMaxElementsRoot(book.n);
    OsiCuts cuts;
    measured(probing, solver, cuts);

    std::vector<int> after(book.bounds);
    for (int i = 0; i < cuts.sizeColCuts(); i++) {
        const CoinPackedVector &lows = cuts.colCut(i).lbs(), &highs = cuts.colCut(i).ubs();
        for (int e = 0; e < lows.getNumElements(); e++) {
            int &bound = after[2 * lows.getIndices()[e]];
            bound = std::max(bound, static_cast<int>(lows.getElements()[e]));
        }
        for (int e = 0; e < highs.getNumElements(); e++) {
            int &bound = after[2 * highs.getIndices()[e] + 1];
            bound = std::min(bound, static_cast<int>(highs.getElements()[e]));
        }
    }
    print_box(after);
}
