//! The safe wrapper: its methods say what the calls say, and its refusals are the checks' numbers.

use astrolabe::ffi::ANSWER_LEN;
use astrolabe::{
    Call, CircularTies, Counts, Model, Outcome, Probe, Propagation, Refusal, Rest, Rounds, Row,
    RowKind, RowPropagation, Side, Tie, Ties, plan,
};
use compare::lent::{Backend, Lent, Operation, Reference};
use compare::models::{self, Family};
use compare::rng::Rng;
use compare::suite::SEED;

/// What a method says, as the C interface has it.
type Said = Result<[u64; ANSWER_LEN], u32>;

/// Fills the places from the left, the others with 0.
fn places<const N: usize>(values: [u64; N]) -> [u64; ANSWER_LEN] {
    let mut all = [0; ANSWER_LEN];
    all[..N].copy_from_slice(&values);
    all
}

fn said<T, const N: usize>(result: Result<T, Refusal>, values: impl FnOnce(T) -> [u64; N]) -> Said {
    result.map(values).map(places).map_err(Refusal::check)
}

fn row_propagation(answer: RowPropagation) -> [u64; 2] {
    match answer {
        RowPropagation::Infeasible => [0, 0],
        RowPropagation::Tightened { moved } => [1, moved.into()],
        RowPropagation::Unchanged => [2, 0],
    }
}

fn outcome(outcome: Outcome) -> [u64; 1] {
    [outcome as u64]
}

fn propagation(answer: Propagation) -> [u64; 3] {
    let (case, passes, moved) = match answer {
        Propagation::Infeasible { passes, moved } => (0, passes, moved),
        Propagation::Converged { passes, moved } => (1, passes, moved),
        Propagation::BudgetSpent { passes, moved } => (2, passes, moved),
    };
    [case, passes.into(), moved.into()]
}

fn probe(answer: Probe) -> [u64; 8] {
    let (case, value, sides) = match answer {
        Probe::Infeasible { sides } => (0, 0, sides),
        Probe::Fixed { value, sides } => (1, value.into(), sides),
        Probe::BothFeasible { new_implications, sides } => (2, new_implications, sides),
    };
    let side = |Side { passes, spent, moved }| [passes.into(), spent.into(), moved.into()];
    let [[passes0, spent0, moved0], [passes1, spent1, moved1]] = sides.map(side);
    [case, value, passes0, spent0, moved0, passes1, spent1, moved1]
}

fn rounds(answer: Rounds) -> [u64; 3] {
    let (case, rounds, spent) = match answer {
        Rounds::Infeasible { rounds, spent } => (0, rounds, spent),
        Rounds::Unchanged { rounds, spent } => (1, rounds, spent),
        Rounds::LimitReached { rounds, spent } => (2, rounds, spent),
    };
    [case, rounds, spent.into()]
}

fn rest(a: Rest) -> [u64; 3] {
    match a {
        Rest::Yes => [1, 0, 0],
        Rest::NoByRow(row) => [0, 0, row.into()],
        Rest::NoByVariable(variable) => [0, 1, variable.into()],
    }
}

fn width(told: plan::Width) -> [u64; 2] {
    [told.width.into(), told.budget.into()]
}

fn tie(answer: Tie) -> [u64; 1] {
    match answer {
        Tie::Tied => [1],
        Tie::Unchanged => [2],
    }
}

fn counts(counts: Counts) -> [u64; 4] {
    [counts.refused, counts.infeasible, counts.changed, counts.unchanged]
}

fn call(model: &mut Model, ties: &mut Ties, operation: Operation, list: &[Call]) -> Said {
    match operation {
        Operation::Tie { k, j } => said(model.tie(ties, k, j), tie),
        Operation::PropagateRow { row } => said(model.propagate_row(row), row_propagation),
        Operation::Propagate { budget } => said(model.propagate(budget), propagation),
        Operation::Probe { variable, budget } => said(model.probe(variable, budget), probe),
        Operation::TightenCoefficient { row, variable } => {
            said(model.tighten_coefficient(row, variable), outcome)
        }
        Operation::RemoveRedundantRow { row } => said(model.remove_redundant_row(row), outcome),
        Operation::IsProbingFixpoint => said(model.is_probing_fixpoint(), rest),
        Operation::Run => said(model.run(list), counts),
        Operation::RunClasses => said(model.run_classes(list), |told| counts(told.0)),
        Operation::Rounds { limit } => said(model.rounds(limit), rounds),
        Operation::PlanWidth => said(plan::width(model.bounds()), width),
        Operation::PlanRun => said(plan::passes(model.bounds(), list), |told| {
            let [width, budget] = width(told.width);
            [width, budget, told.passes]
        }),
        Operation::Cliques => said(model.cliques(), |cliques| [cliques.len() as u64]),
        _ => unreachable!("{operation:?}: books and pages have their own tests"),
    }
}

/// What the reference says on the same buffers.
fn expected(lent: &mut Lent, operation: Operation) -> Said {
    match Reference.call(operation, lent.lend()) {
        0 => Ok(lent.answer[..].try_into().expect("an answer has its places")),
        check => Err(check),
    }
}

/// The kinds of a model of the generator.
fn kinds(lent: &Lent) -> Vec<RowKind> {
    let kind = |&byte: &u8| if byte == 1 { RowKind::Equal } else { RowKind::AtMost };
    lent.kinds.iter().map(kind).collect()
}

/// A model of the generator, in the wrapper.
fn wrapped(lent: &Lent) -> Model {
    let (bounds, coefs, rhs) = (lent.bounds.clone(), lent.coefs.clone(), lent.rhs.clone());
    Model::with_kinds(bounds, coefs, rhs, kinds(lent)).expect("an accepted model")
}

#[test]
fn methods_say_what_the_calls_say() {
    let mut rng = Rng::new(SEED);
    for _ in 0..3_000 {
        let family = rng.pick(&[Family::Tiny, Family::Binary, Family::Empty]);
        let mut lent = models::model(&mut rng, family).with_table();
        lent.clique_coefs = vec![0; 2 * lent.n * lent.n];
        lent.clique_rhs = vec![0; 2 * lent.n];
        let (mut model, mut ties) = (wrapped(&lent), Ties::new(lent.n));
        for _ in 0..6 {
            let (row, variable) = (rng.index(lent.m + 1) as u32, rng.index(lent.n + 1) as u32);
            let budget = rng.between(0, 20) as u32;
            let list = [
                Call::propagate_row(row),
                Call::probe(variable, budget),
                Call::tighten_coefficient(row, variable),
                Call::remove_redundant_row(row),
                Call::propagate(budget),
                Call { kind: 6, row, variable, budget },
            ];
            lent.calls = list.iter().flat_map(|c| [c.kind, c.row, c.variable, c.budget]).collect();
            lent.classes = vec![0; list.len()];
            let [on_model @ .., _, _, _, _] = Operation::each(row, variable, budget, budget.into());
            let operation = rng.pick(&on_model);
            assert_eq!(
                call(&mut model, &mut ties, operation, &list),
                expected(&mut lent, operation),
                "{operation:?}"
            );
            assert_eq!(model.bounds(), lent.bounds);
            assert_eq!(model.coefs(), lent.coefs);
            assert_eq!(model.rhs(), lent.rhs);
            assert_eq!(model.kinds(), kinds(&lent));
            assert_eq!(model.table(), lent.table);
        }
    }
}

#[test]
fn classes_are_those_of_the_reference() {
    let mut rng = Rng::new(SEED);
    for _ in 0..2_000 {
        let family = rng.pick(&[Family::Tiny, Family::Binary, Family::Empty]);
        let mut lent = models::model(&mut rng, family).with_table();
        let mut model = wrapped(&lent);
        let mut call = || Call {
            kind: rng.pick(&[1, 2, 3, 3, 5, 6]),
            row: rng.index(lent.m + 1) as u32,
            variable: rng.index(lent.n + 1) as u32,
            budget: rng.between(0, 20) as u32,
        };
        let list: Vec<Call> = (0..8).map(|_| call()).collect();
        lent.calls = list.iter().flat_map(|c| [c.kind, c.row, c.variable, c.budget]).collect();
        lent.classes = vec![0x5a; list.len()];
        let answer = expected(&mut lent, Operation::RunClasses).expect("an accepted list");
        let (told, classes) = model.run_classes(&list).expect("an accepted list");
        assert_eq!(places(counts(told)), answer);
        assert_eq!(classes.iter().map(|&class| class as u8).collect::<Vec<_>>(), lent.classes);
    }
}

/// Every list of whole numbers in the box that meets the rows.
fn integer_points(model: &Model) -> Vec<Vec<i32>> {
    let mut points = model.bounds().chunks(2).fold(vec![vec![]], |points: Vec<Vec<i32>>, pair| {
        let longer = |point: &Vec<i32>, x| [&point[..], &[x]].concat();
        points.iter().flat_map(|p| (pair[0]..=pair[1]).map(move |x| longer(p, x))).collect()
    });
    points.retain(|point| {
        model.rows().all(|row| {
            let terms = row.coefs.iter().zip(point);
            let sum: i64 = terms.map(|(&a, &x)| i64::from(a) * i64::from(x)).sum();
            let b = row.rhs.into();
            if row.kind == RowKind::Equal { sum == b } else { sum <= b }
        })
    });
    points
}

#[test]
fn ties_say_what_the_calls_say_and_solutions_are_read_back() {
    let mut rng = Rng::new(SEED);
    let (mut tied, mut chains) = (0, 0);
    for _ in 0..10_000 {
        let mut lent = loop {
            // Probes alone fill the table, and no list is from elsewhere.
            let lent = models::tied(&mut rng).0.with_table();
            if lent.bounds.chunks(2).map(|pair| pair[1] - pair[0] + 1).product::<i32>() <= 256 {
                break lent;
            }
        };
        let (mut model, mut ties) = (wrapped(&lent), Ties::new(lent.n));
        let points = integer_points(&model);
        let n = lent.n as u32;
        let probes = (0..n).map(|variable| Operation::Probe { variable, budget: 1_000 });
        let mut any = || rng.index(lent.n + 1) as u32;
        let pairs: Vec<_> = (0..40).map(|_| Operation::Tie { k: any(), j: any() }).collect();
        for operation in probes.chain(pairs) {
            assert_eq!(
                call(&mut model, &mut ties, operation, &[]),
                expected(&mut lent, operation),
                "{operation:?}"
            );
            assert_eq!((model.coefs(), model.rhs()), (&lent.coefs[..], &lent.rhs[..]));
            assert_eq!((model.bounds(), model.table()), (&lent.bounds[..], &lent.table[..]));
            assert_eq!(ties.places(), lent.ties);
        }
        let replaced = |j: usize| ties.literal(j).is_some();
        tied += (0..lent.n).filter(|&j| replaced(j)).count();
        let chained = |j| ties.literal(j).is_some_and(|(k, _)| replaced(k));
        chains += (0..lent.n).filter(|&j| chained(j)).count();
        // A solver gives a replaced variable any value of its bounds; read back, its solutions are the points
        // of the model that was handed in.
        let mut read = integer_points(&model);
        read.iter_mut().for_each(|point| ties.expand(point).expect("no circle"));
        read.sort();
        read.dedup();
        assert_eq!(read, points);
        assert_eq!(Ties::from_places(ties.places().to_vec()), Ok(ties));
    }
    assert!(tied > 500 && chains > 20, "{tied} {chains}");
}

#[test]
fn tie_lists_from_elsewhere() {
    let ties = |places: &[u16]| Ties::from_places(places.to_vec()).unwrap();
    let expand = |places: &[u16], point: &[i32]| {
        let mut read = point.to_vec();
        match ties(places).expand(&mut read) {
            Ok(()) => Ok(read),
            Err(CircularTies { variable }) => {
                assert_eq!(read, point, "nothing is written");
                Err(variable)
            }
        }
    };
    // Chains upwards and downwards, with an opposite on the way; what stands in replaced places is not read.
    assert_eq!(expand(&[0, 2, 3, 6], &[1, 7, 7, 7]), Ok(vec![1, 1, 0, 0]));
    assert_eq!(expand(&[4, 6, 7, 0], &[7, 7, 7, 0]), Ok(vec![1, 1, 1, 0]));
    assert_eq!(expand(&[3, 5, 7, 0], &[7, 7, 7, 0]), Ok(vec![1, 0, 1, 0]));
    // As long as a chain can be.
    let long: Vec<u16> = (0..128).map(|j| if j == 127 { 0 } else { 2 * (j + 1) + 1 }).collect();
    let mut point = vec![0; 128];
    ties(&long).expand(&mut point).unwrap();
    assert_eq!(point, (0..128).map(|j| (127 - j) % 2).collect::<Vec<i32>>());
    // A variable that is tied to itself, as its equal or its opposite; a circle of three, and one that leads there.
    assert_eq!(expand(&[0, 4, 0], &[1, 1, 1]), Err(1));
    assert_eq!(expand(&[0, 3, 0], &[1, 1, 1]), Err(1));
    assert_eq!(expand(&[0, 6, 8, 4], &[1, 1, 1, 1]), Err(1));
    assert_eq!(expand(&[4, 6, 4], &[1, 1, 1]), Err(0));
    // As the equation says, whatever the value.
    assert_eq!(expand(&[3, 0], &[0, -5]), Ok(vec![6, -5]));
    assert_eq!(expand(&[3, 0], &[0, i32::MIN]), Ok(vec![i32::MIN + 1, i32::MIN]));
    // The list of another model; a place that names no literal.
    let mut model = Model::new(vec![0, 1, 0, 1], vec![1, 1], vec![1]).unwrap();
    assert_eq!(model.tie(&mut Ties::new(3), 0, 1), Err(Refusal::BufferLength));
    assert_eq!(model.tie(&mut ties(&[0, 4]), 0, 2), Err(Refusal::NoSuchVariable));
    assert_eq!(model.tie(&mut ties(&[0, 4]), 2, 0), Err(Refusal::NoSuchVariable));
    assert_eq!(model.tie(&mut ties(&[0, 4]), 0, 1), Ok(Tie::Unchanged));
    assert_eq!(Ties::from_places(vec![0, 5]), Err(Refusal::TiePlace));
    assert_eq!(Refusal::TiePlace.check(), 21);
    assert_eq!(
        Refusal::TiePlace.to_string(),
        "refused by check 21: a place of the tie list is above 2n"
    );
}

#[test]
#[should_panic(expected = "a value for each variable")]
fn a_point_has_a_value_for_each_variable() {
    let _ = Ties::new(3).expand(&mut [0, 1]);
}

#[test]
fn bounds_moved_are_told() {
    // Row 0 puts both at 1, row 1 is infeasible.
    let both = || Model::new(vec![0, 1, 0, 1], vec![-1, -1, 1, 1], vec![-2, 1]).unwrap();
    assert_eq!(both().propagate_row(0), Ok(RowPropagation::Tightened { moved: 2 }));
    assert_eq!(both().propagate(9), Ok(Propagation::Infeasible { passes: 1, moved: 2 }));
    // The same on the side x = 1 of a variable that loosens row 0 when it is 0.
    let mut model =
        Model::new(vec![0, 1, 0, 1, 0, 1], vec![2, -1, -1, 0, 1, 1], vec![0, 1]).unwrap();
    let sides =
        [Side { passes: 1, spent: false, moved: 0 }, Side { passes: 1, spent: false, moved: 2 }];
    assert_eq!(model.probe(0, 9), Ok(Probe::Fixed { value: 0, sides }));
    // A bound counts each time that it moves: x ≤ y and 1,000,000 y ≤ 999,999 x, both 0..3.
    let mut model =
        Model::new(vec![0, 3, 0, 3], vec![1, -1, -999_999, 1_000_000], vec![0, 0]).unwrap();
    assert_eq!(model.propagate(2), Ok(Propagation::BudgetSpent { passes: 2, moved: 3 }));
    assert_eq!(model.propagate(9), Ok(Propagation::Converged { passes: 3, moved: 3 }));
}

#[test]
fn clique_rows_are_those_of_the_list() {
    // 000, 2.2.2: one row over the first three of its four variables.
    let rows = vec![4, 1, 0, -3, 2, 3, 0, 3, 1, 4, 2, 0, 3, 1, 5, 0];
    let mut model = Model::new([0, 1].repeat(4), rows, vec![2, 7, 5, 6]).unwrap();
    for variable in 0..4 {
        model.probe(variable, 1_000).unwrap();
    }
    let [clique] = &model.cliques().unwrap()[..] else { panic!("one row") };
    assert_eq!((&clique.coefs[..], clique.rhs), (&[1, 1, 1, 0][..], 1));
    assert!(clique.literals().eq([(0, true), (1, true), (2, true)]));
    // x ≥ y, x ≥ z and y + z ≤ 1: of "x is 0", "y is 1" and "z is 1" at most one is true.
    let rows = vec![-1, 1, 0, -1, 0, 1, 0, 1, 1];
    let mut model = Model::new([0, 1].repeat(3), rows, vec![0, 0, 1]).unwrap();
    for variable in 0..3 {
        model.probe(variable, 1_000).unwrap();
    }
    let [clique] = &model.cliques().unwrap()[..] else { panic!("one row") };
    assert_eq!((&clique.coefs[..], clique.rhs), (&[-1, 1, 1][..], 0));
    assert!(clique.literals().eq([(0, false), (1, true), (2, true)]));
}

#[test]
fn lengths_are_those_of_the_buffers() {
    let mut rng = Rng::new(SEED);
    for _ in 0..500 {
        let family = rng.pick(&[Family::Tiny, Family::Mixed, Family::Limits, Family::Empty]);
        let lent = models::model(&mut rng, family).with_table();
        let book = reference::book::write(lent.n, lent.m, &lent.bounds, &lent.coefs, &lent.rhs);
        let lengths = plan::Lengths {
            n: lent.n,
            m: lent.m,
            bounds: lent.bounds.len(),
            coefs: lent.coefs.len(),
            rhs: lent.rhs.len(),
            kinds: lent.kinds.len(),
            table: lent.table.len(),
            ties: lent.n,
            clique_coefs: 2 * lent.n * lent.n,
            clique_rhs: 2 * lent.n,
            book: book.len(),
        };
        assert_eq!(plan::lengths(&book[book.len() - 16..]), Ok(lengths));
    }
}

#[test]
fn pages_are_those_of_the_reference() {
    let n = 128;
    let mut model = Model::new([-32_768, -28_672].repeat(n), vec![], vec![]).unwrap();
    assert_eq!(model.page_count(), Ok(3)); // 128 lines, 59 to a page
    let pages = reference::pages::write(n, model.bounds(), model.table());
    assert_eq!(model.pages(), Ok(pages));
    model.bounds_mut().fill(0);
    model.set_bounds(127, 0, 4_097);
    assert_eq!(model.pages(), Err(Refusal::VariableTooWide));
    // x + y + z ≤ 1: what probing finds is on the page.
    let mut model = Model::new([0, 1].repeat(3), vec![1, 1, 1], vec![1]).unwrap();
    model.rounds(8).unwrap();
    let text = String::from_utf8(model.pages().unwrap()).unwrap();
    let lines: Vec<&str> = text.lines().map(str::trim_end).collect();
    assert_eq!(lines[1], "     0       0       1 -1    -2");
    assert_eq!(lines[3], "     2       0       1 -0    -1");
    assert_eq!((text.len(), lines.len()), (astrolabe::pages::PAGE, 60));
}

#[test]
fn plans_are_refused() {
    let most = vec![Call::probe(0, u32::MAX); plan::MAX_RECORDS];
    let widest = [0, 4_096].repeat(128);
    assert_eq!(plan::passes(&widest, &most).unwrap().passes, 2 * 524_289 * 1_000_000);
    let more = [most, vec![Call::propagate_row(0)]].concat();
    assert_eq!(plan::passes(&widest, &more), Err(Refusal::BufferLength));
    assert_eq!(plan::width(&[]), Err(Refusal::SizeOutOfRange));
    assert_eq!(plan::width(&[0, 1, 0]), Err(Refusal::BufferLength));
    assert_eq!(plan::width(&[0, 4_097]), Err(Refusal::VariableTooWide));
    assert_eq!(plan::lengths(&[0; 15]), Err(Refusal::BookTooShort));
    assert_eq!(plan::lengths(&[0; 17]), Err(Refusal::BufferLength));
    assert_eq!(plan::lengths(&[0; 16]), Err(Refusal::SizeOutOfRange));
}

#[test]
fn books_come_back() {
    let mut rng = Rng::new(SEED);
    for _ in 0..500 {
        let family = rng.pick(&[Family::Tiny, Family::Mixed, Family::Limits, Family::Empty]);
        let mut model = wrapped(&models::model(&mut rng, family));
        if model.kinds().contains(&RowKind::Equal) {
            assert_eq!(model.to_book(), Err(Refusal::EqualityRow));
            (0..model.m()).for_each(|row| model.set_kind(row, RowKind::AtMost));
        }
        let book = model.to_book().unwrap();
        assert_eq!(Model::from_book(&book), Ok(model));
    }
}

#[test]
fn equality_rows() {
    let equal = |bounds: &[i32], coefs: &[i32], b: i32| {
        Model::with_kinds(bounds.to_vec(), coefs.to_vec(), vec![b], vec![RowKind::Equal]).unwrap()
    };
    // 2x = 5: the ≤ form moves a bound, the negated form is infeasible, and nothing is counted.
    let mut model = equal(&[0, 5], &[2], 5);
    assert_eq!(model.clone().propagate(9), Ok(Propagation::Infeasible { passes: 1, moved: 0 }));
    assert_eq!(model.propagate_row(0), Ok(RowPropagation::Infeasible));
    assert!(model.is_empty_box());
    // −2x + y = 0: more moves when it is propagated again.
    let mut model = equal(&[0, 1, 0, 1], &[-2, 1], 0);
    assert_eq!(model.propagate_row(0), Ok(RowPropagation::Tightened { moved: 1 }));
    assert_eq!(model.propagate_row(0), Ok(RowPropagation::Tightened { moved: 1 }));
    assert_eq!(model.bounds(), [0, 0, 0, 0]);
    assert_eq!(model.propagate_row(0), Ok(RowPropagation::Unchanged));
    // It holds at every point of the box that is left, so it can be removed; then it is a ≤ row.
    assert_eq!(model.remove_redundant_row(0), Ok(Outcome::Changed));
    let zero = Row { coefs: &[0, 0], rhs: 0, kind: RowKind::AtMost };
    assert_eq!(model.rows().collect::<Vec<_>>(), [zero]);
    // 3x + 2y = 4 is not tightened, 3x + 2y ≤ 4 is.
    let mut model = equal(&[0, 1, 0, 1], &[3, 2], 4);
    assert_eq!(model.tighten_coefficient(0, 0), Ok(Outcome::Unchanged));
    model.set_kind(0, RowKind::AtMost);
    assert_eq!(model.tighten_coefficient(0, 0), Ok(Outcome::Changed));
    // x + y = 1: each value of x gives the one of y.
    let mut model = equal(&[0, 1, 0, 1], &[1, 1], 1);
    assert!(matches!(model.probe(0, 9), Ok(Probe::BothFeasible { new_implications: 4, .. })));
    assert!(model.implies(0, false, 1, true) && model.implies(0, true, 1, false));
    assert_eq!(model.is_probing_fixpoint(), Ok(Rest::Yes));
    // 0 = 0: a round changes its kind alone, the next nothing.
    let mut model = equal(&[0, 1], &[0], 0);
    assert_eq!(model.clone().rounds(8), Ok(Rounds::Unchanged { rounds: 2, spent: false }));
    // A list does not remove it: kind 5 is retired there. A direct call does.
    assert_eq!(model.run(&[Call::remove_redundant_row(0)]).unwrap().refused, 1);
    assert_eq!(model.kinds(), [RowKind::Equal]);
    assert_eq!(model.remove_redundant_row(0), Ok(Outcome::Changed));
    assert_eq!(model.kinds(), [RowKind::AtMost]);
}

#[test]
fn an_exact_tonnage_is_one_row() {
    // What docs/INTEGRATION.md says: the same points and the same end as two rows, one of them negated.
    let receipts = || vec![0, 1, 0, 1, 0, 1];
    let (one, both) = (vec![30, 25, 20], vec![30, 25, 20, -30, -25, -20]);
    let mut exact = Model::with_kinds(receipts(), one, vec![45], vec![RowKind::Equal]).unwrap();
    let mut two = Model::new(receipts(), both, vec![45, -45]).unwrap();
    for model in [&mut exact, &mut two] {
        assert!(matches!(model.probe(0, 1_000), Ok(Probe::Fixed { value: 0, .. })));
        assert_eq!(model.bounds(), [0, 0, 1, 1, 1, 1]);
        assert_eq!(model.is_probing_fixpoint(), Ok(Rest::Yes));
    }
}

#[test]
fn bad_books_are_refused_in_the_books_own_order() {
    let good = Model::new(vec![0, 1, 0, 1], vec![3, 2], vec![4]).unwrap().to_book().unwrap();
    let with = |at: usize, byte: u8| {
        let mut book = good.clone();
        book[at] = byte;
        Model::from_book(&book)
    };
    assert_eq!(Model::from_book(&[]), Err(Refusal::BookTooShort));
    assert_eq!(Model::from_book(&good[29..]), Err(Refusal::BookTooShort));
    assert_eq!(Model::from_book(&good[1..]), Err(Refusal::BookLengthMismatch));
    assert_eq!(with(40, 45), Err(Refusal::BookLengthMismatch));
    assert_eq!(with(36, 0), Err(Refusal::SizeOutOfRange));
    assert_eq!(with(28, 1), Err(Refusal::BookLayout));
    assert_eq!(with(6, 1), Err(Refusal::BoundOutOfRange));
    assert_eq!(with(0, 2), Err(Refusal::BoundsCrossed));
    assert_eq!(with(5, 0x10), Err(Refusal::VariableTooWide)); // u = 4,097
    assert_eq!(with(23, 1), Err(Refusal::CoefficientOutOfRange));
    assert_eq!(with(19, 0x7f), Err(Refusal::RightHandSideOutOfRange));
}

#[test]
fn a_bound_that_is_too_wide_is_retyped() {
    // What docs/INTEGRATION.md says of a stored book: 30,000 typed for 30 lots.
    let mut book = Model::new(vec![0, 30], vec![10], vec![305]).unwrap().to_book().unwrap();
    book[4..8].copy_from_slice(&30_000_i32.to_le_bytes());
    let refusal = Model::from_book(&book).unwrap_err();
    assert_eq!((refusal, refusal.check()), (Refusal::VariableTooWide, 23));
    assert_eq!(refusal.to_string(), "refused by check 23: a variable is over 4096 wide");
    book[4..8].copy_from_slice(&30_i32.to_le_bytes());
    assert_eq!(Model::from_book(&book).unwrap().bounds(), [0, 30]);
    // Bounds that a branch sets are checked at the next call, and a refusal changes nothing.
    let mut model = Model::from_book(&book).unwrap();
    model.set_bounds(0, 0, 4_097);
    assert_eq!(model.propagate(1), Err(Refusal::VariableTooWide));
    assert_eq!(model.bounds(), [0, 4_097]);
    model.set_bounds(0, 0, 4_096);
    assert_eq!(model.propagate(1), Ok(Propagation::Converged { passes: 1, moved: 1 }));
}

#[test]
fn a_model_is_checked_when_it_is_made() {
    let new = |bounds: &[i32], coefs: &[i32], rhs: &[i32]| {
        Model::new(bounds.to_vec(), coefs.to_vec(), rhs.to_vec()).map(|_| ())
    };
    assert_eq!(new(&[], &[], &[]), Err(Refusal::SizeOutOfRange));
    assert_eq!(new(&[0; 2 * 129], &[], &[]), Err(Refusal::SizeOutOfRange));
    assert_eq!(new(&[0; 2 * 128], &[], &[]), Ok(()));
    assert_eq!(new(&[0, 1], &[0; 121], &[0; 121]), Err(Refusal::SizeOutOfRange));
    assert_eq!(new(&[0, 1, 0], &[], &[]), Err(Refusal::BufferLength));
    assert_eq!(new(&[0, 1], &[1, 2], &[3]), Err(Refusal::BufferLength));
    assert_eq!(new(&[-32_769, 1], &[], &[]), Err(Refusal::BoundOutOfRange));
    assert_eq!(new(&[2, 1], &[], &[]), Err(Refusal::BoundsCrossed));
    assert_eq!(new(&[1, 0], &[], &[]), Ok(()));
    assert_eq!(new(&[-1, 4_096], &[], &[]), Err(Refusal::VariableTooWide));
    assert_eq!(new(&[-1, 4_095], &[], &[]), Ok(()));
    // Straight after 7, before 8.
    assert_eq!(new(&[-1, 4_096, 2, 1], &[], &[]), Err(Refusal::BoundsCrossed));
    assert_eq!(new(&[-1, 4_096], &[1_000_001], &[3]), Err(Refusal::VariableTooWide));
    assert_eq!(new(&[0, 1], &[1_000_001], &[3]), Err(Refusal::CoefficientOutOfRange));
    assert_eq!(new(&[0, 1], &[1], &[1_000_000_001]), Err(Refusal::RightHandSideOutOfRange));
    // A kind for each row.
    let with = |kinds: &[RowKind], b| {
        Model::with_kinds(vec![0, 1], vec![1], vec![b], kinds.to_vec()).map(|_| ())
    };
    assert_eq!(with(&[RowKind::Equal], 1), Ok(()));
    assert_eq!(with(&[], 1), Err(Refusal::BufferLength));
    assert_eq!(with(&[RowKind::AtMost; 2], 1), Err(Refusal::BufferLength));
    assert_eq!(with(&[RowKind::Equal], 1_000_000_001), Err(Refusal::RightHandSideOutOfRange));
}

#[test]
fn sparse_books_come_back_and_turn_into_books() {
    let mut rng = Rng::new(SEED + 3);
    for _ in 0..2_000 {
        let family = rng.pick(&[Family::Tiny, Family::Mixed, Family::Empty]);
        let lent = models::model(&mut rng, family);
        let model = wrapped(&lent);
        let sparse = model.to_sparse_book().expect("an accepted model");
        let expected =
            reference::sparse::write(lent.n, &lent.bounds, &lent.coefs, &lent.rhs, &lent.kinds);
        assert_eq!(sparse, expected);
        assert_eq!(astrolabe::sparse_size(&sparse[sparse.len() - 16..]), Ok((lent.n, lent.m)));
        assert_eq!(Model::from_sparse_book(&sparse), Ok(model.clone()));
        match model.to_book() {
            Ok(book) => {
                assert_eq!(astrolabe::book_to_sparse(&book).as_ref(), Ok(&sparse));
                assert_eq!(astrolabe::sparse_to_book(&sparse), Ok(book));
            }
            Err(refusal) => {
                assert_eq!(refusal, Refusal::EqualityRow);
                assert_eq!(astrolabe::sparse_to_book(&sparse), Err(refusal));
            }
        }
    }
}

#[test]
fn sparse_books_are_refused_by_their_own_checks() {
    // 3x + 2y ≤ 4 as bytes: bounds, row, trailer.
    let model = Model::new(vec![0, 1, 0, 1], vec![3, 2], vec![4]).expect("a model");
    let book = model.to_sparse_book().expect("an accepted model");
    let spoiled = |changes: &[(usize, u8)]| {
        let mut book = book.clone();
        changes.iter().for_each(|&(at, byte)| book[at] = byte);
        Model::from_sparse_book(&book).map(|_| ()).map_err(Refusal::check)
    };
    let (kind, count, entry0, entry1) = (20, 21, 23, 29);
    assert_eq!(spoiled(&[]), Ok(()));
    assert_eq!(spoiled(&[(count, 3)]), Err(4));
    assert_eq!(spoiled(&[(count, 1)]), Err(4));
    // The walk is finished before any entry is looked at.
    assert_eq!(spoiled(&[(entry0, 9), (count, 3)]), Err(4));
    assert_eq!(spoiled(&[(entry1, 2)]), Err(19));
    assert_eq!(spoiled(&[(entry1, 0)]), Err(19));
    // Entry 0 zero, entry 1 bad column: the entry read first decides; and in one entry the column.
    assert_eq!(spoiled(&[(entry0 + 2, 0), (entry1, 9)]), Err(20));
    assert_eq!(spoiled(&[(entry0 + 2, 0), (entry0, 9)]), Err(19));
    assert_eq!(spoiled(&[(entry0 + 2, 0), (kind, 2)]), Err(20));
    assert_eq!(spoiled(&[(entry0 + 5, 1), (kind, 2)]), Err(8));
    assert_eq!(spoiled(&[(kind, 2)]), Err(16));
    let mut equal = book.clone();
    equal[kind] = 1;
    assert_eq!(astrolabe::sparse_to_book(&equal), Err(Refusal::EqualityRow));
}
