//! A Rust program beside the wrapper's workspace: its build finds an installed library by pkg-config.

fn main() -> Result<(), astrolabe::Refusal> {
    let mut model = astrolabe::Model::new(vec![0, 1, 0, 1], vec![3, 2], vec![4])?; // 3x + 2y <= 4
    let rounds = model.rounds(8)?;
    println!("{rounds:?}: {:?} <= {:?}", model.coefs(), model.rhs());
    Ok(())
}
