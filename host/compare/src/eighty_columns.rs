//! The application note's 80 column program as operations.

use second::eighty_columns::program;
use second::Operation;

/// Its accesses with a value for ROR, a draw after each of them, and at the end one in the other phase.
pub fn operations(ror: u8) -> Vec<Operation> {
    let mut operations = Vec::new();
    for access in program(ror) {
        operations.push(access);
        operations.push(Operation::Draw);
    }
    operations.push(Operation::Turn { phase: 1 });
    operations.push(Operation::Draw);
    operations
}
