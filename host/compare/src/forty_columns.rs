//! The application note's 40 column program as operations.

use second::forty_columns::program;
use second::Operation;

/// The status before each write, the write, a draw after it, and at the end one in the other phase.
pub fn operations() -> Vec<Operation> {
    let mut operations = Vec::new();
    for (address, value) in program() {
        operations.push(Operation::Read { address: 0x20 });
        operations.push(Operation::Write { address, value });
        operations.push(Operation::Draw);
    }
    operations.push(Operation::Turn { phase: 1 });
    operations.push(Operation::Draw);
    operations
}
