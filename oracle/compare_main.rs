//! The program around the comparison. It is a file of its own, so that linking another object needs no
//! other compilation.

fn main() {
    compare::main();
}
