//! Prints what `show` has to print: `cargo run --release -p shown`.

fn main() {
    print!("{}", shown::whole());
}
