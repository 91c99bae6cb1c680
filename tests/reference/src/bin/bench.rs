//! The bench program of the reference: standard input to text.

use std::io::Read;

fn main() {
    let mut input = Vec::new();
    std::io::stdin().read_to_end(&mut input).expect("standard input");
    print!("{}", reference::program::program(&input));
}
