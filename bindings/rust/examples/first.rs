//! The total of the sheet on standard input, or why it is refused.
use std::io::{stdin, Read};
use std::process::exit;

fn main() {
    let mut sheet = Vec::new();
    stdin().read_to_end(&mut sheet).expect("standard input can be read");
    match evaporation::report(&sheet) {
        Ok(report) => println!("total {} mg", report.total()),
        Err(refusal) => {
            println!("{refusal}");
            exit(1);
        }
    }
}
