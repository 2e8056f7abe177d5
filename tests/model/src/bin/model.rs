//! `model`: plays event lines from standard input as `rsmrun` does.
use std::io;

fn main() -> io::Result<()> {
    model::player::run(&mut io::stdin().lock(), &mut io::stdout().lock())
}
