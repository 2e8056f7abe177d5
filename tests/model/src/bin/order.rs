//! `order`: the order after the event lines of standard input, as `rsmorder`
//! prints it.
use std::io;

fn main() -> io::Result<()> {
    model::order::run(&mut io::stdin().lock(), &mut io::stdout().lock())
}
