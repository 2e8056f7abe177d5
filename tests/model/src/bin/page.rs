//! `page`: the page of the event lines of standard input, as `rsmpage`
//! prints it.
use std::io::{self, BufWriter};

fn main() -> io::Result<()> {
    let mut output = BufWriter::new(io::stdout().lock());
    model::page::run(&mut io::stdin().lock(), &mut output)
}
