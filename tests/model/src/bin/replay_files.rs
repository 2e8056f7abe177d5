//! `replay_files FOLDER` writes what the gate's program `replay` needs:
//! data/NAME.events, data/NAME.answers, data/NAME.page and data/NAME.order,
//! args and stdout. `replay_files --table` prints the table of the README,
//! `replay_files --run` the input of the gate's own run of `rsmrun`,
//! `replay_files --page-run` that of `rsmpage`, `replay_files --order-run`
//! that of `rsmorder`.
use model::{order, page, player, replay};
use std::io::{self, Write};
use std::{env, fs, path::Path};

fn main() -> io::Result<()> {
    let Some(place) = env::args().nth(1) else {
        eprintln!("use: replay_files FOLDER, --table, --run, --page-run or --order-run");
        std::process::exit(2);
    };
    if place == "--table" {
        println!("| File | Reaches |\n|---|---|");
        for file in replay::all() {
            println!("| `{}` | {} |", file.name, file.reaches);
        }
        return Ok(());
    }
    if place == "--run" {
        return io::stdout().write_all(&replay::long_run());
    }
    if place == "--page-run" {
        return io::stdout().write_all(&replay::page_run());
    }
    if place == "--order-run" {
        return io::stdout().write_all(&replay::order_run());
    }
    let folder = Path::new(&place);
    let data = folder.join("data");
    fs::create_dir_all(&data)?;
    for file in replay::all() {
        fs::write(data.join(format!("{}.events", file.name)), &file.events)?;
        let answers = player::answers(&file.events);
        fs::write(data.join(format!("{}.answers", file.name)), answers)?;
        let page = page::page(&file.events);
        fs::write(data.join(format!("{}.page", file.name)), page)?;
        let order = order::order(&file.events);
        fs::write(data.join(format!("{}.order", file.name)), order)?;
    }
    fs::write(folder.join("args"), replay::arguments())?;
    fs::write(folder.join("stdout"), replay::report())
}
