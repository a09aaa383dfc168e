//! Answers lines of the table program with the Rust files of libm 0.2.16 themselves; for acosh
//! below 1, where these err, with the C standard's NaN (`line::acosh`). Nothing of libm is kept
//! here: the files are read from the folder named by `LIBM_MATH` when this program is built,
//! which `tools/make-run` does.
//!
//!     oracle inputs LETTERS     writes the inputs of the stored run
//!     oracle answer LETTERS     answers standard input; other letters give `? 14`
//!     oracle search LETTERS     looks for answers of the Rust that depart from C11 Annex F
//!     oracle below-one LETTERS  measures where acosh of the Rust below 1 is not NaN, whatever the
//!                               letters
//!
//! LETTERS are those of the functions wanted, such as ELSCTsctxnFG.

mod below_one;
mod inputs;
#[allow(unexpected_cfgs, unused_imports, dead_code)]
mod libm;
mod line;
mod search;

use std::error::Error;
use std::io::{self, BufWriter, Read, Write};

fn main() -> Result<(), Box<dyn Error>> {
    let arguments: Vec<String> = std::env::args().skip(1).collect();
    let [command, letters] = arguments.as_slice() else {
        return Err("wanted: a command (inputs, answer, search or below-one) and letters".into());
    };
    if let Some(letter) = letters
        .chars()
        .find(|&letter| !line::LETTERS.contains(letter))
    {
        return Err(format!("no function has the letter {letter}").into());
    }
    match command.as_str() {
        "inputs" => {
            eprintln!("random values from the seed {}", inputs::SEED);
            io::stdout().write_all(&inputs::all(letters)?)?;
        }
        "answer" => answer(letters)?,
        "search" => search::all(letters)?,
        "below-one" => below_one::all(),
        _ => return Err(format!("no command {command}").into()),
    }
    Ok(())
}

fn answer(letters: &str) -> io::Result<()> {
    let mut input = Vec::new();
    io::stdin().read_to_end(&mut input)?;
    let mut output = BufWriter::new(io::stdout().lock());
    for line in line::lines(&input) {
        writeln!(output, "{}", line::reply(line, letters))?;
    }
    output.flush()
}
