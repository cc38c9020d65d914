//! Plans a hall file, its rows in one call and its cuts in another, and prints the list: `openlist HALL`.

use std::io::Write;

use himalowen::{plan_cuts, plan_rows, Cuts, FirstChoice};

/// Little-endian.
fn number(bytes: &[u8]) -> usize {
    bytes.iter().rev().fold(0, |value, &byte| value << 8 | byte as usize)
}

/// The rows of an accepted file, of 8 bytes each, block after block.
fn rows(file: &[u8]) -> Vec<&[u8]> {
    let pairs = file[4..4 + 8 * number(&file[2..4])].chunks_exact(8);
    let blocks = pairs.map(|pair| &file[number(&pair[..4])..][..number(&pair[4..])]);
    blocks.flat_map(|block| block.chunks_exact(8)).collect()
}

fn print_rows(file: &[u8], junctions: usize, choice: &FirstChoice, out: &mut impl Write) -> std::io::Result<()> {
    let rows = rows(file);
    writeln!(out, "HALL {junctions} {}", rows.len())?;
    writeln!(out, "OPEN {}", choice.rows.len())?;
    for &i in &choice.rows {
        let row = rows[i as usize - 1];
        writeln!(out, "{i} {} {} {}", number(&row[..2]), number(&row[2..4]), number(&row[4..]))?;
    }
    writeln!(out, "TOTAL {}", choice.total)
}

fn print_cuts(cuts: &Cuts, out: &mut impl Write) -> std::io::Result<()> {
    writeln!(out, "CUTS {}", cuts.cuts.len())?;
    for cut in &cuts.cuts {
        write!(out, "{}", cut.weight)?;
        for j in (1..=64).filter(|j| cut.shore >> (j - 1) & 1 == 1) {
            write!(out, " {j}")?;
        }
        writeln!(out)?;
    }
    write!(out, "LEVELS")?;
    for level in &cuts.levels {
        write!(out, " {level}")?;
    }
    writeln!(out)
}

fn main() -> std::io::Result<()> {
    let name = std::env::args_os().nth(1).expect("usage: openlist HALL");
    let file = std::fs::read(name)?;
    let mut out = std::io::stdout().lock();
    match plan_rows(&file).and_then(|choice| Ok((choice, plan_cuts(&file)?))) {
        Ok((choice, cuts)) => {
            print_rows(&file, cuts.levels.len(), &choice, &mut out)?;
            print_cuts(&cuts, &mut out)
        }
        Err(refusal) => writeln!(out, "{refusal}"),
    }
}
