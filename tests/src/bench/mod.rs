//! The engine's speed beside that of another commit's library, a plain implementation, memset and memcpy. No test: nothing is
//! demanded of the numbers.

mod font;
mod library;
mod longer;
mod rows;
mod side;
mod table;
mod text;
mod timing;
mod traces;

use rows::VRAM;
use table::Table;
use timing::ROUNDS;

/// Raster operation and plane mask of each set of rows.
const SETS: [(u32, u32); 2] = [(3, 0xFFFF_FFFF), (6, 0x7F3F_0FFF)];

pub fn bench() -> Result<(), String> {
    let table = match library::OTHER {
        None => table::RATES,
        Some(_) => table::TIMES,
    };
    println!("Each buffer, of {VRAM} bytes, was written once before it is timed; none is cleared between runs.");
    println!("{}", table.unit);
    println!("Medians of {ROUNDS} rounds of processor time, in which all take turns; a ratio is the median of every round's.");
    if library::OTHER.is_some() {
        println!(
            "*: a row in which the other library draws another picture, or counts other pixels."
        );
    }
    println!("memset and memcpy: one call of the C library's for the bytes of each span.");
    for (raster, plane) in SETS {
        println!("\nraster operation {raster}, plane mask {plane:08X}h");
        table.print_heading();
        for row in rows::rows(raster, plane) {
            table.print_row(&row, &timing::measure(&row)?);
        }
    }
    print_texts(&table)?;
    println!("\na trace of {} mixed entries", traces::ENTRIES);
    table.print_heading();
    for (row, way) in traces::rows() {
        table.print_row(&row, &traces::measure(&row, way)?);
    }
    longer::print()
}

fn print_texts(table: &Table) -> Result<(), String> {
    let rows = text::rows();
    println!(
        "\ntext: opaque stipples of an 8 by 16 font, raster operation 3, plane mask FFFFFFFFh"
    );
    println!(
        "{} stipples a row, with {} register writes between them, for colours and pixel masks. The time is that of all, and the stipples",
        text::STIPPLES,
        text::register_writes(&rows[0])
    );
    println!("alone are counted: nanoseconds for a stipple are milliseconds for the million.");
    table.print_heading();
    for row in &rows {
        table.print_row(row, &timing::measure(row)?);
    }
    Ok(())
}
