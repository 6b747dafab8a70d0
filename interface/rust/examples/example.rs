//! The worked example of the scope text: opens a books file, carries out a calls file, prints each call's answer, and
//! writes the closing books.
//!
//!     example OPENING CALLS CLOSING
use solarbasil::{Books, Line};
use std::{env, error::Error, fs};

fn main() -> Result<(), Box<dyn Error>> {
    let names: Vec<String> = env::args().skip(1).collect();
    let [opening, calls, closing] = &names[..] else { return Err("example OPENING CALLS CLOSING".into()) };
    let mut books = Books::open(&fs::read(opening)?)?;
    let lines = books.carry_out(&fs::read(calls)?)?;
    println!("call code answer total");
    for (position, Line { code, answer, total }) in lines.iter().enumerate() {
        println!("{:04} {code:02} {answer:02} {total:020}", position + 1);
    }
    fs::write(closing, books.write()?)?;
    Ok(())
}
