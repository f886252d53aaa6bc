//! Prints the line of the verdict on a file: `verdict FAULTS FILE`.
use std::error::Error;

fn main() -> Result<(), Box<dyn Error>> {
    let mut words = std::env::args().skip(1);
    let faults: u16 = words.next().ok_or("usage: verdict FAULTS FILE")?.parse()?;
    let text = std::fs::read(words.next().ok_or("usage: verdict FAULTS FILE")?)?;
    print!("{}", nixu::line(&text, faults)?);
    Ok(())
}
